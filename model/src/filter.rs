//! From call lines to answer lines, in constant memory.

use crate::calls::Answer;
use crate::line::{find_newline, write_answer, LINE_BYTES};
use crate::machine::Machine;
use crate::refusals::NOT_A_CALL;
use std::io::{self, ErrorKind, Read, Write};

const BUFFER_BYTES: usize = 1 << 16;

/// Answers every line of the input. What has been answered is written out before more
/// is read, so the filter can be talked to line by line.
pub fn run<R: Read, W: Write>(input: &mut R, output: &mut W, machine: &mut Machine) -> io::Result<()> {
    let mut buffer = vec![0; BUFFER_BYTES];
    let mut answers = Vec::with_capacity(2 * BUFFER_BYTES);
    // Bytes of an unfinished line at the start of the buffer.
    let mut kept = 0;
    // Inside a line that is already too long; its bytes are dropped.
    let mut too_long = false;
    loop {
        let got = match input.read(&mut buffer[kept..]) {
            Ok(got) => got,
            Err(error) if error.kind() == ErrorKind::Interrupted => continue,
            Err(error) => return Err(error),
        };
        if got == 0 {
            break;
        }
        let end = kept + got;
        let mut start = 0;
        while let Some(length) = find_newline(&buffer[start..end]) {
            let line = &buffer[start..start + length + 1];
            // "a longer line is one refusal 3 up to its newline"
            let answer = if too_long || line.len() > LINE_BYTES {
                too_long = false;
                Answer::Refused(NOT_A_CALL)
            } else {
                machine.answer(line)
            };
            write_answer(answer, machine.kernel.running_number(), &mut answers);
            if answers.len() >= BUFFER_BYTES {
                flush(&mut answers, output)?;
            }
            start += length + 1;
        }
        kept = end - start;
        if too_long || kept >= LINE_BYTES {
            too_long = true;
            kept = 0;
        } else {
            buffer.copy_within(start..end, 0);
        }
        flush(&mut answers, output)?;
    }
    // "and so is a last line without a newline"
    if too_long || kept > 0 {
        write_answer(Answer::Refused(NOT_A_CALL), machine.kernel.running_number(), &mut answers);
    }
    flush(&mut answers, output)
}

fn flush<W: Write>(answers: &mut Vec<u8>, output: &mut W) -> io::Result<()> {
    output.write_all(answers)?;
    output.flush()?;
    answers.clear();
    Ok(())
}
