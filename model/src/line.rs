//! The journal line: reading a call, writing an answer. Bytes, not strings.

use crate::calls::{Answer, Call};

/// "A line has at most 256 bytes with its newline".
pub const LINE_BYTES: usize = 256;
/// "0 to 64 bytes"
pub const ITEM_BYTES: usize = 64;

struct Reader<'l> {
    line: &'l [u8],
    at: usize,
}

impl Reader<'_> {
    fn peek(&self) -> Option<u8> {
        self.line.get(self.at).copied()
    }

    fn expect(&mut self, byte: u8) -> Option<()> {
        if self.peek()? != byte {
            return None;
        }
        self.at += 1;
        Some(())
    }

    /// "in decimal without needless zeros, each at most 4,294,967,295"
    #[inline(always)]
    fn number(&mut self) -> Option<u32> {
        let rest = self.line.get(self.at..)?;
        let mut number: u64 = 0;
        let mut digits = 0;
        for digit in rest.iter().map(|byte| byte.wrapping_sub(b'0')).take_while(|&digit| digit <= 9) {
            number = number * 10 + u64::from(digit);
            digits += 1;
            if digits > 10 {
                return None;
            }
        }
        if digits == 0 || (digits > 1 && rest[0] == b'0') {
            return None;
        }
        self.at += digits;
        u32::try_from(number).ok()
    }

    /// A tab and the number after it.
    fn argument(&mut self) -> Option<u32> {
        self.expect(b'\t')?;
        self.number()
    }

    /// A tab and the item after it: "lower-case hex, two digits a byte, 0 to 64 bytes".
    fn item(&mut self, item: &mut [u8; ITEM_BYTES]) -> Option<usize> {
        self.expect(b'\t')?;
        let rest = &self.line[self.at..];
        let digits = rest.iter().take_while(|&&byte| HEX[byte as usize] != NO_DIGIT).count();
        if digits % 2 != 0 || digits > 2 * ITEM_BYTES {
            return None;
        }
        for (byte, pair) in item.iter_mut().zip(rest[..digits].chunks_exact(2)) {
            *byte = HEX[pair[0] as usize] << 4 | HEX[pair[1] as usize];
        }
        self.at += digits;
        Some(digits / 2)
    }

    /// The arguments of a call of this number, 20 to 23.
    fn call_on_bits(&mut self, number: u32) -> Option<Call<'static>> {
        Some(match number {
            20 => Call::MakeGroup,
            21 => Call::SetBits { object: self.argument()?, bits: self.argument()? },
            22 => Call::ClearBits { object: self.argument()?, bits: self.argument()? },
            _ => Call::WaitBits {
                object: self.argument()?,
                mask: self.argument()?,
                all: self.argument()?,
                clear: self.argument()?,
                wait: self.argument()?,
            },
        })
    }

    /// "then a newline"; "a byte after its newline makes it refusal 3"
    fn end(&mut self) -> Option<()> {
        self.expect(b'\n')?;
        if self.at == self.line.len() {
            Some(())
        } else {
            None
        }
    }
}

const NO_DIGIT: u8 = 0xff;

/// The value of each lower-case hex digit.
const HEX: [u8; 256] = {
    let mut values = [NO_DIGIT; 256];
    let mut value = 0;
    while value < 16 {
        values[b"0123456789abcdef"[value] as usize] = value as u8;
        value += 1;
    }
    values
};

/// The place of the first newline. Eight bytes at a time: a byte of `word` that was a
/// newline is 0, and the lowest such byte is marked in its top bit.
pub fn find_newline(bytes: &[u8]) -> Option<usize> {
    const ONES: u64 = u64::from_le_bytes([1; 8]);
    let mut words = bytes.chunks_exact(8);
    for (number, word) in words.by_ref().enumerate() {
        let word = u64::from_le_bytes(word.try_into().expect("eight bytes")) ^ (ONES * b'\n' as u64);
        let zeros = word.wrapping_sub(ONES) & !word & (ONES << 7);
        if zeros != 0 {
            return Some(8 * number + zeros.trailing_zeros() as usize / 8);
        }
    }
    let rest = words.remainder();
    rest.iter().position(|&byte| byte == b'\n').map(|place| bytes.len() - rest.len() + place)
}

/// The call of one line with its newline, or none. A send's item is put in `item`.
pub fn read_call<'a>(line: &[u8], item: &'a mut [u8; ITEM_BYTES]) -> Option<Call<'a>> {
    if line.len() > LINE_BYTES {
        return None;
    }
    let mut reader = Reader { line, at: 0 };
    let r = &mut reader;
    let call = match r.number()? {
        1 => Call::Create { priority: r.argument()? },
        2 => Call::Delete { task: r.argument()? },
        3 => Call::Suspend { task: r.argument()? },
        4 => Call::Resume { task: r.argument()? },
        5 => Call::SetPriority { task: r.argument()?, priority: r.argument()? },
        6 => Call::Delay { ticks: r.argument()? },
        7 => Call::Yield,
        8 => Call::Hold,
        9 => Call::Release,
        10 => Call::MakeQueue { capacity: r.argument()?, size: r.argument()? },
        11 => Call::MakeMutex,
        12 => Call::Remove { object: r.argument()? },
        13 => {
            let object = r.argument()?;
            let length = r.item(item)?;
            let wait = r.argument()?;
            Call::Send { object, item: &item[..length], wait }
        }
        14 => Call::Receive { object: r.argument()?, wait: r.argument()? },
        15 => Call::Take { object: r.argument()?, wait: r.argument()? },
        16 => Call::Give { object: r.argument()? },
        17 => Call::Tick,
        18 => Call::Advance { ticks: r.argument()? },
        19 => Call::MakeRecursiveMutex,
        number @ 20..=23 => r.call_on_bits(number)?,
        _ => return None,
    };
    reader.end()?;
    Some(call)
}

/// "The answer line has three fields parted by tabs, then a newline: ok, wait or no;
/// the new number, the refusal number, or 0; the running task afterwards."
/// Both the new number and the running task's are full numbers.
pub fn write_answer(answer: Answer, running: u32, out: &mut Vec<u8>) {
    let (word, length, number): (&[u8; 5], usize, u32) = match answer {
        Answer::Done => (b"ok\t  ", 3, 0),
        Answer::Made(number) => (b"ok\t  ", 3, number),
        Answer::Waiting => (b"wait\t", 5, 0),
        Answer::Refused(number) => (b"no\t  ", 3, number.into()),
    };
    // The longest answer line has 19 bytes, with two numbers of 7 digits. Copies of a fixed
    // length are the fastest, so all 19 are put out and the rest is taken back.
    let mut line = [0; 19];
    line[..5].copy_from_slice(word);
    let mut end = write_number(number, &mut line, length);
    line[end] = b'\t';
    end = write_number(running, &mut line, end + 1);
    line[end] = b'\n';
    let start = out.len();
    out.extend_from_slice(&line);
    out.truncate(start + end + 1);
}

/// A number in decimal; gives the place after it.
fn write_number(number: u32, line: &mut [u8], at: usize) -> usize {
    let digits = number.checked_ilog10().map_or(1, |log| log as usize + 1);
    let mut rest = number;
    for digit in line[at..at + digits].iter_mut().rev() {
        *digit = b'0' + (rest % 10) as u8;
        rest /= 10;
    }
    at + digits
}
