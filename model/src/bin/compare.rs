//! Runs two filters on the same journals, random ones, the one that retires slots or the one in which the count returns
//! to 0, and compares their answers byte for byte.

use model::journal::journal;
use model::{retire, wrap};
use std::io::{self, Read, Write};
use std::process::{Command, ExitCode, Stdio};
use std::thread;
use std::time::{Duration, Instant};

/// Shrinking ends after this time with the shortest journal found so far.
const SHRINK_FOR: Duration = Duration::from_secs(60);

fn main() -> ExitCode {
    let arguments: Vec<String> = std::env::args().skip(1).collect();
    let numbers: Vec<u64> = arguments.iter().skip(2).filter_map(|argument| argument.parse().ok()).collect();
    let words: Vec<&str> = arguments.iter().map(String::as_str).collect();
    let result = match (words.as_slice(), numbers.as_slice()) {
        (&[a, b, word @ "retire"], _) => compare_one(&Pair::new(a, b), word, "that retires slots", &retire::journal()),
        (&[a, b, word @ "wrap"], _) => compare_one(&Pair::new(a, b), word, "over the wrap", &wrap::journal()),
        (&[a, b, _, _, _], &[seed, lines, journals]) => compare(&Pair::new(a, b), seed, lines, journals),
        _ => {
            eprintln!("usage: compare PROGRAM-A PROGRAM-B SEED LINES JOURNALS");
            eprintln!("       compare PROGRAM-A PROGRAM-B retire");
            eprintln!("       compare PROGRAM-A PROGRAM-B wrap");
            eprintln!("a program can have arguments: 'model --check'");
            return ExitCode::from(2);
        }
    };
    match result {
        Ok(true) => ExitCode::SUCCESS,
        Ok(false) => ExitCode::FAILURE,
        Err(error) => {
            eprintln!("compare: {error}");
            ExitCode::from(2)
        }
    }
}

struct Pair {
    a: String,
    b: String,
}

/// What a program wrote, and whether it ended well.
#[derive(PartialEq)]
struct Run {
    answers: Vec<u8>,
    ended_well: bool,
}

fn compare(pair: &Pair, seed: u64, lines: u64, journals: u64) -> io::Result<bool> {
    let mut bytes = 0;
    for seed in (seed..).take(journals as usize) {
        let journal = journal(seed, lines);
        bytes += journal.len();
        if pair.differ(&journal)?.is_some() {
            println!("seed {seed}, {lines} lines: the answers differ");
            let shortest = shrink(pair, split_lines(&journal))?;
            println!("shortest journal found, {} lines; answers of A and B:", shortest.len());
            print_difference(pair, &shortest, 0)?;
            return Ok(false);
        }
    }
    println!("{journals} journals of {lines} lines from seed {seed}, {bytes} bytes: no difference");
    Ok(true)
}

/// A journal that is not random. It is not made shorter: with fewer turns no slot is retired, and the count does not
/// return to 0.
fn compare_one(pair: &Pair, word: &str, name: &str, journal: &[u8]) -> io::Result<bool> {
    let lines = split_lines(journal);
    if let Some(line) = pair.differ(journal)? {
        println!("the journal {name} (generate --{word}), line {}: the answers differ", line + 1);
        println!("the last lines up to it; answers of A and B:");
        print_difference(pair, &lines[..lines.len().min(line + 1)], line.saturating_sub(5))?;
        return Ok(false);
    }
    println!("the journal {name}, {} lines, {} bytes: no difference", lines.len(), journal.len());
    Ok(true)
}

impl Pair {
    fn new(a: &str, b: &str) -> Pair {
        Pair { a: a.to_string(), b: b.to_string() }
    }

    /// The first line whose answers differ, counted from 0. Programs that both end badly differ after their last answer.
    fn differ(&self, journal: &[u8]) -> io::Result<Option<usize>> {
        let (a, b) = (run(&self.a, journal)?, run(&self.b, journal)?);
        if a == b && a.ended_well {
            return Ok(None);
        }
        let (a, b) = (split_lines(&a.answers), split_lines(&b.answers));
        let same = a.iter().zip(&b).take_while(|(a, b)| a == b).count();
        Ok(Some(same))
    }
}

fn run(program: &str, journal: &[u8]) -> io::Result<Run> {
    let mut words = program.split_whitespace();
    let mut child = Command::new(words.next().unwrap_or_default())
        .args(words)
        .stdin(Stdio::piped())
        .stdout(Stdio::piped())
        .spawn()
        .map_err(|error| io::Error::new(error.kind(), format!("{program}: {error}")))?;
    let mut input = child.stdin.take().expect("the input is a pipe");
    let mut output = child.stdout.take().expect("the output is a pipe");
    let mut answers = Vec::new();
    thread::scope(|scope| {
        // A program that stops early breaks the pipe; its answers tell.
        scope.spawn(move || input.write_all(journal).ok());
        output.read_to_end(&mut answers)
    })?;
    Ok(Run { answers, ended_well: child.wait()?.success() })
}

/// Lines with their newlines; the last can be without.
fn split_lines(bytes: &[u8]) -> Vec<&[u8]> {
    bytes.split_inclusive(|&byte| byte == b'\n').collect()
}

/// Removes halves, quarters and so on down to single lines, as long as a difference stays.
fn shrink<'j>(pair: &Pair, journal: Vec<&'j [u8]>) -> io::Result<Vec<&'j [u8]>> {
    let began = Instant::now();
    let mut shortest = cut_after_difference(pair, journal)?;
    loop {
        let before = shortest.len();
        let mut chunk = shortest.len().div_ceil(2).max(1);
        loop {
            let mut start = 0;
            while start < shortest.len() {
                if began.elapsed() > SHRINK_FOR {
                    return Ok(shortest);
                }
                let end = (start + chunk).min(shortest.len());
                let fewer = [&shortest[..start], &shortest[end..]].concat();
                if pair.differ(&fewer.concat())?.is_some() {
                    shortest = cut_after_difference(pair, fewer)?;
                } else {
                    start = end;
                }
            }
            if chunk == 1 {
                break;
            }
            chunk = chunk.div_ceil(2);
        }
        if shortest.len() == before {
            return Ok(shortest);
        }
    }
}

/// Lines after the first different answer are not needed.
fn cut_after_difference<'j>(pair: &Pair, mut journal: Vec<&'j [u8]>) -> io::Result<Vec<&'j [u8]>> {
    if let Some(line) = pair.differ(&journal.concat())? {
        let whole = journal.clone();
        journal.truncate(line + 1);
        if pair.differ(&journal.concat())?.is_none() {
            return Ok(whole);
        }
    }
    Ok(journal)
}

/// The journal with both answers, from this row on.
fn print_difference(pair: &Pair, journal: &[&[u8]], from: usize) -> io::Result<()> {
    let bytes = journal.concat();
    let (a, b) = (run(&pair.a, &bytes)?, run(&pair.b, &bytes)?);
    let (a_lines, b_lines) = (split_lines(&a.answers), split_lines(&b.answers));
    let rows = journal.len().max(a_lines.len()).max(b_lines.len());
    let row_of = |row: usize| [journal.get(row), a_lines.get(row), b_lines.get(row)];
    let mut row = from;
    while row < rows {
        // Equal rows that follow each other are printed once.
        let times = (row..rows).take_while(|&next| row_of(next) == row_of(row)).count();
        let [call, a, b] = row_of(row).map(|line| line.map_or("(none)".to_string(), |line| shown(line)));
        let mark = if a == b { "" } else { "  <--" };
        let times_shown = if times == 1 { String::new() } else { format!("  {times} times") };
        println!("{call:<40} {a:<16} {b:<16}{mark}{times_shown}");
        row += times;
    }
    for (name, run) in [("A", &a), ("B", &b)] {
        if !run.ended_well {
            println!("{name} did not end well");
        }
    }
    Ok(())
}

/// Bytes as text, with escapes.
fn shown(line: &[u8]) -> String {
    let escaped = line.escape_ascii().to_string();
    if escaped.len() <= 300 {
        escaped
    } else {
        format!("{}... ({} bytes)", &escaped[..300], line.len())
    }
}
