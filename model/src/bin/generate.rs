//! Writes a random journal, or says what it exercises; or writes the journal that retires slots, or the one in which
//! the count returns to 0.

use model::journal::Author;
use model::{retire, wrap};
use std::io::{self, BufWriter, Write};
use std::process::ExitCode;

fn main() -> ExitCode {
    let mut arguments: Vec<String> = std::env::args().skip(1).collect();
    if arguments == ["--retire"] {
        return status(io::stdout().lock().write_all(&retire::journal()));
    }
    if arguments == ["--wrap"] {
        return status(io::stdout().lock().write_all(&wrap::journal()));
    }
    let coverage = arguments.first().is_some_and(|first| first == "--coverage");
    if coverage {
        arguments.remove(0);
    }
    let numbers: Vec<u64> = arguments.iter().filter_map(|argument| argument.parse().ok()).collect();
    let &[seed, lines] = numbers.as_slice() else {
        eprintln!("usage: generate [--coverage] SEED LINES");
        eprintln!("       generate --retire");
        eprintln!("       generate --wrap");
        return ExitCode::from(2);
    };
    status(if coverage { report(seed, lines) } else { write_journal(seed, lines) })
}

fn status(result: io::Result<()>) -> ExitCode {
    match result {
        Ok(()) => ExitCode::SUCCESS,
        Err(error) => {
            eprintln!("generate: {error}");
            ExitCode::FAILURE
        }
    }
}

fn write_journal(seed: u64, lines: u64) -> io::Result<()> {
    let mut author = Author::new(seed, lines);
    let mut output = BufWriter::new(io::stdout().lock());
    while let Some(line) = author.next_line() {
        output.write_all(&line)?;
    }
    output.flush()
}

fn report(seed: u64, lines: u64) -> io::Result<()> {
    let mut author = Author::new(seed, lines).with_coverage();
    while author.next_line().is_some() {}
    let report = author.coverage().map(|coverage| coverage.report()).unwrap_or_default();
    io::stdout().lock().write_all(report.as_bytes())
}
