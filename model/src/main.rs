//! The filter: call lines from standard input, answer lines to standard output.

use model::filter;
use model::machine::Machine;
use std::io;
use std::process::ExitCode;

fn main() -> ExitCode {
    let mut check = false;
    for argument in std::env::args().skip(1) {
        if argument == "--check" {
            check = true;
        } else {
            eprintln!("usage: model [--check] < journal > answers");
            return ExitCode::from(2);
        }
    }
    let mut machine = Machine::new(check);
    match filter::run(&mut io::stdin().lock(), &mut io::stdout().lock(), &mut machine) {
        Ok(()) => ExitCode::SUCCESS,
        Err(error) => {
            eprintln!("model: {error}");
            ExitCode::FAILURE
        }
    }
}
