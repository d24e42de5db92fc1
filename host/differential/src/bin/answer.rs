//! Answers questions, one a line on standard input, each on the same line of standard output: `differential::lines` has their form.
//!
//!     answer library       by the exported functions of the static library
//!     answer reference     by the reference
//!
//! Exit status: 0; 1 where a line can't be read or written; 2 bad use.

#![forbid(unsafe_code)]

use differential::lines::answer;
use differential::question::Side;
use std::io::{self, BufRead, BufWriter, Write};
use std::process::ExitCode;

fn main() -> ExitCode {
    let arguments: Vec<String> = std::env::args().skip(1).collect();
    let side = match arguments.iter().map(String::as_str).collect::<Vec<_>>()[..] {
        ["library"] => Side::Library,
        ["reference"] => Side::Reference,
        _ => {
            eprintln!("answer library|reference");
            return ExitCode::from(2);
        }
    };
    match answer_all(side) {
        Ok(()) => ExitCode::SUCCESS,
        Err(error) => {
            eprintln!("answer: {error}");
            ExitCode::FAILURE
        }
    }
}

fn answer_all(side: Side) -> io::Result<()> {
    let mut answers = BufWriter::new(io::stdout().lock());
    for line in io::stdin().lock().lines() {
        writeln!(answers, "{}", answer(side, &line?))?;
    }
    answers.flush()
}
