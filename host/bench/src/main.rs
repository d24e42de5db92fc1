//! How fast the library answers, beside others, on sets near the ceilings that are made here.
//!
//!     bench [QUESTION]                    every question or one, timed side by side with the reference, and stage A with RapidJSON too
//!     bench write SET FILE                writes a set into a file, for `once`
//!     bench once FILE QUESTION SIDE       asks once, in a function of its own name, to count instructions or to measure the stack
//!     bench worst                         the names of the worst sets, each with the questions that it is made for
//!
//! Sets are `many` (records up to their ceiling), `full` (everything within a record at its ceiling) and the worst ones. RapidJSON is
//! there where the bench was built with `RAPIDJSON_INCLUDE` naming the directory of its headers.

#![deny(unsafe_code)]

mod questions;
mod rapidjson;
mod set;
mod timing;
mod worst;

use questions::{Question, Side};
use set::Bench;
use std::process::ExitCode;
use std::thread;
use std::time::Instant;

fn main() -> ExitCode {
    let arguments: Vec<String> = std::env::args().skip(1).collect();
    let words: Vec<&str> = arguments.iter().map(String::as_str).collect();
    let done = match words.as_slice() {
        [] => compare(&Question::TIMED),
        ["worst"] => list(),
        [question] => Question::named(question).and_then(|question| compare(&[question])),
        ["write", name, path] => Bench::named(name).and_then(|set| set.write(path).ok()),
        ["once", path, question, side] => once(path, question, side),
        _ => None,
    };
    match done {
        Some(()) => ExitCode::SUCCESS,
        None => {
            let (questions, sides) = (Question::NAMES.join("|"), Side::NAMES.join("|"));
            eprintln!("bench [{questions}]\nbench write SET FILE\nbench worst\nbench once FILE {questions} {sides}");
            ExitCode::from(2)
        }
    }
}

/// Asks once. The set is read by a thread of its own, so that nothing but the question needs this one's stack.
fn once(path: &str, question: &str, side: &str) -> Option<()> {
    let (question, side) = (Question::named(question)?, Side::named(side)?);
    let path = path.to_owned();
    let set = thread::spawn(move || Bench::read(&path)).join().ok()??;
    let began = Instant::now();
    let number = question.ask(side, &set)?;
    println!("answer {number} bytes {} milliseconds {}", question.bytes(&set), began.elapsed().as_millis());
    Some(())
}

fn list() -> Option<()> {
    for worst in &worst::ALL {
        println!("{} {}", worst.name, worst.questions.iter().map(|question| question.name()).collect::<Vec<_>>().join(" "));
    }
    Some(())
}

fn compare(questions: &[Question]) -> Option<()> {
    for name in ["many", "full"] {
        let set = Bench::named(name)?;
        println!("{name}: {} bytes, by file: {:?}", set.bytes(), set.files.each_ref().map(Vec::len));
        println!(
            "{:11}{:>7}{:>12}{:>9}  {:11}{:>10}{:>9}{:>8}",
            "question", "MB", "library ms", "MB/s", "beside", "ms", "MB/s", "ratio"
        );
        for &question in questions {
            for other in [Side::Reference, Side::RapidJson] {
                beside(question, other, &set);
            }
        }
    }
    Some(())
}

/// Prints the times of the library and another side, if that one can be asked the question.
fn beside(question: Question, other: Side, set: &Bench) {
    let Some(number) = question.ask(other, set) else { return };
    assert_eq!(question.ask(Side::Library, set), Some(number), "{} and the library answer {}", other.name(), question.name());
    let times = timing::side_by_side([Side::Library, other].map(|side| move || question.ask(side, set)));
    let [library, its] = times.map(|time| time.as_secs_f64());
    let size = question.bytes(set) as f64 / 1e6;
    println!(
        "{:11}{size:>7.3}{:>12.3}{:>9.1}  {:11}{:>10.3}{:>9.1}{:>8.2}",
        question.name(),
        library * 1e3,
        size / library,
        other.name(),
        its * 1e3,
        size / its,
        library / its
    );
}
