//! Prints questions about generated sets, one a line, in the form that the program `answer` of `differential` reads.
//!
//!     cases FIRST_SEED COUNT [few|some|many|full]
//!
//! Each seed gives one set, sound, broken or damaged, with its verdict, a word, and some rides, places and records.

#![forbid(unsafe_code)]

use feeds::questions::Questions;
use feeds::{broken, damaged, files, respell, sound, Rng, Set, Size};
use std::io::{self, BufWriter, Write};
use std::process::ExitCode;

fn main() -> ExitCode {
    let arguments: Vec<String> = std::env::args().skip(1).collect();
    let Some((first, count, size)) = read(&arguments) else {
        eprintln!("cases FIRST_SEED COUNT [few|some|many|full]");
        return ExitCode::FAILURE;
    };
    let mut cases = BufWriter::new(io::stdout().lock());
    for seed in first..first.saturating_add(count) {
        if write_cases(&mut cases, seed, &size).is_err() {
            return ExitCode::FAILURE;
        }
    }
    cases.flush().map_or(ExitCode::FAILURE, |()| ExitCode::SUCCESS)
}

fn read(arguments: &[String]) -> Option<(u64, u64, Size)> {
    let (first, count, size) = match arguments {
        [first, count] => (first, count, "few"),
        [first, count, size] => (first, count, size.as_str()),
        _ => return None,
    };
    let size = match size {
        "few" => Size::FEW,
        "some" => Size::SOME,
        "many" => Size::MANY,
        "full" => Size::FULL,
        _ => return None,
    };
    Some((first.parse().ok()?, count.parse().ok()?, size))
}

fn write_cases(cases: &mut impl Write, seed: u64, size: &Size) -> io::Result<()> {
    let mut rng = Rng::new(!seed);
    let set = some_set(&mut rng, seed, size);
    let all = set.each_ref().map(|file| hex(file)).join(" ");
    let room = if rng.chance(95) { 8 } else { rng.below(20) };
    writeln!(cases, "verdict {room} {all}")?;
    let mut questions = Questions::about(&set, seed);
    let word = reference::verdict(files(&set)).word();
    writeln!(cases, "word {}", hex(&questions.word(word)))?;
    for _ in 0..2 {
        let ride = questions.ride();
        writeln!(cases, "quote {} {} {} {}", hex(&set[4]), hex(&ride.plan), ride.seconds, ride.metres)?;
        let place = questions.place();
        writeln!(cases, "zone {} {} {} {} {}", hex(&set[5]), place.lat, place.lon, hex(&place.vehicle_type), place.moment)?;
    }
    let which = questions.record();
    writeln!(cases, "show {all} {} {}", which.file, which.number)
}

fn some_set(rng: &mut Rng, seed: u64, size: &Size) -> Set {
    match rng.below(6) {
        0 | 1 => sound(seed, size),
        2 | 3 => broken(seed, size, 1 + rng.below(3)).0,
        4 => respell(&broken(seed, size, rng.below(3)).0, seed),
        _ => damaged(seed, size),
    }
}

fn hex(bytes: &[u8]) -> String {
    match bytes {
        [] => "-".into(),
        _ => bytes
            .iter()
            .flat_map(|byte| [byte >> 4, byte & 15])
            .map(|digit| char::from(b"0123456789abcdef"[usize::from(digit)]))
            .collect(),
    }
}
