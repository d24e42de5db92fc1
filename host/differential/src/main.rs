//! Holds the library against the reference on generated sets.
//!
//!     differential [--seed N] [--times N]     N times the usual run, from that seed
//!     differential CASE                       one case alone, such as few-broken-17
//!
//! Exit status: 0 they agree; 1 they differ, and the first case that shows it is told; 2 bad use.

#![forbid(unsafe_code)]

use differential::ask::{ask, Difference};
use differential::case::{Case, Scale, Sort};
use differential::tally::Tally;
use std::process::ExitCode;
use std::sync::atomic::{AtomicUsize, Ordering};
use std::thread;

/// The usual run: how many sets of each scale and sort.
const RUN: [(Scale, [(Sort, u64); 3]); 4] = [
    (Scale::Full, [(Sort::Sound, 1), (Sort::Broken, 2), (Sort::Damaged, 1)]),
    (Scale::Many, [(Sort::Sound, 1), (Sort::Broken, 2), (Sort::Damaged, 1)]),
    (Scale::Some, [(Sort::Sound, 20), (Sort::Broken, 60), (Sort::Damaged, 20)]),
    (Scale::Few, [(Sort::Sound, 1000), (Sort::Broken, 4000), (Sort::Damaged, 2000)]),
];

fn main() -> ExitCode {
    let arguments: Vec<String> = std::env::args().skip(1).collect();
    let Some(cases) = read(&arguments) else {
        eprintln!("differential [--seed N] [--times N]\ndifferential CASE");
        return ExitCode::from(2);
    };
    match run(&cases) {
        Ok(tally) => {
            println!("{tally}\n{} sets, {} questions: the library and the reference agree", tally.sets, tally.questions());
            ExitCode::SUCCESS
        }
        Err(Difference { case, question, library, reference }) => {
            eprintln!("{case}: {question}\nlibrary   {library}\nreference {reference}");
            ExitCode::FAILURE
        }
    }
}

fn read(arguments: &[String]) -> Option<Vec<Case>> {
    let (mut seed, mut times) = (1, 1);
    let mut words = arguments.iter();
    while let Some(word) = words.next() {
        match word.as_str() {
            "--seed" => seed = words.next()?.parse().ok()?,
            "--times" => times = words.next()?.parse().ok()?,
            case if arguments.len() == 1 => return Some(vec![case.parse().ok()?]),
            _ => return None,
        }
    }
    Some(usual(seed, times))
}

/// The cases of a run. Each sort takes seeds of its own from one sequence.
fn usual(seed: u64, times: u64) -> Vec<Case> {
    let sorts = RUN.into_iter().flat_map(|(scale, sorts)| sorts.map(|(sort, count)| (scale, sort, count * times)));
    sorts
        .flat_map(|(scale, sort, count)| (0..count).map(move |step| Case { scale, sort, seed: seed.wrapping_add(step) }))
        .collect()
}

/// Asks about all cases on all processors; the first difference in the order of the cases, if one is found.
fn run(cases: &[Case]) -> Result<Tally, Difference> {
    let next = AtomicUsize::new(0);
    let work = || {
        let mut tally = Tally::default();
        loop {
            let index = next.fetch_add(1, Ordering::Relaxed);
            let Some(&case) = cases.get(index) else { return Ok(tally) };
            match ask(case) {
                Ok(met) => tally.add(&met),
                Err(difference) => {
                    next.store(cases.len(), Ordering::Relaxed);
                    return Err((index, difference));
                }
            }
        }
    };
    let results: Vec<Result<Tally, (usize, Difference)>> = thread::scope(|scope| {
        let count = thread::available_parallelism().map_or(1, usize::from);
        let workers: Vec<_> = (0..count).map(|_| scope.spawn(work)).collect();
        workers.into_iter().map(|worker| worker.join().expect("a worker ends")).collect()
    });
    let mut total = Tally::default();
    let mut differences = Vec::new();
    for result in results {
        match result {
            Ok(tally) => total.add(&tally),
            Err(difference) => differences.push(difference),
        }
    }
    match differences.into_iter().min_by_key(|(index, _)| *index) {
        Some((_, difference)) => Err(difference),
        None => Ok(total),
    }
}
