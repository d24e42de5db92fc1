//! One report of several.

use crate::report::{Failure, Report, NO_ANSWER, YES};
use crate::shown::shown;
use std::ffi::OsStr;

/// What was found of one, and in which words it is counted.
pub struct Outcome {
    pub report: Report,
    pub counted: &'static str,
}

/// The words, in the order in which they are counted.
const COUNTED: [&str; 5] = ["accepted", "not accepted", "clean", "not clean", WITHOUT];
pub const WITHOUT: &str = "with no answer";

/// The report of one, or of several: of several each begins with its name, and a line at the end counts them.
pub fn join(outcomes: Vec<(&OsStr, Result<Outcome, Failure>)>) -> Report {
    let is_one = outcomes.len() == 1;
    let mut joined = Report { status: YES, text: String::new(), objects: Vec::new(), errors: Vec::new() };
    let mut blocks = Vec::new();
    let mut counted_as = Vec::new();
    for (path, outcome) in outcomes {
        let (status, counted) = match outcome {
            Ok(Outcome { report, counted }) => {
                blocks.push(if is_one { report.text } else { format!("{}: {}", shown(path), report.text) });
                joined.objects.extend(report.objects);
                joined.errors.extend(report.errors);
                (report.status, counted)
            }
            Err(failure) => {
                blocks.extend((!is_one).then(|| format!("{}: no answer", shown(path))));
                let failure = failure.about(path);
                joined.objects.push(failure.json());
                joined.errors.extend(failure.messages);
                (NO_ANSWER, WITHOUT)
            }
        };
        joined.status = joined.status.max(status);
        counted_as.push(counted);
    }
    blocks.extend((!is_one).then(|| summary(&counted_as)));
    joined.text = blocks.join("\n\n");
    joined
}

fn summary(counted_as: &[&str]) -> String {
    let counts = COUNTED.map(|word| (counted_as.iter().filter(|&&counted| counted == word).count(), word));
    let counts: Vec<String> =
        counts.iter().filter(|(count, _)| *count > 0).map(|(count, word)| format!("{count} {word}")).collect();
    format!("{} checked: {}", counted_as.len(), counts.join(", "))
}
