//! The verdict on a set, with what was read for it and what was not.

use crate::fault::{self, Fault};
use crate::folder::{content, unread, Contents, Found, Other};
use crate::json::Json;
use crate::report::{Report, NO, NO_ANSWER, YES};
use crate::shown::shown;
use crate::standard::name_of;
use skaveldro::names::FILE_NAMES;
use skaveldro::{verdict, Files, Verdict, FILES};
use words::tell_of_set;

/// The most names that are listed of what was not read.
const MOST_LISTED: usize = 20;

/// A set to judge.
pub struct Set {
    /// `folder`, or `files` that were named one by one.
    pub what: &'static str,
    /// The folder's path.
    pub path: Option<String>,
    pub files: Contents,
    /// What else is in the folder.
    pub others: Vec<Other>,
    /// What may be a mistake.
    pub warnings: Vec<String>,
}

/// The bytes of a set's files; none where one is absent or cannot be read.
pub fn bytes(files: &Contents) -> Files<'_> {
    files.each_ref().map(|found| content(found).map_or(&[][..], |content| &content.bytes))
}

/// The verdict on a set, in words and as JSON. There is none where a file cannot be read, but all else is told.
pub fn report(set: &Set) -> Report {
    let judged = Judged::of(set);
    let status = match judged.answer {
        Some(Verdict::Accepted) => YES,
        Some(_) => NO,
        None => NO_ANSWER,
    };
    let report = Report::new(status, judged.lines().join("\n"), judged.members(status));
    Report { errors: unread(&set.files), ..report }
}

/// A set with all that is said of it.
struct Judged<'a> {
    set: &'a Set,
    /// None where a file cannot be read.
    answer: Option<Verdict>,
    fault: Option<Fault>,
    /// What each file breaks by itself.
    own: [Option<Fault>; FILES],
}

impl Judged<'_> {
    fn of(set: &Set) -> Judged<'_> {
        let files = bytes(&set.files);
        let answer = set.files.iter().all(Result::is_ok).then(|| verdict(files));
        let parts = answer.map(Verdict::parts);
        let fault = parts.and_then(|parts| Some(Fault { parts, told: tell_of_set(parts, files)? }));
        let own = std::array::from_fn(|index| fault::of_file(index as u8 + 1, files[index]));
        Judged { set, answer, fault, own }
    }

    /// The verdict or why there is none, the fault, what may be a mistake, the state of each file, and what was not read.
    fn lines(&self) -> Vec<String> {
        let verdict = self.answer.map(verdict_line).unwrap_or_else(|| no_verdict_line(&self.set.files));
        let mut lines = vec![verdict + &counted(self.set.warnings.len())];
        lines.extend(self.fault.iter().map(|fault| fault.told.to_string()));
        lines.extend(self.set.warnings.iter().map(|warning| format!("warning: {warning}")));
        lines.push("files:".into());
        let width = FILE_NAMES.iter().map(|name| name.len()).max().unwrap_or_default();
        for ((file, found), name) in (1..).zip(&self.set.files).zip(FILE_NAMES) {
            let state = match found {
                Err(unreadable) => format!("unreadable: {}", unreadable.why),
                Ok(None) => "absent".into(),
                Ok(Some(content)) if content.size == 0 => "empty, counts as absent".into(),
                Ok(Some(content)) => format!("{}, {}", content.told_size(), self.cleanness(file)),
            };
            lines.push(format!("  {name:width$}  {state}"));
        }
        lines.extend(not_read(&self.set.others));
        lines
    }

    /// What there is to say of a file by itself. The fault that the verdict names is not said again.
    fn cleanness(&self, file: u8) -> String {
        let named = self.fault.as_ref().map(|fault| fault.parts);
        match &self.own[usize::from(file) - 1] {
            None if named.is_some_and(|parts| parts.file == file) => "clean alone, at fault in the set: see above".into(),
            None => "clean".into(),
            Some(fault) if Some(fault.parts) == named => "not clean: see above".into(),
            Some(fault) => format!("not clean: {}", fault.told.within_file()),
        }
    }

    fn members(self, status: u8) -> Vec<(&'static str, Json)> {
        let files = (1..).zip(&self.set.files).zip(&self.own);
        let files = files.map(|((file, found), own)| file_json(file, found, own.as_ref())).collect();
        vec![
            ("status", Json::Number(status.into())),
            ("what", Json::Text(self.set.what.into())),
            ("path", Json::or_null(self.set.path.clone(), Json::Text)),
            ("answer", Json::or_null(self.answer, |answer| Json::Number(answer.number().into()))),
            ("accepted", Json::or_null(self.answer, |answer| Json::Truth(answer == Verdict::Accepted))),
            ("word", Json::or_null(self.answer, |answer| Json::Text(answer.word().to_string()))),
            ("fault", fault::json(self.fault.as_ref())),
            ("files", Json::Array(files)),
            ("not_read", Json::Array(self.set.others.iter().map(other_json).collect())),
            ("warnings", Json::texts(self.set.warnings.clone())),
        ]
    }
}

/// The first line.
fn verdict_line(answer: Verdict) -> String {
    let verdict = if answer == Verdict::Accepted { "accepted" } else { "not accepted" };
    format!("{verdict}, word {}", answer.word())
}

/// The first line where there is no verdict.
fn no_verdict_line(files: &Contents) -> String {
    let unread = FILE_NAMES.into_iter().zip(files).filter(|(_, found)| found.is_err());
    let names: Vec<&str> = unread.map(|(name, _)| name).collect();
    format!("no verdict, since {} cannot be read", names.join(" and "))
}

/// How many warnings follow: a verdict that they go with does not stand alone.
fn counted(warnings: usize) -> String {
    match warnings {
        0 => String::new(),
        1 => ", with a warning".into(),
        _ => format!(", with {warnings} warnings"),
    }
}

/// The names of what was not read, if there is any.
fn not_read(others: &[Other]) -> Option<String> {
    if others.is_empty() {
        return None;
    }
    let names: Vec<String> = others.iter().take(MOST_LISTED).map(|other| shown(&other.name)).collect();
    let more = others.len().saturating_sub(MOST_LISTED);
    let more = if more > 0 { format!(" and {more} more") } else { String::new() };
    Some(format!("not read: {}{more}", names.join(", ")))
}

fn file_json(file: u8, found: &Found, own: Option<&Fault>) -> Json {
    let content = content(found);
    let state = match content {
        None if found.is_err() => "unreadable",
        None => "absent",
        Some(content) if content.size == 0 => "empty",
        Some(_) => "found",
    };
    Json::Object(vec![
        ("name", Json::Text(name_of(file).into())),
        ("state", Json::Text(state.into())),
        ("bytes", Json::or_null(content, |content| Json::Raw(content.size.to_string()))),
        ("clean", if state == "found" { Json::Truth(own.is_none()) } else { Json::Null }),
        ("fault", fault::json(own)),
        ("reason", Json::or_null(found.as_ref().err(), |unreadable| Json::Text(unreadable.why.clone()))),
    ])
}

fn other_json(other: &Other) -> Json {
    Json::Object(vec![
        ("name", Json::Text(other.name.to_string_lossy().into_owned())),
        ("looks_like", Json::or_null(other.looks_like, |file| Json::Text(name_of(file).into()))),
    ])
}
