//! A broken rule, in words and as JSON.

use crate::json::Json;
use skaveldro::{show_record, Parts, Shown};
use words::Told;

/// A broken rule: the parts of its word, and what they say.
pub struct Fault {
    pub parts: Parts,
    pub told: Told,
}

/// The first rule that a file breaks by itself; none if it is clean.
pub fn of_file(file: u8, bytes: &[u8]) -> Option<Fault> {
    match show_record(file.into(), 1, bytes) {
        Shown::NotClean(parts) => words::tell(parts, Some(bytes)).map(|told| Fault { parts, told }),
        _ => None,
    }
}

/// A fault as an object; null where no rule is broken.
pub fn json(fault: Option<&Fault>) -> Json {
    let Some(Fault { parts, told }) = fault else { return Json::Null };
    let (line, column) = told.position.map(|position| (position.line, position.column)).unzip();
    let id = told.record.as_ref().and_then(|(_, id)| id.clone());
    Json::Object(vec![
        ("file", Json::Number(parts.file.into())),
        ("kind", Json::Number(parts.kind.into())),
        ("field", Json::Number(parts.field.into())),
        ("record", Json::Number(parts.record.into())),
        ("sub", Json::Number(parts.sub.into())),
        ("offset", Json::Number(parts.offset.into())),
        ("file_name", Json::Text(told.file.into())),
        ("record_id", Json::or_null(id, Json::Text)),
        ("member", Json::or_null(Some(told.member.clone()).filter(|member| !member.is_empty()), Json::Text)),
        ("line", Json::or_null(line, Json::count)),
        ("column", Json::or_null(column, Json::count)),
        ("rule", Json::Text(told.rule.clone())),
        ("found", Json::or_null(told.found.clone(), Json::Text)),
        ("text", Json::Text(told.to_string())),
    ])
}
