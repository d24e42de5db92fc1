//! What a command found.

use crate::json::Json;
use std::ffi::OsStr;

/// The exit statuses.
pub const YES: u8 = 0;
pub const NO: u8 = 1;
pub const NO_ANSWER: u8 = 2;

/// An answer, in words and as JSON objects, a line each.
#[derive(Debug)]
pub struct Report {
    /// The exit status: 0 the set is accepted or the question answered, 1 it is not, 2 a part of what was asked has no answer.
    pub status: u8,
    pub text: String,
    pub objects: Vec<Json>,
    /// What goes to standard error beside the text: why a part of what was asked has no answer. The objects have it already.
    pub errors: Vec<String>,
}

/// Why there is no answer: bad use, or what cannot be read.
#[derive(Clone, Debug, PartialEq, Eq)]
pub struct Failure {
    pub messages: Vec<String>,
    /// The path that was asked about; none where the command line is at fault.
    path: Option<String>,
}

impl Report {
    pub fn new(status: u8, text: String, members: Vec<(&'static str, Json)>) -> Report {
        Report { status, text, objects: vec![Json::Object(members)], errors: Vec::new() }
    }

    /// A text that is not an answer of the library's.
    pub fn text(text: String) -> Report {
        let members = vec![("text", Json::Text(text.clone()))];
        Report::new(YES, text, members)
    }

    /// The same with these warnings at its end.
    pub fn warning(mut self, warnings: Vec<String>) -> Report {
        for warning in &warnings {
            self.text.push_str(&format!("\nwarning: {warning}"));
        }
        if let Some(Json::Object(members)) = self.objects.last_mut() {
            members.push(("warnings", Json::texts(warnings)));
        }
        self
    }
}

impl Failure {
    pub fn new(message: String) -> Failure {
        Failure::of(vec![message])
    }

    pub fn of(messages: Vec<String>) -> Failure {
        Failure { messages, path: None }
    }

    /// The same about a path.
    pub fn about(self, path: &OsStr) -> Failure {
        Failure { path: Some(path.to_string_lossy().into_owned()), ..self }
    }

    pub fn json(&self) -> Json {
        Json::Object(vec![
            ("status", Json::Number(NO_ANSWER.into())),
            ("what", Json::Text("error".into())),
            ("path", Json::or_null(self.path.clone(), Json::Text)),
            ("errors", Json::texts(self.messages.clone())),
        ])
    }
}
