//! JSON that the tool writes.

use std::fmt;

/// A value.
#[derive(Clone, Debug, PartialEq, Eq)]
pub enum Json {
    Null,
    Truth(bool),
    Number(i64),
    Text(String),
    /// Text that is JSON already.
    Raw(String),
    Array(Vec<Json>),
    Object(Vec<(&'static str, Json)>),
}

impl Json {
    /// A number of bytes, lines or characters.
    pub fn count(count: usize) -> Json {
        Json::Raw(count.to_string())
    }

    /// An array of texts.
    pub fn texts(texts: Vec<String>) -> Json {
        Json::Array(texts.into_iter().map(Json::Text).collect())
    }

    /// A value, or null.
    pub fn or_null<T>(value: Option<T>, json: impl FnOnce(T) -> Json) -> Json {
        value.map_or(Json::Null, json)
    }
}

/// A value on one line.
impl fmt::Display for Json {
    fn fmt(&self, out: &mut fmt::Formatter) -> fmt::Result {
        match self {
            Json::Null => out.write_str("null"),
            Json::Truth(truth) => write!(out, "{truth}"),
            Json::Number(number) => write!(out, "{number}"),
            Json::Text(text) => out.write_str(&quoted(text)),
            Json::Raw(text) => out.write_str(text),
            Json::Array(items) => {
                let items: Vec<String> = items.iter().map(Json::to_string).collect();
                write!(out, "[{}]", items.join(","))
            }
            Json::Object(members) => {
                let members: Vec<String> = members.iter().map(|(name, value)| format!("\"{name}\":{value}")).collect();
                write!(out, "{{{}}}", members.join(","))
            }
        }
    }
}

fn quoted(text: &str) -> String {
    let mut quoted = String::from("\"");
    for character in text.chars() {
        match character {
            '"' | '\\' => quoted.extend(['\\', character]),
            '\u{0}'..='\u{1F}' => quoted.push_str(&format!("\\u{:04x}", u32::from(character))),
            _ => quoted.push(character),
        }
    }
    quoted + "\""
}

#[cfg(test)]
mod tests {
    use super::*;

    #[test]
    fn an_object() {
        let members = vec![
            ("a", Json::Null),
            ("b", Json::Truth(true)),
            ("c", Json::Number(-5)),
            ("d", Json::Text("\"é\\\n".into())),
            ("e", Json::Raw("[1]".into())),
            ("f", Json::texts(vec!["x".into(), String::new()])),
            ("g", Json::Object(Vec::new())),
        ];
        let line = r#"{"a":null,"b":true,"c":-5,"d":"\"é\\\u000a","e":[1],"f":["x",""],"g":{}}"#;
        assert_eq!(Json::Object(members).to_string(), line);
    }
}
