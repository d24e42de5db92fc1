//! A reader of JSON, for what the tool writes and for its schema.

/// A value; a number is an integer.
#[derive(Clone, Debug, PartialEq, PartialOrd)]
pub enum Json {
    Null,
    Truth(bool),
    Number(i64),
    Text(String),
    Array(Vec<Json>),
    Object(Vec<(String, Json)>),
}

impl Json {
    pub fn get(&self, name: &str) -> Option<&Json> {
        match self {
            Json::Object(members) => members.iter().find(|(found, _)| found == name).map(|(_, value)| value),
            _ => None,
        }
    }

    /// A member that has to be there.
    pub fn at(&self, name: &str) -> &Json {
        self.get(name).unwrap_or_else(|| panic!("there is no {name} in {self:?}"))
    }

    pub fn items(&self) -> &[Json] {
        match self {
            Json::Array(items) => items,
            other => panic!("no array: {other:?}"),
        }
    }

    pub fn text(&self) -> &str {
        match self {
            Json::Text(text) => text,
            other => panic!("no string: {other:?}"),
        }
    }
}

/// The value that a text is.
pub fn read(text: &str) -> Json {
    let mut rest = text;
    let value = value(&mut rest);
    assert_eq!(rest.trim(), "", "something follows the JSON text");
    value
}

fn value(rest: &mut &str) -> Json {
    *rest = rest.trim_start();
    match rest.as_bytes().first() {
        Some(b'{') => Json::Object(list(rest, '}', |rest| {
            *rest = rest.trim_start();
            let name = string(rest);
            take(rest, ":");
            (name, value(rest))
        })),
        Some(b'[') => Json::Array(list(rest, ']', value)),
        Some(b'"') => Json::Text(string(rest)),
        _ => {
            let end = rest.find(|character: char| !character.is_ascii_alphanumeric() && character != '-').unwrap_or(rest.len());
            let (word, after) = rest.split_at(end);
            *rest = after;
            match word {
                "null" => Json::Null,
                "true" => Json::Truth(true),
                "false" => Json::Truth(false),
                number => Json::Number(number.parse().unwrap_or_else(|_| panic!("no value: {number:?}, then {after:?}"))),
            }
        }
    }
}

fn list<T>(rest: &mut &str, end: char, mut item: impl FnMut(&mut &str) -> T) -> Vec<T> {
    *rest = rest[1..].trim_start();
    let mut items = Vec::new();
    if let Some(after) = rest.strip_prefix(end) {
        *rest = after;
        return items;
    }
    loop {
        items.push(item(rest));
        *rest = rest.trim_start();
        if let Some(after) = rest.strip_prefix(end) {
            *rest = after;
            return items;
        }
        take(rest, ",");
    }
}

fn take(rest: &mut &str, token: &str) {
    *rest = rest.trim_start().strip_prefix(token).unwrap_or_else(|| panic!("no {token:?} in front of {rest:?}"));
}

fn string(rest: &mut &str) -> String {
    take(rest, "\"");
    let mut text = String::new();
    let mut characters = rest.chars();
    loop {
        match characters.next().expect("the string ends") {
            '"' => break,
            '\\' => text.push(match characters.next().expect("the escape ends") {
                'u' => {
                    let digits: String = characters.by_ref().take(4).collect();
                    u32::from_str_radix(&digits, 16).ok().and_then(char::from_u32).expect("no surrogates are written")
                }
                escaped @ ('"' | '\\' | '/') => escaped,
                other => panic!("no escape: {other}"),
            }),
            character if character < ' ' => panic!("a control character in a string"),
            character => text.push(character),
        }
    }
    *rest = characters.as_str();
    text
}
