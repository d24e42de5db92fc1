//! JSON trees that can be changed.

use reference::json::Value;

#[derive(Clone, Debug, PartialEq, Eq)]
pub enum Tree {
    Null,
    Bool(bool),
    /// A number as it is spelled.
    Number(String),
    Text(String),
    Array(Vec<Tree>),
    Object(Members),
}

/// The members of an object, in order, repeated names included.
#[derive(Clone, Debug, Default, PartialEq, Eq)]
pub struct Members(pub Vec<(String, Tree)>);

impl Members {
    /// The first member of that name.
    pub fn get(&self, name: &str) -> Option<&Tree> {
        self.0.iter().find(|(given, _)| given == name).map(|(_, value)| value)
    }

    pub fn get_mut(&mut self, name: &str) -> Option<&mut Tree> {
        self.0.iter_mut().find(|(given, _)| given == name).map(|(_, value)| value)
    }

    /// Is there a member of that name that holds more than ""?
    pub fn gives(&self, name: &str) -> bool {
        self.get(name).is_some_and(|value| *value != Tree::text(""))
    }

    pub fn push(&mut self, name: &str, value: Tree) {
        self.0.push((name.into(), value));
    }

    /// Gives the member of that name another value, or adds it.
    pub fn set(&mut self, name: &str, value: Tree) {
        match self.get_mut(name) {
            Some(old) => *old = value,
            None => self.push(name, value),
        }
    }

    pub fn remove(&mut self, name: &str) {
        self.0.retain(|(given, _)| given != name);
    }
}

impl Tree {
    pub fn text(text: &str) -> Tree {
        Tree::Text(text.into())
    }

    pub fn number(number: impl ToString) -> Tree {
        Tree::Number(number.to_string())
    }

    /// An object of these members.
    pub fn object<const N: usize>(members: [(&str, Tree); N]) -> Tree {
        Tree::Object(Members(members.into_iter().map(|(name, value)| (name.into(), value)).collect()))
    }

    pub fn as_text(&self) -> Option<&str> {
        match self {
            Tree::Text(text) => Some(text),
            _ => None,
        }
    }

    pub fn as_number(&self) -> Option<&str> {
        match self {
            Tree::Number(spelling) => Some(spelling),
            _ => None,
        }
    }

    pub fn members(&self) -> Option<&Members> {
        match self {
            Tree::Object(members) => Some(members),
            _ => None,
        }
    }

    pub fn members_mut(&mut self) -> Option<&mut Members> {
        match self {
            Tree::Object(members) => Some(members),
            _ => None,
        }
    }

    /// The items of an array; none for anything else.
    pub fn items(&self) -> &[Tree] {
        match self {
            Tree::Array(items) => items,
            _ => &[],
        }
    }

    pub fn items_mut(&mut self) -> Option<&mut Vec<Tree>> {
        match self {
            Tree::Array(items) => Some(items),
            _ => None,
        }
    }
}

impl From<&Value<'_>> for Tree {
    fn from(value: &Value) -> Tree {
        let text = |bytes: &[u8]| String::from_utf8(bytes.to_vec()).expect("stage A lets only UTF-8 through");
        match value {
            Value::Null => Tree::Null,
            Value::Bool(flag) => Tree::Bool(*flag),
            Value::Number(spelling) => Tree::Number(text(spelling)),
            Value::String(bytes) => Tree::Text(text(bytes)),
            Value::Array(items) => Tree::Array(items.iter().map(Tree::from).collect()),
            Value::Object(object) => {
                Tree::Object(Members(object.members.iter().map(|(name, value)| (text(name), Tree::from(value))).collect()))
            }
        }
    }
}
