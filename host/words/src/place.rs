//! Where in a file a fault of stage B or C stands.

use skaveldro::names::{way, Field, Sort, TOP};
use skaveldro::{Kind, Parts};

/// The member that is blamed, by the names on the way to it: from the record if one is blamed, else from the top.
pub fn member(parts: Parts, kind: Kind) -> String {
    if parts.field == TOP {
        return if kind == Kind::Condition { String::new() } else { "top value".into() };
    }
    let way = way(parts.file, parts.field);
    if way.is_empty() {
        return format!("field {}", parts.field);
    }
    let of_records = |field: &Field| matches!(field.sort, Sort::Records(_));
    let from = way.iter().position(of_records).filter(|_| parts.record > 0).map_or(0, |index| index + 1);
    let mut member = String::new();
    let mut separator = "";
    for field in &way[from..] {
        member.push_str(separator);
        member.push_str(field.name);
        separator = ".";
        let numbered = match field.sort {
            Sort::Items(_) => "item",
            Sort::Coordinates => "position",
            _ => continue,
        };
        if parts.sub > 0 {
            member.push_str(&format!(", {numbered} {}", parts.sub));
            separator = ", ";
        }
    }
    member
}
