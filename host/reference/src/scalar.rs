//! What may be wrong with a single value by itself.

use crate::date::is_real_date;
use crate::decimal::{decimal, is_plain_unsigned, ONE, TEN_THOUSANDTH};
use crate::json::Value;
use crate::table::Form;
use crate::{ceiling, kind};

const MOST_MONEY: i128 = 1_000_000 * ONE;

/// The kind of fault of a value that is no object and no array, if it has one.
pub fn fault(form: Form, value: &Value) -> Option<u8> {
    judge(form, value).err()
}

fn judge(form: Form, value: &Value) -> Result<(), u8> {
    match (form, value) {
        (Form::Id, Value::String(text)) => within(text.len() <= ceiling::ID),
        (Form::Text, Value::String(_)) => Ok(()),
        (Form::Exact(word), Value::String(text)) => within(text.as_ref() == word.as_bytes()),
        (Form::Word(words), Value::String(text)) => within(words.iter().any(|word| text.eq_ignore_ascii_case(word.as_bytes()))),
        (Form::Currency, Value::String(text)) => within(text.len() == 3 && text.iter().all(u8::is_ascii_uppercase)),
        (Form::Date, Value::String(text)) => within(is_real_date(text)),
        (Form::Boolean, Value::Bool(_)) => Ok(()),
        (Form::Integer, Value::Number(spelling)) if !spelling.contains(&b'.') => within(exact(spelling)? >= 0),
        (Form::Number(least, most), Value::Number(spelling)) => {
            let value = exact(spelling)?;
            within(i128::from(least) * ONE <= value && value <= i128::from(most) * ONE)
        }
        (Form::Money, Value::Number(spelling)) => money(spelling).map(|_| ()),
        (Form::Price, Value::Number(spelling)) => price(spelling),
        (Form::Price, Value::String(text)) => {
            within(is_plain_unsigned(text))?;
            price(text)
        }
        _ => Err(kind::TYPE),
    }
}

fn within(holds: bool) -> Result<(), u8> {
    holds.then_some(()).ok_or(kind::RANGE)
}

fn exact(spelling: &[u8]) -> Result<i128, u8> {
    decimal(spelling).ok_or(kind::FORM)
}

fn money(spelling: &[u8]) -> Result<i128, u8> {
    let value = exact(spelling)?;
    within(value.abs() <= MOST_MONEY && value % TEN_THOUSANDTH == 0)?;
    Ok(value)
}

fn price(spelling: &[u8]) -> Result<(), u8> {
    within(money(spelling)? >= 0)
}

#[cfg(test)]
mod tests {
    use super::*;
    use crate::json::parse;

    /// The fault of a JSON text held to a form, 0 for none.
    fn of(form: Form, text: &str) -> u8 {
        fault(form, &parse(text.as_bytes()).unwrap()).unwrap_or(0)
    }

    #[test]
    fn integers() {
        for (text, kind) in [
            ("0", 0),
            ("-0", 0),
            ("999999999999", 0),
            ("1000000000000", 8),
            ("1e1", 8),
            ("1.0", 7),
            ("1.5e1", 7),
            ("-1", 9),
            ("\"1\"", 7),
            ("null", 7),
        ] {
            assert_eq!(of(Form::Integer, text), kind, "{text}");
        }
    }

    #[test]
    fn ranges_are_tested_on_the_exact_value() {
        let latitude = Form::Number(-90, 90);
        for (text, kind) in [
            ("90", 0),
            ("90.000000000000000000", 0),
            ("90.00000001", 9),
            ("-90.000000000000000001", 9),
            ("9e1", 8),
            ("1.0000000000000000000", 8),
            ("true", 7),
        ] {
            assert_eq!(of(latitude, text), kind, "{text}");
        }
        assert_eq!(of(Form::Number(0, 1), "1.000000000000000001"), 9);
        assert_eq!(of(Form::Number(0, i64::MAX), "999999999999.999999999999999999"), 0);
        assert_eq!(of(Form::Number(0, i64::MAX), "-0.000000000000000001"), 9);
    }

    #[test]
    fn money_and_prices() {
        for (text, kind) in [
            ("1000000", 0),
            ("-1000000.0000", 0),
            ("1000000.0001", 9),
            ("0.25000", 0),
            ("0.00001", 9),
            ("-0.5", 0),
            ("\"1\"", 7),
            ("1e0", 8),
        ] {
            assert_eq!(of(Form::Money, text), kind, "{text}");
        }
        for (text, kind) in [
            ("-0", 0),
            ("-0.0001", 9),
            ("\"1.5000\"", 0),
            ("\"-0\"", 9),
            ("\"1e1\"", 9),
            ("\"1234567890123\"", 8),
            ("\"1234567890123e1\"", 9),
            ("\"0.00001\"", 9),
            ("\"1\\u002e5\"", 0),
            ("[]", 7),
        ] {
            assert_eq!(of(Form::Price, text), kind, "{text}");
        }
    }

    #[test]
    fn strings() {
        let id = |bytes: usize| of(Form::Id, &format!("\"{}\"", "a".repeat(bytes)));
        assert_eq!((id(100), id(101)), (0, 9));
        assert_eq!(of(Form::Id, &format!("\"{}\"", "\\u0061".repeat(100))), 0);
        assert_eq!(of(Form::Id, &format!("\"{}\"", "é".repeat(51))), 9);
        assert_eq!(of(Form::Word(&["human"]), "\"hUm\\u0041N\""), 0);
        assert_eq!(of(Form::Word(&["human"]), "\"humane\""), 9);
        assert_eq!(of(Form::Exact("2.3"), "\"2.30\""), 9);
        assert_eq!(of(Form::Exact("2.3"), "2.3"), 7);
        for (text, kind) in [("\"EUR\"", 0), ("\"eur\"", 9), ("\"EURO\"", 9), ("\"EÉ\"", 9), ("3", 7)] {
            assert_eq!(of(Form::Currency, text), kind, "{text}");
        }
        for (text, kind) in [
            ("\"2024-02-29\"", 0),
            ("\"202\\u0034-\\u00302-29\"", 0),
            ("\"2023-02-29\"", 9),
            ("\"2024-2-29\"", 9),
            ("\"2024-02-29\\u0000\"", 9),
            ("20240229", 7),
            ("null", 7),
        ] {
            assert_eq!(of(Form::Date, text), kind, "{text}");
        }
    }
}
