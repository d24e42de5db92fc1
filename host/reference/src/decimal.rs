//! Listed numbers: their form, and their exact value.

/// One, as a [`decimal`] counts: values are held exactly, in units of 10⁻¹⁸.
pub const ONE: i128 = 1_000_000_000_000_000_000;
/// The smallest step of money.
pub const TEN_THOUSANDTH: i128 = ONE / 10_000;
/// A degree's millionth.
pub const MILLIONTH: i128 = ONE / 1_000_000;

const WHOLE_DIGITS: usize = 12;
const FRACTION_DIGITS: usize = 18;

/// The exact value of a JSON number's spelling, or nothing where its form is refused: an exponent, or too many digits on either side.
pub fn decimal(spelling: &[u8]) -> Option<i128> {
    let (negative, digits) = match spelling.strip_prefix(b"-") {
        Some(digits) => (true, digits),
        None => (false, spelling),
    };
    let (whole, fraction) = match digits.iter().position(|&byte| byte == b'.') {
        Some(point) => (&digits[..point], &digits[point + 1..]),
        None => (digits, &[][..]),
    };
    if whole.len() > WHOLE_DIGITS || fraction.len() > FRACTION_DIGITS {
        return None;
    }
    let scale = 10_u64.pow((FRACTION_DIGITS - fraction.len()) as u32);
    let size = i128::from(count(whole)?) * ONE + i128::from(count(fraction)? * scale);
    Some(if negative { -size } else { size })
}

/// The value of a run of at most 18 digits, none being 0.
fn count(digits: &[u8]) -> Option<u64> {
    digits.iter().try_fold(0, |value, byte| byte.is_ascii_digit().then(|| value * 10 + u64::from(byte - b'0')))
}

/// Is a string spelled as a JSON number without sign and without exponent?
pub fn is_plain_unsigned(text: &[u8]) -> bool {
    let all_digits = |part: &[u8]| !part.is_empty() && part.iter().all(u8::is_ascii_digit);
    let (whole, fraction) = match text.iter().position(|&byte| byte == b'.') {
        Some(point) => (&text[..point], Some(&text[point + 1..])),
        None => (text, None),
    };
    all_digits(whole) && (whole == b"0" || whole[0] != b'0') && fraction.is_none_or(all_digits)
}

#[cfg(test)]
mod tests {
    use super::*;

    #[test]
    fn values_are_exact() {
        assert_eq!(decimal(b"0"), Some(0));
        assert_eq!(decimal(b"-0"), Some(0));
        assert_eq!(decimal(b"-0.000000000000000001"), Some(-1));
        assert_eq!(decimal(b"90.00000001"), Some(90 * ONE + 10_000_000_000));
        assert_eq!(decimal(b"999999999999.999999999999999999"), Some(1_000_000_000_000 * ONE - 1));
    }

    #[test]
    fn forms_past_the_limits_are_refused() {
        for spelling in ["1000000000000", "1.0000000000000000000", "1e0", "1.5E-1", "0e5", "-1000000000000.0"] {
            assert_eq!(decimal(spelling.as_bytes()), None, "{spelling}");
        }
    }

    #[test]
    fn string_prices_are_spelled_plainly() {
        for good in ["0", "0.0", "10", "1234567890123", "7.25000"] {
            assert!(is_plain_unsigned(good.as_bytes()), "{good}");
        }
        for bad in ["", "-0", "+1", "01", "1.", ".5", "1e1", " 1", "1,5", "1.2.3"] {
            assert!(!is_plain_unsigned(bad.as_bytes()), "{bad}");
        }
    }
}
