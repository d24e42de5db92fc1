//! Dates as the papers spell them.

/// Is a string's text YYYY-MM-DD, ten bytes, of a day that the Gregorian calendar has? It is applied to every year from 0000 to 9999.
pub fn is_real_date(text: &[u8]) -> bool {
    let &[y1, y2, y3, y4, b'-', m1, m2, b'-', d1, d2] = text else { return false };
    match (number(&[y1, y2, y3, y4]), number(&[m1, m2]), number(&[d1, d2])) {
        (Some(year), Some(month), Some(day)) => (1..=days_of(year, month)).contains(&day),
        _ => false,
    }
}

/// The value of decimal digits.
fn number(digits: &[u8]) -> Option<u32> {
    digits.iter().try_fold(0, |value, byte| byte.is_ascii_digit().then(|| value * 10 + u32::from(byte - b'0')))
}

/// How many days a month has; none where the year has no such month.
pub fn days_of(year: u32, month: u32) -> u32 {
    match month {
        2 if is_leap(year) => 29,
        2 => 28,
        4 | 6 | 9 | 11 => 30,
        1..=12 => 31,
        _ => 0,
    }
}

fn is_leap(year: u32) -> bool {
    year.is_multiple_of(4) && (!year.is_multiple_of(100) || year.is_multiple_of(400))
}

#[cfg(test)]
mod tests {
    use super::*;

    #[test]
    fn february() {
        for (year, days) in
            [("0000", 29), ("0004", 29), ("0100", 28), ("1900", 28), ("2000", 29), ("2023", 28), ("2024", 29), ("9999", 28)]
        {
            let last = (1..=31).rfind(|day| is_real_date(format!("{year}-02-{day:02}").as_bytes()));
            assert_eq!(last, Some(days), "{year}");
        }
    }

    #[test]
    fn every_day_of_a_year() {
        let days = |year: &str| {
            let date = |month: u32, day: u32| format!("{year}-{month:02}-{day:02}");
            (0..100)
                .flat_map(|month| (0..100).map(move |day| (month, day)))
                .filter(|&(m, d)| is_real_date(date(m, d).as_bytes()))
                .count()
        };
        assert_eq!(["0000", "1900", "2000", "2024", "2025"].map(days), [366, 365, 366, 366, 365]);
    }

    #[test]
    fn other_spellings() {
        assert!(is_real_date(b"2024-02-29"));
        for text in [
            "",
            "2024-02-2",
            "2024-02-290",
            "2024-02-29 ",
            " 2024-02-29",
            "24-02-29",
            "02024-02-29",
            "2024-2-029",
            "2024/02/29",
            "2024-02/29",
            "20240229",
            "2024-0 -29",
            "2024-02-2x",
            "+024-02-29",
            "-024-02-29",
            "29-02-2024",
            "2024-13-01",
            "2024-00-01",
            "2024-01-00",
            "2024-04-31",
            "2024-01-32",
            "２024-02-29",
        ] {
            assert!(!is_real_date(text.as_bytes()), "{text}");
        }
    }
}
