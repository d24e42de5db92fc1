//! Words that were nearly typed right.

/// How many letters have to be put in, left out, changed or swapped with their neighbour to make one word of the other.
pub fn distance(one: &str, other: &str) -> usize {
    let (one, other): (Vec<char>, Vec<char>) = (one.chars().collect(), other.chars().collect());
    let mut before = Vec::new();
    let mut row: Vec<usize> = (0..=other.len()).collect();
    for i in 1..=one.len() {
        let mut next = vec![i];
        for j in 1..=other.len() {
            let changed = row[j - 1] + usize::from(one[i - 1] != other[j - 1]);
            let mut least = changed.min(row[j] + 1).min(next[j - 1] + 1);
            if i > 1 && j > 1 && one[i - 1] == other[j - 2] && one[i - 2] == other[j - 1] {
                let swapped: usize = before[j - 2];
                least = least.min(swapped + 1);
            }
            next.push(least);
        }
        before = std::mem::replace(&mut row, next);
    }
    row[other.len()]
}

/// The candidate that a word is a slip of: at most two letters away, and less than half of the word.
pub fn nearest<'a>(word: &str, candidates: impl IntoIterator<Item = &'a str>) -> Option<&'a str> {
    let measured = candidates.into_iter().map(|candidate| (distance(word, candidate), candidate));
    measured
        .filter(|(letters, candidate)| *letters <= 2 && 2 * letters < candidate.chars().count())
        .min()
        .map(|(_, nearest)| nearest)
}

/// A question that names the nearest candidate, to follow what was wrong.
pub fn did_you_mean<'a>(word: &str, candidates: impl IntoIterator<Item = &'a str>) -> String {
    nearest(word, candidates).map_or(String::new(), |nearest| format!("; did you mean {nearest}?"))
}

#[cfg(test)]
mod tests {
    use super::*;

    #[test]
    fn distances() {
        for (one, other, letters) in [
            ("", "", 0),
            ("", "ab", 2),
            ("json", "jsn", 1),
            ("json", "josn", 1),
            ("check", "chekc", 1),
            ("é", "e", 1),
            ("abc", "xyz", 3),
        ] {
            assert_eq!((distance(one, other), distance(other, one)), (letters, letters), "{one:?}, {other:?}");
        }
    }

    #[test]
    fn the_nearest() {
        let commands = ["check", "quote", "zone"];
        assert_eq!(nearest("chek", commands), Some("check"));
        assert_eq!(nearest("zome", commands), Some("zone"));
        assert_eq!(nearest("zxmy", commands), None);
        assert_eq!(nearest("judge", commands), None);
        assert_eq!(did_you_mean("qoute", commands), "; did you mean quote?");
        assert_eq!(did_you_mean("", commands), "");
    }
}
