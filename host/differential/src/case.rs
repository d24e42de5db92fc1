//! Cases: which set a seed stands for.

use feeds::{broken, damaged, respell, sound, Rng, Set, Size};
use std::fmt;
use std::str::FromStr;

/// How large a case's set is.
#[derive(Clone, Copy, Debug, PartialEq, Eq, Hash)]
pub enum Scale {
    /// A handful of records.
    Few,
    /// Everything within a record up to its ceiling.
    Some,
    /// As many records as the ceilings let in.
    Many,
    /// Everything at its ceiling.
    Full,
}

/// What is done to a case's set.
#[derive(Clone, Copy, Debug, PartialEq, Eq, Hash)]
pub enum Sort {
    Sound,
    /// One to three rules broken.
    Broken,
    /// Bytes changed.
    Damaged,
}

/// A set by its seed.
#[derive(Clone, Copy, Debug, PartialEq, Eq, Hash)]
pub struct Case {
    pub scale: Scale,
    pub sort: Sort,
    pub seed: u64,
}

impl Case {
    /// The set, and the same in other bytes: other blanks, escapes and order of members, and unlisted members added.
    pub fn sets(self) -> (Set, Set) {
        let size = match self.scale {
            Scale::Few => Size::FEW,
            Scale::Some => Size::SOME,
            Scale::Many => Size::MANY,
            Scale::Full => Size::FULL,
        };
        let mut rng = Rng::new(!self.seed);
        let set = match self.sort {
            Sort::Sound => sound(self.seed, &size),
            Sort::Broken => broken(self.seed, &size, 1 + rng.below(3)).0,
            Sort::Damaged => damaged(self.seed, &size),
        };
        let other = respell(&set, rng.word());
        (set, other)
    }
}

const SCALES: [(Scale, &str); 4] = [(Scale::Few, "few"), (Scale::Some, "some"), (Scale::Many, "many"), (Scale::Full, "full")];
const SORTS: [(Sort, &str); 3] = [(Sort::Sound, "sound"), (Sort::Broken, "broken"), (Sort::Damaged, "damaged")];

impl fmt::Display for Case {
    fn fmt(&self, out: &mut fmt::Formatter) -> fmt::Result {
        let scale = SCALES.iter().find(|(scale, _)| *scale == self.scale).map_or("", |(_, name)| name);
        let sort = SORTS.iter().find(|(sort, _)| *sort == self.sort).map_or("", |(_, name)| name);
        write!(out, "{scale}-{sort}-{}", self.seed)
    }
}

impl FromStr for Case {
    type Err = ();

    fn from_str(text: &str) -> Result<Case, ()> {
        let mut words = text.splitn(3, '-');
        let mut next = || words.next().ok_or(());
        let (scale, sort, seed) = (next()?, next()?, next()?);
        Ok(Case {
            scale: SCALES.iter().find(|(_, name)| *name == scale).ok_or(())?.0,
            sort: SORTS.iter().find(|(_, name)| *name == sort).ok_or(())?.0,
            seed: seed.parse().map_err(|_| ())?,
        })
    }
}
