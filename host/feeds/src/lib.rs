//! Feed sets made from a seed, and questions to ask of them. The same seed always gives the same set.
//!
//! A set begins as trees that keep every rule ([`draft`]); rules may then be broken one by one ([`breaks`]); the trees are written with
//! blanks, escapes, member order and unlisted members at random ([`respell`], [`spelling`]); and the bytes may be damaged ([`damage`]).
//! [`questions`] are drawn so that they fall on the borders of what the set says.

#![forbid(unsafe_code)]

pub mod breaks;
pub mod damage;
pub mod draft;
pub mod listed;
pub mod questions;
pub mod respell;
mod rings;
pub mod rng;
pub mod size;
pub mod spelling;
pub mod tree;
mod values;

pub use reference::{Parts, FILES};
pub use respell::respell;
pub use rng::Rng;
pub use size::Size;

use tree::Tree;

/// The files of a set as bytes, an absent one being empty.
pub type Set = [Vec<u8>; FILES];

/// The files of a set as trees, `None` being absent.
pub type Draft = [Option<Tree>; FILES];

/// A set that keeps every rule.
pub fn sound(seed: u64, size: &Size) -> Set {
    let mut rng = Rng::new(seed);
    let draft = draft::draft(&mut rng, size);
    respell::write(draft, &mut rng)
}

/// A set with up to `count` rules broken, and what a verdict on each break by itself would name, in the order they were made.
/// Where there is one, it is the verdict on the set.
pub fn broken(seed: u64, size: &Size, count: usize) -> (Set, Vec<Parts>) {
    let mut rng = Rng::new(seed);
    let mut draft = draft::draft(&mut rng, size);
    let broken = (0..count).filter_map(|_| breaks::break_some_rule(&mut draft, &mut rng)).collect();
    (respell::write(draft, &mut rng), broken)
}

/// A set whose bytes are damaged in one to three places, as likely as not leaving it no JSON.
pub fn damaged(seed: u64, size: &Size) -> Set {
    let mut rng = Rng::new(seed);
    let draft = draft::draft(&mut rng, size);
    let mut set = respell::write(draft, &mut rng);
    for _ in 0..rng.between(1, 3) {
        let present: Vec<usize> = (0..FILES).filter(|&index| !set[index].is_empty()).collect();
        if !present.is_empty() {
            damage::damage(&mut set[rng.one_of(&present)], &mut rng);
        }
    }
    set
}

/// The set's files as the questions take them.
pub fn files(set: &Set) -> reference::Files<'_> {
    set.each_ref().map(Vec::as_slice)
}
