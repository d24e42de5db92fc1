//! Rules broken one at a time in a draft, each with what a verdict on it alone names.

mod across;
mod coordinates;
mod field;

use crate::rng::Rng;
use crate::spelling::shortest;
use crate::Draft;
use reference::{ceiling, Parts};

/// Breaks some rule of stage B or C, if a few tries find one that the set can break.
pub fn break_some_rule(draft: &mut Draft, rng: &mut Rng) -> Option<Parts> {
    (0..50).find_map(|_| {
        let before = draft.clone();
        let parts = match rng.below(3) {
            0 => across::break_some_rule(draft, rng),
            _ => field::break_some_field(draft, rng),
        };
        let fits = draft.iter().flatten().all(|tree| shortest(tree).len() <= ceiling::BYTES);
        if parts.is_none() || !fits {
            *draft = before;
            return None;
        }
        parts
    })
}
