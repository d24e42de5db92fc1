//! Ids that share a digest which the library once took of them.

use super::{numbered, IDS};
use reference::ceiling;

/// That digest multiplied by this before it added the next byte. Being linear, it has texts that share one for anybody who looks for
/// them by halves.
const FACTOR: u32 = 16_777_619;

/// Ids with one digest: a beginning that they share, as much of it as leaves 8 bytes of an id, and 8 letters.
pub fn colliding(prefix: &str) -> Vec<String> {
    let shared = &prefix[..prefix.len().min(ceiling::ID - 8)];
    // Halves of four letters by what they add to the digest, those in front in the order of that.
    let halves = 1 << 22;
    let adds = |number: usize| numbered(number, 4).bytes().fold(0, mixed);
    let raised = FACTOR.wrapping_pow(4);
    let mut fronts: Vec<(u32, usize)> = (0..halves).map(|number| (adds(number).wrapping_mul(raised), number)).collect();
    fronts.sort_unstable();
    let wanted = fronts[halves / 2].0.wrapping_add(adds(0));
    let meeting = |back: usize| {
        let add = wanted.wrapping_sub(adds(back));
        let first = fronts.partition_point(|front| front.0 < add);
        fronts[first..].iter().take_while(move |front| front.0 == add).map(move |front| (front.1, back))
    };
    let ids =
        (0..halves * 4).flat_map(meeting).map(|(front, back)| format!("{shared}{}{}", numbered(front, 4), numbered(back, 4)));
    ids.take(IDS).collect()
}

/// The digest taken on by a byte.
pub fn mixed(digest: u32, byte: u8) -> u32 {
    digest.wrapping_mul(FACTOR).wrapping_add(u32::from(byte))
}
