//! The verdict on a feed set: the three stages in order.

use crate::clean::{read, Clean};
use crate::stage_b::stage_b;
use crate::stage_c::stage_c;
use crate::{Files, Parts, Verdict, FILES};

/// Judges a set: stage A of every file, then stage B of every file, then stage C.
pub fn verdict(files: Files) -> Verdict {
    match first_fault(files) {
        Some(parts) => Verdict::Refused(parts),
        None => Verdict::Accepted,
    }
}

/// The same as a call with a lent buffer answers it: 2 if the word has no room and nothing is written; else 0 for accepted or 1, with the
/// word in the first 8 bytes.
pub fn write_verdict(buffer: &mut [u8], files: Files) -> u8 {
    let Some(room) = buffer.first_chunk_mut() else { return 2 };
    let verdict = verdict(files);
    *room = verdict.word();
    u8::from(verdict != Verdict::Accepted)
}

fn first_fault(files: Files) -> Option<Parts> {
    let mut set: [Clean; FILES] = std::array::from_fn(|index| Clean { file: index as u8 + 1, tree: None });
    for (slot, bytes) in set.iter_mut().zip(files) {
        match read(slot.file, bytes) {
            Ok(tree) => slot.tree = tree,
            Err(parts) => return Some(parts),
        }
    }
    let of_file = |file: &Clean| Some(stage_b(file.file, file.tree.as_ref()?)?.parts(file.file));
    set.iter().find_map(of_file).or_else(|| stage_c(&set))
}

#[cfg(test)]
mod tests {
    use super::*;

    #[test]
    fn the_word_stands_in_the_first_8_bytes() {
        let mut buffer = [0xAA; 9];
        assert_eq!(write_verdict(&mut buffer[..7], [b""; FILES]), 2);
        assert_eq!(buffer, [0xAA; 9]);
        assert_eq!(write_verdict(&mut buffer, [b""; FILES]), 1);
        assert_eq!(buffer, [0x14, 0xE0, 0, 0, 0, 0, 0, 0, 0xAA]);
        let bikes = br#"{"version":"2.3","last_updated":0,"ttl":0,"data":{"bikes":[]}}"#;
        let system = br#"{"version":"2.3","last_updated":0,"ttl":0,"data":{"system_id":"s","language":"en","name":"n","timezone":"Etc/UTC"}}"#;
        assert_eq!(write_verdict(&mut buffer, [b"", b"", b"", bikes, b"", b"", system, b""]), 0);
        assert_eq!(buffer, [0x10, 0, 0, 0, 0, 0, 0, 0, 0xAA]);
    }
}
