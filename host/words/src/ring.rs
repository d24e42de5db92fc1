//! Which of the rules about polygons, rings and positions a zone breaks, looked up in the file's bytes.

use crate::record::record;
use crate::scan::{items, member, skip};
use skaveldro::names::field;
use skaveldro::Parts;

const MOST_POLYGONS: usize = 15;
const MOST_RINGS: usize = 8;
const MOST_ZONE_RINGS: usize = 15;
const LEAST_POSITIONS: usize = 4;

/// What is wrong where a word names no sound ring; nothing where the bytes do not show it.
pub fn unsound(parts: Parts, bytes: &[u8]) -> Option<String> {
    let blamed = usize::from(parts.sub);
    let mut first = 1;
    for (polygon, number) in items(bytes, coordinates(parts, bytes)?).zip(1..) {
        let rings: Vec<usize> = items(bytes, polygon).collect();
        if first == blamed && rings.is_empty() {
            return Some(format!("polygon {number} has no ring"));
        }
        if first == blamed && rings.len() > MOST_RINGS {
            return Some(format!("polygon {number} has more than {MOST_RINGS} rings"));
        }
        for (ring, of_polygon) in rings.into_iter().zip(1..) {
            let positions: Vec<Vec<usize>> = items(bytes, ring).map(|position| items(bytes, position).collect()).collect();
            let at = blamed.checked_sub(first).and_then(|index| positions.get(index));
            if at.is_some_and(|numbers| !matches!(numbers.len(), 2 | 3)) {
                return Some("must have 2 or 3 numbers".into());
            }
            if first == blamed {
                return of_ring(bytes, &positions).map(|broken| format!("ring {of_polygon} of polygon {number} {broken}"));
            }
            first += positions.len();
        }
    }
    None
}

/// Which count it is that is over its ceiling in a zone as a whole.
pub fn excess(parts: Parts, bytes: &[u8]) -> Option<String> {
    let polygons = items(bytes, coordinates(parts, bytes)?).count();
    Some(match polygons > MOST_POLYGONS {
        true => format!("too many polygons: at most {MOST_POLYGONS} are allowed"),
        false => format!("too many rings: at most {MOST_ZONE_RINGS} are allowed in a zone"),
    })
}

/// Where the coordinates of the zone that is blamed begin.
fn coordinates(parts: Parts, bytes: &[u8]) -> Option<usize> {
    let zone = record(parts.file, parts.record, bytes)?.start;
    [71, 73].into_iter().try_fold(zone, |at, number| member(bytes, at, field(parts.file, number)?.name))
}

/// Which rule about a ring as a whole its positions break.
fn of_ring(bytes: &[u8], positions: &[Vec<usize>]) -> Option<&'static str> {
    if positions.len() < LEAST_POSITIONS {
        return Some("has fewer than 4 positions");
    }
    let point = |numbers: &Vec<usize>| Some((millionths(bytes, *numbers.first()?)?, millionths(bytes, *numbers.get(1)?)?));
    let points: Vec<(i128, i128)> = positions.iter().map(point).collect::<Option<_>>()?;
    if points.first() != points.last() {
        return Some("is not closed: its first and last positions differ when rounded to six decimals");
    }
    let area: i128 = points.windows(2).map(|edge| edge[0].0 * edge[1].1 - edge[1].0 * edge[0].1).sum();
    (area == 0).then_some("has an area of zero")
}

/// The number at a place in millionths, rounded with halves away from zero. No more than seven of its decimals matter for that.
fn millionths(bytes: &[u8], at: usize) -> Option<i128> {
    let spelling = std::str::from_utf8(bytes.get(at..skip(bytes, at)?)?).ok()?;
    let size = spelling.strip_prefix('-').unwrap_or(spelling);
    let (whole, decimals) = size.split_once('.').unwrap_or((size, ""));
    let seven = format!("{decimals:0<7}");
    let rounded = (format!("{whole}{}", seven.get(..7)?).parse::<i128>().ok()? + 5) / 10;
    Some(if size == spelling { rounded } else { -rounded })
}

#[cfg(test)]
mod tests {
    use super::*;
    use reference::coordinates::judge;
    use reference::json::parse;

    const RING: &str = "[[0,0],[0,2],[2,2],[0,0]]";

    /// The rule that these coordinates break in the second zone of a file, and the reference's kind and number for it.
    fn said(coordinates: &str) -> (Option<String>, (usize, u8)) {
        let mut faults = Vec::new();
        judge(&parse(coordinates.as_bytes()).expect("the coordinates are JSON"), &mut |sub, kind| faults.push((sub, kind)));
        let least = faults.into_iter().min().expect("the coordinates break a rule");
        let zone = format!(r#"{{"geometry": {{"type":"x", "coordinates" : {coordinates} }}}}"#);
        let file = format!(r#"{{"data":{{"geofencing_zones":{{"features":[{{}}, {zone}]}}}}}}"#);
        let parts = Parts { file: 6, kind: least.1, field: 73, record: 2, sub: least.0 as u16, offset: 0 };
        let told = if least.1 == 10 { excess(parts, file.as_bytes()) } else { unsound(parts, file.as_bytes()) };
        (told, least)
    }

    #[test]
    fn the_rule_that_is_broken() {
        let nine = [RING; 9].join(",");
        let open = "is not closed: its first and last positions differ when rounded to six decimals";
        for (coordinates, sub, expected) in [
            ("[ [] ]".into(), 1, "polygon 1 has no ring".into()),
            (format!("[[{RING}, {RING}],[]]"), 9, "polygon 2 has no ring".into()),
            (format!("[[{nine}]]"), 1, "polygon 1 has more than 8 rings".into()),
            (format!("[[{RING}],[{nine}]]"), 5, "polygon 2 has more than 8 rings".into()),
            (format!("[[{RING},[]]]"), 5, "ring 2 of polygon 1 has fewer than 4 positions".into()),
            (format!("[[{RING},[[0,0],[0,2],[0,0]]]]"), 5, "ring 2 of polygon 1 has fewer than 4 positions".into()),
            ("[[[[0,0],[0,2],[2,2],[0,1]]]]".into(), 1, format!("ring 1 of polygon 1 {open}")),
            (format!("[[{RING}],[{RING},[[0,0],[0,2],[2,2],[-0.0000005,0]]]]"), 9, format!("ring 2 of polygon 2 {open}")),
            ("[[[[0.0000004,-0],[1,1],[2,2],[-0.000000499999,0]]]]".into(), 1, "ring 1 of polygon 1 has an area of zero".into()),
            (format!("[[{RING},[[0,0],[0]  ,[2,2],[0,0]]]]"), 6, "must have 2 or 3 numbers".into()),
            (format!("[[{RING},[[],[0,2],[2,2],[0,0]]]]"), 5, "must have 2 or 3 numbers".into()),
            ("[[[[0,0],[0,1,2,3],[2,2],[0,0]]]]".into(), 2, "must have 2 or 3 numbers".into()),
        ] {
            let expected: String = expected;
            assert_eq!(said(&coordinates), (Some(expected), (sub, 11)), "{coordinates}");
        }
    }

    #[test]
    fn the_count_that_is_over() {
        let polygons = |polygon: &str, count: usize| format!("[{}]", vec![polygon; count].join(","));
        assert_eq!(
            said(&polygons(&format!("[{RING}]"), 16)),
            (Some("too many polygons: at most 15 are allowed".into()), (0, 10))
        );
        assert_eq!(
            said(&polygons(&format!("[{RING},{RING}]"), 8)),
            (Some("too many rings: at most 15 are allowed in a zone".into()), (0, 10))
        );
    }

    /// Another file than the one that was judged shows nothing.
    #[test]
    fn nothing_to_see() {
        let parts = Parts { file: 6, kind: 11, field: 73, record: 1, sub: 5, offset: 0 };
        for bytes in ["", "{}", r#"{"data":{"geofencing_zones":{"features":[{"geometry":{"coordinates":[[[[0,0]]]]}}]}}}"#] {
            assert_eq!(unsound(parts, bytes.as_bytes()), None, "{bytes}");
        }
        assert_eq!(excess(parts, b"{}"), None);
        assert_eq!(unsound(Parts { file: 4, ..parts }, br#"{"data":{"bikes":[{}]}}"#), None);
    }
}
