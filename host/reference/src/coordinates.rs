//! Field 73: the polygons of a zone, judged and read.

use crate::decimal::{decimal, MILLIONTH};
use crate::json::Value;
use crate::scalar::fault;
use crate::table::Form;
use crate::{ceiling, kind};

/// A position in millionths of a degree, each number rounded to the nearest with halves away from zero.
#[derive(Clone, Copy, Debug, PartialEq, Eq)]
pub struct Point {
    pub lon: i64,
    pub lat: i64,
}

const LEAST_POSITIONS: usize = 4;

/// Blames every fault of a zone's coordinates by its sub and its kind. Positions count from 1 over the whole zone; a polygon or
/// ring is blamed at the number that its first position has or would have.
pub fn judge(coordinates: &Value, blame: &mut impl FnMut(usize, u8)) {
    let Some(polygons) = coordinates.as_array() else { return blame(0, kind::TYPE) };
    // Whatever stands in a polygon counts as a ring.
    let rings: usize = polygons.iter().map(|polygon| polygon.items().len()).sum();
    if polygons.len() > ceiling::POLYGONS || rings > ceiling::ZONE_RINGS {
        blame(0, kind::TOO_MANY);
    }
    let mut next = 1;
    for polygon in polygons {
        let Some(rings) = polygon.as_array() else {
            blame(next, kind::TYPE);
            continue;
        };
        if !(1..=ceiling::RINGS).contains(&rings.len()) {
            blame(next, kind::RING);
        }
        for ring in rings {
            match ring.as_array() {
                Some(positions) => {
                    judge_ring(positions, next, blame);
                    next += positions.len();
                }
                None => blame(next, kind::TYPE),
            }
        }
    }
}

fn judge_ring(positions: &[Value], first: usize, blame: &mut impl FnMut(usize, u8)) {
    if positions.len() < LEAST_POSITIONS {
        blame(first, kind::RING);
    }
    if positions.len() > ceiling::POSITIONS {
        blame(first, kind::TOO_MANY);
    }
    let mut sound = true;
    for (position, number) in positions.iter().zip(first..) {
        judge_position(position, &mut |kind| {
            sound = false;
            blame(number, kind);
        });
    }
    if sound {
        let ring: Vec<Point> = positions.iter().filter_map(point).collect();
        if ring.first() != ring.last() || area_sum(&ring) == 0 {
            blame(first, kind::RING);
        }
    }
}

fn judge_position(position: &Value, blame: &mut impl FnMut(u8)) {
    let Some(items) = position.as_array() else { return blame(kind::TYPE) };
    if !matches!(items.len(), 2 | 3) {
        blame(kind::RING);
    }
    for (item, limit) in items.iter().zip([180, 90]) {
        if let Some(kind) = fault(Form::Number(-limit, limit), item) {
            blame(kind);
        }
    }
    if items.get(2).is_some_and(|third| third.as_number().is_none()) {
        blame(kind::TYPE);
    }
}

/// The point of a sound position.
fn point(position: &Value) -> Option<Point> {
    let items = position.as_array()?;
    let millionths = |index: usize| {
        let value = decimal(items.get(index)?.as_number()?)?;
        i64::try_from(rounded(value)).ok()
    };
    Some(Point { lon: millionths(0)?, lat: millionths(1)? })
}

/// A value in whole millionths: its size is rounded, halves up, and its sign put back.
pub fn rounded(value: i128) -> i128 {
    (value.abs() + MILLIONTH / 2) / MILLIONTH * value.signum()
}

/// The rings of a polygon: its border first, then holes.
pub type Polygon = Vec<Vec<Point>>;

/// The polygons of sound coordinates.
pub fn polygons(coordinates: &Value) -> Vec<Polygon> {
    let ring = |ring: &Value| ring.items().iter().filter_map(point).collect();
    coordinates.items().iter().map(|polygon| polygon.items().iter().map(ring).collect()).collect()
}

/// Twice the signed area of a ring: negative when it runs clockwise.
pub fn area_sum(ring: &[Point]) -> i128 {
    let cross = |a: Point, b: Point| i128::from(a.lon) * i128::from(b.lat) - i128::from(b.lon) * i128::from(a.lat);
    ring.windows(2).map(|edge| cross(edge[0], edge[1])).sum()
}

#[cfg(test)]
mod tests {
    use super::*;
    use crate::json::parse;

    /// The least (sub, kind) of a field 73.
    fn least(text: &str) -> Option<(usize, u8)> {
        let mut faults = Vec::new();
        judge(&parse(text.as_bytes()).unwrap(), &mut |sub, kind| faults.push((sub, kind)));
        faults.into_iter().min()
    }

    const RING: &str = "[[0,0],[0,2],[2,2],[0,0]]";

    #[test]
    fn sound_coordinates() {
        assert_eq!(least("[]"), None);
        assert_eq!(least(&format!("[[{RING}],[{RING}]]")), None);
        assert_eq!(least(&format!("[[{RING},{RING}]]")), None);
        assert_eq!(least("[[[[0,0,1e999],[0,2],[2,2,-1.5],[0.0000004,-0.0000004]]]]"), None);
    }

    #[test]
    fn subs_count_positions_over_the_zone() {
        assert_eq!(least("{}"), Some((0, 7)));
        assert_eq!(least(&format!("[[{RING}],7]")), Some((5, 7)));
        assert_eq!(least(&format!("[[{RING}],[7]]")), Some((5, 7)));
        assert_eq!(least(&format!("[[{RING}],[]]")), Some((5, 11)));
        assert_eq!(least("[[[[0,0],[0,2],7,[0,0]]]]"), Some((3, 7)));
        assert_eq!(least("[[[[0,0],[0,2],[2,2],[0,1]]]]"), Some((1, 11)));
        assert_eq!(least("[[[[0,0],[1,1],[2,2],[0,0]]]]"), Some((1, 11)));
        assert_eq!(least("[[[]]]"), Some((1, 11)));
    }

    #[test]
    fn rings_close_once_they_are_rounded() {
        assert_eq!(least("[[[[0.000001,0],[0,2],[2,2],[0.0000005,0]]]]"), None);
        assert_eq!(least("[[[[179.9999995,0],[179,2],[178,2],[180,0]]]]"), None);
        assert_eq!(least("[[[[0,0],[0,2],[2,2],[0.0000005,0]]]]"), Some((1, 11)));
        assert_eq!(least("[[[[0,0],[0,2],[2,2],[0,-0.0000009]]]]"), Some((1, 11)));
        assert_eq!(least("[[[[180.0000005,0],[179,2],[178,2],[180,0]]]]"), Some((1, 9)));
    }

    #[test]
    fn halves_go_away_from_zero() {
        let half = MILLIONTH / 2;
        assert_eq!([half - 1, half, -half, 1 - half].map(rounded), [0, 1, -1, 0]);
    }

    #[test]
    fn positions() {
        assert_eq!(least("[[[[0,0],[0,91],[2,2],[0,1]]]]"), Some((2, 9)));
        assert_eq!(least("[[[[0,0],[0],[2,2],[0,0]]]]"), Some((2, 11)));
        assert_eq!(least("[[[[0,0],[0,1,2,null],[2,2],[0,0]]]]"), Some((2, 11)));
        assert_eq!(least("[[[[0,0],[0,1e0,null],[2,2],[0,0]]]]"), Some((2, 7)));
        assert_eq!(least("[[[[0,0],[181],[2,2],[0,0]]]]"), Some((2, 9)));
    }

    #[test]
    fn further_rings_are_judged_as_the_first() {
        let with = |ring: &str| least(&format!("[[{RING},{ring}],[{RING}]]"));
        for sound in ["[[9,9],[8,9],[9,8],[9,9]]", "[[9,9],[9,8],[8,9],[9,9]]", RING] {
            assert_eq!(with(sound), None, "{sound}");
        }
        for (broken, expected) in [
            ("[]", (5, 11)),
            ("[[0,0],[0,2],[0,0]]", (5, 11)),
            ("[[0,0],[0,2],[2,2],[0,1]]", (5, 11)),
            ("[[0,0],[1,1],[2,2],[0,0]]", (5, 11)),
            ("7", (5, 7)),
            ("[[0,0],[0,2],[2,2],[0,91]]", (8, 9)),
            ("[[0,0],[0,2],[2],[0,0]]", (7, 11)),
        ] {
            assert_eq!(with(broken), Some(expected), "{broken}");
        }
        assert_eq!(least(&format!("[[{RING},{RING},{RING}],[{RING},[]]]")), Some((17, 11)));
    }

    /// Coordinates of polygons with so many rings each.
    fn rings(counts: &[usize]) -> String {
        let polygon = |&count: &usize| format!("[{}]", vec![RING; count].join(","));
        format!("[{}]", counts.iter().map(polygon).collect::<Vec<_>>().join(","))
    }

    #[test]
    fn counts_of_rings() {
        assert_eq!(least(&rings(&[8])), None);
        assert_eq!(least(&rings(&[9])), Some((1, 11)));
        assert_eq!(least(&rings(&[1, 0])), Some((5, 11)));
        assert_eq!(least(&rings(&[2, 9, 1])), Some((9, 11)));
        assert_eq!(least(&rings(&[8, 7])), None);
        assert_eq!(least(&rings(&[8, 8])), Some((0, 10)));
        assert_eq!(least(&rings(&[15])), Some((1, 11)));
        assert_eq!(least(&rings(&[16])), Some((0, 10)));
        assert_eq!(least(&rings(&[2; 7])), None);
        assert_eq!(least(&rings(&[2; 8])), Some((0, 10)));
        // What is no array counts as a ring, and what is no polygon has none.
        assert_eq!(least(&rings(&[8, 7]).replace("]]]]", "]],7]]")), Some((0, 10)));
        assert_eq!(least(&rings(&[8, 7]).replace("]]]]", "]]],7]")), Some((61, 7)));
        assert_eq!(least("[[7,7,7,7,7,7,7,7]]"), Some((1, 7)));
    }

    #[test]
    fn ceilings() {
        assert_eq!(least(&rings(&[1; 15])), None);
        assert_eq!(least(&rings(&[1; 16])), Some((0, 10)));
        assert_eq!(least(&rings(&[0; 16])), Some((0, 10)));
        let long = |count: usize| format!("[[[[0,0],{}[0,2],[2,2],[0,0]]]]", "[0,1],".repeat(count - 4));
        assert_eq!(least(&long(256)), None);
        assert_eq!(least(&long(257)), Some((1, 10)));
        let holed = |count: usize| long(count).replacen("[[", &format!("[[{RING},"), 1);
        assert_eq!(least(&holed(256)), None);
        assert_eq!(least(&holed(257)), Some((5, 10)));
    }
}
