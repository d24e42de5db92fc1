//! What the rules say together for a vehicle type at a point and a moment.

use crate::clean::{clean, Row};
use crate::coordinates::{area_sum, polygons, Point};
use crate::Parts;

/// The answer to a zone question.
#[derive(Clone, Copy, Debug, PartialEq, Eq, Hash)]
pub enum Ruling {
    /// 8: no such point on the map.
    OffMap,
    /// 5: the zones file is not clean.
    NotClean(Parts),
    /// 9: none of the rules applies.
    NoRule,
    /// 0: the values of the rules that apply.
    Is(Rule),
}

/// The four values, each from the first rule that applies and gives it.
#[derive(Clone, Copy, Debug, PartialEq, Eq, Hash)]
pub struct Rule {
    pub ride: bool,
    pub through: bool,
    pub speed: Option<u64>,
    pub parking: Option<bool>,
}

const MOST_LON: u64 = 180_000_000;
const MOST_LAT: u64 = 90_000_000;

/// What holds at a point, in millionths of a degree, for a vehicle type at a moment.
pub fn zone_rule(zones: &[u8], lon: i64, lat: i64, type_id: &[u8], moment: u64) -> Ruling {
    if lon.unsigned_abs() > MOST_LON || lat.unsigned_abs() > MOST_LAT {
        return Ruling::OffMap;
    }
    let zones = match clean(6, zones) {
        Ok(zones) => zones,
        Err(parts) => return Ruling::NotClean(parts),
    };
    let point = Point { lon, lat };
    let there = zones.rows().filter(|&zone| counts(zone, moment) && covers(zone, point));
    let rules: Vec<Row> = there.flat_map(rules_of).filter(|&rule| names(rule, type_id)).collect();
    let flag = |field: u8| rules.iter().find_map(|rule| rule.flag(field));
    // Every rule of a clean file gives these two.
    let (Some(ride), Some(through)) = (flag(79), flag(80)) else {
        return Ruling::NoRule;
    };
    let speed = rules.iter().find_map(|rule| rule.integer(81));
    Ruling::Is(Rule { ride, through, speed, parking: flag(82) })
}

/// Is the moment between the zone's start and its end?
fn counts(zone: Row, moment: u64) -> bool {
    zone.inner(74).is_some_and(|properties| {
        let started = properties.integer(75).is_none_or(|start| start <= moment);
        let ended = properties.integer(76).is_some_and(|end| end <= moment);
        started && !ended
    })
}

fn covers(zone: Row, point: Point) -> bool {
    let coordinates = zone.inner(71).and_then(|geometry| geometry.value(73));
    coordinates.is_some_and(|coordinates| polygons(coordinates).iter().any(|polygon| holds(polygon, point)))
}

fn rules_of<'t, 'a>(zone: Row<'t, 'a>) -> impl Iterator<Item = Row<'t, 'a>> {
    zone.inner(74).into_iter().flat_map(|properties| properties.items(77))
}

/// Does a rule speak of the type? One without a list speaks of all.
fn names(rule: Row, type_id: &[u8]) -> bool {
    let list = rule.value(78).and_then(|list| list.as_array());
    list.is_none_or(|ids| ids.iter().any(|id| id.as_text() == Some(type_id)))
}

/// Where a point lies by a ring, whichever way the ring winds.
#[derive(Clone, Copy, Debug, PartialEq, Eq, Hash)]
pub enum Side {
    Inside,
    Edge,
    Outside,
}

/// Where the point lies by the ring.
pub fn side(ring: &[Point], point: Point) -> Side {
    let edges = || ring.windows(2).map(|edge| (edge[0], edge[1]));
    if edges().any(|(a, b)| is_on(a, b, point)) {
        return Side::Edge;
    }
    let crossings = edges().filter(|&(a, b)| crosses(a, b, point)).count();
    if crossings % 2 == 1 {
        Side::Inside
    } else {
        Side::Outside
    }
}

/// Does a polygon hold the point? The edges of all its rings belong to it, and what a further ring encloses does not. For the rest its
/// first ring decides: a clockwise one holds what it encloses, the other sort all else.
fn holds(polygon: &[Vec<Point>], point: Point) -> bool {
    let sides: Vec<Side> = polygon.iter().map(|ring| side(ring, point)).collect();
    let Some((&first, further)) = sides.split_first() else { return false };
    if sides.contains(&Side::Edge) {
        return true;
    }
    if further.contains(&Side::Inside) {
        return false;
    }
    (first == Side::Inside) == (area_sum(&polygon[0]) < 0)
}

/// (b − a) × (p − a): zero when the three are on a line.
fn turn(a: Point, b: Point, p: Point) -> i128 {
    let difference = |to: i64, from: i64| i128::from(to) - i128::from(from);
    difference(b.lon, a.lon) * difference(p.lat, a.lat) - difference(p.lon, a.lon) * difference(b.lat, a.lat)
}

fn is_on(a: Point, b: Point, p: Point) -> bool {
    let between = |x: i64, y: i64, z: i64| x.min(y) <= z && z <= x.max(y);
    turn(a, b, p) == 0 && between(a.lon, b.lon, p.lon) && between(a.lat, b.lat, p.lat)
}

/// Does the edge cross the point's parallel strictly east of the point? The edge's lower end counts, its upper does not.
fn crosses(a: Point, b: Point, p: Point) -> bool {
    let (low, high) = if a.lat <= b.lat { (a, b) } else { (b, a) };
    low.lat <= p.lat && p.lat < high.lat && turn(low, high, p) > 0
}

#[cfg(test)]
mod tests {
    use super::*;

    fn zones(features: &str) -> Vec<u8> {
        format!(
            r#"{{"version":"2.3","last_updated":0,"ttl":0,"data":{{"geofencing_zones":{{"type":"FeatureCollection","features":[{features}]}}}}}}"#
        )
        .into_bytes()
    }

    /// A zone of one polygon, by its rings.
    fn zone(rings: &str, properties: &str) -> String {
        area(&format!("[{rings}]"), properties)
    }

    /// A zone by its polygons.
    fn area(polygons: &str, properties: &str) -> String {
        format!(
            r#"{{"type":"Feature","geometry":{{"type":"MultiPolygon","coordinates":[{polygons}]}},"properties":{{{properties}}}}}"#
        )
    }

    const CLOCKWISE: &str = "[[0,0],[0,2],[2,2],[2,0],[0,0]]";
    const COUNTERCLOCKWISE: &str = "[[0,0],[2,0],[2,2],[0,2],[0,0]]";
    const RULES: &str = r#""rules":[{"ride_allowed":true,"ride_through_allowed":false}]"#;
    const DEGREE: i64 = 1_000_000;

    fn is_held(rings: &str, lon: i64, lat: i64) -> bool {
        match zone_rule(&zones(&zone(rings, RULES)), lon, lat, b"", 0) {
            Ruling::Is(_) => true,
            Ruling::NoRule => false,
            other => panic!("{other:?}"),
        }
    }

    /// A clockwise ring around the square between the same two degrees of longitude and of latitude.
    fn square(from: i64, to: i64) -> String {
        format!("[[{from},{from}],[{from},{to}],[{to},{to}],[{to},{from}],[{from},{from}]]")
    }

    /// The same counterclockwise.
    fn reversed(from: i64, to: i64) -> String {
        format!("[[{from},{from}],[{to},{from}],[{to},{to}],[{from},{to}],[{from},{from}]]")
    }

    /// Which points (n, n), for whole degrees n from -1 to 10, a polygon holds.
    fn held_on_the_diagonal(rings: &[String]) -> Vec<i64> {
        (-1..=10).filter(|&n| is_held(&rings.join(","), n * DEGREE, n * DEGREE)).collect()
    }

    #[test]
    fn worked_reading_j() {
        for (lon, lat, held) in [(1, 1, true), (2, 2, true), (3, 1, false)] {
            assert_eq!(is_held(CLOCKWISE, lon * DEGREE, lat * DEGREE), held, "({lon},{lat})");
        }
        for (lon, lat, held) in [(3, 1, true), (2, 1, true), (1, 1, false)] {
            assert_eq!(is_held(COUNTERCLOCKWISE, lon * DEGREE, lat * DEGREE), held, "reversed ({lon},{lat})");
        }
    }

    #[test]
    fn the_borders_to_a_millionth() {
        for (lon, lat, held) in [(0, 1, true), (-1, 1, false), (2 * DEGREE, 1, true), (2 * DEGREE + 1, 1, false), (1, -1, false)]
        {
            assert_eq!(is_held(CLOCKWISE, lon, lat), held, "({lon},{lat})");
        }
        // The parallel through the points touches the tip at (1, 1) and runs along an edge.
        let tips = "[[0,0],[0,2],[1,1],[2,2],[3,1],[4,1],[4,0],[0,0]]";
        for (lon, held) in [(500_000, true), (1_500_000, true), (3_500_000, true), (4_000_001, false), (-1, false)] {
            assert_eq!(is_held(tips, lon, DEGREE), held, "{lon}");
        }
    }

    #[test]
    fn holes() {
        for hole in [square(2, 5), reversed(2, 5)] {
            assert_eq!(held_on_the_diagonal(&[square(0, 8), hole.clone()]), [0, 1, 2, 5, 6, 7, 8]);
            // A first ring that winds the other way holds its outside already; the hole's edge is in all the same.
            assert_eq!(held_on_the_diagonal(&[reversed(0, 8), hole.clone()]), [-1, 0, 2, 5, 8, 9, 10]);
            assert_eq!(held_on_the_diagonal(&[reversed(6, 8), hole]), [-1, 0, 1, 2, 5, 6, 8, 9, 10]);
        }
        assert_eq!(held_on_the_diagonal(&[square(0, 8), square(4, 8)]), [0, 1, 2, 3, 4, 8]);
        assert_eq!(held_on_the_diagonal(&[square(0, 5), square(3, 9)]), [0, 1, 2, 3, 5, 9]);
        assert_eq!(held_on_the_diagonal(&[square(0, 2), square(4, 6)]), [0, 1, 2, 4, 6]);
        assert_eq!(held_on_the_diagonal(&[square(0, 3), square(0, 3)]), [0, 3]);
        assert_eq!(held_on_the_diagonal(&[square(2, 5), square(0, 8)]), [0, 2, 5, 8]);
    }

    #[test]
    fn holes_that_overlap() {
        // The edge of one hole is in, also where the other encloses it.
        assert_eq!(held_on_the_diagonal(&[square(0, 9), square(1, 5), square(3, 8)]), [0, 1, 3, 5, 8, 9]);
        assert_eq!(held_on_the_diagonal(&[square(0, 9), square(1, 8), reversed(3, 5)]), [0, 1, 3, 5, 8, 9]);
        assert_eq!(held_on_the_diagonal(&[square(0, 9), square(2, 4), square(2, 4)]), [0, 1, 2, 4, 5, 6, 7, 8, 9]);
    }

    #[test]
    fn the_edge_of_a_hole_to_a_millionth() {
        let rings = [square(0, 8), square(2, 5)].join(",");
        let at = |lon: i64| is_held(&rings, lon, 3 * DEGREE);
        assert_eq!([2 * DEGREE - 1, 2 * DEGREE, 2 * DEGREE + 1].map(at), [true, true, false]);
        assert_eq!([5 * DEGREE - 1, 5 * DEGREE, 5 * DEGREE + 1].map(at), [false, true, true]);
        // The hole's lower edge lies east of these points, on their parallel.
        assert_eq!([0, DEGREE].map(|lon| is_held(&rings, lon, 2 * DEGREE)), [true, true]);
    }

    #[test]
    fn a_hole_cuts_its_own_polygon_only() {
        let holed = format!("[{},{}]", square(0, 8), square(2, 5));
        for (other, held) in [(format!("[{}]", square(3, 4)), false), (format!("[{}]", square(1, 6)), true)] {
            for polygons in [format!("{holed},{other}"), format!("{other},{holed}")] {
                let file = zones(&area(&polygons, RULES));
                let at = |lon| zone_rule(&file, lon, 2_500_000, b"", 0) != Ruling::NoRule;
                assert_eq!([1_000_000, 2_500_000].map(at), [true, held], "{polygons}");
            }
        }
    }

    #[test]
    fn only_rules_that_name_the_type() {
        let rules = r#""rules":[{"vehicle_type_id":[],"ride_allowed":false,"ride_through_allowed":false,"maximum_speed_kph":1},
            {"vehicle_type_id":["a","b"],"ride_allowed":true,"ride_through_allowed":false,"maximum_speed_kph":20},
            {"ride_allowed":false,"ride_through_allowed":true,"station_parking":true}]"#;
        let file = zones(&zone(CLOCKWISE, rules));
        let ask = |type_id: &[u8]| zone_rule(&file, DEGREE, DEGREE, type_id, 0);
        let named = Rule { ride: true, through: false, speed: Some(20), parking: Some(true) };
        let others = Rule { ride: false, through: true, speed: None, parking: Some(true) };
        assert_eq!(ask(b"b"), Ruling::Is(named));
        assert_eq!(ask(b"c"), Ruling::Is(others));
        assert_eq!(ask(b""), Ruling::Is(others));
    }

    #[test]
    fn each_value_from_the_first_rule_that_gives_it() {
        let park = zone(CLOCKWISE, r#""rules":[{"ride_allowed":false,"ride_through_allowed":false,"maximum_speed_kph":""}]"#);
        let town = zone(
            "[[1,0],[1,4],[4,4],[4,0],[1,0]]",
            r#""rules":[{"ride_allowed":true,"ride_through_allowed":true,"maximum_speed_kph":0},
                {"ride_allowed":true,"ride_through_allowed":true,"maximum_speed_kph":9,"station_parking":false}]"#,
        );
        let file = zones(&format!("{park},{town}"));
        let ask = |lon: i64| zone_rule(&file, lon * DEGREE, DEGREE, b"", 0);
        let in_park = Rule { ride: false, through: false, speed: None, parking: None };
        let in_town = Rule { ride: true, through: true, speed: Some(0), parking: Some(false) };
        assert_eq!(ask(0), Ruling::Is(in_park));
        assert_eq!(ask(2), Ruling::Is(Rule { ride: false, through: false, ..in_town }));
        assert_eq!(ask(3), Ruling::Is(in_town));
        assert_eq!(ask(5), Ruling::NoRule);
    }

    #[test]
    fn a_zone_starts_at_start_and_is_over_at_end() {
        let file = zones(&zone(CLOCKWISE, &format!(r#""start":10,"end":20,{RULES}"#)));
        for (moment, counts) in [(9, false), (10, true), (19, true), (20, false)] {
            assert_eq!(zone_rule(&file, DEGREE, DEGREE, b"", moment) != Ruling::NoRule, counts, "{moment}");
        }
    }

    #[test]
    fn the_order_of_refusals() {
        assert_eq!(zone_rule(b"[", 180_000_001, 0, b"", 0), Ruling::OffMap);
        assert_eq!(zone_rule(b"[", 0, -90_000_001, b"", 0), Ruling::OffMap);
        assert_eq!(zone_rule(b"[", i64::MIN, 0, b"", 0), Ruling::OffMap);
        let cut = Parts { file: 6, kind: 2, offset: 1, ..Parts::default() };
        assert_eq!(zone_rule(b"[", -180_000_000, 90_000_000, b"", 0), Ruling::NotClean(cut));
        assert_eq!(zone_rule(b"", 0, 0, b"", 0), Ruling::NoRule);
    }
}
