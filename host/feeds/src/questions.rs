//! Questions about a set, drawn from what its files say so that they fall inside, on and just past its borders.

use crate::listed::records;
use crate::rng::Rng;
use crate::tree::{Members, Tree};
use crate::{Set, FILES};
use reference::coordinates::{rounded, Point};
use reference::decimal::decimal;
use reference::json::parse;
use reference::table::name_of;

/// What a ride costs.
#[derive(Clone, Debug, PartialEq, Eq)]
pub struct Ride {
    pub plan: Vec<u8>,
    pub seconds: u64,
    pub metres: u64,
}

/// What the rules at a place allow.
#[derive(Clone, Debug, PartialEq, Eq)]
pub struct Where {
    pub lon: i64,
    pub lat: i64,
    pub vehicle_type: Vec<u8>,
    pub moment: u64,
}

/// Where a record stands.
#[derive(Clone, Copy, Debug, PartialEq, Eq)]
pub struct Which {
    pub file: u64,
    pub number: u64,
}

/// A source of questions about one set.
pub struct Questions {
    rng: Rng,
    plans: Vec<String>,
    /// Starts and ends of segments, in minutes or kilometres.
    bounds: Vec<u64>,
    types: Vec<String>,
    corners: Vec<Point>,
    /// The corners of each further ring of a polygon.
    holes: Vec<Vec<Point>>,
    moments: Vec<u64>,
    records: [usize; FILES],
}

impl Questions {
    /// Files that are no JSON say nothing; broken ones are drawn from as far as they can be read.
    pub fn about(set: &Set, seed: u64) -> Questions {
        let trees = set.each_ref().map(|bytes| parse(bytes).map_or(Tree::Null, |tree| Tree::from(&tree)));
        let rows = |file: u8| records(file, &trees[usize::from(file) - 1]).iter().filter_map(Tree::members);
        let texts = |file: u8, field: u8| {
            rows(file).filter_map(|row| row.get(name_of(file, field))?.as_text()).map(String::from).collect::<Vec<_>>()
        };
        let inner = |row: &Members, field: u8| row.get(name_of(6, field)).and_then(Tree::members).cloned().unwrap_or_default();
        let segments = |row: &Members| {
            let arrays = [56, 61].map(|field| row.get(name_of(5, field)).map(Tree::items).unwrap_or_default().to_vec());
            arrays.concat()
        };
        let area = |row| inner(row, 71).get(name_of(6, 73)).map(Tree::items).unwrap_or_default().to_vec();
        let polygons: Vec<Tree> = rows(6).flat_map(area).collect();
        let holes = polygons.iter().flat_map(|polygon| polygon.items().iter().skip(1));
        Questions {
            rng: Rng::new(seed),
            plans: texts(5, 50),
            bounds: rows(5).flat_map(segments).flat_map(|segment| integers(segment.members(), &["start", "end"])).collect(),
            types: texts(1, 10),
            corners: polygons.iter().flat_map(Tree::items).flat_map(corners).collect(),
            holes: holes.map(corners).filter(|hole| !hole.is_empty()).collect(),
            moments: rows(6).flat_map(|row| integers(Some(&inner(row, 74)), &["start", "end"])).collect(),
            records: std::array::from_fn(|index| records(index as u8 + 1, &trees[index]).len()),
        }
    }

    pub fn ride(&mut self) -> Ride {
        let plan = some_id(&mut self.rng, &self.plans);
        let seconds = self.length(60, 2_678_400);
        let metres = self.length(1000, 1_000_000);
        Ride { plan, seconds, metres }
    }

    /// A ride's length: near a border of a segment, near the longest, or any.
    fn length(&mut self, unit: u64, most: u64) -> u64 {
        let rng = &mut self.rng;
        match rng.below(10) {
            0..=4 if !self.bounds.is_empty() => {
                let border = rng.pick(&self.bounds).saturating_mul(unit);
                border.saturating_add(rng.one_of(&[0, unit - 1, unit])).saturating_sub(rng.one_of(&[0, 1])).min(most)
            }
            5 => rng.one_of(&[0, most - 1, most]),
            6 if rng.chance(30) => rng.one_of(&[most + 1, u64::MAX]),
            7 => rng.below(most as usize + 1) as u64,
            _ => rng.below(200 * unit as usize) as u64,
        }
    }

    pub fn place(&mut self) -> Where {
        let Point { lon, lat } = self.point();
        let rng = &mut self.rng;
        let vehicle_type = some_id(rng, &self.types);
        let moment = match rng.below(6) {
            0..=2 if !self.moments.is_empty() => {
                rng.pick(&self.moments).saturating_add(rng.one_of(&[0, 1])).saturating_sub(rng.one_of(&[0, 1]))
            }
            3 => rng.one_of(&[0, u64::MAX]),
            _ => rng.below(1200) as u64,
        };
        Where { lon, lat, vehicle_type, moment }
    }

    fn point(&mut self) -> Point {
        let rng = &mut self.rng;
        let anywhere = Point { lon: rng.between(-180_000_000, 180_000_000), lat: rng.between(-90_000_000, 90_000_000) };
        if self.corners.is_empty() || rng.chance(10) {
            return match rng.below(8) {
                0 => Point { lon: rng.one_of(&[180_000_001, -180_000_001, i64::MIN, i64::MAX]), ..anywhere },
                1 => Point { lat: rng.one_of(&[90_000_001, -90_000_001, i64::MIN, i64::MAX]), ..anywhere },
                2 => Point { lon: rng.one_of(&[-180_000_000, 180_000_000]), lat: rng.one_of(&[-90_000_000, 90_000_000]) },
                _ => anywhere,
            };
        }
        let corners = match self.holes.is_empty() || rng.chance(60) {
            true => &self.corners,
            false => rng.pick(&self.holes),
        };
        let index = rng.below(corners.len());
        let corner = corners[index];
        let next = corners[(index + 1) % corners.len()];
        let other = *rng.pick(corners);
        let point = match rng.below(5) {
            0 => corner,
            1 => Point { lon: midpoint(corner.lon, next.lon), lat: midpoint(corner.lat, next.lat) },
            2 => Point { lon: other.lon, lat: corner.lat },
            3 => Point { lon: midpoint(corner.lon, other.lon), lat: corner.lat },
            _ => Point { lon: midpoint(corner.lon, other.lon), lat: midpoint(next.lat, other.lat) },
        };
        let mut nudge = |value: i64, most: i64| (value + rng.one_of(&[0, 0, 0, 1, -1])).clamp(-most, most);
        Point { lon: nudge(point.lon, 180_000_000), lat: nudge(point.lat, 90_000_000) }
    }

    /// Bytes that are a word or nearly one.
    pub fn word(&mut self, word: [u8; 8]) -> Vec<u8> {
        let rng = &mut self.rng;
        let mut bytes = word.to_vec();
        for _ in 0..rng.below(3) {
            let at = rng.below(bytes.len());
            bytes[at] ^= 1 << rng.below(8);
        }
        if rng.chance(5) {
            bytes.resize(rng.below(11), 0);
        }
        bytes
    }

    pub fn record(&mut self) -> Which {
        let rng = &mut self.rng;
        if rng.chance(5) {
            return Which { file: rng.one_of(&[0, 9, 256 + 1, 256 + 8, (1 << 32) + 1, 1 << 63, u64::MAX]), number: 1 };
        }
        let file = rng.below(FILES);
        let count = self.records[file] as u64;
        let number = match rng.below(8) {
            0 => rng.one_of(&[0, count, count + 1, (1 << 32) + 1, u64::MAX]),
            _ => 1 + rng.below(count as usize + 1) as u64,
        };
        Which { file: file as u64 + 1, number }
    }
}

fn midpoint(a: i64, b: i64) -> i64 {
    (a + b) / 2
}

/// An id of the file, or one that no record can have.
fn some_id(rng: &mut Rng, ids: &[String]) -> Vec<u8> {
    if !ids.is_empty() && rng.chance(85) {
        let mut id = rng.pick(ids).clone().into_bytes();
        if rng.chance(5) {
            id.push(b' ');
        }
        return id;
    }
    match rng.below(4) {
        0 => Vec::new(),
        1 => vec![b'x'; 101],
        2 => b"\xFF\xFE".to_vec(),
        _ => b"nobody".to_vec(),
    }
}

fn integers(members: Option<&Members>, names: &[&str]) -> Vec<u64> {
    let value = |name: &&str| members?.get(name)?.as_number()?.parse().ok();
    names.iter().filter_map(value).collect()
}

/// The positions of a ring that can be read.
fn corners(ring: &Tree) -> Vec<Point> {
    let millionths = |item: Option<&Tree>| i64::try_from(rounded(decimal(item?.as_number()?.as_bytes())?)).ok();
    let corner =
        |position: &Tree| Some(Point { lon: millionths(position.items().first())?, lat: millionths(position.items().get(1))? });
    ring.items().iter().filter_map(corner).collect()
}
