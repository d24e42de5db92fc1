//! Rings of positions, in millionths of a degree.

use crate::rng::Rng;
use reference::coordinates::{area_sum, Point};

const DEGREE: i64 = 1_000_000;

/// A closed ring of at most so many positions, at least 4, whose area is not zero. Many have corners on a coarse grid, so that points, edges
/// and parallels meet; some touch an end of the map.
pub fn ring(rng: &mut Rng, most: usize, full: bool) -> Vec<Point> {
    let positions = if full { most } else { rng.between(4, most as i64) as usize };
    let step = rng.one_of(&[1, 1000, DEGREE / 4, DEGREE]);
    let mut ring = match rng.below(4) {
        0 => tangle(rng, positions, step),
        _ => band(rng, positions, step),
    };
    if area_sum(&ring) == 0 {
        ring = square(step);
    }
    if !full && rng.chance(10) {
        ring = at_an_end(rng, ring);
    }
    if rng.flip() {
        ring.reverse();
    }
    ring
}

/// A further ring for a polygon that has these: one of them again, shrunk, moved or as it is, or a ring that none of them tells of.
/// It may lie inside the others, touch them, cross them or lie apart.
pub fn hole(rng: &mut Rng, rings: &[Vec<Point>], most: usize) -> Vec<Point> {
    let like = rng.pick(rings);
    let mut hole = match rng.below(8) {
        0..=2 => shrunk(rng, like),
        3..=5 => moved(rng, like),
        6 => like.clone(),
        _ => return ring(rng, most, false),
    };
    if area_sum(&hole) == 0 {
        hole = like.clone();
    }
    if rng.flip() {
        hole.reverse();
    }
    hole
}

/// The ring at a half or a quarter of its size, drawn together towards a corner or halfway between two.
fn shrunk(rng: &mut Rng, ring: &[Point]) -> Vec<Point> {
    let (one, other) = (*rng.pick(ring), *rng.pick(ring));
    let centre = match rng.chance(30) {
        true => one,
        false => Point { lon: (one.lon + other.lon) / 2, lat: (one.lat + other.lat) / 2 },
    };
    let part = rng.one_of(&[2, 4]);
    let towards = |from: i64, to: i64| to + (from - to) / part;
    ring.iter().map(|point| Point { lon: towards(point.lon, centre.lon), lat: towards(point.lat, centre.lat) }).collect()
}

/// The ring moved east and north or back, by nothing, half of its width or height, or all of it. On the map's border it is cut.
fn moved(rng: &mut Rng, ring: &[Point]) -> Vec<Point> {
    let mut way = |numbers: Vec<i64>| {
        let width = numbers.iter().max().unwrap() - numbers.iter().min().unwrap();
        rng.one_of(&[0, width / 2, -width / 2, width, -width])
    };
    let east = way(ring.iter().map(|point| point.lon).collect());
    let north = way(ring.iter().map(|point| point.lat).collect());
    let onto_map = |value: i64, end: i64| value.clamp(-end * DEGREE, end * DEGREE);
    ring.iter().map(|point| Point { lon: onto_map(point.lon + east, 180), lat: onto_map(point.lat + north, 90) }).collect()
}

/// The ring moved to a corner of the map.
fn at_an_end(rng: &mut Rng, ring: Vec<Point>) -> Vec<Point> {
    let mut moved = |numbers: Vec<i64>, end: i64| -> i64 {
        let (least, most) = (*numbers.iter().min().unwrap(), *numbers.iter().max().unwrap());
        if rng.flip() {
            end - most
        } else {
            -end - least
        }
    };
    let east = moved(ring.iter().map(|point| point.lon).collect(), 180 * DEGREE);
    let north = moved(ring.iter().map(|point| point.lat).collect(), 90 * DEGREE);
    ring.into_iter().map(|Point { lon, lat }| Point { lon: lon + east, lat: lat + north }).collect()
}

/// Corners anywhere, edges that may cross.
fn tangle(rng: &mut Rng, positions: usize, step: i64) -> Vec<Point> {
    let mut ring: Vec<Point> =
        (1..positions).map(|_| Point { lon: rng.between(-9, 9) * step, lat: rng.between(-9, 9) * step }).collect();
    ring.push(ring[0]);
    ring
}

/// East along an upper border, back west along a lower one.
fn band(rng: &mut Rng, positions: usize, step: i64) -> Vec<Point> {
    let upper = 1 + rng.below(positions - 2);
    let lower = positions - 1 - upper;
    let centre = Point { lon: rng.between(-30, 30) * DEGREE, lat: rng.between(-60, 60) * DEGREE };
    let step = step.min(DEGREE / 2);
    let border = |rng: &mut Rng, count: usize, side: i64| -> Vec<Point> {
        let height = |rng: &mut Rng| side * rng.between(1, 8) * step;
        (0..count as i64).map(|east| Point { lon: centre.lon + east * step, lat: centre.lat + height(rng) }).collect()
    };
    let mut ring = border(rng, upper, 1);
    let mut back = border(rng, lower, -1);
    back.reverse();
    ring.append(&mut back);
    ring.push(ring[0]);
    ring
}

/// A small square at the origin, clockwise.
fn square(step: i64) -> Vec<Point> {
    [(0, 0), (0, 1), (1, 1), (1, 0), (0, 0)].map(|(lon, lat)| Point { lon: lon * step, lat: lat * step }).to_vec()
}
