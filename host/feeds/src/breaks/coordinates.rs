//! Field 73 broken: polygons, rings and positions.

use super::field::{no_object, wrong_type, wrong_values, Broken};
use crate::rng::Rng;
use crate::tree::Tree;
use crate::values::fixed;
use reference::coordinates::rounded;
use reference::decimal::decimal;
use reference::table::Form;
use reference::{ceiling, kind};

/// A ring of positions in whole degrees.
fn ring(positions: &[(i64, i64)]) -> Tree {
    Tree::Array(positions.iter().map(|&(lon, lat)| Tree::Array(vec![Tree::number(lon), Tree::number(lat)])).collect())
}

/// A small sound ring.
fn triangle() -> Tree {
    ring(&[(0, 0), (0, 1), (1, 1), (0, 0)])
}

fn rings_in(polygons: &[Tree]) -> usize {
    polygons.iter().map(|polygon| polygon.items().len()).sum()
}

fn positions_in(rings: &[Tree]) -> usize {
    rings.iter().map(|ring| ring.items().len()).sum()
}

/// The number of a polygon's first position, or the number that it would have.
fn first_of(polygons: &[Tree], index: usize) -> usize {
    1 + polygons[..index].iter().map(|polygon| positions_in(polygon.items())).sum::<usize>()
}

/// Breaks a rule about a zone's polygons, and blames the number of the position that the verdict names.
pub fn break_coordinates(polygons: &mut Vec<Tree>, rng: &mut Rng) -> Option<Broken> {
    if polygons.is_empty() {
        polygons.push(Tree::Array(vec![triangle()]));
    }
    match rng.below(12) {
        0 => add_polygons(polygons, rng),
        1 | 2 => add_rings(polygons, rng),
        3..=5 => return break_polygon(polygons, rng),
        _ => return break_in_ring(polygons, rng),
    }
    Some(Broken::at_sub(kind::TOO_MANY, 0))
}

/// Some polygon again and again, until there is one too many.
fn add_polygons(polygons: &mut Vec<Tree>, rng: &mut Rng) {
    let polygon = rng.pick(polygons).clone();
    polygons.resize(ceiling::POLYGONS + 1, polygon);
}

/// Rings here and there until the zone has one too many of them, but neither too many polygons nor a polygon of too many rings.
fn add_rings(polygons: &mut Vec<Tree>, rng: &mut Rng) {
    while rings_in(polygons) <= ceiling::ZONE_RINGS {
        let index = rng.below(polygons.len());
        match polygons[index].items_mut() {
            Some(rings) if rings.len() < ceiling::RINGS => rings.push(triangle()),
            _ => polygons.push(Tree::Array(vec![triangle()])),
        }
    }
}

/// Breaks a polygon as a whole.
fn break_polygon(polygons: &mut [Tree], rng: &mut Rng) -> Option<Broken> {
    let index = rng.below(polygons.len());
    let first = first_of(polygons, index);
    let kind = match rng.below(3) {
        0 => {
            polygons[index].items_mut()?.clear();
            kind::RING
        }
        1 => {
            polygons[index].items_mut()?.resize(ceiling::RINGS + 1, triangle());
            kind::RING
        }
        _ => {
            polygons[index] = no_object(rng);
            kind::TYPE
        }
    };
    // Too many rings in the zone come first.
    let is_too_many = rings_in(polygons) > ceiling::ZONE_RINGS;
    Some(if is_too_many { Broken::at_sub(kind::TOO_MANY, 0) } else { Broken::at_sub(kind, first) })
}

/// Breaks a ring, the first of its polygon or a hole, or a position in it.
fn break_in_ring(polygons: &mut [Tree], rng: &mut Rng) -> Option<Broken> {
    let index = rng.below(polygons.len());
    let first = first_of(polygons, index);
    let rings = polygons[index].items_mut()?;
    let index = rng.below(rings.len().max(1));
    let first = first + positions_in(rings.get(..index)?);
    let ring = rings.get_mut(index)?;
    if rng.chance(60) {
        return break_ring(ring, rng).map(|kind| Broken::at_sub(kind, first));
    }
    let positions = ring.items_mut()?;
    let index = rng.below(positions.len().max(1));
    let kind = break_position(positions.get_mut(index)?, rng)?;
    Some(Broken::at_sub(kind, first + index))
}

/// Breaks a ring as a whole.
fn break_ring(tree: &mut Tree, rng: &mut Rng) -> Option<u8> {
    match rng.below(5) {
        0 => {
            *tree = no_object(rng);
            return Some(kind::TYPE);
        }
        1 => {
            let positions = tree.items_mut()?;
            let first = positions.first()?.clone();
            positions.resize(ceiling::POSITIONS + 1, first);
            return Some(kind::TOO_MANY);
        }
        2 => {
            let count = rng.below(4);
            tree.items_mut()?.truncate(count);
        }
        3 => {
            let positions = tree.items_mut()?;
            let shifted = shift(positions.first()?, rng)?;
            *positions.last_mut()? = shifted;
        }
        _ => *tree = ring(&[(0, 0), (1, 1), (2, 2), (0, 0)]),
    }
    Some(kind::RING)
}

/// A position that differs from a sound one when both are rounded: by degrees, by a millionth, or by half a millionth that rounds away.
fn shift(position: &Tree, rng: &mut Rng) -> Option<Tree> {
    let mut shifted = position.clone();
    let lon = shifted.items_mut()?.first_mut()?;
    let millionths = i64::try_from(rounded(decimal(lon.as_number()?.as_bytes())?)).ok()?;
    *lon = Tree::Number(match rng.below(3) {
        0 if millionths.abs() < 180_000_000 => fixed(millionths + 1, 6),
        1 if millionths.abs() < 180_000_000 => fixed(millionths, 6) + "5",
        _ if millionths == 10_500_000 => "20.5".into(),
        _ => "10.5".into(),
    });
    Some(shifted)
}

/// Breaks a position by itself.
fn break_position(position: &mut Tree, rng: &mut Rng) -> Option<u8> {
    if rng.chance(15) {
        *position = no_object(rng);
        return Some(kind::TYPE);
    }
    let items = position.items_mut()?;
    match rng.below(4) {
        0 => {
            items.truncate(2);
            items.push(wrong_type(Form::Money, rng));
            Some(kind::TYPE)
        }
        1 => {
            match rng.flip() {
                true => items.truncate(rng.below(2)),
                false => items.resize(4 + rng.below(3), Tree::number(0)),
            }
            Some(kind::RING)
        }
        choice => {
            let (index, limit) = if choice == 2 { (0, 180) } else { (1, 90) };
            let form = Form::Number(-limit, limit);
            let (wrong, kind) = match rng.chance(30) {
                true => (wrong_type(form, rng), kind::TYPE),
                false => rng.pick(&wrong_values(form)?).clone(),
            };
            *items.get_mut(index)? = wrong;
            Some(kind)
        }
    }
}
