//! Generated zones have holes of every sort and counts of rings at and past their ceilings, and questions fall on and into the holes.

mod counts;

use counts::Counts;
use feeds::listed::{records, records_mut};
use feeds::questions::Questions;
use feeds::spelling::shortest;
use feeds::tree::Tree;
use feeds::{broken, sound, Set, Size};
use reference::coordinates::{area_sum, polygons, Point, Polygon};
use reference::json::parse;
use reference::table::name_of;
use reference::zone::{side, Side};
use reference::{ceiling, clean, zone_rule, Ruling};

/// The polygons of a sound set, those of all its zones.
fn polygons_of(set: &Set) -> Vec<Polygon> {
    let zones = clean(6, &set[5]).expect("the set keeps every rule");
    let area = |zone: reference::clean::Row| zone.inner(71)?.value(73).map(polygons);
    zones.rows().filter_map(area).flatten().collect()
}

#[test]
fn holes_inside_touching_crossing_and_apart() {
    let mut counts = Counts::default();
    for polygon in (0..500).flat_map(|seed| polygons_of(&sound(seed, &Size::FEW))) {
        let (first, holes) = polygon.split_first().expect("a polygon has a ring");
        for (index, hole) in holes.iter().enumerate() {
            // By its corners, which is near enough to count.
            let by = |ring: &[Point]| hole.iter().map(|&corner| side(ring, corner)).collect::<Vec<_>>();
            let sides = by(first);
            let has = |side| sides.contains(&side);
            counts.count("inside", sides.iter().all(|&side| side == Side::Inside));
            counts.count("touching", has(Side::Edge));
            counts.count("crossing", has(Side::Inside) && has(Side::Outside));
            counts.count("apart", sides.iter().all(|&side| side == Side::Outside));
            counts.count("the first ring once more", sides.iter().all(|&side| side == Side::Edge));
            counts.count("over another hole", holes[..index].iter().any(|other| by(other).contains(&Side::Inside)));
            let clockwise = |ring: &[Point]| area_sum(ring) < 0;
            counts.count("clockwise", clockwise(hole));
            counts.count("counterclockwise", !clockwise(hole));
            counts.count("in a counterclockwise ring", !clockwise(first));
        }
    }
    counts.all_over(50);
}

#[test]
fn counts_of_rings_at_and_past_their_ceilings() {
    let mut counts = Counts::default();
    for seed in 0..16000 {
        let (set, _) = broken(seed, &Size::FEW, seed as usize % 2);
        let tree = parse(&set[5]).map_or(Tree::Null, |tree| Tree::from(&tree));
        for zone in records(6, &tree) {
            let geometry = zone.members().and_then(|zone| zone.get(name_of(6, 71))?.members());
            let polygons = geometry.and_then(|geometry| geometry.get(name_of(6, 73))).map(Tree::items).unwrap_or_default();
            let of_each: Vec<usize> = polygons.iter().map(|polygon| polygon.items().len()).collect();
            let has = |count: usize| of_each.contains(&count);
            let sum: usize = of_each.iter().sum();
            counts.count("no ring", polygons.contains(&Tree::Array(Vec::new())));
            counts.count("8 rings", has(ceiling::RINGS));
            counts.count("9 rings", has(ceiling::RINGS + 1) && sum <= ceiling::ZONE_RINGS);
            counts.count("15 in a zone", sum == ceiling::ZONE_RINGS);
            let within = polygons.len() <= ceiling::POLYGONS && of_each.iter().all(|count| (1..=ceiling::RINGS).contains(count));
            counts.count("16 in a zone that is sound but for this", sum == ceiling::ZONE_RINGS + 1 && within);
        }
    }
    counts.all_over(15);
}

/// The zones of a set without their holes.
fn without_holes(set: &Set) -> Vec<u8> {
    let Ok(tree) = parse(&set[5]) else { return Vec::new() };
    let mut tree = Tree::from(&tree);
    let zones = records_mut(6, &mut tree).expect("the set keeps every rule");
    for zone in zones.iter_mut().filter_map(Tree::members_mut) {
        let geometry = zone.get_mut(name_of(6, 71)).and_then(Tree::members_mut);
        let polygons = geometry.and_then(|geometry| geometry.get_mut(name_of(6, 73))?.items_mut());
        polygons.into_iter().flatten().filter_map(Tree::items_mut).for_each(|rings| rings.truncate(1));
    }
    shortest(&tree)
}

#[test]
fn questions_fall_on_and_into_holes() {
    let mut counts = Counts::default();
    for seed in 0..1000 {
        let set = sound(seed, &Size::FEW);
        let filled = without_holes(&set);
        let polygons = polygons_of(&set);
        let holes: Vec<&Vec<Point>> = polygons.iter().flat_map(|polygon| &polygon[1..]).collect();
        let mut questions = Questions::about(&set, seed);
        for place in (0..10).map(|_| questions.place()) {
            let point = Point { lon: place.lon, lat: place.lat };
            counts.count("a corner", holes.iter().any(|hole| hole.contains(&point)));
            let on_edge = |hole: &&Vec<Point>| !hole.contains(&point) && side(hole, point) == Side::Edge;
            counts.count("an edge between corners", holes.iter().any(on_edge));
            counts.count("strictly inside", holes.iter().any(|hole| side(hole, point) == Side::Inside));
            let ask = |zones: &[u8]| zone_rule(zones, place.lon, place.lat, &place.vehicle_type, place.moment);
            let (holed, filled) = (ask(&set[5]), ask(&filled));
            counts.count("a hole takes all rules away", holed == Ruling::NoRule && filled != Ruling::NoRule);
            counts.count("a hole's edge brings a rule", holed != Ruling::NoRule && filled == Ruling::NoRule);
        }
    }
    counts.all_over(30);
}
