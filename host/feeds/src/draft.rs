//! Sets that keep every rule, as trees.

use crate::rings::{hole, ring};
use crate::rng::Rng;
use crate::size::Size;
use crate::spelling::shortest;
use crate::tree::{Members, Tree};
use crate::{values, Draft};
use reference::ceiling;
use reference::coordinates::Point;
use reference::table::{FORM_FACTORS, PROPULSIONS};

/// A set that keeps every rule. What is said of the system and its regions is drawn apart, so that all else is what a seed would give
/// without it.
pub fn draft(rng: &mut Rng, size: &Size) -> Draft {
    let mut apart = rng.apart();
    let mut maker = Maker::new(&mut apart, size, false, false);
    let system = maker.system();
    let has_regions = size.regions > 0 && (size.full || maker.rng.chance(70));
    let regions = has_regions.then(|| maker.file("regions", size.regions, Maker::region));
    let region_ids = maker.regions;

    let mut there = |percent: usize| size.full || rng.chance(percent);
    let (has_plans, has_types, has_stations, has_zones) = (there(80), there(80), there(80), there(80));
    let has_bikes = there(80) || !has_stations;
    let mut maker = Maker { apart, regions: region_ids, ..Maker::new(rng, size, has_plans, has_types) };

    let plans = has_plans.then(|| maker.file("plans", size.plans, Maker::plan));
    // A type needs a plan if the file of plans is there, a bike a type likewise.
    let types_most = if has_plans && maker.plans.is_empty() { 0 } else { size.types };
    let types = has_types.then(|| maker.file("vehicle_types", types_most, Maker::vehicle_type));
    let stations = has_stations.then(|| maker.file("stations", size.stations, Maker::station));
    maker.rng.shuffle(&mut maker.stations);
    let status = has_stations.then(|| maker.file("stations", maker.stations.len(), Maker::status));
    let bikes_most = if has_types && maker.types.is_empty() { 0 } else { size.bikes };
    let bikes = has_bikes.then(|| maker.file("bikes", bikes_most, Maker::bike));
    let zones = has_zones.then(|| maker.zones());
    [types, stations, status, bikes, plans, zones, Some(system), regions]
}

/// Makes records, and remembers what later ones refer to.
struct Maker<'r> {
    rng: &'r mut Rng,
    size: &'r Size,
    has_plans: bool,
    has_types: bool,
    plans: Vec<String>,
    /// Ids of vehicle types, and whether the type is human.
    types: Vec<(String, bool)>,
    /// Ids of stations, and whether the station has a capacity.
    stations: Vec<(String, bool)>,
    /// Coordinates of zones that others may lie over.
    areas: Vec<Tree>,
    regions: Vec<String>,
    /// Draws the region of a station.
    apart: Rng,
}

/// Left of a file's bytes for its header.
const HEADER: usize = 1_000;

impl<'r> Maker<'r> {
    /// Nothing is made yet.
    fn new(rng: &'r mut Rng, size: &'r Size, has_plans: bool, has_types: bool) -> Maker<'r> {
        let apart = rng.apart();
        let (plans, types, stations, areas, regions) = Default::default();
        Maker { rng, size, has_plans, has_types, plans, types, stations, areas, regions, apart }
    }

    /// How many of something there are.
    fn count(&mut self, most: usize) -> usize {
        if self.size.full {
            most
        } else {
            self.rng.below(most + 1)
        }
    }

    /// Records numbered from 0, as long as they fit the file.
    fn records(&mut self, most: usize, make: fn(&mut Self, usize) -> Tree) -> Tree {
        let mut room = self.size.bytes.saturating_sub(HEADER);
        let mut records = Vec::new();
        for number in 0..self.count(most) {
            let known = (self.plans.len(), self.types.len(), self.stations.len(), self.regions.len());
            let record = make(self, number);
            let length = shortest(&record).len() + 1;
            if length > room {
                self.plans.truncate(known.0);
                self.types.truncate(known.1);
                self.stations.truncate(known.2);
                self.regions.truncate(known.3);
                break;
            }
            room -= length;
            records.push(record);
        }
        Tree::Array(records)
    }

    fn file(&mut self, array: &str, most: usize, make: fn(&mut Self, usize) -> Tree) -> Tree {
        let records = self.records(most, make);
        self.header(Tree::object([(array, records)]))
    }

    fn zones(&mut self) -> Tree {
        let features = self.records(self.size.zones, Maker::zone);
        let zones = Tree::object([("type", Tree::text("FeatureCollection")), ("features", features)]);
        self.header(Tree::object([("geofencing_zones", zones)]))
    }

    fn header(&mut self, data: Tree) -> Tree {
        Tree::object([
            ("version", Tree::text("2.3")),
            ("last_updated", values::integer(self.rng, 2_000_000_000)),
            ("ttl", values::integer(self.rng, 3600)),
            ("data", data),
        ])
    }

    fn system(&mut self) -> Tree {
        let mut system = Members::default();
        for name in ["system_id", "language", "name", "timezone"] {
            system.push(name, values::prose(self.rng));
        }
        let start = (self.size.full || self.rng.chance(80)).then(|| values::date(self.rng));
        self.add(&mut system, "start_date", start);
        self.header(Tree::Object(system))
    }

    fn region(&mut self, number: usize) -> Tree {
        let id = values::id(self.rng, 'r', number, self.size.id);
        self.regions.push(id.clone());
        Tree::object([("region_id", Tree::Text(id)), ("name", values::prose(self.rng))])
    }

    /// The region that a station gives: one that there is, none, or "".
    fn some_region(&mut self) -> Option<Tree> {
        match self.apart.below(10) {
            0..=5 if !self.regions.is_empty() => Some(Tree::Text(self.apart.pick(&self.regions).clone())),
            6 if self.size.regions > 0 => Some(Tree::text("")),
            _ => None,
        }
    }

    fn vehicle_type(&mut self, number: usize) -> Tree {
        let id = values::id(self.rng, 't', number, self.size.id);
        let human = self.rng.chance(30);
        self.types.push((id.clone(), human));
        let propulsions = if human { &PROPULSIONS[..1] } else { &PROPULSIONS[1..] };
        let mut record = Members::default();
        record.push("vehicle_type_id", Tree::Text(id));
        record.push("form_factor", values::word(self.rng, FORM_FACTORS));
        record.push("propulsion_type", values::word(self.rng, propulsions));
        let range = (!human || self.rng.flip()).then(|| values::quantity(self.rng));
        self.add(&mut record, "max_range_meters", range);
        let plan = self.has_plans.then(|| Tree::Text(self.rng.pick(&self.plans).clone()));
        self.add(&mut record, "default_pricing_plan_id", plan);
        Tree::Object(record)
    }

    fn station(&mut self, number: usize) -> Tree {
        let id = values::id(self.rng, 's', number, self.size.id);
        let capacity = self.rng.chance(60).then(|| values::integer(self.rng, 200));
        self.stations.push((id.clone(), capacity.is_some()));
        let mut record = Members::default();
        record.push("station_id", Tree::Text(id));
        record.push("name", values::prose(self.rng));
        record.push("lat", values::degrees(self.rng, 90));
        record.push("lon", values::degrees(self.rng, 180));
        self.add(&mut record, "capacity", capacity);
        if let Some(region) = self.some_region() {
            record.push("region_id", region);
        }
        Tree::Object(record)
    }

    fn status(&mut self, number: usize) -> Tree {
        let (id, has_capacity) = self.stations[number].clone();
        let count = if self.types.is_empty() { 0 } else { self.count(self.size.items) };
        let largest = self.rng.one_of(&[3, 50, 999_999_999_999 / count.max(1) as i64]);
        let counts: Vec<i64> = (0..count).map(|_| self.rng.between(0, largest)).collect();
        let mut record = Members::default();
        record.push("station_id", Tree::Text(id));
        record.push("num_bikes_available", Tree::number(counts.iter().sum::<i64>()));
        let docks = (has_capacity || self.rng.flip()).then(|| values::integer(self.rng, 200));
        self.add(&mut record, "num_docks_available", docks);
        for name in ["is_installed", "is_renting", "is_returning"] {
            record.push(name, Tree::Bool(self.rng.flip()));
        }
        record.push("last_reported", values::integer(self.rng, 2_000_000_000));
        let available = (self.has_types || self.rng.flip()).then(|| {
            let item = |count| Tree::object([("vehicle_type_id", self.some_type()), ("count", Tree::number(count))]);
            Tree::Array(counts.into_iter().map(item).collect())
        });
        self.add(&mut record, "vehicle_types_available", available);
        Tree::Object(record)
    }

    fn bike(&mut self, number: usize) -> Tree {
        let docked = !self.stations.is_empty() && self.rng.chance(30);
        let mut record = Members::default();
        record.push("bike_id", Tree::Text(values::id(self.rng, 'b', number, self.size.id)));
        for (name, limit) in [("lat", 90), ("lon", 180)] {
            let degrees = (!docked || self.rng.flip()).then(|| values::degrees(self.rng, limit));
            self.add(&mut record, name, degrees);
        }
        record.push("is_reserved", Tree::Bool(self.rng.flip()));
        record.push("is_disabled", Tree::Bool(self.rng.flip()));
        let vehicle_type = self.has_types.then(|| self.rng.pick(&self.types).clone());
        let has_motor = vehicle_type.as_ref().is_some_and(|(_, human)| !human);
        self.add(&mut record, "vehicle_type_id", vehicle_type.map(|(id, _)| Tree::Text(id)));
        let range = (has_motor || self.rng.flip()).then(|| values::quantity(self.rng));
        self.add(&mut record, "current_range_meters", range);
        let station = docked.then(|| Tree::text(&self.rng.pick(&self.stations).0));
        self.add(&mut record, "station_id", station);
        let plan = (!self.plans.is_empty() && self.rng.flip()).then(|| Tree::Text(self.rng.pick(&self.plans).clone()));
        self.add(&mut record, "pricing_plan_id", plan);
        let fuel = self.rng.flip().then(|| values::fraction(self.rng));
        self.add(&mut record, "current_fuel_percent", fuel);
        Tree::Object(record)
    }

    fn plan(&mut self, number: usize) -> Tree {
        let id = values::id(self.rng, 'p', number, self.size.id);
        self.plans.push(id.clone());
        let mut record = Members::default();
        record.push("plan_id", Tree::Text(id));
        record.push("name", values::prose(self.rng));
        record.push("currency", Tree::text(self.rng.one_of(&["EUR", "USD", "PLN", "ZZZ"])));
        record.push("price", values::price(self.rng));
        record.push("is_taxable", Tree::Bool(self.rng.flip()));
        record.push("description", values::prose(self.rng));
        for name in ["per_km_pricing", "per_min_pricing"] {
            let segments = (self.size.full || self.rng.chance(80)).then(|| {
                let count = self.count(self.size.segments);
                Tree::Array((0..count).map(|_| self.segment()).collect())
            });
            self.add(&mut record, name, segments);
        }
        let surge = self.rng.flip().then(|| Tree::Bool(self.rng.flip()));
        self.add(&mut record, "surge_pricing", surge);
        Tree::Object(record)
    }

    fn segment(&mut self) -> Tree {
        let mut segment = Members::default();
        segment.push("start", values::integer(self.rng, 60));
        segment.push("rate", values::money(self.rng, -1_000_000));
        segment.push("interval", values::integer(self.rng, 30));
        let end = self.rng.flip().then(|| values::integer(self.rng, 120));
        self.add(&mut segment, "end", end);
        Tree::Object(segment)
    }

    fn zone(&mut self, _number: usize) -> Tree {
        let coordinates = self.area();
        let mut properties = Members::default();
        for name in ["start", "end"] {
            let moment = self.rng.chance(30).then(|| values::integer(self.rng, 1000));
            self.add(&mut properties, name, moment);
        }
        let rules = (self.size.full || self.rng.chance(90)).then(|| {
            let count = self.count(self.size.rules);
            Tree::Array((0..count).map(|_| self.rule()).collect())
        });
        self.add(&mut properties, "rules", rules);
        Tree::object([
            ("type", Tree::text("Feature")),
            ("geometry", Tree::object([("type", Tree::text("MultiPolygon")), ("coordinates", coordinates)])),
            ("properties", Tree::Object(properties)),
        ])
    }

    /// A zone's coordinates. Unless the set is full, many zones lie over an earlier one, so that rules of several apply at a point.
    fn area(&mut self) -> Tree {
        if !self.areas.is_empty() && self.rng.chance(60) {
            return self.rng.pick(&self.areas).clone();
        }
        let polygons = self.count(self.size.polygons);
        let mut holes_left = ceiling::ZONE_RINGS - polygons;
        let mut polygon = |_| {
            let rings = self.polygon(holes_left);
            holes_left -= rings.len() - 1;
            Tree::Array(rings)
        };
        let area = Tree::Array((0..polygons).map(&mut polygon).collect());
        if !self.size.full && polygons > 0 {
            self.areas.push(area.clone());
        }
        area
    }

    /// A ring, and at most so many holes. Half of the polygons have none, some have as many as they may.
    fn polygon(&mut self, most_holes: usize) -> Vec<Tree> {
        let mut rings = vec![ring(self.rng, self.size.positions, self.size.full)];
        let most_holes = most_holes.min(self.size.holes);
        if most_holes > 0 {
            let holes = match self.rng.below(8) {
                0..=3 => 0,
                4..=6 => 1 + self.rng.below(most_holes.min(3)),
                _ => most_holes,
            };
            for _ in 0..holes {
                rings.push(hole(self.rng, &rings, self.size.positions));
            }
        }
        rings.into_iter().map(|ring| self.ring(ring)).collect()
    }

    fn ring(&mut self, ring: Vec<Point>) -> Tree {
        Tree::Array(ring.into_iter().map(|point| self.position(point)).collect())
    }

    fn position(&mut self, Point { lon, lat }: Point) -> Tree {
        let mut items = vec![self.ordinate(180, lon), self.ordinate(90, lat)];
        if self.rng.chance(10) {
            items.push(Tree::number(self.rng.one_of(&["0", "-1e400", "12345678901234567890", "1.5E-3"])));
        }
        Tree::Array(items)
    }

    fn ordinate(&mut self, limit: i64, millionths: i64) -> Tree {
        if !self.size.full && self.rng.chance(5) {
            return values::halfway(millionths);
        }
        values::coordinate(self.rng, limit, Some(millionths))
    }

    fn rule(&mut self) -> Tree {
        let mut rule = Members::default();
        let named = if self.size.full { 70 } else { 40 };
        let types = self.rng.chance(named).then(|| {
            let count = if self.types.is_empty() { 0 } else { self.count(self.size.items) };
            Tree::Array((0..count).map(|_| self.some_type()).collect())
        });
        self.add(&mut rule, "vehicle_type_id", types);
        rule.push("ride_allowed", Tree::Bool(self.rng.flip()));
        rule.push("ride_through_allowed", Tree::Bool(self.rng.flip()));
        let speed = self.rng.flip().then(|| values::integer(self.rng, 40));
        self.add(&mut rule, "maximum_speed_kph", speed);
        let parking = self.rng.flip().then(|| Tree::Bool(self.rng.flip()));
        self.add(&mut rule, "station_parking", parking);
        Tree::Object(rule)
    }

    fn some_type(&mut self) -> Tree {
        Tree::text(&self.rng.pick(&self.types).0)
    }

    /// Adds a member that may be absent, either left out or holding "".
    fn add(&mut self, record: &mut Members, name: &str, value: Option<Tree>) {
        match value {
            Some(value) => record.push(name, value),
            None if self.rng.chance(10) => record.push(name, Tree::text("")),
            None => {}
        }
    }
}

#[cfg(test)]
mod tests {
    use super::*;
    use crate::listed::records;
    use crate::questions::Questions;
    use crate::respell;
    use reference::zone::{zone_rule, Rule, Ruling};

    /// A file of one zone.
    fn alone(zone: &Tree) -> Vec<u8> {
        let features = Tree::Array(vec![zone.clone()]);
        let zones = Tree::object([("type", Tree::text("FeatureCollection")), ("features", features)]);
        shortest(&Tree::object([
            ("version", Tree::text("2.3")),
            ("last_updated", Tree::number("0")),
            ("ttl", Tree::number("0")),
            ("data", Tree::object([("geofencing_zones", zones)])),
        ]))
    }

    #[test]
    fn zones_lie_over_others_and_leave_values_to_them() {
        let (mut speeds, mut parkings) = (0, 0);
        for seed in 0..500 {
            let mut rng = Rng::new(seed);
            let trees = draft(&mut rng, &Size::FEW);
            let Some(zones) = &trees[5] else { continue };
            let files: Vec<_> = records(6, zones).iter().map(alone).collect();
            let set = respell::write(trees, &mut rng);
            let mut questions = Questions::about(&set, seed);
            for place in (0..20).map(|_| questions.place()) {
                let ask = |file: &[u8]| match zone_rule(file, place.lon, place.lat, &place.vehicle_type, place.moment) {
                    Ruling::Is(rule) => Some(rule),
                    _ => None,
                };
                if let (Some(first), Some(all)) = (files.iter().find_map(|file| ask(file)), ask(&set[5])) {
                    assert_eq!((first.ride, first.through), (all.ride, all.through), "seed {seed}");
                    let left = |value: fn(&Rule) -> bool| usize::from(!value(&first) && value(&all));
                    speeds += left(|rule| rule.speed.is_some());
                    parkings += left(|rule| rule.parking.is_some());
                }
            }
        }
        assert!(speeds > 80 && parkings > 80, "{speeds} speeds, {parkings} parkings");
    }
}
