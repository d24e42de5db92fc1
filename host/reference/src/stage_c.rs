//! Stage C: what the files of a set say of each other, kinds 12 to 15.

use crate::clean::{repeated_id, Clean, Row};
use crate::fault::{Fault, Least, Place};
use crate::json::Value;
use crate::{kind, Parts, FILES};
use std::collections::HashMap;

/// The least fault of a set whose files are through stage B, in the order of file, record, field, sub, kind.
pub fn stage_c(set: &[Clean; FILES]) -> Option<Parts> {
    let index = Index::of(set);
    set.iter().find_map(|file| index.least(file).map(|fault| fault.parts(file.file)))
}

/// The ids of a file, each with a mark: does it hold for some record of that id?
type Ids<'t> = HashMap<&'t [u8], bool>;

/// What records of other files are asked about.
struct Index<'t> {
    present: [bool; FILES],
    /// Marked where a vehicle type is not human.
    types: Ids<'t>,
    /// Marked where a station has a capacity.
    stations: Ids<'t>,
    /// Never marked.
    plans: Ids<'t>,
    /// Never marked.
    regions: Ids<'t>,
}

impl<'t> Index<'t> {
    fn of(set: &'t [Clean; FILES]) -> Index<'t> {
        let [types, stations, _, _, plans, _, _, regions] = set;
        Index {
            present: set.each_ref().map(|file| file.tree.is_some()),
            types: ids(types, 10, |row| !is_human(row)),
            stations: ids(stations, 20, |row| row.has(24)),
            plans: ids(plans, 50, |_| false),
            regions: ids(regions, 100, |_| false),
        }
    }

    fn has_file(&self, file: u8) -> bool {
        self.present[usize::from(file) - 1]
    }

    /// The least fault of one file.
    fn least(&self, file: &Clean) -> Option<Fault> {
        if self.is_absent_wrongly(file.file) {
            return Some(Fault { record: 0, field: 0, sub: 0, kind: kind::CONDITION });
        }
        let mut least = Least(repeated_id(file));
        for (row, record) in file.rows().zip(1..) {
            let mut blame_if = |broken: bool, sub: usize, field: u8, kind: u8| {
                if broken {
                    least.blame(Place { record, sub }, field, kind);
                }
            };
            match file.file {
                1 => self.vehicle_type(row, &mut blame_if),
                2 => self.station(row, &mut blame_if),
                3 => self.status(row, &mut blame_if),
                4 => self.bike(row, &mut blame_if),
                6 => self.zone(row, &mut blame_if),
                _ => {}
            }
        }
        least.0
    }

    /// Stations and their status come together; a set without stations has bikes; and every set says what system it is of.
    fn is_absent_wrongly(&self, file: u8) -> bool {
        let wanted = match file {
            2 => self.has_file(3),
            3 => self.has_file(2),
            4 => !self.has_file(2),
            7 => true,
            _ => false,
        };
        wanted && !self.has_file(file)
    }

    fn vehicle_type(&self, row: Row, blame_if: &mut impl FnMut(bool, usize, u8, u8)) {
        blame_if(!is_human(row) && !row.has(13), 0, 13, kind::CONDITION);
        blame_if(self.has_file(5) && !row.has(14), 0, 14, kind::CONDITION);
        blame_if(is_unknown(row.text(14), &self.plans), 0, 14, kind::REFERENCE);
    }

    fn station(&self, row: Row, blame_if: &mut impl FnMut(bool, usize, u8, u8)) {
        blame_if(is_unknown(row.text(25), &self.regions), 0, 25, kind::REFERENCE);
    }

    fn status(&self, row: Row, blame_if: &mut impl FnMut(bool, usize, u8, u8)) {
        let station = row.text(30);
        blame_if(is_unknown(station, &self.stations), 0, 30, kind::REFERENCE);
        blame_if(is_marked(station, &self.stations) && !row.has(32), 0, 32, kind::CONDITION);
        blame_if(self.has_file(1) && !row.has(37), 0, 37, kind::CONDITION);
        let mut sum = 0;
        for (item, number) in row.items(37).zip(1..) {
            blame_if(is_unknown(item.text(38), &self.types), number, 38, kind::REFERENCE);
            sum += item.integer(39).unwrap_or(0);
        }
        blame_if(row.has(37) && Some(sum) != row.integer(31), 0, 37, kind::SUM);
    }

    fn bike(&self, row: Row, blame_if: &mut impl FnMut(bool, usize, u8, u8)) {
        let docked = row.has(47);
        let vehicle_type = row.text(45);
        blame_if(!docked && !row.has(41), 0, 41, kind::CONDITION);
        blame_if(!docked && !row.has(42), 0, 42, kind::CONDITION);
        blame_if(self.has_file(1) && vehicle_type.is_none(), 0, 45, kind::CONDITION);
        blame_if(is_unknown(vehicle_type, &self.types), 0, 45, kind::REFERENCE);
        blame_if(is_marked(vehicle_type, &self.types) && !row.has(46), 0, 46, kind::CONDITION);
        blame_if(is_unknown(row.text(47), &self.stations), 0, 47, kind::REFERENCE);
        blame_if(is_unknown(row.text(48), &self.plans), 0, 48, kind::REFERENCE);
    }

    fn zone(&self, row: Row, blame_if: &mut impl FnMut(bool, usize, u8, u8)) {
        let Some(properties) = row.inner(74) else { return };
        for (rule, number) in properties.items(77).zip(1..) {
            for id in rule.value(78).map(Value::items).unwrap_or_default() {
                blame_if(is_unknown(id.as_text(), &self.types), number, 78, kind::REFERENCE);
            }
        }
    }
}

fn ids<'t>(file: &'t Clean, id: u8, mark: impl Fn(Row) -> bool) -> Ids<'t> {
    let mut ids = HashMap::new();
    for row in file.rows() {
        if let Some(id) = row.text(id) {
            *ids.entry(id).or_default() |= mark(row);
        }
    }
    ids
}

/// Is an id given that is none of these?
fn is_unknown(id: Option<&[u8]>, ids: &Ids) -> bool {
    id.is_some_and(|id| !ids.contains_key(id))
}

fn is_marked(id: Option<&[u8]>, ids: &Ids) -> bool {
    id.and_then(|id| ids.get(id)).is_some_and(|&mark| mark)
}

fn is_human(vehicle_type: Row) -> bool {
    vehicle_type.text(12).is_some_and(|word| word.eq_ignore_ascii_case(b"human"))
}
