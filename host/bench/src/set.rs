//! A set near the ceilings, with questions that its files answer.

use crate::questions::Question;
use crate::worst::Made;
use feeds::questions::{Questions, Ride, Where};
use feeds::{sound, Set, Size, FILES};
use reference::Files;
use std::ffi::CString;
use std::{fs, io};

/// A set and what is asked about it.
pub struct Bench {
    pub files: Set,
    pub ride: Ride,
    pub place: Where,
    /// File 6 up to its last bracket: a verdict ends with stage A, which reads it all, and no more than it.
    cut_off: Vec<u8>,
    /// File 6 with one of its last values of another type: a verdict ends with stage B, which reads it all.
    mistyped: Vec<u8>,
    /// The files of stage A for RapidJSON, which reads up to NUL.
    pub texts: Vec<CString>,
}

impl Bench {
    pub fn named(name: &str) -> Option<Bench> {
        // Regions are left to the worst set of that name: what is counted on these two can be held beside what was counted without them.
        let size = match name {
            "many" => Size { regions: 0, ..Size::MANY },
            "full" => Size { regions: 0, ..Size::FULL },
            _ => {
                let Made { files, ride, place } = Made::named(name)?;
                return Bench::of(files, ride, place);
            }
        };
        let mut files = sound(7, &size);
        files.iter_mut().for_each(|file| within_double(file));
        let mut questions = Questions::about(&files, 1);
        let ride = first(
            || questions.ride(),
            |ride| {
                let quote = reference::quote(&files[4], &ride.plan, ride.seconds, ride.metres);
                matches!(quote, reference::Quote::Fare { .. })
            },
        );
        let place = first(
            || questions.place(),
            |place| {
                let ruling = reference::zone_rule(&files[5], place.lon, place.lat, &place.vehicle_type, place.moment);
                ruling == reference::Ruling::NoRule
            },
        );
        Bench::of(files, ride, place)
    }

    fn of(files: Set, ride: Ride, place: Where) -> Option<Bench> {
        let (cut_off, mistyped) = (cut_off(&files[5])?, mistyped(&files[5])?);
        let mut set = Bench { files, ride, place, cut_off, mistyped, texts: Vec::new() };
        set.texts = set.files(Question::StageA).into_iter().map(|file| CString::new(file).ok()).collect::<Option<_>>()?;
        Some(set)
    }

    /// The files that a verdict is asked on, by how far it is to go.
    pub fn files(&self, question: Question) -> Files<'_> {
        let mut files = feeds::files(&self.files);
        match question {
            Question::StageA => files[5] = &self.cut_off,
            Question::StagesAB => files[5] = &self.mistyped,
            _ => {}
        }
        files
    }

    pub fn bytes(&self) -> usize {
        self.files.iter().map(Vec::len).sum()
    }

    /// Writes files and questions one behind the other, each behind its length.
    pub fn write(&self, path: &str) -> io::Result<()> {
        let Bench { files, ride, place, .. } = self;
        let numbers =
            [ride.seconds, ride.metres, place.lon.cast_unsigned(), place.lat.cast_unsigned(), place.moment].map(u64::to_le_bytes);
        let mut bytes = Vec::new();
        let parts = files.iter().chain([&ride.plan, &place.vehicle_type]).map(Vec::as_slice);
        for part in parts.chain(numbers.iter().map(|number| number.as_slice())) {
            bytes.extend(part.len().to_le_bytes());
            bytes.extend(part);
        }
        fs::write(path, bytes)
    }

    /// Reads what `write` wrote.
    pub fn read(path: &str) -> Option<Bench> {
        let bytes = fs::read(path).ok()?;
        let mut rest = bytes.as_slice();
        let mut next = || {
            let (length, after) = rest.split_first_chunk()?;
            let (part, after) = after.split_at_checked(usize::from_le_bytes(*length))?;
            rest = after;
            Some(part.to_vec())
        };
        let files =
            [const { Vec::new() }; FILES].map(|_: Vec<u8>| next()).into_iter().collect::<Option<Vec<_>>>()?.try_into().ok()?;
        let (plan, vehicle_type) = (next()?, next()?);
        let mut number = || Some(u64::from_le_bytes(next()?.try_into().ok()?));
        let ride = Ride { plan, seconds: number()?, metres: number()? };
        let (lon, lat) = (number()?.cast_signed(), number()?.cast_signed());
        Bench::of(files, ride, Where { lon, lat, vehicle_type, moment: number()? })
    }
}

/// Numbers past a double, which are JSON but which RapidJSON refuses, made less. They stand only in members that are not listed.
fn within_double(file: &mut [u8]) {
    for at in 0..file.len() {
        if file[at..].starts_with(b"1e400") {
            file[at + 2] = b'3';
        }
    }
}

fn cut_off(file: &[u8]) -> Option<Vec<u8>> {
    let last = file.iter().rposition(|&byte| byte == b'}')?;
    Some(file[..last].to_vec())
}

/// The last value of a zones file that can be made null so that stage B refuses it.
fn mistyped(file: &[u8]) -> Option<Vec<u8>> {
    let truths = (0..file.len()).rev().filter(|&at| file[at..].starts_with(b"true"));
    let mut changed = truths.map(|at| [&file[..at], b"null", &file[at + 4..]].concat());
    changed.find(|file| matches!(reference::show_record(6, 1, file), reference::Shown::NotClean(_)))
}

/// The first of many questions that is as wanted; the last one if none is.
fn first<T>(mut draw: impl FnMut() -> T, wanted: impl Fn(&T) -> bool) -> T {
    let mut drawn = draw();
    for _ in 0..50 {
        if wanted(&drawn) {
            break;
        }
        drawn = draw();
    }
    drawn
}
