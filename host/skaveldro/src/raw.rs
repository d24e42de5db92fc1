//! The library's functions as `include/skaveldro.h` declares them, where each is described.
//!
//! A slice is a pointer and a length: the pointer is good for so many bytes, and the buffer that is written lies apart from what is read.
//! The safe functions below lend slices of Rust, and a buffer of any length: a refusal, and 2, leave it as it is.

#![allow(unsafe_code)]

extern "C" {
    pub fn skaveldro_verdict(
        types: *const u8,
        types_length: usize,
        stations: *const u8,
        stations_length: usize,
        statuses: *const u8,
        statuses_length: usize,
        bikes: *const u8,
        bikes_length: usize,
        plans: *const u8,
        plans_length: usize,
        zones: *const u8,
        zones_length: usize,
        system: *const u8,
        system_length: usize,
        regions: *const u8,
        regions_length: usize,
        buffer: *mut u8,
        buffer_length: usize,
    ) -> u8;

    pub fn skaveldro_read_word(word: *const u8, word_length: usize, answer: *mut u8, answer_length: usize) -> u8;

    pub fn skaveldro_quote(
        plans: *const u8,
        plans_length: usize,
        id: *const u8,
        id_length: usize,
        seconds: u64,
        metres: u64,
        answer: *mut u8,
        answer_length: usize,
    ) -> u8;

    pub fn skaveldro_zone_rule(
        zones: *const u8,
        zones_length: usize,
        lon: i64,
        lat: i64,
        type_id: *const u8,
        type_id_length: usize,
        moment: u64,
        answer: *mut u8,
        answer_length: usize,
    ) -> u8;

    pub fn skaveldro_show_record(
        file: u64,
        record: u64,
        bytes: *const u8,
        bytes_length: usize,
        answer: *mut u8,
        answer_length: usize,
    ) -> u8;
}

/// The verdict on a set, its word in the first 8 bytes of the buffer: 2, 0 or 1.
pub fn verdict(files: crate::Files, buffer: &mut [u8]) -> u8 {
    let [types, stations, statuses, bikes, plans, zones, system, regions] = files;
    // SAFETY: each pointer is a slice's, with the slice's length, and the buffer is borrowed alone.
    unsafe {
        skaveldro_verdict(
            types.as_ptr(),
            types.len(),
            stations.as_ptr(),
            stations.len(),
            statuses.as_ptr(),
            statuses.len(),
            bikes.as_ptr(),
            bikes.len(),
            plans.as_ptr(),
            plans.len(),
            zones.as_ptr(),
            zones.len(),
            system.as_ptr(),
            system.len(),
            regions.as_ptr(),
            regions.len(),
            buffer.as_mut_ptr(),
            buffer.len(),
        )
    }
}

/// The parts of a word as six numbers: 3, 2 or 0.
pub fn read_word(word: &[u8], answer: &mut [u8]) -> u8 {
    // SAFETY: as above.
    unsafe { skaveldro_read_word(word.as_ptr(), word.len(), answer.as_mut_ptr(), answer.len()) }
}

/// A quote as nine numbers: 4, 5, 6, 2 or 0.
pub fn quote(plans: &[u8], id: &[u8], seconds: u64, metres: u64, answer: &mut [u8]) -> u8 {
    // SAFETY: as above.
    unsafe {
        skaveldro_quote(plans.as_ptr(), plans.len(), id.as_ptr(), id.len(), seconds, metres, answer.as_mut_ptr(), answer.len())
    }
}

/// A zone rule as twelve numbers: 8, 5, 9, 2 or 0.
pub fn zone_rule(zones: &[u8], lon: i64, lat: i64, type_id: &[u8], moment: u64, answer: &mut [u8]) -> u8 {
    // SAFETY: as above.
    unsafe {
        skaveldro_zone_rule(
            zones.as_ptr(),
            zones.len(),
            lon,
            lat,
            type_id.as_ptr(),
            type_id.len(),
            moment,
            answer.as_mut_ptr(),
            answer.len(),
        )
    }
}

/// Where a record stands, as eight numbers: 10, 5, 2 or 0.
pub fn show_record(file: u64, record: u64, bytes: &[u8], answer: &mut [u8]) -> u8 {
    // SAFETY: as above.
    unsafe { skaveldro_show_record(file, record, bytes.as_ptr(), bytes.len(), answer.as_mut_ptr(), answer.len()) }
}
