//! How large a generated set is.

use reference::ceiling;

/// How much a set holds. Each number is the most; where `full` is set it is what the set has, as far as its files' lengths allow.
#[derive(Clone, Debug)]
pub struct Size {
    pub types: usize,
    pub stations: usize,
    pub bikes: usize,
    pub plans: usize,
    pub zones: usize,
    /// Where there are none, the file of regions is absent.
    pub regions: usize,
    /// Segments of each sort in a plan.
    pub segments: usize,
    /// Polygons in a zone.
    pub polygons: usize,
    /// Holes in a polygon, as far as its zone may have rings.
    pub holes: usize,
    /// Positions in a ring, at least 4.
    pub positions: usize,
    /// Rules in a zone.
    pub rules: usize,
    /// Items in fields 37 and 78.
    pub items: usize,
    /// Bytes in an id, at least 8.
    pub id: usize,
    /// Are all these numbers reached, and all the files there?
    pub full: bool,
    /// The most bytes of a file.
    pub bytes: usize,
}

impl Size {
    /// A handful of everything, files of a few hundred bytes.
    pub const FEW: Size = Size {
        types: 3,
        stations: 3,
        bikes: 4,
        plans: 3,
        zones: 3,
        regions: 3,
        segments: 3,
        polygons: 3,
        holes: ceiling::RINGS - 1,
        positions: 8,
        rules: 3,
        items: 3,
        id: 12,
        full: false,
        bytes: ceiling::BYTES,
    };

    /// Everything up to its ceiling within a record, some tens of records.
    pub const SOME: Size = Size {
        types: 40,
        stations: 40,
        bikes: 60,
        plans: 30,
        zones: 8,
        regions: 40,
        segments: ceiling::SEGMENTS,
        polygons: ceiling::POLYGONS,
        holes: ceiling::RINGS - 1,
        positions: ceiling::POSITIONS,
        rules: ceiling::RULES,
        items: ceiling::ITEMS,
        id: ceiling::ID,
        full: false,
        bytes: ceiling::BYTES,
    };

    /// As many records as the ceilings let in.
    pub const MANY: Size = Size {
        types: 500,
        stations: ceiling::RECORDS,
        bikes: ceiling::RECORDS,
        plans: 500,
        zones: 200,
        regions: ceiling::RECORDS,
        segments: 4,
        polygons: 3,
        holes: 0,
        positions: 32,
        rules: 4,
        items: 4,
        id: 20,
        full: true,
        bytes: ceiling::BYTES,
    };

    /// Everything at its ceiling: long ids, full plans, full zones. A zone's polygons are as many as its rings may be, so none has a hole.
    pub const FULL: Size = Size {
        types: ceiling::RECORDS,
        stations: ceiling::RECORDS,
        bikes: ceiling::RECORDS,
        plans: ceiling::RECORDS,
        zones: ceiling::RECORDS,
        regions: ceiling::RECORDS,
        holes: 0,
        full: true,
        ..Size::SOME
    };
}
