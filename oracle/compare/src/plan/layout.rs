//! Where things stand in the lent tables: VIEWER.md's sizes and places. Places are in words.

pub const PLAN_WORDS: usize = 22_288;
pub const PLAN_BYTES: usize = 4 * PLAN_WORDS;

/// The nodes, their words and the object numbers of a tree's two tables.
pub const NODES: usize = 511;
pub const NODE_WORDS: usize = 9;
pub const NODES_WORDS: usize = NODES * NODE_WORDS;
pub const NODES_BYTES: usize = 18_396;
pub const ORDER_WORDS: usize = 256;
pub const ORDER_BYTES: usize = 1_024;

const _: () = assert!(4 * NODES_WORDS == NODES_BYTES && 4 * ORDER_WORDS == ORDER_BYTES);

/// Cutters to one piece.
pub const MOST_CUTTERS: usize = 8;

/// Words that are used of a material, a light, a cutter, and of a piece as it is given.
pub const MATERIAL_WORDS: usize = 5;
pub const LIGHT_WORDS: usize = 15;
pub const CUTTER_WORDS: usize = 9;
pub const PIECE_WORDS: usize = 12;

/// Words of a piece's or a cutter's record, in the plan and in `args`.
pub const ROW: usize = 16;

/// Places in a piece: its own words, and the place of its first cutter.
pub const MATERIAL: usize = 0;
pub const BLEND: usize = 1;
pub const CUTS: usize = 2;
pub const KIND: usize = 3;
pub const SHAPE: usize = 4;
pub const PLACE: usize = 12;

/// Records of one size, one after the other.
#[derive(Clone, Copy)]
pub struct Section {
    pub name: &'static str,
    pub first: usize,
    pub records: usize,
    pub words: usize,
}

impl Section {
    const fn new(name: &'static str, first: usize, records: usize, words: usize) -> Section {
        Section { name, first, records, words }
    }

    /// The first word of a record.
    pub const fn at(self, record: usize) -> usize {
        self.first + record * self.words
    }
}

pub const COUNTS: Section = Section::new("counts", 0, 1, 16);
pub const MATERIALS: Section = Section::new("materials", 16, 64, 16);
pub const PLANES: Section = Section::new("planes", 1_040, 16, ROW);
pub const LIGHTS: Section = Section::new("lights", 1_296, 16, 32);
pub const OBJECTS: Section = Section::new("objects", 1_808, 256, ROW);
pub const CUTTERS: Section = Section::new("cutters", 5_904, 1_024, ROW);

pub const SECTIONS: [Section; 6] = [COUNTS, MATERIALS, PLANES, LIGHTS, OBJECTS, CUTTERS];

// No gap and no overlap, up to the full size.
const _: () = {
    let mut i = 0;
    while i < SECTIONS.len() {
        let end = if i + 1 < SECTIONS.len() { SECTIONS[i + 1].first } else { PLAN_WORDS };
        assert!(SECTIONS[i].at(SECTIONS[i].records) == end);
        i += 1;
    }
};

/// The four lists, in the order of their counts: as a number, a list is its count's place.
#[derive(Clone, Copy, Debug, PartialEq)]
pub enum List {
    Materials,
    Planes,
    Lights,
    Objects,
}

impl List {
    pub const ALL: [List; 4] = [List::Materials, List::Planes, List::Lights, List::Objects];

    pub fn section(self) -> Section {
        match self {
            List::Materials => MATERIALS,
            List::Planes => PLANES,
            List::Lights => LIGHTS,
            List::Objects => OBJECTS,
        }
    }
}
