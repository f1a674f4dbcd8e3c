//! A plan as lists of values, and as the words of its table. Floats stand as their bits.

use super::layout::*;
use crate::{judge, words};

/// A kind and its words, with 0 in those that the kind does not use.
#[derive(Clone, Copy, Debug, PartialEq)]
pub struct Prim {
    pub kind: u32,
    pub shape: [u32; 8],
}

#[derive(Clone, Debug, PartialEq)]
pub struct Piece {
    pub material: u32,
    pub blend: u32,
    pub prim: Prim,
    pub cutters: Vec<Prim>,
}

pub type Material = [u32; MATERIAL_WORDS];
pub type Light = [u32; LIGHT_WORDS];

#[derive(Clone, Debug, Default, PartialEq)]
pub struct Plan {
    pub materials: Vec<Material>,
    pub planes: Vec<Piece>,
    pub lights: Vec<Light>,
    pub objects: Vec<Piece>,
}

/// How many words of its eight a known kind uses.
pub fn used(kind: u32) -> usize {
    judge::ranges(kind).unwrap().len()
}

impl Prim {
    /// Of a known kind; words that it does not use are not looked at.
    pub fn new(kind: u32, shape: &[u32]) -> Prim {
        let mut prim = Prim { kind, shape: [0; 8] };
        prim.shape[..used(kind)].copy_from_slice(&shape[..used(kind)]);
        prim
    }

    /// The words as they are given, with something in those that are not used.
    fn given(&self, mut unread: impl FnMut() -> u32) -> [u32; CUTTER_WORDS] {
        let mut given = [0; CUTTER_WORDS];
        given[0] = self.kind;
        for (i, word) in given[1..].iter_mut().enumerate() {
            *word = if i < used(self.kind) { self.shape[i] } else { unread() };
        }
        given
    }
}

impl Piece {
    /// The `args` that enter this piece, with something in each word that is not read.
    pub fn args(&self, mut unread: impl FnMut() -> u32) -> Vec<u32> {
        let mut args = vec![self.material, self.blend, self.cutters.len() as u32];
        args.extend(self.prim.given(&mut unread));
        args.resize_with(ROW, &mut unread);
        for (i, cutter) in self.cutters.iter().enumerate() {
            args.extend(cutter.given(&mut unread));
            args.resize_with((i + 2) * ROW, &mut unread);
        }
        args
    }
}

pub fn cutters_of(pieces: &[Piece]) -> usize {
    pieces.iter().map(|piece| piece.cutters.len()).sum()
}

impl Plan {
    pub fn cutters(&self) -> usize {
        cutters_of(&self.planes) + cutters_of(&self.objects)
    }

    pub fn count(&self, list: List) -> usize {
        match list {
            List::Materials => self.materials.len(),
            List::Planes => self.planes.len(),
            List::Lights => self.lights.len(),
            List::Objects => self.objects.len(),
        }
    }

    /// The plan's table, all its words.
    pub fn table(&self) -> Vec<u32> {
        let mut table = vec![0; PLAN_WORDS];
        for list in List::ALL {
            table[list as usize] = self.count(list) as u32;
        }
        for (i, material) in self.materials.iter().enumerate() {
            put(&mut table, MATERIALS.at(i), material);
        }
        for (i, light) in self.lights.iter().enumerate() {
            put(&mut table, LIGHTS.at(i), light);
        }
        // Objects take the cutter places from the bottom, planes from the top.
        let mut bottom = 0;
        for (i, piece) in self.objects.iter().enumerate() {
            put_piece(&mut table, OBJECTS.at(i), piece, bottom);
            bottom += piece.cutters.len();
        }
        let mut top = CUTTERS.records;
        for (i, piece) in self.planes.iter().enumerate() {
            top -= piece.cutters.len();
            put_piece(&mut table, PLANES.at(i), piece, top);
        }
        table
    }

    /// The lists that are named, from a table in which they are sound; no others.
    pub fn read(table: &[u8], lists: &[List]) -> Plan {
        let records = |list: List| {
            let count = if lists.contains(&list) { words::word(table, list as usize) } else { 0 };
            let section = list.section();
            (0..count as usize).map(move |i| section.at(i))
        };
        let pieces = |list: List| -> Vec<Piece> { records(list).map(|at| read_piece(table, at)).collect() };
        let light = |at: usize| -> Light { std::array::from_fn(|i| words::word(table, at + i)) };
        Plan {
            materials: Vec::new(),
            planes: pieces(List::Planes),
            lights: records(List::Lights).map(light).collect(),
            objects: pieces(List::Objects),
        }
    }
}

fn put(table: &mut [u32], at: usize, words: &[u32]) {
    table[at..at + words.len()].copy_from_slice(words);
}

fn put_piece(table: &mut [u32], at: usize, piece: &Piece, place: usize) {
    put(table, at, &piece.args(|| 0)[..PIECE_WORDS]);
    table[at + PLACE] = place as u32;
    for (i, cutter) in piece.cutters.iter().enumerate() {
        put(table, CUTTERS.at(place + i), &cutter.given(|| 0));
    }
}

fn read_piece(table: &[u8], at: usize) -> Piece {
    let prim = |at: usize| {
        let shape: [u32; 8] = std::array::from_fn(|i| words::word(table, at + 1 + i));
        Prim::new(words::word(table, at), &shape)
    };
    let place = words::word(table, at + PLACE) as usize;
    let cutters = place..place + words::word(table, at + CUTS) as usize;
    Piece {
        material: words::word(table, at + MATERIAL),
        blend: words::word(table, at + BLEND),
        prim: prim(at + KIND),
        cutters: cutters.map(|i| prim(CUTTERS.at(i))).collect(),
    }
}
