//! The cases that `test_vectors` runs: the plates, records and files of which they
//! are made, written out as lines.

mod chance;
mod conversion;
mod damage;
mod files;
mod greatest;
mod joint;
mod netpbm;
mod new_form;
mod plates;
mod seeded;
mod sides;
mod touch;
mod trim_edge;
mod written;

use std::collections::BTreeSet;

use crate::case::Case;
use crate::cleaning::negative;
use crate::grid::Grid;
use crate::nodes::nodes_of;
use crate::record::{old_record_of, record_of};

/// All cases, a line each; none is there twice.
pub fn cases_text() -> String {
    let mut cases = Vec::new();
    plates::cases(&mut cases);
    sides::cases(&mut cases);
    damage::cases(&mut cases);
    joint::cases(&mut cases);
    touch::cases(&mut cases);
    files::cases(&mut cases);
    netpbm::cases(&mut cases);
    trim_edge::cases(&mut cases);
    greatest::cases(&mut cases);
    chance::cases(&mut cases);
    new_form::cases(&mut cases);
    conversion::cases(&mut cases);
    written::cases(&mut cases);
    seeded::cases(&mut cases);
    let mut lines: Vec<String> = cases.iter().map(Case::line).collect();
    let mut seen = BTreeSet::new();
    lines.retain(|line| seen.insert(line.clone()));
    lines.concat()
}

/// Numbers that are no connectivity; the lowest byte of 262 is 6.
pub const UNFIT: [u32; 11] = [0, 1, 2, 3, 5, 7, 9, 10, 12, 262, u32::MAX];

/// A case on a record, with work space.
fn on_record(name: &'static str, record: &[u8], work: usize) -> Case<'static> {
    Case::new(name).with("work", work).on(record)
}

/// A record with a byte replaced by others.
pub fn replaced(record: &[u8], at: usize, bytes: &[u8]) -> Vec<u8> {
    [&record[..at], bytes, &record[at + 1..]].concat()
}

/// A case of cleaning, with its side alone.
fn cleaning(side: u32) -> Case<'static> {
    Case::new("clean").with("side", side)
}

/// Numbers by chance, the same at each run.
struct Chance(u32);

impl Chance {
    /// A number from 0 to bound minus 1, which is at most 65,535.
    fn below(&mut self, bound: u32) -> u32 {
        self.0 = self.0.wrapping_mul(1_103_515_245).wrapping_add(12_345);
        (self.0 >> 16) % bound
    }
}

/// A plate.
#[derive(Clone)]
struct Plate {
    width: u32,
    height: u32,
    greatest: u32,
    greys: Vec<u16>,
}

/// A plate's nodes, their number; its record; and the record without the three fields
/// in front, which is its old form when the greatest grey is 255.
struct Described {
    nodes: usize,
    record: Vec<u8>,
    old: Vec<u8>,
}

impl Plate {
    /// A plate with greatest grey 255.
    fn new(width: u32, height: u32, grey: impl FnMut(u32) -> u16) -> Plate {
        let greys = (0..width * height).map(grey).collect();
        Plate {
            width,
            height,
            greatest: 255,
            greys,
        }
    }

    /// The same greys with another greatest grey.
    fn up_to(self, greatest: u32) -> Plate {
        Plate { greatest, ..self }
    }

    /// The specification's small plate.
    fn small() -> Plate {
        let greys = [10, 10, 10, 10, 10, 50, 30, 10, 10, 10, 10, 90];
        Plate::new(4, 3, |p| greys[p as usize])
    }

    /// The negative.
    fn negative(&self) -> Plate {
        let greys = negative(&self.greys, self.greatest);
        Plate { greys, ..*self }
    }

    /// The number of pixels.
    fn pixels(&self) -> usize {
        self.greys.len()
    }

    /// A case on the plate with work space, and a little excess.
    fn case(&self, name: &'static str, connectivity: u32) -> Case<'static> {
        self.added_to(Case::new(name), connectivity)
    }

    /// The same, added to a case that lacks the plate.
    fn added_to(&self, begun: Case<'static>, connectivity: u32) -> Case<'static> {
        self.shaped(begun)
            .with("connectivity", connectivity)
            .with("work", 8 * self.pixels() + 2)
    }

    /// The same without connectivity and work space.
    fn shaped(&self, begun: Case<'static>) -> Case<'static> {
        begun
            .with("width", self.width)
            .with("height", self.height)
            .with("greatest", self.greatest)
            .painted(&self.greys)
    }

    /// The same with a limit and an output.
    fn limited(&self, begun: Case<'static>, connectivity: u32, limit: u32) -> Case<'static> {
        self.added_to(begun, connectivity)
            .with("limit", limit)
            .with("out", self.pixels() + 1)
    }

    /// The number of nodes, and both forms of the record.
    fn described(&self, connectivity: u32) -> Described {
        let grid = Grid::new(self.width, self.height, connectivity);
        let nodes = nodes_of(&grid, &self.greys);
        Described {
            nodes: nodes.len(),
            record: record_of(&grid, self.greatest, &self.greys, &nodes),
            old: old_record_of(&grid, &self.greys, &nodes),
        }
    }
}
