//! Livukoe's second program: every operation of the specification, by brute
//! force.
//!
//! Nothing here is clever on purpose. Sets of pixels are found by flood fill
//! and kept as lists, and each answer is read off those lists as the
//! specification words it. It serves only to be set against the proved program.

#![forbid(unsafe_code)]

pub mod case;
pub mod cases;
pub mod cleaning;
pub mod deep;
pub mod forms;
pub mod grid;
pub mod ink;
pub mod joint;
pub mod maxima;
pub mod nodes;
pub mod pgm;
pub mod record;
pub mod roll;
pub mod seeded;
pub mod sizes;
pub mod text;
pub mod varint;
pub mod vectors;
pub mod work;
pub mod written;

pub use cases::cases_text;
pub use cleaning::{clean, DARK, LIGHT, SIDES};
pub use deep::deep_text;
pub use forms::{to_new_form, to_old_form};
pub use grid::{touching, Grid, Shape, CONNECTIVITIES};
pub use ink::{ink_percentage, Ink};
pub use joint::{write_cut_list, JointHead, JointOutputs};
pub use maxima::regional_maxima;
pub use nodes::{node_at, node_entries, node_list, NodeColumns, NodeCount, NodeEntry};
pub use pgm::{header_at, read_pgm, Header, PlateHead};
pub use record::{cut_record, read_record, write_record, RecordHead, RecordLength};
pub use roll::{plate_at, roll_count, roll_plate, PlacedPlate, PlateCount};
pub use seeded::seeded_plate;
pub use sizes::{size_list, SizeHead};
pub use text::sizelist_text;
pub use vectors::vectors_text;
pub use written::{has_written_form, write_pgm, FileLength};

/// The answer of an operation that says only whether it refused (0: it did not).
#[derive(Clone, Copy, Debug, Default, PartialEq, Eq)]
pub struct Done {
    pub refusal: u32,
}

#[cfg(test)]
mod tests;
