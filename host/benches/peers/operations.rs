//! Each operation, proved and in plain Rust, over buffers that are allocated once.

use livukoe::lent::{self as proved, Image, Node, NodeColumns};
use livukoe::{work_space, Connectivity, Plate, Side};

use crate::{twin, twin_records};

/// The limit of cleanings and cuts.
pub const LIMIT: u32 = 64;

/// Cleaning on the light side, which the peers' area opening is compared with.
pub const CLEAN_LIGHT: &str = "clean light";
const CLEAN_DARK: &str = "clean dark";

/// Cleaning on either side.
pub const CLEANINGS: [&str; 2] = [CLEAN_LIGHT, CLEAN_DARK];

/// What the peers' functions are compared with.
pub const AGAINST_PEERS: [&str; 2] = [CLEAN_LIGHT, "nodes"];

/// The operations, in the order of the tables.
pub const OPERATIONS: [&str; 10] = [
    CLEAN_LIGHT,
    CLEAN_DARK,
    "maxima",
    "nodes",
    "columns",
    "record",
    "plate",
    "cut",
    "sizelist",
    "read",
];

/// The side of a cleaning.
fn side_of(operation: &str) -> Side {
    match operation {
        CLEAN_DARK => Side::Dark,
        _ => Side::Light,
    }
}

/// Who does the work.
#[derive(Clone, Copy, PartialEq)]
pub enum Worker {
    Proved,
    /// Plain Rust, whose indices are checked.
    Plain,
    /// The same without the checks.
    Unchecked,
}

pub const WORKERS: [Worker; 3] = [Worker::Proved, Worker::Plain, Worker::Unchecked];

/// A plate with all that an operation needs.
pub struct Bench<'a> {
    plate: &'a Plate,
    connectivity: Connectivity,
    record: Vec<u8>,
    file: Vec<u8>,
    pub buffers: Buffers,
}

/// What an operation writes.
#[derive(Clone, PartialEq)]
pub struct Buffers {
    pub greys: Vec<u16>,
    bytes: Vec<u8>,
    columns: [Vec<u32>; 4],
    list: Vec<Node>,
    losses: Vec<u64>,
    held: u64,
    work: Vec<u32>,
}

impl<'a> Bench<'a> {
    pub fn new(plate: &'a Plate, connectivity: Connectivity) -> Bench<'a> {
        let pixels = plate.greys().len();
        let record = plate.record(connectivity).expect("a record");
        let mut work = work_space(pixels);
        work.fill(1);
        Bench {
            plate,
            connectivity,
            buffers: Buffers {
                greys: vec![1; pixels],
                bytes: vec![1; record.bytes().len()],
                columns: std::array::from_fn(|_| vec![1; pixels]),
                list: vec![Node::default(); pixels],
                losses: vec![1; pixels],
                held: 1,
                work,
            },
            record: record.bytes().to_vec(),
            file: plate.to_pgm().expect("a plate file"),
        }
    }

    /// Does an operation once.
    pub fn run(&mut self, operation: &str, worker: Worker) {
        match worker {
            Worker::Proved => self.run_proved(operation),
            Worker::Plain => self.run_twin::<true>(operation),
            Worker::Unchecked => self.run_twin::<false>(operation),
        }
    }

    fn run_proved(&mut self, operation: &str) {
        let lent = self.parts();
        let refusal = match operation {
            CLEAN_LIGHT | CLEAN_DARK => {
                let side = side_of(operation).number();
                proved::clean(side, lent.image, LIMIT, lent.greys, lent.work)
            }
            "maxima" => proved::regional_maxima(lent.image, lent.greys, lent.work),
            "columns" => proved::node_list(lent.image, lent.columns, lent.work).refusal,
            "nodes" => proved::node_entries(lent.image, lent.list, lent.work).refusal,
            "record" => proved::write_record(lent.image, lent.bytes, lent.work).refusal,
            "plate" => proved::read_record(lent.record, lent.greys, lent.work).refusal,
            "cut" => proved::cut_record(lent.record, LIMIT, lent.greys, lent.work).refusal,
            "sizelist" => {
                let counts = lent.columns.areas;
                let head = proved::size_list(lent.record, counts, lent.losses, lent.work);
                *lent.held = head.held;
                head.refusal
            }
            "read" => proved::read_pgm(lent.file, lent.greys).refusal,
            _ => panic!("no operation is called {operation}"),
        };
        assert_eq!(refusal, 0, "{operation}");
    }

    fn run_twin<const CHECKED: bool>(&mut self, operation: &str) {
        let lent = self.parts();
        match operation {
            CLEAN_LIGHT | CLEAN_DARK => {
                let side = side_of(operation);
                twin::clean::<CHECKED>(side, lent.image, LIMIT, lent.greys, lent.work);
            }
            "maxima" => twin::regional_maxima::<CHECKED>(lent.image, lent.greys, lent.work),
            "nodes" => twin::node_entries::<CHECKED>(lent.image, lent.list, lent.work),
            "columns" => twin::node_list::<CHECKED>(lent.image, lent.columns, lent.work),
            "record" => twin_records::write_record::<CHECKED>(lent.image, lent.bytes, lent.work),
            "plate" => twin_records::read_record::<CHECKED>(lent.record, lent.greys, lent.work),
            "cut" => twin_records::cut_record::<CHECKED>(lent.record, LIMIT, lent.greys, lent.work),
            "sizelist" => {
                let counts = lent.columns.areas;
                *lent.held =
                    twin_records::size_list::<CHECKED>(lent.record, counts, lent.losses, lent.work);
            }
            "read" => twin_records::read_pgm(lent.file, lent.greys),
            _ => panic!("no operation is called {operation}"),
        }
    }

    /// What an operation is lent.
    fn parts(&mut self) -> Parts<'_> {
        let [levels, parents, areas, anchors] = &mut self.buffers.columns;
        Parts {
            image: Image {
                greys: self.plate.greys(),
                width: self.plate.width(),
                height: self.plate.height(),
                greatest: self.plate.greatest(),
                connectivity: self.connectivity.number(),
            },
            record: &self.record,
            file: &self.file,
            greys: &mut self.buffers.greys,
            bytes: &mut self.buffers.bytes,
            columns: NodeColumns {
                levels,
                parents,
                areas,
                anchors,
            },
            list: &mut self.buffers.list,
            losses: &mut self.buffers.losses,
            held: &mut self.buffers.held,
            work: &mut self.buffers.work,
        }
    }
}

struct Parts<'a> {
    image: Image<'a>,
    record: &'a [u8],
    file: &'a [u8],
    greys: &'a mut [u16],
    bytes: &'a mut [u8],
    columns: NodeColumns<'a>,
    list: &'a mut [Node],
    losses: &'a mut [u64],
    held: &'a mut u64,
    work: &'a mut [u32],
}
