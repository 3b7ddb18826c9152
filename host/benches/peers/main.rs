//! The benchmarks: each operation, proved and in plain Rust, on six pictures of growing sizes, and area opening and the
//! tree by ITK and scikit-image where they are installed, on these and on pictures of 16-bit greys; then the engine on
//! pictures of 16-bit greys. Writes docs/BENCHMARKS.md and docs/benchmarks.svg.
//!
//!     cargo bench --bench peers -- [--pixels N] [--peer-pixels N] [--part operations|engine] [--out DIRECTORY]
//!
//! The numbers are the greatest sizes: for all, and for scikit-image, which takes longest. With one part only, the other stays as it was written.

mod clock;
mod engine;
mod measure;
mod memory;
mod operations;
mod peers;
mod plot;
mod report;
mod twin;
mod twin_flood;
mod twin_levels;
mod twin_numbering;
mod twin_ranks;
mod twin_records;

use std::fs;
use std::path::{Path, PathBuf};

use livukoe::pictures::{self, fine_picture, picture};
use livukoe::{Connectivity, Plate};

use measure::Timing;
use memory::Memory;
use peers::{PeerTiming, Peers};

/// The widths of the square pictures, from 64 K to 16 M pixels.
const WIDTHS: [u32; 5] = [256, 512, 1024, 2048, 4096];
/// Those of 16-bit greys: the first has fewer pixels than greys.
const FINE_WIDTHS: [u32; 4] = [128, 256, 1024, 4096];

/// The parts of the report.
const PARTS: [&str; 2] = ["operations", "engine"];

/// The times of the operations and of the peers, on the pictures of bytes or on those of 16-bit greys.
#[derive(Default)]
struct Measured {
    timings: Vec<Timing>,
    peers: Vec<PeerTiming>,
}

impl Measured {
    /// Measures operations on a picture, and the peers.
    fn measure(
        &mut self,
        kind: &'static str,
        plate: &Plate,
        peers: &Peers,
        connectivities: &[Connectivity],
        operations: fn(&'static str, &Plate, Connectivity) -> Vec<Timing>,
    ) {
        for &connectivity in connectivities {
            self.timings.extend(operations(kind, plate, connectivity));
        }
        self.peers.extend(peers.all(kind, plate));
    }
}

struct Arguments {
    pixels: usize,
    peer_pixels: usize,
    /// One of the two parts; none where both are asked for.
    part: Option<String>,
    out: PathBuf,
}

impl Arguments {
    fn read() -> Arguments {
        let mut arguments = Arguments {
            pixels: livukoe::MAX_PIXELS,
            peer_pixels: 1 << 22,
            part: None,
            out: PathBuf::from(concat!(env!("CARGO_MANIFEST_DIR"), "/../docs")),
        };
        let mut words = std::env::args().skip(1).filter(|word| word != "--bench");
        while let Some(name) = words.next() {
            let value = words.next().expect("each option has a value");
            match name.as_str() {
                "--pixels" => arguments.pixels = value.parse().expect("a number of pixels"),
                "--peer-pixels" => {
                    arguments.peer_pixels = value.parse().expect("a number of pixels");
                }
                "--part" => {
                    assert!(PARTS.contains(&value.as_str()), "there is no part {value}");
                    arguments.part = Some(value);
                }
                "--out" => arguments.out = PathBuf::from(value),
                _ => panic!("there is no option {name}"),
            }
        }
        arguments
    }

    fn asks_for(&self, part: &str) -> bool {
        self.part.as_deref().is_none_or(|asked| asked == part)
    }

    /// The widths whose squares are not above the greatest size.
    fn widths(&self, widths: &'static [u32]) -> impl Iterator<Item = u32> + '_ {
        let widths = widths.iter().copied();
        widths.filter(|width| (width * width) as usize <= self.pixels)
    }
}

fn main() {
    let arguments = Arguments::read();
    if arguments.asks_for("operations") {
        measure_operations(&arguments);
    }
    if arguments.asks_for("engine") {
        measure_engine(&arguments);
    }
}

fn measure_operations(arguments: &Arguments) {
    let peers = Peers::find(arguments.peer_pixels);
    let (mut coarse, mut fine) = (Measured::default(), Measured::default());
    let mut memory: Vec<Memory> = Vec::new();
    for width in arguments.widths(&WIDTHS) {
        let pixels = (width * width) as usize;
        for kind in pictures::KINDS {
            let plate = picture(kind, width, width);
            coarse.measure(kind, &plate, &peers, &Connectivity::ALL, measure::all);
            eprintln!("{kind}, {width} x {width}: done");
        }
        for kind in pictures::FINE_KINDS {
            let plate = fine_picture(kind, width, width);
            fine.measure(
                kind,
                &plate,
                &peers,
                &[Connectivity::Four],
                measure::peers_work,
            );
            eprintln!("{kind}, 16-bit greys, {width} x {width}: done");
        }
        memory.push(memory::measure(pixels));
        // each size, so that a run that is cut short leaves something
        let text = report::operations(&coarse, &fine, &memory);
        write(&arguments.out, Some(&text), None);
        let picture = plot::svg(&coarse.timings, &coarse.peers);
        fs::write(arguments.out.join("benchmarks.svg"), picture).expect("the plot is written");
    }
}

fn measure_engine(arguments: &Arguments) {
    let mut timings: Vec<Timing> = Vec::new();
    for width in arguments.widths(&FINE_WIDTHS) {
        for kind in pictures::FINE_KINDS {
            let plate = fine_picture(kind, width, width);
            for connectivity in engine::CONNECTIVITIES {
                timings.push(engine::measure(kind, &plate, connectivity));
            }
            eprintln!("{kind}, the engine, {width} x {width}: done");
        }
        write(&arguments.out, None, Some(&report::engine(&timings)));
    }
}

/// Writes the parts of the report that are given; the others stay.
fn write(folder: &Path, operations: Option<&str>, engine: Option<&str>) {
    let file = folder.join("BENCHMARKS.md");
    let old = fs::read_to_string(&file).unwrap_or_default(); // there may be none yet
    fs::write(file, report::renewed(&old, operations, engine)).expect("the report is written");
}
