//! The report as Markdown.

use std::fmt::Write;
use std::fs;
use std::process::Command;

use livukoe::pictures::{FINE_KINDS, KINDS};
use livukoe::Connectivity;

use crate::engine::CONNECTIVITIES;
use crate::measure::Timing;
use crate::memory::Memory;
use crate::operations::{CLEAN_LIGHT, LIMIT, OPERATIONS};
use crate::peers::{PeerTiming, ITK_OPENING, SCIKIT_OPENING, SCIKIT_TREE};
use crate::Measured;

/// What is ahead of the tables.
const FRONT: &str = "# Benchmarks

Written by `make bench`. Each time is the best of 9 runs (of 5 at 4 M pixels, of 3 at 16 M), in processor time of one thread. *Plain Rust* is the
same algorithm, passes and work space in Rust, whose indices are checked; *unchecked* is the same source without those
checks. The three take turns, and their answers are compared. A ratio below 1 says that the proved code is faster.
*Growth* is the time a pixel at the largest size over that at the smallest. The work space is the wrapper's, which asks
for large pages.

![time against size](benchmarks.svg)
";

/// The heading of the part on the engine, which is the last.
const ENGINE: &str = "\n## The engine on 16-bit greys\n";

/// What is ahead of its tables.
const ENGINE_FRONT: &str = "
The component tree alone, as it stands in the work space, of pictures whose greatest grey is 65,535: the engine that all
operations on plates share, through `test_tree`, a proved function for the benchmarks only. The copy of the greys is part
of each time. *Ramp* runs through all greys row by row, *relief* is the map of the demonstration without its specks and with
finer greys, *serpentine* a corridor that becomes lighter along its way, *comb* has teeth that darken downwards. At 16 K
pixels, fewer than the greys, each grey gets its rank first.

";

/// The report with one of its parts, or both, made new.
pub fn renewed(old: &str, operations: Option<&str>, engine: Option<&str>) -> String {
    let (front, back) = old.split_at(old.find(ENGINE).unwrap_or(old.len()));
    operations.unwrap_or(front).to_owned() + engine.unwrap_or(back)
}

/// The part on the engine.
pub fn engine(timings: &[Timing]) -> String {
    let mut text = format!("{ENGINE}{ENGINE_FRONT}{}", machine());
    for connectivity in CONNECTIVITIES {
        let of_kind = |timing: &&Timing| timing.connectivity == connectivity;
        let rows: Vec<&Timing> = timings.iter().filter(of_kind).collect();
        let _ = write!(
            text,
            "\n### connectivity {connectivity}: nanoseconds a pixel\n\n{}",
            table(&rows, &FINE_KINDS)
        );
    }
    text
}

/// The part on the operations, on pictures of bytes and on those of 16-bit greys.
pub fn operations(coarse: &Measured, fine: &Measured, memory: &[Memory]) -> String {
    let mut text = FRONT.to_owned();
    let _ = write!(text, "\n## Machine\n\n{}", machine()); // a string takes every write
    let _ = write!(
        text,
        "\n## Against peers\n\n{}",
        against_peers(coarse, fine)
    );
    let _ = write!(text, "\n## Memory alone\n\n{}", memory_table(memory));
    text += &tables(&coarse.timings, &KINDS, "");
    text + &tables(&fine.timings, &FINE_KINDS, ", 16-bit greys")
}

/// A table for each operation and connectivity that was measured; `of` says on which pictures.
fn tables(timings: &[Timing], kinds: &[&str], of: &str) -> String {
    let mut text = String::new();
    for connectivity in Connectivity::ALL {
        for operation in OPERATIONS {
            let of_operation = |timing: &&Timing| {
                timing.operation == operation && timing.connectivity == connectivity
            };
            let rows: Vec<&Timing> = timings.iter().filter(of_operation).collect();
            if !rows.is_empty() {
                let title = format!("{operation}, connectivity {connectivity}{of}");
                let table = table(&rows, kinds);
                text += &format!("\n## {title}: nanoseconds a pixel\n\n{table}");
            }
        }
    }
    text
}

/// The machine in a few lines.
fn machine() -> String {
    let line = |file: &str, name: &str| {
        let text = fs::read_to_string(file).unwrap_or_default();
        let found = text.lines().find(|line| line.starts_with(name));
        let value = found.and_then(|line| line.split_once(':'));
        value.map_or("unknown".to_owned(), |(_, value)| value.trim().to_owned())
    };
    let said = |program: &str, word: &str| {
        let output = Command::new(program).arg(word).output();
        let bytes = output.map(|output| output.stdout).unwrap_or_default();
        String::from_utf8_lossy(&bytes).trim().to_owned()
    };
    let processors = std::thread::available_parallelism().map_or(1, usize::from);
    format!(
        "- {}, cache {}, {processors} processors, memory {}\n- Linux {}, {}, {}\n",
        line("/proc/cpuinfo", "model name"),
        line("/proc/cpuinfo", "cache size"),
        line("/proc/meminfo", "MemTotal"),
        said("uname", "-r"),
        said("rustc", "--version"),
        said("rt", "version"),
    )
}

/// What memory alone takes a pixel, by size.
fn memory_table(memory: &[Memory]) -> String {
    let mut text = String::from(
        "Nanoseconds a pixel on the same work space, without any operation on a plate: what grows here with the size \
         grows in every operation.\n\n| |",
    );
    for row in memory {
        text += &format!(" {} |", size_name(row.pixels));
    }
    text += &format!(" growth |\n|---|{}\n", "---|".repeat(memory.len() + 1));
    type Seconds = fn(&Memory) -> f64;
    let rows: [(&str, Seconds); 3] = [
        ("eight columns set to zero", |row| row.clear),
        ("a read by chance for each pixel", |row| row.reads),
        (
            "the same, each read at the place that the last one gave",
            |row| row.chain,
        ),
    ];
    for (name, seconds) in rows {
        let times = memory
            .iter()
            .map(|row| seconds(row) * 1e9 / row.pixels as f64);
        text += &row(name, &times.collect::<Vec<f64>>());
        text += "\n";
    }
    text
}

/// A row of a table: nanoseconds a pixel by size, and the last over the first.
fn row(name: &str, times: &[f64]) -> String {
    let mut text = format!("| {name} |");
    for nanoseconds in times {
        let digits = if *nanoseconds < 1.0 { 2 } else { 1 };
        text += &format!(" {nanoseconds:.digits$} |");
    }
    let growth = times.last().unwrap_or(&1.0) / times.first().unwrap_or(&1.0);
    text += &format!(" {growth:.2} |");
    text
}

/// Nanoseconds a pixel by size, their growth, and the ratios to plain Rust over the sizes.
fn table(timings: &[&Timing], kinds: &[&str]) -> String {
    let mut sizes: Vec<usize> = timings.iter().map(|timing| timing.pixels).collect();
    sizes.sort_unstable();
    sizes.dedup();
    let mut text = String::from("| picture |");
    for size in &sizes {
        text += &format!(" {} |", size_name(*size));
    }
    text += " growth | / plain Rust | / unchecked |\n|---|";
    text += &"---|".repeat(sizes.len() + 3);
    text += "\n";
    for &kind in kinds {
        let of_kind: Vec<&&Timing> = timings
            .iter()
            .filter(|timing| timing.kind == kind)
            .collect();
        let times = of_kind
            .iter()
            .map(|timing| timing.seconds[0] * 1e9 / timing.pixels as f64);
        text += &row(kind, &times.collect::<Vec<f64>>());
        text += &format!(" {} | {} |\n", ratios(&of_kind, 1), ratios(&of_kind, 2));
    }
    text
}

/// The least and the greatest ratio of the proved function to a worker.
fn ratios(row: &[&&Timing], worker: usize) -> String {
    let ratios = row
        .iter()
        .map(|timing| timing.seconds[0] / timing.seconds[worker]);
    let (least, greatest) = ratios.fold((f64::MAX, 0f64), |(least, greatest), ratio| {
        (least.min(ratio), greatest.max(ratio))
    });
    format!("{least:.2} to {greatest:.2}")
}

pub fn size_name(pixels: usize) -> String {
    match pixels >> 20 {
        0 => format!("{} K", pixels >> 10),
        millions => format!("{millions} M"),
    }
}

/// The largest size at which all peers were measured: that of the one that stops first.
fn largest(peers: &[PeerTiming]) -> usize {
    let last = |peer: &str| {
        let rows = peers.iter().filter(|timing| timing.peer == peer);
        rows.map(|timing| timing.pixels).max()
    };
    let all = [ITK_OPENING, SCIKIT_OPENING, SCIKIT_TREE];
    all.into_iter().filter_map(last).min().unwrap_or(0)
}

/// The tables of the peers, and what they show.
fn against_peers(coarse: &Measured, fine: &Measured) -> String {
    if coarse.peers.is_empty() {
        return "No peer is installed: see `make peers`.\n".to_owned();
    }
    format!(
        "How many times as long a peer takes, on {} pixels, connectivity 4, limit {LIMIT}: area opening against \
         `{CLEAN_LIGHT}`, the tree against `nodes`. `{CLEAN_LIGHT}` also keeps what reaches the trim edge, for which it \
         makes a pass more; the peers' area opening has no trim edge. In brackets: how many pixels of that opening are \
         wrong, compared with the proved function's answer on the picture in a black frame, inside which no patch \
         reaches the edge.\n\n\
         Pictures of bytes, which the peers take as bytes and the proved functions as 16-bit numbers:\n\n{}\n\
         Pictures of 16-bit greys, which the peers take as 16-bit numbers too:\n\n{}\n\
         ITK's area opening by size, on the pictures of 16-bit greys:\n\n{}",
        size_name(largest(&coarse.peers)),
        peer_table(coarse, &KINDS),
        peer_table(fine, &FINE_KINDS),
        itk_table(fine, &FINE_KINDS)
    )
}

/// How many times as long ITK's area opening takes, at each size, and the geometric mean.
fn itk_table(measured: &Measured, kinds: &[&str]) -> String {
    let mut sizes: Vec<usize> = measured.peers.iter().map(|timing| timing.pixels).collect();
    sizes.sort_unstable();
    sizes.dedup();
    let mut text = format!("| pixels | {} | geometric mean |\n|---|", kinds.join(" | "));
    text += &"---|".repeat(kinds.len() + 1);
    text += "\n";
    for pixels in sizes {
        let ratios: Vec<Option<f64>> = kinds
            .iter()
            .map(|kind| itk_ratio(measured, kind, pixels))
            .collect();
        let logs: Vec<f64> = ratios.iter().flatten().map(|ratio| ratio.ln()).collect();
        let mean = (logs.iter().sum::<f64>() / logs.len() as f64).exp();
        let cell = |ratio: &Option<f64>| ratio.map_or("crashes".to_owned(), |r| format!("{r:.1}"));
        let cells: Vec<String> = ratios.iter().map(cell).collect();
        text += &format!(
            "| {} | {} | {mean:.1} |\n",
            size_name(pixels),
            cells.join(" | ")
        );
    }
    text
}

/// ITK's time over that of the proved function; none where it crashed.
fn itk_ratio(measured: &Measured, kind: &str, pixels: usize) -> Option<f64> {
    let mut rows = measured.peers.iter();
    let itk =
        rows.find(|row| row.peer == ITK_OPENING && row.kind == kind && row.pixels == pixels)?;
    let own = measured
        .timings
        .iter()
        .find(|row| row.operation == CLEAN_LIGHT && row.kind == kind && row.pixels == pixels)?;
    Some(itk.seconds? / own.seconds[0])
}

/// How many times as long each peer takes, at the largest size that it was measured at.
fn peer_table(measured: &Measured, kinds: &[&str]) -> String {
    let Measured { timings, peers } = measured;
    let largest = largest(peers);
    let mut text = format!(
        "| picture | `{CLEAN_LIGHT}`, s | `nodes`, s | {ITK_OPENING} | {SCIKIT_OPENING} | {SCIKIT_TREE} |\n\
         |---|---|---|---|---|---|\n"
    );
    for &kind in kinds {
        let own = |operation: &str| {
            let mut rows = timings.iter().filter(|timing| {
                timing.operation == operation && timing.kind == kind && timing.pixels == largest
            });
            rows.next().map_or(f64::NAN, |timing| timing.seconds[0])
        };
        let (clean, nodes) = (own(CLEAN_LIGHT), own("nodes"));
        text += &format!("| {kind} | {clean:.3} | {nodes:.3} |");
        for (peer, ours) in [
            (ITK_OPENING, clean),
            (SCIKIT_OPENING, clean),
            (SCIKIT_TREE, nodes),
        ] {
            let mut rows = peers.iter().filter(|timing| {
                timing.peer == peer && timing.kind == kind && timing.pixels == largest
            });
            text += &format!(
                " {} |",
                rows.next().map_or("-".to_owned(), |row| times(row, ours))
            );
        }
        text += "\n";
    }
    text
}

fn times(timing: &PeerTiming, ours: f64) -> String {
    let Some(seconds) = timing.seconds else {
        return "crashes".to_owned();
    };
    let wrong = match timing.differing {
        Some(0) => String::new(),
        Some(differing) => format!(" ({differing})"),
        None => " (not compared)".to_owned(),
    };
    format!("{:.1}{wrong}", seconds / ours)
}
