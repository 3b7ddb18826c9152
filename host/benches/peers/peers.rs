//! Times of ITK and scikit-image, each in a process of its own, on one thread.

use std::fs;
use std::path::{Path, PathBuf};
use std::process::Command;

use livukoe::{Connectivity, Plate, Side, BYTE_GREATEST};

use crate::operations::LIMIT;

/// A time of a peer.
pub struct PeerTiming {
    pub peer: &'static str,
    pub kind: &'static str,
    pub pixels: usize,
    /// None where it crashed.
    pub seconds: Option<f64>,
    /// How many pixels of its opening differ from that of the proved function; none where that was not made.
    pub differing: Option<usize>,
}

pub const ITK_OPENING: &str = "ITK AreaOpeningImageFilter";
pub const SCIKIT_OPENING: &str = "scikit-image area_opening";
pub const SCIKIT_TREE: &str = "scikit-image max_tree";

/// The peers that are installed, by name and the words that run them.
pub struct Peers {
    commands: Vec<(&'static str, Vec<PathBuf>)>,
    folder: PathBuf,
    /// The greatest size for scikit-image.
    scikit_pixels: usize,
}

impl Peers {
    /// Looks for the peers, and compiles what must be compiled.
    pub fn find(scikit_pixels: usize) -> Peers {
        let here = Path::new(env!("CARGO_MANIFEST_DIR")).join("peers");
        let folder = PathBuf::from(env!("CARGO_TARGET_TMPDIR"));
        let mut commands = Vec::new();
        let itk = folder.join("area_opening_itk");
        if succeeds(Command::new(here.join("build_itk.sh")).arg(&itk)) {
            commands.push((ITK_OPENING, vec![itk]));
        }
        let pythons = ["python3", "/usr/bin/python3"]; // Debian's own is not always the first
        let has_scikit = |python: &&&str| {
            succeeds(Command::new(python).args(["-c", "import skimage.morphology"]))
        };
        if let Some(python) = pythons.iter().find(has_scikit) {
            for (peer, function) in [(SCIKIT_OPENING, "area_opening"), (SCIKIT_TREE, "max_tree")] {
                let words = [python.into(), here.join("scikit_image.py"), function.into()];
                commands.push((peer, words.to_vec()));
            }
        }
        Peers {
            commands,
            folder,
            scikit_pixels,
        }
    }

    /// Measures every peer that takes a plate of that size.
    pub fn all(&self, kind: &'static str, plate: &Plate) -> Vec<PeerTiming> {
        let input = self.folder.join("plate.pgm");
        let file = plate.to_pgm().expect("a plate file");
        fs::write(&input, file).expect("a file on the disk");
        let opening = area_opening(plate);
        let measure = |(peer, words): &(&'static str, Vec<PathBuf>)| {
            let output = self.folder.join("answer.raw");
            let _ = fs::remove_file(&output); // there is none at first
            let seconds = run(words, &input, &output, plate.greys().len());
            let answer = fs::read(&output).unwrap_or_default();
            let differing = |opening: &Plate| {
                let pairs = greys(&answer, plate.greatest()).zip(opening.greys());
                pairs.filter(|(one, other)| one != *other).count()
            };
            PeerTiming {
                peer,
                kind,
                pixels: plate.greys().len(),
                seconds,
                differing: opening.as_ref().map(differing),
            }
        };
        let takes = |(peer, _): &&(&'static str, Vec<PathBuf>)| {
            *peer == ITK_OPENING || plate.greys().len() <= self.scikit_pixels
        };
        self.commands.iter().filter(takes).map(measure).collect()
    }
}

/// The greys that a peer wrote as this machine has them: bytes up to the greatest grey 255, else 16-bit numbers.
fn greys(raw: &[u8], greatest: u32) -> impl Iterator<Item = u16> + '_ {
    let depth = if greatest <= BYTE_GREATEST { 1 } else { 2 };
    raw.chunks_exact(depth).map(|bytes| match *bytes {
        [low, high] => u16::from_ne_bytes([low, high]),
        _ => bytes[0].into(),
    })
}

/// The opening that the peers make, which has no trim edge: the plate is cleaned in a black frame. None where the framed
/// plate is beyond the grid.
fn area_opening(plate: &Plate) -> Option<Plate> {
    let clean = plate
        .framed(0)
        .clean(Side::Light, Connectivity::Four, LIMIT);
    clean.ok().map(|clean| clean.unframed())
}

fn succeeds(command: &mut Command) -> bool {
    let output = command.output();
    output.is_ok_and(|output| output.status.success())
}

/// Runs a peer and reads the seconds that it prints.
fn run(words: &[PathBuf], input: &Path, output: &Path, pixels: usize) -> Option<f64> {
    let runs = if pixels <= 1 << 18 { "3" } else { "1" };
    let answer = Command::new(&words[0])
        .args(&words[1..])
        .args([input, output])
        .args(["4", &LIMIT.to_string(), runs])
        .output()
        .ok()?;
    let text = String::from_utf8(answer.stdout).ok()?;
    text.trim().parse().ok()
}
