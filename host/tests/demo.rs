//! What `make demo` makes: the pictures are those of the README; dust goes, and what runs off the sheet stays.

use std::fs;
use std::path::{Path, PathBuf};
use std::process::Command;
use std::sync::OnceLock;

use livukoe::{Connectivity, Plate, Side};
use reference::Grid;

/// The plates that are shown.
const NAMES: [&str; 3] = ["before", "after", "edge"];

/// The limit that is larger than every snowfield.
const LARGE: &str = "500";

/// Grass and water are no darker and ice is no lighter than this; beyond it is dust. Nothing but ice and dust is lighter
/// than the third.
const DARKEST: u16 = 46;
const LIGHTEST: u16 = 252;
const ICE: u16 = 234;

/// Runs a program of this crate in the folder of the test.
fn run(program: &str, words: &[&str]) {
    let ran = Command::new(program)
        .args(words)
        .current_dir(env!("CARGO_TARGET_TMPDIR"))
        .output()
        .expect("a run");
    assert!(ran.status.success(), "{ran:?}");
}

fn made(name: &str) -> PathBuf {
    Path::new(env!("CARGO_TARGET_TMPDIR")).join(name)
}

/// Makes the plates and pictures as the Makefile does, once for all tests.
fn make_all() {
    static MADE: OnceLock<()> = OnceLock::new();
    MADE.get_or_init(|| {
        let (tool, demo) = (
            env!("CARGO_BIN_EXE_livukoe"),
            env!("CARGO_BIN_EXE_livukoe-demo"),
        );
        run(demo, &["relief", "before.pgm"]);
        for (side, limit, files) in [
            ("light", "17", ["before.pgm", "between.pgm"]),
            ("dark", "17", ["between.pgm", "after.pgm"]),
            ("light", LARGE, ["after.pgm", "edge.pgm"]),
        ] {
            let words = ["clean", "--side", side, "--limit", limit];
            run(tool, &[&words[..], &files].concat());
        }
        for name in NAMES {
            run(
                demo,
                &["png", &format!("{name}.pgm"), &format!("{name}.png")],
            );
        }
    });
}

/// A plate of the demonstration.
fn plate(name: &str) -> Plate {
    make_all();
    let file = fs::read(made(&format!("{name}.pgm"))).expect("a plate file");
    Plate::from_pgm(&file).expect("a plate")
}

#[test]
fn pictures() {
    make_all();
    for name in NAMES.map(|name| format!("{name}.png")) {
        let docs = Path::new(env!("CARGO_MANIFEST_DIR")).join("../docs");
        let shown = fs::read(docs.join(&name)).expect("the README's picture");
        let made = fs::read(made(&name)).expect("the picture");
        assert!(made == shown, "{name}");
    }
}

/// The patches of the pixels whose greys are such.
fn patches(plate: &Plate, such: impl Fn(u16) -> bool) -> Vec<Vec<usize>> {
    let grid = Grid::new(plate.width(), plate.height(), 4);
    grid.components(&|p| such(plate.greys()[p]))
}

/// Whether a patch has a pixel in the first or last row or column.
fn reaches_border(plate: &Plate, patch: &[usize]) -> bool {
    let (width, pixels) = (plate.width() as usize, plate.greys().len());
    patch
        .iter()
        .any(|&p| p < width || p >= pixels - width || p % width == 0 || p % width == width - 1)
}

#[test]
fn dust_goes() {
    let (before, after) = (plate("before"), plate("after"));
    let kinds: [fn(u16) -> bool; 2] = [|grey| grey > LIGHTEST, |grey| grey < DARKEST];
    for is_dust in kinds {
        let specks = patches(&before, is_dust);
        assert!(specks.len() > 100);
        for speck in specks {
            let stays = reaches_border(&before, &speck);
            for p in speck {
                assert_eq!(is_dust(after.greys()[p]), stays, "pixel {p}");
            }
        }
    }
}

/// At a limit above them all the snowfields go, but not the one that runs off the sheet.
#[test]
fn the_glacier_that_runs_off_the_sheet_stays() {
    let (before, after) = (plate("after"), plate("edge"));
    let limit: u32 = LARGE.parse().expect("a limit");
    let small = patches(&before, |grey| grey >= ICE).into_iter();
    let small = small.filter(|patch| patch.len() < limit as usize);
    let (on_border, inside): (Vec<_>, Vec<_>) =
        small.partition(|patch| reaches_border(&before, patch));
    let glacier = on_border.iter().max_by_key(|patch| patch.len());
    let glacier = glacier.expect("a patch on the border");
    let areas = || inside.iter().map(Vec::len);
    let figures = (glacier.len(), areas().min(), areas().max());
    assert_eq!(figures, (259, Some(33), Some(377)), "as the README says");
    for &p in on_border.iter().flatten() {
        assert!(after.greys()[p] >= ICE, "pixel {p} is gone");
    }
    for &p in inside.iter().flatten() {
        assert!(after.greys()[p] < ICE, "pixel {p} is there");
    }
    // without the border it goes too
    let framed = before
        .framed(0)
        .clean(Side::Light, Connectivity::Four, limit);
    let framed = framed.expect("a clean plate").unframed();
    assert!(glacier.iter().all(|&p| framed.greys()[p] < ICE));
}
