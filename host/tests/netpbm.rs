//! Plate files and Netpbm: files that its tools made, of one byte a pixel and of two, against Netpbm's own plain form of
//! each; what its tools made of files that are written here, as stored; and, where the tools are installed, what they
//! make of such files now, and the README's lines that run them.

mod tool_common;

use std::fs;
use std::io::{self, Write};
use std::os::unix::fs::symlink;
use std::path::{Path, PathBuf};
use std::process::Command;

use livukoe::pictures::{fine_picture, picture};
use livukoe::{lent, Connectivity, Plate, Side};
use tool_common::*;

/// The files in `tests/data` whose plates Netpbm made, by name and greatest grey.
const FILES: [(&str, u32); 7] = [
    ("deep_65535", 65_535),
    ("ellipse_256", 256),
    ("noise_1", 1),
    ("noise_200", 200),
    ("noise_1000", 1_000),
    ("noise_65535", 65_535),
    ("ramp_65535", 65_535),
];

/// The greatest greys of the plates that are made here; each has a file `ours_N.pgm` in `tests/data`.
const GREATESTS: [u32; 7] = [1, 15, 254, 255, 256, 1_000, 65_535];

fn path(name: &str) -> PathBuf {
    let here = Path::new(env!("CARGO_MANIFEST_DIR"));
    here.join("tests/data").join(name)
}

fn stored(name: &str) -> Vec<u8> {
    fs::read(path(name)).expect("a stored file")
}

/// The plate that a plain PGM without comments spells.
fn plain(text: &[u8]) -> Plate {
    let text = String::from_utf8_lossy(text);
    let mut words = text.split_whitespace();
    assert_eq!(words.next(), Some("P2"));
    let mut numbers = words.map(|word| word.parse::<u32>().expect("a number"));
    let mut next = || numbers.next().expect("a number of the header");
    let (width, height, greatest) = (next(), next(), next());
    let greys = numbers.map(|grey| grey as u16).collect();
    Plate::new(width, height, greatest, greys)
}

/// A plate of 9 x 7 pixels, whose greys rise from 0 to the greatest.
fn rising(greatest: u32) -> Plate {
    let greys = (0..63).map(|p| (p * greatest / 62) as u16).collect();
    Plate::new(9, 7, greatest, greys)
}

/// A plate on which every grey occurs.
fn every_grey(greatest: u32) -> Plate {
    let width = 256.min(greatest + 1);
    let height = (greatest + 1).div_ceil(width);
    let greys = (0..width * height).map(|p| (p % (greatest + 1)) as u16);
    Plate::new(width, height, greatest, greys.collect())
}

/// What `pamfile` says of a plate's file on its standard input.
fn pamfile_line(plate: &Plate) -> String {
    let (width, height, greatest) = (plate.width(), plate.height(), plate.greatest());
    format!("stdin:\tPGM raw, {width} by {height}  maxval {greatest}\n")
}

/// A file is read as its plate and written as Netpbm writes it.
#[test]
fn reading_and_writing() {
    for (name, greatest) in FILES {
        let file = stored(&format!("{name}.pgm"));
        let plate = Plate::from_pgm(&file).expect("a plate");
        assert_eq!(plate.greatest(), greatest);
        assert_eq!(plate, plain(&stored(&format!("{name}.txt"))));
        assert_eq!(plate.to_pgm(), Ok(file), "{name}");
    }
}

/// Netpbm read the files that are written here as their plates, and writes the same bytes.
#[test]
fn files_that_netpbm_read() {
    for greatest in GREATESTS {
        let plate = rising(greatest);
        assert_eq!(plain(&stored(&format!("ours_{greatest}.txt"))), plate);
        let rewritten = stored(&format!("ours_{greatest}.pgm"));
        assert_eq!(plate.to_pgm(), Ok(rewritten), "{greatest}");
    }
    let lines = GREATESTS.map(|greatest| pamfile_line(&rising(greatest)));
    assert_eq!(text(&stored("ours_pamfile.txt")), lines.concat());
}

/// The plate file that the C function gives.
fn written(plate: &Plate) -> Vec<u8> {
    let (width, height, greatest) = (plate.width(), plate.height(), plate.greatest());
    let mut file = vec![77; 2 * plate.greys().len() + 21];
    let answer = lent::write_pgm(plate.greys(), width, height, greatest, &mut file);
    assert_eq!(answer.refusal, 0);
    file.truncate(answer.length);
    file
}

/// What the tool prints on an input.
fn answer(words: &str, input: &[u8]) -> Vec<u8> {
    let output = run_on(&words.split(' ').collect::<Vec<_>>(), input);
    assert_ok(&output);
    output.stdout
}

/// Every command of the tool answers what the wrapper does; its plate files are those of the C function, and keep the
/// greatest grey.
#[test]
fn the_tool() {
    for (name, greatest) in FILES {
        let file = stored(&format!("{name}.pgm"));
        let plate = Plate::from_pgm(&file).expect("a plate");
        let written = |plate: &Plate| {
            assert_eq!(plate.greatest(), greatest);
            written(plate)
        };
        for side in Side::ALL {
            let clean = plate.clean(side, Connectivity::Four, 3);
            let words = format!("clean --side {side} --limit 3 - -");
            let clean = clean.expect("a clean plate");
            assert_eq!(answer(&words, &file), written(&clean), "{name}");
        }
        let marks = plate.regional_maxima(Connectivity::Four).expect("marks");
        let marks = marks.greys().iter().map(|mark| mark * greatest as u16);
        let marks = Plate::new(plate.width(), plate.height(), greatest, marks.collect());
        assert_eq!(answer("maxima - -", &file), written(&marks), "{name}");
        let record = plate.record(Connectivity::Four).expect("a record");
        assert_eq!(answer("record - -", &file), record.bytes());
        assert_eq!(answer("plate - -", record.bytes()), file);
        let cut = written(&record.cut(3).expect("a cut"));
        assert_eq!(answer("cut --limit 3 - -", record.bytes()), cut, "{name}");
        let sizes = record.sizes().expect("a size list").to_string();
        assert_eq!(text(&answer("sizelist -", &file)), sizes);
        let nodes = plate.nodes(Connectivity::Four).expect("nodes");
        assert_eq!(text(&answer("nodes -", &file)).lines().count(), nodes.len());
    }
}

/// Whether some of Netpbm's tools are installed. Where one is not, standard error says what is left out.
fn installed(tools: &[&str], left_out: &str) -> bool {
    let missing = |tool: &&&str| Command::new(tool).arg("-version").output().is_err();
    let missing = tools.iter().find(missing);
    if let Some(tool) = missing {
        let line = format!("{tool} of Netpbm is not installed: {left_out} is left out\n");
        let _ = io::stderr().write_all(line.as_bytes()); // what `eprintln` says is not shown
    }
    missing.is_none()
}

/// Runs a line of the shell in a folder.
fn shell(folder: &Folder, line: &str) {
    let mut shell = Command::new("sh");
    let run = shell.args(["-c", line]).current_dir(folder.path(""));
    let output = run.output().expect("a shell");
    assert!(output.status.success(), "{line}: {}", text(&output.stderr));
}

fn content(folder: &Folder, name: &str) -> Vec<u8> {
    fs::read(folder.path(name)).expect("a file")
}

/// What a line of tools makes of a plate's file.
fn made(folder: &Folder, plate: &Plate, tools: &str) -> Vec<u8> {
    folder.file("plate.pgm", &plate.to_pgm().expect("a file"));
    shell(folder, &format!("<plate.pgm {tools} >made"));
    content(folder, "made")
}

/// Lines of tools that write a plate with this greatest grey again.
fn rewriters(greatest: u32) -> impl Iterator<Item = String> {
    let depth = format!("pamdepth {greatest}");
    let whole_bits = [15, 255, 65_535].contains(&greatest); // samples of 4, 8 and 16 bits
    let lines = [
        ("pgmtopgm".to_owned(), true),
        (format!("pamdepth 65535 | {depth}"), true),
        ("pamtopnm".to_owned(), greatest != 1), // of greys that are 0 and 1 it makes a PBM
        ("pnmtopng | pngtopnm".to_owned(), whole_bits),
        (
            format!("pnmtopng | pngtopnm | {depth}"),
            greatest != 1_000, // whose greys it rounds to 10 bits
        ),
    ];
    let lines = lines.into_iter().filter(|(_, keeps)| *keeps);
    lines.map(|(line, _)| line)
}

/// The tools say of each file that it has the sizes, greatest grey and greys of its plate, and write the same bytes.
#[test]
fn what_netpbm_makes_of_them() {
    let tools = [
        "pamfile", "pgmtopgm", "pamdepth", "pamtopnm", "pnmtopng", "pngtopnm",
    ];
    if !installed(&tools, "what Netpbm makes of plate files") {
        return;
    }
    let folder = Folder::new("netpbm");
    let plates = GREATESTS.map(|greatest| [rising(greatest), every_grey(greatest)]);
    for plate in plates.as_flattened() {
        let made = |tools: &str| made(&folder, plate, tools);
        assert_eq!(text(&made("pamfile")), pamfile_line(plate));
        assert_eq!(plain(&made("pgmtopgm -plain")), *plate);
        for tools in rewriters(plate.greatest()) {
            assert!(
                made(&tools) == written(plate),
                "{tools}, {}",
                plate.greatest()
            );
        }
    }
}

/// Plates of every greatest grey, in files that are put one after the other, are a roll: the tool counts them and takes
/// out those that the tools part it into.
#[test]
fn rolls() {
    if !installed(&["pamfile", "pamsplit"], "what Netpbm makes of rolls") {
        return;
    }
    let folder = Folder::new("rolls");
    let plates = GREATESTS.map(|greatest| [rising(greatest), every_grey(greatest)]);
    let plates = plates.as_flattened();
    for (number, plate) in plates.iter().enumerate() {
        folder.file(&format!("image{number:02}"), &written(plate));
    }
    let line = "cat image* >job && pamfile -allimages <job >said && pamsplit job part%d";
    shell(&folder, line);
    let said = plates.iter().map(pamfile_line).enumerate();
    let said = said.map(|(number, line)| line.replacen(":\t", &format!(":\tImage {number}:\t"), 1));
    assert_eq!(text(&content(&folder, "said")), said.collect::<String>());
    let job = content(&folder, "job");
    let count = format!("{}\n", plates.len());
    assert_eq!(text(&answer("roll count -", &job)), count);
    for (number, plate) in plates.iter().enumerate() {
        let part = content(&folder, &format!("part{number}"));
        assert!(part == written(plate), "{number}");
        let line = format!("roll plate --number {number} - -");
        assert!(answer(&line, &job) == part, "{number}");
    }
}

/// The README's command that begins with some words, to its end.
fn readme_command(begin: &str) -> String {
    let begin = format!("    {begin}");
    let lines = include_str!("../../README.md").lines();
    let lines: Vec<&str> = lines.skip_while(|line| !line.starts_with(&begin)).collect();
    let last = lines.iter().position(|line| !line.ends_with('|'));
    lines[..=last.expect("its end")].join("\n")
}

/// The README's commands on a scan: from a TIFF and back, and in a frame.
fn check_readme(scan: &Plate) {
    let folder = Folder::new(&format!("readme-{}", scan.greatest()));
    fs::create_dir(folder.path("bin")).expect("a folder");
    symlink(env!("CARGO_BIN_EXE_livukoe"), folder.path("bin/livukoe")).expect("a link");
    let run = |begin| shell(&folder, &readme_command(begin));
    let assert_plate =
        |name, plate: &Plate| assert!(content(&folder, name) == written(plate), "{name}");
    let cleaned = |plate: &Plate, side| {
        let clean = plate.clean(side, Connectivity::Four, 17);
        clean.expect("a clean plate")
    };

    made(&folder, scan, "pnmtotiff");
    fs::rename(folder.path("made"), folder.path("scan.tif")).expect("a TIFF");
    run("tifftopnm ");
    assert_plate("scan.pgm", scan);
    run("bin/livukoe clean ");
    let clean = cleaned(&cleaned(scan, Side::Light), Side::Dark);
    assert_plate("clean.pgm", &clean);
    run("pnmtotiff ");
    fs::rename(folder.path("clean.tif"), folder.path("scan.tif")).expect("a TIFF");
    run("tifftopnm ");
    assert_plate("scan.pgm", &clean);
    folder.file("scan.pgm", &written(scan));
    run("pnmpad ");
    assert_plate(
        "clean.pgm",
        &cleaned(&scan.framed(0), Side::Light).unframed(),
    );
}

#[test]
fn the_readme() {
    let tools = ["tifftopnm", "ppmtopgm", "pnmtotiff", "pnmpad", "pamcut"];
    if installed(&tools, "what the README does with Netpbm") {
        check_readme(&picture("terrain", 97, 61));
        check_readme(&fine_picture("relief", 97, 61));
    }
}
