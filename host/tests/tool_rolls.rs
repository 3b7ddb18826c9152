//! The command-line tool on rolls: counting, taking a plate out, and what it says of damaged ones.

mod tool_common;

use std::fs::{self, File};
use std::io::Write;
use std::path::Path;

use livukoe::pictures::{fine_picture, picture};
use tool_common::*;

/// A plate file with a header that is longer than the written one, and its written form.
const LONG: &[u8] = b"P5 # scanned\n3 03\t9\n\x01\x01\x01\x01\x09\x01\x01\x01\x01";
const WRITTEN: &[u8] = b"P5\n3 3\n9\n\x01\x01\x01\x01\x09\x01\x01\x01\x01";

/// Plates of several sizes, of one byte a pixel and of two: the bytes of each.
fn plates() -> Vec<Vec<u8>> {
    let terrain = picture("terrain", 31, 17).to_pgm().expect("a file");
    let fine = fine_picture("noise", 13, 29).to_pgm().expect("a file");
    vec![SMALL.to_vec(), LONG.to_vec(), terrain, fine, SMALL.to_vec()]
}

#[test]
fn counts() {
    let plates = plates();
    for count in 0..=plates.len() {
        let counted = answer("roll count -", &plates[..count].concat());
        assert_eq!(text(&counted), format!("{count}\n"));
    }
}

/// Each plate as a file in the written form.
#[test]
fn one_plate() {
    let plates = plates();
    let roll = plates.concat();
    for (number, plate) in plates.iter().enumerate() {
        let wanted = if plate == LONG { WRITTEN } else { plate };
        for option in [format!("--number {number}"), format!("--number=0{number}")] {
            assert_eq!(answer(&format!("roll plate {option} - -"), &roll), wanted);
        }
    }
    let folder = Folder::new("one_plate");
    let (input, output) = (folder.file("job.pgm", &roll), folder.path("out.pgm"));
    let words = ["roll", "plate", "--number", "1"];
    assert_ok(&run(&words, &[&input, &output]));
    assert_eq!(fs::read(output).expect("OUT"), WRITTEN);
}

/// What stands after two sound plates, of 23 and of 29 bytes, and how the roll is refused.
const FAULTS: [(&[u8], &str); 12] = [
    (
        b"\n",
        "10: 1 byte left over after plate 1, at byte 52; another plate would begin with P5",
    ),
    (
        b"P",
        "10: 1 byte left over after plate 1, at byte 52; another plate would begin with P5",
    ),
    (
        b"P6 1 1 255 abc",
        "10: 14 bytes left over after plate 1, at byte 52; another plate would begin with P5, \
         and this is a raw PPM",
    ),
    (
        b"P5 1 x",
        "11: plate 2, which begins at byte 52: byte 5 of the header is 'x'; a digit of the height \
         should be there",
    ),
    (
        b"P5 1",
        "11: plate 2, which begins at byte 52: the file ends at byte 56; a blank ahead of the \
         height should be there",
    ),
    (
        b"P5 5000 4000 255\n",
        "2: plate 2, which begins at byte 52: 5000 x 4000 = 20000000 pixels; at most 16777216",
    ),
    (
        b"P5 1 1 65536\n",
        "12: plate 2, which begins at byte 52: the greatest grey is 65536; 1 to 65535",
    ),
    (
        b"P5 2 3 255\nabcde",
        "14: plate 2, which begins at byte 52: 5 bytes for 6 pixels (2 x 3)",
    ),
    (
        b"P5 2 3 256\n",
        "14: plate 2, which begins at byte 52: 0 bytes for 6 pixels (2 x 3) of 2 bytes each",
    ),
    (
        b"P5 3 1 9\n\x08\x09\x0a",
        "28: plate 2, which begins at byte 52: pixel 2 (row 0, column 2) is 10, above the greatest \
         grey 9",
    ),
    (
        b"P5 1 1 255 aP5 1 1 9 \x0aP6",
        "28: plate 3, which begins at byte 64: pixel 0 (row 0, column 0) is 10, above the greatest \
         grey 9",
    ),
    (
        b"P5 1 1 255 aab",
        "10: 2 bytes left over after plate 2, at byte 64; another plate would begin with P5",
    ),
];

/// A faulty plate refuses the whole roll, by both commands and whatever the number: nothing is printed, and OUT is as it
/// was.
#[test]
fn faulty_plates() {
    let folder = Folder::new("faulty_plates");
    let (input, output) = (folder.path("job.pgm"), folder.file("out.pgm", b"as it was"));
    for (after, wanted) in FAULTS {
        let roll = [SMALL, LONG, after].concat();
        for command in ["roll plate --number 0", "roll plate --number 7"] {
            assert_tells(command, &roll, wanted);
        }
        let line = format!("standard input: refused {wanted}");
        assert_says(&run_line("roll count -", &roll), 1, &line);
        fs::write(&input, &roll).expect("IN");
        let words = ["roll", "plate", "--number", "0"];
        let line = format!("job.pgm: refused {wanted}");
        assert_says_of(&run(&words, &[&input, &output]), 1, &line);
        assert_eq!(fs::read(&output).expect("OUT"), b"as it was");
    }
    assert_eq!(folder.names(), ["job.pgm", "out.pgm"]);
}

/// A fault of the first plate is told as that of a plate file is, but for what is left over.
#[test]
fn faults_of_the_first_plate() {
    for (file, wanted) in [
        (&b"P5 2 3 255\n\x07"[..], "14: 1 byte for 6 pixels (2 x 3)"),
        (
            b"P5 1 #",
            "11: the file ends at byte 6; the end of a comment should be there",
        ),
        (
            b"P2 1 1 255 7",
            "10: the input is a plain PGM, not a raw PGM (P5); it becomes one by: pgmtopgm",
        ),
        (
            b"\n",
            "10: the input does not begin with P5; its first bytes are 0a",
        ),
        (
            b"P5 1 1 6 \x07P6",
            "28: pixel 0 (row 0, column 0) is 7, above the greatest grey 6",
        ),
        (
            b"P5 1 1 255 a\n",
            "10: 1 byte left over after plate 0, at byte 12; another plate would begin with P5",
        ),
    ] {
        assert_tells("roll plate --number 0", file, wanted);
    }
}

#[test]
fn numbers_beyond_the_roll() {
    let roll = plates().concat();
    for (number, told) in [
        ("5", "5"),
        ("007", "7"),
        ("4294967296", "4294967296"),
        ("99999999999999999999", "99999999999999999999"),
    ] {
        let line = format!("roll plate --number {number}");
        let wanted = format!("25: the number {told} is not below the 5 plates");
        assert_tells(&line, &roll, &wanted);
    }
    let wanted = "25: the number 1 is not below the 1 plate";
    assert_tells("roll plate --number 1", SMALL, wanted);
    let none = "25: the number 0 is not below the 0 plates";
    assert_tells("roll plate --number 0", b"", none);
}

/// The README's lines on rolls, as they are written there.
#[test]
fn the_job_of_the_readme() {
    let lines = include_str!("../../README.md").lines();
    let lines = lines.skip_while(|line| !line.starts_with("    cat sheet1.pgm"));
    let lines: Vec<&str> = lines.take_while(|line| !line.is_empty()).collect();
    let folder = Folder::new("readme_job");
    for (number, kind) in ["terrain", "noise", "ramp"].into_iter().enumerate() {
        let file = picture(kind, 40, 30).to_pgm().expect("a file");
        folder.file(&format!("sheet{}.pgm", number + 1), &file);
    }
    let script = lines.join("\n").replace("bin/livukoe", "\"$1\"");
    let mut shell = by_shell(&script, &[]);
    let output = shell.current_dir(folder.path("")).output().expect("a run");
    assert_ok(&output);
    assert_eq!(text(&output.stdout), "3\n");
    let content = |name: &str| fs::read(folder.path(name)).expect("a file");
    assert_eq!(content("second.pgm"), content("sheet2.pgm"));
    let wanted = answer("clean --side light --limit 17 - -", &content("sheet2.pgm"));
    assert_eq!(content("clean.pgm"), wanted);
}

/// Many small plates: the time is that of their bytes.
#[test]
fn many_plates() {
    const MANY: usize = 50_000;
    let roll = b"P5\n1 1\n255\n\x07".repeat(MANY);
    let folder = Folder::new("many_plates");
    let input = folder.file("job.pgm", &roll);
    let count = run(&["roll", "count"], &[&input]);
    assert_eq!(text(&count.stdout), format!("{MANY}\n"));
    let last = (MANY - 1).to_string();
    let name = input.to_str().expect("a name");
    let plate = run(&["roll", "plate", "--number", &last, name, "-"], &[]);
    assert_eq!(plate.stdout, b"P5\n1 1\n255\n\x07");
}

/// A roll may have more bytes than a plate file.
#[test]
fn long_rolls() {
    let folder = Folder::new("long_rolls");
    let path = folder.file("job.pgm", b"P5 #");
    let mut file = File::options().append(true).open(&path).expect("the file");
    file.set_len((1 << 28) + 1000).expect("its length");
    file.write_all(b"\n1 1 255\n\x07P5 1 1 9 \x07")
        .expect("its end");
    let count = run(&["roll", "count"], &[&path]);
    assert_ok(&count);
    assert_eq!(text(&count.stdout), "2\n");
    fs::remove_file(path).expect("removed");
}

/// Where there is not enough memory for the roll, or for its plate, nothing is written.
#[test]
fn no_memory() {
    let folder = Folder::new("roll_memory");
    let large = picture("flat", 4096, 4096).to_pgm().expect("a file");
    let input = folder.file("job.pgm", &[SMALL, &large].concat());
    let output = folder.file("out.pgm", b"as it was");
    for (kibibytes, out) in [
        (20_000, Path::new("-")),
        (40_000, Path::new("-")),
        (40_000, &output),
    ] {
        let line = format!("ulimit -v {kibibytes}; \"$@\"");
        let files = [&input, out].map(|path| path.to_str().expect("a name"));
        let words = [&["roll", "plate", "--number", "1"][..], &files].concat();
        let run = by_shell(&line, &words).output().expect("a run");
        assert_says(&run, 3, "there is not enough memory");
    }
    assert_eq!(fs::read(&output).expect("OUT"), b"as it was");
    assert_eq!(folder.names(), ["job.pgm", "out.pgm"]);
}

/// Help is there for the commands of two words, and where the second is left out.
#[test]
fn help() {
    let wanted = answer("help", b"");
    for line in [
        "roll --help",
        "roll -h",
        "roll count -h",
        "roll plate --help",
    ] {
        assert_eq!(text(&answer(line, b"")), text(&wanted), "{line}");
    }
    for line in [
        "  livukoe roll count IN.pgm\n",
        "  livukoe roll plate --number K IN.pgm OUT.pgm\n",
    ] {
        assert!(text(&wanted).contains(line), "{line}");
    }
}

/// Command lines, and what is wrong with them.
const SLIPS: [(&str, &str); 13] = [
    ("roll", "roll lacks count or plate"),
    (
        "roll wash a",
        "there is no command roll wash; write roll count or roll plate",
    ),
    (
        "roll --number 1 plate a b",
        "there is no command roll --number; write roll count or roll plate",
    ),
    (
        "roll \x1b[2J",
        "there is no command roll \\u{1b}[2J; write roll count or roll plate",
    ),
    ("count a", "there is no command count"),
    ("roll count", "roll count takes IN, and 0 files are given"),
    (
        "roll count a b",
        "roll count takes IN, and 2 files are given",
    ),
    ("roll count --force a", "roll count takes no --force"),
    ("roll count --number 1 a", "roll count takes no --number"),
    ("roll plate a b", "roll plate lacks --number"),
    (
        "roll plate --number -1 a b",
        "the number -1 is not a whole number",
    ),
    (
        "roll plate --number 1 --number=1 a b",
        "--number is given twice",
    ),
    (
        "roll plate --number 1 a",
        "roll plate takes IN and OUT, and 1 file is given",
    ),
];

/// A slip is told in one line, which says where there is more.
#[test]
fn bad_usage() {
    let one_word = "there is no command roll count; see livukoe --help";
    assert_says(&run(&["roll count", "a"], &[]), 2, one_word);
    for (line, wanted) in SLIPS {
        let wanted = format!("{wanted}; see livukoe --help");
        assert_says(&run_line(line, b""), 2, &wanted);
    }
}
