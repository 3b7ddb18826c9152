//! The command-line tool: its answers, its messages and its exit statuses.

mod tool_common;

use std::fs::{self, File};
use std::path::{Path, PathBuf};
use std::process::{Output, Stdio};

use tool_common::*;

const CLEAN: [&str; 7] = ["clean", "--side", "light", "--limit", "2", "-", "-"];

/// Runs the tool with the words of a line, on standard input.
fn run_line(line: &str, input: &[u8]) -> Output {
    let words: Vec<&str> = line.split(' ').collect();
    run_on(&words, input)
}

#[test]
fn the_small_plate() {
    let light = run_on(&CLEAN, SMALL);
    assert_ok(&light);
    let wanted = [10, 10, 10, 10, 10, 30, 30, 10, 10, 10, 10, 90];
    assert_eq!(light.stdout, small_file(wanted));
    let eight = run_line("clean --limit=12 --connectivity=8 --side=light - -", SMALL);
    assert_eq!(eight.stdout, small_file(wanted));
    let four = run_line("clean --limit=12 --side=light - -", SMALL);
    let wanted = [10, 10, 10, 10, 10, 10, 10, 10, 10, 10, 10, 90];
    assert_eq!(four.stdout, small_file(wanted));
    let dark = run_line("clean --side dark --limit 10 - -", SMALL);
    assert_ok(&dark);
    assert_eq!(dark.stdout, SMALL);
    let hole = b"P5\n3 3\n255\n\x5a\x50\x5a\x5a\x0a\x5a\x5a\x5a\x5a";
    let dark = run_line("clean --side dark --limit 2 - -", hole);
    assert_eq!(
        dark.stdout,
        b"P5\n3 3\n255\n\x5a\x50\x5a\x5a\x50\x5a\x5a\x5a\x5a"
    );
    let maxima = run_on(&["maxima", "-", "-"], SMALL);
    let wanted = [0, 0, 0, 0, 0, 255, 0, 0, 0, 0, 0, 255];
    assert_eq!(maxima.stdout, small_file(wanted));
}

/// A side is a word or a number.
#[test]
fn sides() {
    for (word, number) in [("light", "1"), ("dark", "2")] {
        let cleaned = |side: &str| {
            let output = run_line(&format!("clean {side} --limit 10 - -"), SMALL);
            assert_ok(&output);
            output.stdout
        };
        let wanted = cleaned(&format!("--side {word}"));
        for side in [
            format!("--side={word}"),
            format!("--side {number}"),
            format!("--side={number}"),
        ] {
            assert_eq!(cleaned(&side), wanted, "{side}");
        }
    }
}

/// Two light pixels of 50 touch on the falling diagonal, with 6 and 8; two of 90 on the rising one, with 8 alone. By each
/// kind: what is left of them at the limit 2, and the size list.
const KINDS: [(u8, u8, u8, &str); 3] = [
    (4, 10, 10, "size 6 5 4 5\n1 4 240\nheld 0\nrest 10 96\n"),
    (
        6,
        50,
        10,
        "size 6 5 6 4\n1 2 160\n2 1 80\nheld 0\nrest 10 96\n",
    ),
    (
        8,
        50,
        90,
        "size 6 5 8 3\n2 1 80\n4 1 160\nheld 0\nrest 10 96\n",
    ),
];

/// The plate file with these two pairs, off the trim edge.
fn pairs(falling: u8, rising: u8) -> Vec<u8> {
    let mut greys = [10; 30];
    greys[13] = falling;
    greys[20] = falling;
    greys[10] = rising;
    greys[15] = rising;
    [b"P5\n6 5\n255\n", &greys[..]].concat()
}

#[test]
fn three_connectivities() {
    let plate = pairs(50, 90);
    for (connectivity, falling, rising, sizes) in KINDS {
        let clean = pairs(falling, rising);
        let answer = |command: &str, input: &[u8]| {
            let output = run_line(command, input);
            assert_ok(&output);
            output.stdout
        };
        let by_kind = |command: &str, files: &str| {
            let line = format!("{command} --connectivity {connectivity} {files}");
            answer(&line, &plate)
        };
        assert_eq!(by_kind("clean --side light --limit 2", "- -"), clean);
        assert_eq!(text(&by_kind("sizelist", "-")), sizes);
        let record = by_kind("record", "- -");
        assert_eq!(record[6], connectivity);
        assert_eq!(answer("plate - -", &record), plate);
        assert_eq!(answer("cut --limit 2 - -", &record), clean);
    }
}

#[test]
fn texts() {
    let nodes = run_on(&["nodes", "-"], SMALL);
    assert_ok(&nodes);
    let wanted = "0 10 0 12 0\n1 30 0 2 6\n2 50 1 1 5\n3 90 0 1 11\n";
    assert_eq!(text(&nodes.stdout), wanted);
    let sizes = run_on(&["sizelist", "-"], SMALL);
    assert_ok(&sizes);
    let wanted = "size 4 3 4 4\n1 1 20\n2 1 40\nheld 80\nrest 10 96\n";
    assert_eq!(text(&sizes.stdout), wanted);
    let one = run_on(&["sizelist", "-"], b"P5 1 1 255\n\x07");
    assert_eq!(text(&one.stdout), "size 1 1 4 1\nheld 0\nrest 7 97\n");
}

#[test]
fn records() {
    let written = run_on(&["record", "-", "-"], SMALL);
    assert_ok(&written);
    assert_eq!(written.stdout, SMALL_RECORD);
    for record in [&SMALL_RECORD[..], &OLD_RECORD] {
        let plate = run_on(&["plate", "-", "-"], record);
        assert_ok(&plate);
        assert_eq!(plate.stdout, SMALL);
        let cut = run_on(&["cut", "--limit", "2", "-", "-"], record);
        assert_eq!(cut.stdout, run_on(&CLEAN, SMALL).stdout);
    }
}

/// Every record in each form that it has.
#[test]
fn conversions() {
    for (form, input, wanted) in [
        ("old", &SMALL_RECORD[..], &OLD_RECORD[..]),
        ("old", &OLD_RECORD, &OLD_RECORD),
        ("new", &OLD_RECORD, &SMALL_RECORD),
        ("new", &SMALL_RECORD, &SMALL_RECORD),
        ("new", &FINER_RECORD, &FINER_RECORD),
    ] {
        for option in [format!("--to {form}"), format!("--to={form}")] {
            let output = run_line(&format!("convert {option} - -"), input);
            assert_ok(&output);
            assert_eq!(output.stdout, wanted);
        }
    }
}

/// Seed 0 begins 60, 71, 209, 170; the file is one that the tool reads.
#[test]
fn test_plates() {
    let seed = |size: &str| {
        let output = run_line(&format!("seed --seed 0 --size {size} -"), b"");
        assert_ok(&output);
        output.stdout
    };
    for size in ["4x1", "2x2", "1x4", "01x004"] {
        let (width, height) = size.split_once('x').expect("a size");
        let (width, height) = (
            width.trim_start_matches('0'),
            height.trim_start_matches('0'),
        );
        let header = format!("P5\n{width} {height}\n255\n");
        let wanted = [header.as_bytes(), &[60, 71, 209, 170]].concat();
        assert_eq!(seed(size), wanted, "{size}");
    }
    let plate = seed("40x30");
    assert_eq!(
        run_line("clean --side 1 --limit 1 - -", &plate).stdout,
        plate
    );
    let last = run_line("seed --size=1x1 --seed=4294967295 -", b"");
    assert_eq!(last.stdout, b"P5\n1 1\n255\n\x3c");
}

/// The README's line on test plates, as it is written there.
#[test]
fn the_test_plate_of_the_readme() {
    let mut lines = include_str!("../../README.md").lines().map(str::trim);
    let line = lines.find(|line| line.starts_with("bin/livukoe seed"));
    let (command, printed) = line
        .and_then(|line| line.split_once('#'))
        .expect("a command");
    let folder = Folder::new("checksum");
    let output = by_shell(&command.replace("bin/livukoe", "\"$1\""), &[])
        .current_dir(folder.path(""))
        .output()
        .expect("a run");
    assert_ok(&output);
    assert_eq!(text(&output.stdout).trim(), printed.trim());
}

/// The small plate with each grey as so many of a greatest grey.
fn small_of(greatest: u16, times: u16) -> Vec<u8> {
    let greys = SMALL[11..].iter().map(|&grey| times * u16::from(grey));
    let bytes = greys.flat_map(u16::to_be_bytes).collect::<Vec<u8>>();
    [format!("P5\n4 3\n{greatest}\n").as_bytes(), &bytes].concat()
}

/// Two bytes a pixel.
#[test]
fn sixteen_bits() {
    let plate = small_of(65_535, 257);
    let light = run_on(&CLEAN, &plate);
    assert_ok(&light);
    let mut wanted = small_of(65_535, 257);
    let five = wanted.len() - 14;
    wanted[five..five + 2].fill(30);
    assert_eq!(light.stdout, wanted);
    let dark = run_line("clean --side dark --limit 10 - -", &plate);
    assert_eq!(dark.stdout, plate);
    let maxima = run_on(&["maxima", "-", "-"], &plate);
    let mut wanted = small_of(65_535, 0);
    for pixel in [5, 11] {
        let at = wanted.len() - 24 + 2 * pixel;
        wanted[at..at + 2].fill(255);
    }
    assert_eq!(maxima.stdout, wanted);
    let nodes = run_on(&["nodes", "-"], &plate);
    let wanted = "0 2570 0 12 0\n1 7710 0 2 6\n2 12850 1 1 5\n3 23130 0 1 11\n";
    assert_eq!(text(&nodes.stdout), wanted);
    let sizes = run_on(&["sizelist", "-"], &plate);
    let wanted = "size 4 3 4 4\n1 1 5140\n2 1 10280\nheld 20560\nrest 2570 96\n";
    assert_eq!(text(&sizes.stdout), wanted);
    let record = run_on(&["record", "-", "-"], &plate);
    assert_eq!(record.stdout[..6], [0, 2, 255, 255, 3, 4]);
    assert_eq!(run_on(&["plate", "-", "-"], &record.stdout).stdout, plate);
    let cut = run_on(&["cut", "--limit", "2", "-", "-"], &record.stdout);
    assert_eq!(cut.stdout, light.stdout);
}

/// One byte a pixel with another greatest grey than 255, which is kept.
#[test]
fn other_greatest_greys() {
    let plate = [b"P5\n4 3\n90\n", &SMALL[11..]].concat();
    let clean = run_line("clean --side light --limit 1 - -", &plate);
    assert_ok(&clean);
    assert_eq!(clean.stdout, plate);
    let maxima = run_on(&["maxima", "-", "-"], &plate);
    let marks = [0, 0, 0, 0, 0, 90, 0, 0, 0, 0, 0, 90];
    assert_eq!(maxima.stdout, [b"P5\n4 3\n90\n", &marks[..]].concat());
    let sizes = text(&run_on(&["sizelist", "-"], &plate).stdout);
    assert!(sizes.ends_with("rest 10 89\n"), "{sizes}");
}

#[test]
fn refusals_of_plate_files() {
    for (file, number) in [
        (&b""[..], 10),
        (b"P6 1 1 255\n\x07", 10),
        (b"P5 1 x 255\n\x07", 11),
        (b"P5 32769 1 255\n", 2),
        (b"P5 32768 32768 255\n", 2),
        (b"P5 1 1 0\n\x07", 12),
        (b"P5 1 1 65536\n\x07\x07", 12),
        (b"P5 2 1 255\n\x07", 14),
        (b"P5 1 1 256\n\x00", 14),
        (b"P5 1 1 255\n\x07\x07", 15),
        (b"P5 1 1 6\n\x07", 28),
        (b"P5 1 1 256\n\x01\x01", 28),
    ] {
        assert_refused(&run_on(&CLEAN, file), number);
        assert_refused(&run_on(&["sizelist", "-"], file), number);
    }
}

#[test]
fn refusals_of_records() {
    for (record, number) in [
        (&b""[..], 20),
        (&[132, 0][..], 21),
        (&[0], 20),
        (&[0, 3], 22),
        (&[0, 2, 0], 22),
        (&[1, 1, 5], 22),
        (&[1, 1, 4, 1, 7, 1, 0, 0], 23),
        (&[2, 1, 4, 1, 7, 1, 0, 0], 24),
        (&[128, 128, 1, 128, 8], 20), // 16384 x 1024 are promised
        (&[0, 2, 6, 1, 1, 4, 1, 7, 1, 0], 22),
        (&[0, 2, 7, 1, 1, 4, 1, 7, 1, 0, 0], 23),
        (&[0, 2, 7, 2, 1, 4, 1, 7, 1, 0, 0], 24),
    ] {
        for command in [
            "plate - -",
            "cut --limit 1 - -",
            "convert --to old - -",
            "convert --to new - -",
        ] {
            assert_refused(&run_line(command, record), number);
        }
    }
    assert_refused(&run_line("convert --to old - -", &FINER_RECORD), 30);
    assert_refused(
        &run_on(&["cut", "--limit", "13", "-", "-"], &SMALL_RECORD),
        4,
    );
}

#[test]
fn an_endless_input_is_refused() {
    let input = Path::new("/dev/zero");
    if input.exists() {
        for (words, number) in [
            (&["maxima"][..], 10),
            (&["plate"], 22),
            (&["convert", "--to", "new"], 22),
        ] {
            assert_refused(&run(words, &[input, Path::new("-")]), number);
        }
    }
}

/// What an input is that is no plate file, and what makes one of it.
#[test]
fn other_formats() {
    for (input, what, command) in [
        (&b"P1 1 1 0"[..], "a plain PBM", "pgmtopgm"),
        (b"P2 1 1 255 7", "a plain PGM", "pgmtopgm"),
        (b"P3 1 1 255 7 7 7", "a plain PPM", "ppmtopgm"),
        (b"P4 1 1\n\x80", "a raw PBM", "pgmtopgm"),
        (b"P6 1 1 255\n\x07\x07\x07", "a raw PPM", "ppmtopgm"),
        (b"P7\nWIDTH 1\n", "a PAM", "pamtopnm | ppmtopgm"),
        (b"\x89PNG\r\n\x1a\n", "a PNG", "pngtopnm | ppmtopgm"),
        (b"II*\0", "a TIFF", "tifftopnm -byrow | ppmtopgm"),
        (b"MM\0*", "a TIFF", "tifftopnm -byrow | ppmtopgm"),
        (b"\xff\xd8\xff\xe0", "a JPEG", "jpegtopnm | ppmtopgm"),
        (b"\x1f\x8b\x08", "compressed by gzip", "gunzip"),
        (
            b"\xef\xbb\xbfP5 1 1 255 x",
            "a raw PGM after a byte order mark",
            "tail -c +4",
        ),
    ] {
        let line = format!("the input is {what}, not a raw PGM (P5); it becomes one by: {command}");
        let line = format!("standard input: refused 10: {line}");
        assert_says(&run_on(&["maxima", "-", "-"], input), 1, &line);
    }
    for (input, what) in [
        (&b""[..], "is empty"),
        (
            b"\xff\xfeP\x005\0",
            "is text with a byte order mark, not a raw PGM (P5)",
        ),
        (
            b"\x01\xab",
            "does not begin with P5; its first bytes are 01 ab",
        ),
    ] {
        let line = format!("standard input: refused 10: the input {what}");
        assert_says(&run_on(&["sizelist", "-"], input), 1, &line);
    }
}

#[test]
fn help_and_version() {
    let clean =
        "  livukoe clean --side light|dark --limit N [--connectivity 4|6|8] IN.pgm OUT.pgm\n";
    for words in [&["--help"][..], &["help"], &["-h"], &["clean", "--help"]] {
        let help = run(words, &[]);
        assert_ok(&help);
        let help = text(&help.stdout);
        assert!(help.contains(clean));
        for gone in ["open", "close"] {
            assert!(!help.contains(&format!("livukoe {gone}")), "{gone}");
        }
    }
    for word in ["--version", "version", "-V"] {
        let version = run(&[word], &[]);
        assert_ok(&version);
        let wanted = format!("livukoe {}\n", env!("CARGO_PKG_VERSION"));
        assert_eq!(text(&version.stdout), wanted);
    }
}

/// A file's name is shown so that it cannot act on a terminal.
#[test]
fn names_in_messages() {
    let folder = Folder::new("names");
    let input = folder.file("a\n\x1b[2J.pgm", b"P5");
    let output = run(&["maxima"], &[&input, Path::new("-")]);
    assert_says_of(
        &output,
        1,
        "a\\n\\u{1b}[2J.pgm: refused 11: the file ends at byte 2;",
    );
}

/// Whatever is done to its standard streams, the status is one of those that are promised.
#[test]
fn standard_streams() {
    for (line, status, words) in [
        (
            "\"$@\" >&-",
            3,
            "cannot write standard output: it is closed",
        ),
        (
            "\"$@\" >/dev/full",
            3,
            "cannot write standard output: No space left on device",
        ),
        (
            "\"$@\" 1</dev/null",
            3,
            "cannot write standard output: Bad file descriptor",
        ),
        ("\"$@\" <&-", 3, "cannot read standard input: it is closed"),
        ("\"$@\" <.", 3, "cannot read standard input: Is a directory"),
    ] {
        let output = run_fed(&mut by_shell(line, &CLEAN), SMALL);
        assert_says_of(&output, status, words);
    }
    for (line, words, status) in [
        ("\"$@\" 2>/dev/full", &["wash"][..], 2),
        ("\"$@\" 2>&-", &["wash"], 2),
        ("\"$@\" 2>/dev/full", &["maxima", "/no/such/file", "-"], 3),
        ("echo P4 | \"$@\" 2>/dev/full", &["maxima", "-", "-"], 1),
        ("\"$@\" >&- 2>&-", &["help"], 3),
    ] {
        let output = by_shell(line, words).output().expect("a run");
        assert_eq!(output.status.code(), Some(status), "{line} {words:?}");
    }
}

/// A reader that has read enough is nothing to speak of.
#[test]
fn a_broken_pipe() {
    let folder = Folder::new("pipe");
    let input = folder.path("in.pgm");
    let words = ["seed", "--seed", "1", "--size", "256x256"];
    assert_ok(&run(&words, &[&input]));
    let mut child = tool()
        .args([Path::new("nodes"), &input])
        .stdout(Stdio::piped())
        .stderr(Stdio::piped())
        .spawn()
        .expect("a run");
    drop(child.stdout.take());
    let output = child.wait_with_output().expect("its end");
    assert_eq!(text(&output.stderr), "");
    assert_eq!(output.status.code(), Some(3));
}

/// Memory that is refused is told, and the status is one of those that are promised.
#[test]
fn no_memory() {
    let folder = Folder::new("memory");
    let plate = [b"P5 4096 4096 255\n", &vec![7; 1 << 24][..]].concat();
    let input = folder.file("in.pgm", &plate);
    let words = ["maxima", input.to_str().expect("a name"), "-"];
    for kibibytes in [20_000, 50_000, 200_000] {
        let line = format!("ulimit -v {kibibytes}; \"$@\"");
        let output = by_shell(&line, &words).output().expect("a run");
        assert_says(&output, 3, "there is not enough memory");
    }
}

/// An input that is too long to be read whole is refused by what was read, or in the tool's own words.
#[test]
fn long_inputs() {
    let folder = Folder::new("long");
    let long = |name: &str, first: &[u8], zeros: u64, last: &[u8]| {
        let path = folder.file(name, first);
        let file = File::options().append(true).open(&path).expect("the file");
        file.set_len(first.len() as u64 + zeros)
            .expect("its length");
        std::io::Write::write_all(&mut &file, last).expect("its end");
        path
    };
    let comment = |name, length| long(name, b"P5 #", length, b"\n1 1 255\n\x07");
    let maxima = |input: &PathBuf| run(&["maxima"], &[input, Path::new("-")]);
    let most = 1 << 28;
    let output = maxima(&comment("most.pgm", most - 14));
    assert_ok(&output);
    assert_eq!(output.stdout, b"P5\n1 1\n255\n\xff");
    let more = "cannot read";
    assert_says_of(&maxima(&comment("more.pgm", most - 13)), 3, more);
    let longer = maxima(&comment("longer.pgm", most + 100));
    assert_says_of(&longer, 3, "longer.pgm: it has more than 268435456 bytes");
    let left = maxima(&long("left.pgm", b"P5 1 1 255\n\x07", most, b""));
    assert_says_of(&left, 1, "refused 15: at least 268435445 bytes left over");
    fs::remove_file(folder.path("left.pgm")).expect("removed");
}

/// A command, the header of a plate file, how many bytes follow it, and the refusal with the figures of the case.
const PLATE_FIGURES: [(&str, &str, usize, &str); 14] = [
    (
        "clean --side light --limit 500",
        "P5 20 20 255\n",
        400,
        "4: the limit 500 is above the 400 pixels (20 x 20)",
    ),
    (
        "clean --side dark --limit 00",
        "P5 2 1 255\n",
        2,
        "4: the limit is 0; the least is 1",
    ),
    (
        "clean --side light --limit 099999999999999999999",
        "P5 2 1 255\n",
        2,
        "4: the limit 99999999999999999999 is above the 2 pixels (2 x 1)",
    ),
    (
        "maxima",
        "P5 1 1 65536\n",
        2,
        "12: the greatest grey is 65536; 1 to 65535",
    ),
    (
        "maxima",
        "P5 2 3 256\n",
        11,
        "14: 11 bytes for 6 pixels (2 x 3) of 2 bytes each",
    ),
    (
        "maxima",
        "P5 2 3 1000\n",
        13,
        "15: 1 byte left over after the 6 pixels (2 x 3) of 2 bytes each",
    ),
    (
        "maxima",
        "P5 2 3 6\n",
        6,
        "28: pixel 0 (row 0, column 0) is 7, above the greatest grey 6",
    ),
    (
        "maxima",
        "P5 2 3 1798\n",
        12,
        "28: pixel 0 (row 0, column 0) is 1799, above the greatest grey 1798",
    ),
    (
        "maxima",
        "P5 5000 4000 255\n",
        0,
        "2: 5000 x 4000 = 20000000 pixels; at most 16777216",
    ),
    (
        "maxima",
        "P5 0 40000 255\n",
        0,
        "2: 0 x 40000 pixels; width and height are each 1 to 32768",
    ),
    (
        "maxima",
        "P5 1 x 255\n",
        1,
        "11: byte 5 of the header is 'x'; a digit of the height should be there",
    ),
    (
        "maxima",
        "P5 1 #",
        0,
        "11: the file ends at byte 6; the end of a comment should be there",
    ),
    (
        "maxima",
        "P5 2 3 255\n",
        1,
        "14: 1 byte for 6 pixels (2 x 3)",
    ),
    (
        "maxima",
        "P5 2 3 255\n",
        8,
        "15: 2 bytes left over after the 6 pixels (2 x 3)",
    ),
];

#[test]
fn refusals_of_plate_files_with_figures() {
    for (command, header, bytes, wanted) in PLATE_FIGURES {
        let file = [header.as_bytes(), &vec![7; bytes]].concat();
        assert_tells(command, &file, wanted);
    }
    let roll = "15: a roll of several plates: 23 bytes after the first (4 x 3) begin with P5; \
                pamsplit parts them";
    assert_tells("maxima", &[SMALL, SMALL].concat(), roll);
    let wide = b"P5 1 1 1000\n\x03\xe8";
    let roll = "15: a roll of several plates: 14 bytes after the first (1 x 1) begin with P5; \
                pamsplit parts them";
    assert_tells("maxima", &[wide, &wide[..]].concat(), roll);
    let above = "28: pixel 4 (row 1, column 1) is 259, above the greatest grey 258";
    let greys = b"\x01\x02\x00\xff\x00\x00\x01\x01\x01\x03\x02\x00";
    assert_tells("maxima", &[b"P5 3 2 258\n", &greys[..]].concat(), above);
}

/// The size of a test plate is told as it was given.
#[test]
fn refusals_of_sizes() {
    const EACH: &str = "pixels; width and height are each 1 to 32768";
    for (size, words) in [
        ("0x4", format!("0 x 4 {EACH}")),
        ("00x0", format!("00 x 0 {EACH}")),
        ("1x32769", format!("1 x 32769 {EACH}")),
        ("4294967296x1", format!("4294967296 x 1 {EACH}")),
        (
            "99999999999999999999x1",
            format!("99999999999999999999 x 1 {EACH}"),
        ),
        (
            "5000x4000",
            "5000 x 4000 = 20000000 pixels; at most 16777216".to_owned(),
        ),
    ] {
        let output = run_line(&format!("seed --seed 1 --size {size} -"), b"");
        assert_says(&output, 1, &format!("--size {size}: refused 2: {words}"));
    }
}

/// A command on standard input is refused in these words.
fn assert_tells(command: &str, input: &[u8], wanted: &str) {
    let output = run_line(&format!("{command} - -"), input);
    let line = format!("standard input: refused {wanted}");
    assert_says(&output, 1, &line);
}

#[test]
fn refusals_of_records_with_figures() {
    let limit = "4: the limit 13 is above the 12 pixels (4 x 3)";
    assert_tells("cut --limit 13", &SMALL_RECORD, limit);
    let longer = [&SMALL_RECORD[..], &[0]].concat();
    for (record, wanted) in [
        (
            &SMALL_RECORD[..30],
            "20: byte 30: the own node of pixel 11 is not ended; the record has 30 bytes",
        ),
        (
            &OLD_RECORD[..26],
            "20: byte 26: the own node of pixel 11 is not ended; the record has 26 bytes",
        ),
        (
            &[132, 0],
            "21: byte 0: the width is not in its shortest form, or is above 4294967295",
        ),
        (&[4, 3, 5], "22: byte 2: the connectivity is 5; 4, 6 or 8"),
        (
            SMALL,
            "22: byte 2: the connectivity is 10; 4, 6 or 8 (the input is a raw PGM (P5), not a record)",
        ),
        (&longer, "23: 1 byte left over after the last field"),
        (
            &[2, 1, 4, 1, 7, 1, 0, 0],
            "24: the record is not the one that its plate has",
        ),
    ] {
        for command in ["plate", "convert --to old", "convert --to new"] {
            assert_tells(command, record, wanted);
        }
    }
}

#[test]
fn refusals_of_the_new_form_with_figures() {
    let no_old = "30: the record's greatest grey is 100; only with 255 is there an old form";
    assert_tells("convert --to old", &FINER_RECORD, no_old);
    for (record, wanted) in [
        (
            &[0, 7][..],
            "22: byte 1: the second field is 7; 2 in the new form",
        ),
        (&[0, 2, 0], "22: byte 2: the greatest grey is 0; 1 to 65535"),
        (
            &[0, 2, 100, 1, 1, 4, 1, 101, 1, 0],
            "22: byte 7: the root's level is 101; 0 to 100",
        ),
    ] {
        assert_tells("convert --to new", record, wanted);
    }
}

/// Command lines, and what is wrong with them.
const SLIPS: [(&str, &str); 62] = [
    ("wash", "there is no command wash"),
    ("clean", "clean lacks --side light or --side dark"),
    ("clean a b", "clean lacks --side light or --side dark"),
    (
        "clean --limit 2 a b",
        "clean lacks --side light or --side dark",
    ),
    ("clean --side light a b", "clean lacks --limit"),
    (
        "clean --side both a b",
        "the side both is neither light nor dark",
    ),
    (
        "clean --side=Dark a b",
        "the side Dark is neither light nor dark",
    ),
    ("clean --side 3 a b", "the side 3 is neither light nor dark"),
    (
        "clean --side \x1b[2J a b",
        "the side \\u{1b}[2J is neither light nor dark",
    ),
    ("clean --side= a b", "the side  is neither light nor dark"),
    ("clean --side", "--side lacks its value"),
    (
        "clean --side dark --side=light a b",
        "--side is given twice",
    ),
    ("maxima --side dark a b", "maxima takes no --side"),
    ("cut --side=1 --limit 2 a b", "cut takes no --side"),
    (
        "clean --side 1 --limit a b",
        "the limit a is not a whole number",
    ),
    (
        "clean --side 1 --limit 2 a",
        "clean takes IN and OUT, and 1 file is given",
    ),
    ("clean --limit=2x a b", "the limit 2x is not a whole number"),
    ("clean --limit= a b", "the limit  is not a whole number"),
    (
        "clean --limit 2 --connectivity 5 a b",
        "the connectivity 5 is not 4, 6 or 8",
    ),
    (
        "maxima --connectivity=7 a b",
        "the connectivity 7 is not 4, 6 or 8",
    ),
    (
        "clean --limit 2 --colour a b",
        "there is no option --colour",
    ),
    (
        "clean --side 2 --limit 2 a b c",
        "clean takes IN and OUT, and 3 files are given",
    ),
    ("clean --limit 2 --limit=2 a b", "--limit is given twice"),
    (
        "maxima --connectivity=4 --connectivity 8 a b",
        "--connectivity is given twice",
    ),
    ("maxima --force --force a b", "--force is given twice"),
    ("maxima --force=yes a b", "--force takes no value"),
    ("maxima --limit 2 a b", "maxima takes no --limit"),
    (
        "plate --connectivity 4 a b",
        "plate takes no --connectivity",
    ),
    ("convert a b", "convert lacks --to old or --to new"),
    ("convert", "convert lacks --to old or --to new"),
    (
        "convert --to older a b",
        "the form older is neither old nor new",
    ),
    ("convert --to= a b", "the form  is neither old nor new"),
    ("convert --to", "--to lacks its value"),
    ("convert --to old --to=new a b", "--to is given twice"),
    (
        "convert --to new a",
        "convert takes IN and OUT, and 1 file is given",
    ),
    (
        "convert --to new",
        "convert takes IN and OUT, and 0 files are given",
    ),
    ("convert --to new --limit 2 a b", "convert takes no --limit"),
    (
        "convert --to new --connectivity 4 a b",
        "convert takes no --connectivity",
    ),
    ("plate --to old a b", "plate takes no --to"),
    ("nodes --force a", "nodes takes no --force"),
    ("nodes a b", "nodes takes IN, and 2 files are given"),
    ("nodes a --connectivity", "--connectivity lacks its value"),
    ("\x1b[2J", "there is no command \\u{1b}[2J"),
    (
        "open --limit 2 a b",
        "there is no command open; write clean --side light",
    ),
    (
        "close --help",
        "there is no command close; write clean --side dark",
    ),
    ("Open", "there is no command Open"),
    ("nodes --\n", "there is no option --\\n"),
    ("seed", "seed lacks --seed"),
    ("seed --size 4x3 a", "seed lacks --seed"),
    ("seed --seed 0 a", "seed lacks --size"),
    ("seed --seed", "--seed lacks its value"),
    (
        "seed --seed -1 --size 4x3 a",
        "the seed -1 is not a whole number from 0 to 4294967295",
    ),
    (
        "seed --seed=4294967296 --size 4x3 a",
        "the seed 4294967296 is not a whole number from 0 to 4294967295",
    ),
    (
        "seed --seed +1 --size 4x3 a",
        "the seed +1 is not a whole number from 0 to 4294967295",
    ),
    (
        "seed --seed 1 --size 4 a",
        "the size 4 is not WIDTHxHEIGHT, as 640x480",
    ),
    (
        "seed --seed 1 --size=4x a",
        "the size 4x is not WIDTHxHEIGHT, as 640x480",
    ),
    (
        "seed --seed 1 --size 4x3x2 a",
        "the size 4x3x2 is not WIDTHxHEIGHT, as 640x480",
    ),
    (
        "seed --seed 1 --seed 1 --size 4x3 a",
        "--seed is given twice",
    ),
    (
        "seed --seed 1 --size 4x3",
        "seed takes OUT, and 0 files are given",
    ),
    (
        "seed --seed 1 --size 4x3 a b",
        "seed takes OUT, and 2 files are given",
    ),
    (
        "seed --seed 1 --size 4x3 --limit 2 a",
        "seed takes no --limit",
    ),
    ("maxima --size 4x3 a b", "maxima takes no --size"),
];

/// A slip is told in one line, which says where there is more.
#[test]
fn bad_usage() {
    let none = "no command is given; see livukoe --help";
    assert_says(&run(&[], &[]), 2, none);
    for (line, wanted) in SLIPS {
        let words: Vec<&str> = line.split(' ').collect();
        let wanted = format!("{wanted}; see livukoe --help");
        assert_says(&run(&words, &[]), 2, &wanted);
    }
}
