//! Plate files, what sizelist prints for them, and ink.

use super::{Case, Plate};
use crate::written;

/// All of them.
pub fn cases(cases: &mut Vec<Case>) {
    for file in headers() {
        judged(file, cases);
        placed(file, cases);
    }
    beyond(cases);
    for file in rasters() {
        judged(file, cases);
    }
    for plate in [Plate::small(), Plate::new(1, 1, |_| 7)] {
        let file = file_of(&plate);
        cases.push(read(&file, plate.pixels()));
        cases.push(text(&file[..file.len() - 1]));
        cases.push(text(&[&file[..], b"\n"].concat()));
    }
    for plate in texts() {
        cases.push(text(&file_of(&plate)));
    }
    lengths(cases);
    inks(cases);
}

/// A file read into outputs of several lengths, and what sizelist prints for it.
fn judged(file: &[u8], cases: &mut Vec<Case>) {
    for places in [9, 1, 0] {
        cases.push(read(file, places));
    }
    cases.push(text(file));
}

/// Reading a file into an output of so many places.
pub fn read(file: &[u8], places: usize) -> Case<'static> {
    Case::new("file").with("out", places).on(file)
}

/// What sizelist prints for a file.
pub fn text(file: &[u8]) -> Case<'static> {
    Case::new("text").on(file)
}

/// Reading the header at a place of a file.
fn header(file: &[u8], at: usize) -> Case<'static> {
    Case::new("header").with("at", at).on(file)
}

/// The header alone, at the beginning of a file and after another plate file;
/// and sought a byte too early, a byte too late, at the end and beyond it.
fn placed(file: &[u8], cases: &mut Vec<Case>) {
    cases.push(header(file, 0));
    let first = file_of(&Plate::new(1, 1, |_| 7));
    let both = [&first, file].concat();
    let near = first.len() - 1..=first.len() + 1;
    for at in near.chain(ends(&both)) {
        cases.push(header(&both, at));
    }
}

/// The end of a file and places beyond it.
fn ends(file: &[u8]) -> [usize; 3] {
    [file.len(), file.len() + 1, u32::MAX as usize]
}

/// A header sought at the end of a file and beyond it.
fn beyond(cases: &mut Vec<Case>) {
    for file in [&b""[..], b"P5 1 1 255 a", b"P5 1 1 255 P5 1 1 255 a"] {
        for at in ends(file) {
            cases.push(header(file, at));
        }
    }
}

/// Headers of every kind, most with a raster of a pixel or two.
fn headers() -> Vec<&'static [u8]> {
    vec![
        b"",
        b"P",
        b"P5",
        b"P2 1 1 255 a",
        b"p5 1 1 255 a",
        b" P5 1 1 255 a",
        b"P6",
        b"P51 1 255 a",
        b"P5#c\n1 1 255 a",
        b"P5 ",
        b"P5 1",
        b"P5 1 ",
        b"P5 1 1",
        b"P5 1 1 ",
        b"P5 x 1 255 a",
        b"P5 1 -1 255 a",
        b"P5 1x1 255 a",
        b"P5\x0b1 1 255 a",
        b"P5 1\x0c1 255 a",
        b"P5 1#c\n1 1 255 a",
        b"P5 1 1#c\n255 a",
        b"P5 #c",
        b"P5 1 #1 255 a",
        b"P5 1 1 #",
        b"P5 000001 1 255 a",
        b"P5 1 000001 255 a",
        b"P5 1 1 000255 a",
        b"P5 1 1 255",
        b"P5 1 1 255a",
        b"P5 1 1 255#c\na",
        b"P5 0 1 255 a",
        b"P5 1 0 255 a",
        b"P5 32769 1 255 a",
        b"P5 1 32769 255 a",
        b"P5 32768 513 255 a",
        b"P5 4097 4096 255 a",
        b"P5 99999 99999 255 a",
        b"P5 32768 512 255 a",
        b"P5 1 1 254 a",
        b"P5 1 1 256 a",
        b"P5 1 1 0 a",
        b"P5 1 1 65535 aa",
        b"P5 1 1 255 ",
        b"P5 2 2 255 abc",
        b"P5 1 1 255 ab",
        b"P5 1 1 255 a\n",
        b"P5 1 1 255\r\na",
        b"P5 0 0 7",
        b"P5 0 0 7 ab",
        b"P5 2 2 7 a",
        b"P5 1 1 7 ab",
        b"P5 1 1 255 a",
        b"P5\t1\t1\t255\ta",
        b"P5\r1\r1\r255\ra",
        b"P5\n1\n1\n255\na",
        b"P5 \t\r\n1\n\n1\t \r255 a",
        b"P5 #c\n1 1 255 a",
        b"P5 1 #c\n1 255 a",
        b"P5 1 1 #c\n255 a",
        b"P5 #c\r1 1 255 a",
        b"P5 #\n1 1 255 a",
        b"P5 #a\n#b\r #c\n\n1 1 255 a",
        b"P5 1 1 255 #",
        b"P5 1 1 255  ",
        b"P5 2 1 255\n#\n",
        b"P5 00001 00001 00255 a",
        b"P5 3 3 255 abcdefghi",
        b"P5 5 2 255 abcdefghij",
        b"P5 1025 1 255 a",
        b"P5 1 1 255 \x07",
        b"#\nP5 1 1 255 a",
        b"P5 1#c\n1 255 a",
        b"P5 1 1\x00255 a",
        b"P5 1 1 +255 a",
        b"P5 1 1 2#c\n55 a",
        b"P5 4294967297 1 255 a",
        b"P5 513 32768 255 a",
        b"P5 65536 65536 255 a",
        b"P5 512 32768 255 a",
        b"P5 4096 4096 255 a",
        b"P5 3 1 255 #a\n",
        b"P5 2 1 255  a",
        b"P5 2 1 255 ab",
        b"P5 0 0 255",
        b"P5 1 1 7",
        b"P5 99999 1 7x",
        b"P5 0 1 7 a",
        b"P5 2 2 255 abcde",
        b"P5 #1 # 2\t\xff\n1 1 255 a",
    ]
}

/// Rasters of one and of two bytes a pixel: the third number at its ends, a byte
/// short, a byte long, a pixel above the third number.
fn rasters() -> Vec<&'static [u8]> {
    vec![
        b"P5 2 2 1 \x00\x01\x01\x00",
        b"P5 2 2 1 \x00\x01\x01\x02",
        b"P5 2 2 1 \x02\x01\x01\x00",
        b"P5 1 1 1 ",
        b"P5 1 1 1 \x02\x01",
        b"P5 2 1 2 \x02\x01",
        b"P5 2 1 2 \x03\x01",
        b"P5 2 1 200 \xc8\xc7",
        b"P5 2 1 254 \xfe\x00",
        b"P5 2 1 254 \xfe\xff",
        b"P5 2 1 254 \xff",
        b"P5 2 1 255 \xff\xff",
        b"P5 1 1 256 \x01\x00",
        b"P5 1 1 256 \x00\xff",
        b"P5 1 1 256 \x01\x01",
        b"P5 1 1 256 \xff",
        b"P5 1 1 256 \x01\x01\x00",
        b"P5 1 1 00256 \x00\x00",
        b"P5 2 1 257 \x01\x01\x00\x02",
        b"P5 2 1 257 \x01\x02\x00\x02",
        b"P5 2 1 257 \x01\x01\x01\x02",
        b"P5 2 1 257 \x01\x02\x00",
        b"P5 2 1 1000 \x03\xe8\x03\xe7",
        b"P5 2 1 1000 \x03\xe7\x03\xe9",
        b"P5 2 1 65534 \xff\xfe\x00\x00",
        b"P5 2 1 65534 \x00\x00\xff\xff",
        b"P5 1 1 65535 \xff\xff",
        b"P5 1 1 65535 \xff",
        b"P5 1 1 65535 ",
        b"P5 1 1 65535 \xff\xff\xff",
        b"P5 2 1 65535 \x01\x02\x03\x04",
        b"P5 2 1 65535 \x01\x02\x03",
        b"P5 2 1 65535 \x01\x02\x03\x04\x05",
        b"P5 3 3 65535 \x00\x01\x00\x01\x00\x01\x00\x01\xff\xff\x00\x01\x00\x01\x00\x01\x00\x01",
        b"P5 2 5 65535 \x01\x01\x01\x01\x01\x01\x01\x01\x01\x01\x01\x01\x01\x01\x01\x01\x01\x01\x01\x01",
        b"P5 1 1 0 ",
        b"P5 1 1 00000 \x00\x00",
        b"P5 1 1 65536 \x00\x00",
        b"P5 1 1 65536 \x01",
        b"P5 1 1 99999 \x00\x00\x00",
        b"P5 1 1 065535 \x00\x00",
        b"P5 32769 1 65536 \x00",
        b"P5 4096 4096 65535 \x00\x00",
    ]
}

/// Plates for sizelist, up to the 1,024 pixels that it holds.
fn texts() -> Vec<Plate> {
    vec![
        Plate::small(),
        Plate::new(1, 1, |_| 7),
        Plate::new(32, 32, |_| 128),
        Plate::new(32, 32, |p| ((p % 32) * 8) as u16),
        Plate::new(32, 32, |p| super::plates::ring_of(p, 32, 32) * 17),
        Plate::new(1_024, 1, |p| (p / 4) as u16),
        Plate::new(1, 1_024, |p| (p * 7 % 256) as u16),
        Plate::new(31, 33, |p| (p * p % 251) as u16),
        Plate::new(33, 31, |p| if (p / 33 + p % 33) % 2 == 0 { 255 } else { 0 }),
        Plate::new(1_025, 1, |_| 9),
        Plate::new(41, 25, |_| 9),
        Plate::new(64, 63, |_| 9),
        Plate::new(32, 32, |p| super::plates::ring_of(p, 32, 32) * 257).up_to(65_535),
        Plate::new(1_024, 1, |p| p as u16 / 256 * 257).up_to(771),
        Plate::new(1_025, 1, |_| 514).up_to(65_535),
        Plate::new(43, 47, |_| 257).up_to(257),
        Plate::new(43, 48, |_| 257).up_to(257),
        Plate::new(5, 5, |p| [200, 99, 150, 0][p as usize % 4]).up_to(200),
        Plate::new(6, 5, |p| (p * p % 23 * 2_849) as u16).up_to(65_535),
    ]
}

/// The plate's file.
pub fn file_of(plate: &Plate) -> Vec<u8> {
    written::file_of(&plate.greys, plate.width, plate.height, plate.greatest)
}

/// Inputs of about 4,096 bytes: sound ones, and ones that are nothing.
fn lengths(cases: &mut Vec<Case>) {
    for blanks in 4_084..=4_088 {
        let file = ["P5", &" ".repeat(blanks), "1 1 255 a"].concat();
        cases.push(text(file.as_bytes()));
        cases.push(text(&vec![b'x'; file.len()]));
    }
    cases.push(text(&[0; 4_097]));
    cases.push(text(&[0; 60_000]));
}

/// Ink: all greys of several greatest greys, some of others, ties among them; greys
/// above the greatest, and numbers that are no greatest grey.
fn inks(cases: &mut Vec<Case>) {
    for greatest in [1, 2, 3, 8, 199, 200, 201, 254, 255, 256] {
        cases.push(ink(greatest, (0..=greatest as u16 + 1).collect()));
    }
    for greatest in [257u32, 1_000, 32_767, 32_768, 40_000, 65_534, 65_535] {
        let halves = (0..=200).step_by(9).map(|half| greatest * half / 200);
        let near = halves.flat_map(|grey| [grey.saturating_sub(1), grey, grey + 1]);
        let near = near.map(|grey| grey.min(65_535) as u16);
        cases.push(ink(greatest, near.collect()));
    }
    for greatest in [0, 65_536, 65_791, 131_071, u32::MAX] {
        cases.push(ink(greatest, vec![0, 1, 255, 256, 65_535]));
    }
}

/// The ink of greys with a greatest grey.
fn ink(greatest: u32, greys: Vec<u16>) -> Case<'static> {
    Case::new("ink").with("greatest", greatest).painted(&greys)
}
