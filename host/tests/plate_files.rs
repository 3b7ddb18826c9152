//! Reading plate files against the second program: headers of every shape, damaged files, short and long outputs. Writing
//! them: sizes and greatest greys right and wrong, every number of digits.

mod common;

use common::{Chance, Plate, Seen};
use livukoe::lent;

const CASES: u64 = 200_000;

fn compare(chance: &mut Chance, file: &[u8], pixels: usize) -> u32 {
    let mut out = chance.buffer(pixels);
    let mut out2 = out.clone();
    let answer = lent::read_pgm(file, &mut out);
    let wanted = reference::read_pgm(file, &mut out2);
    assert_eq!(
        [answer.refusal, answer.width, answer.height, answer.greatest],
        [wanted.refusal, wanted.width, wanted.height, wanted.greatest],
        "{:?}",
        String::from_utf8_lossy(file)
    );
    assert_eq!(out, out2, "{:?}", String::from_utf8_lossy(file));
    answer.refusal
}

/// A gap, not always a right one.
fn gap(chance: &mut Chance) -> String {
    let mut gap = String::from(chance.pick(&[" ", "\t", "\r", "\n", "\n", "\n", "", "#"]));
    for _ in 0..chance.below(3) {
        gap += chance.pick(&[" ", "\n", "#c\n", "# two words\r", "#\n", "##\n\n"]);
    }
    gap
}

/// A number, not always a right one.
fn number(chance: &mut Chance, right: u32) -> String {
    match chance.below(12) {
        0 => format!("{right:05}"),
        1 => format!("{right:06}"),
        2 => chance
            .pick(&[
                "", "-1", "0", "1", "256", "32768", "32769", "65536", "99999", "1x", "25 5",
            ])
            .to_owned(),
        _ => right.to_string(),
    }
}

#[test]
fn headers() {
    let (mut chance, mut seen) = (Chance::new(5), Seen::default());
    for _ in 0..CASES {
        let plate = chance.plate(5);
        let mut file = String::from(chance.pick(&["P5", "P5", "P5", "P5", "P2", "p5", "P"]));
        for right in [plate.width, plate.height, plate.greatest] {
            file += &gap(&mut chance);
            file += &number(&mut chance, right);
        }
        file += chance.pick(&["\n", "\n", "\n", " ", "\t", "\r", "", "#"]);
        let mut file = file.into_bytes();
        file.extend(plate.raster());
        if chance.one_in(6) {
            chance.damage(&mut file);
        }
        seen.note(compare(&mut chance, &file, plate.pixels()));
    }
    seen.assert_all(&[0, 2, 5, 10, 11, 12, 14, 15, 28]);
}

#[test]
fn damaged_files() {
    let (mut chance, mut seen) = (Chance::new(6), Seen::default());
    for _ in 0..CASES {
        let plate = chance.plate(4);
        let mut file = plate.file();
        chance.damage(&mut file);
        seen.note(compare(&mut chance, &file, plate.pixels()));
    }
    seen.assert_all(&[0, 2, 5, 10, 11, 12, 14, 15, 28]);
}

/// Every beginning of a file.
#[test]
fn beginnings() {
    let mut chance = Chance::new(7);
    for greatest in ["255", "65535"] {
        let file = format!("P5 # a comment\n 2\t# and\r\n#another\n3\n{greatest}\n123456 and more");
        for end in 0..=file.len() {
            compare(&mut chance, &file.as_bytes()[..end], 6);
        }
    }
}

/// Every greatest grey that five digits spell, on pixels of each byte and of each pair of bytes.
#[test]
fn greatest_greys() {
    let (mut chance, mut seen) = (Chance::new(21), Seen::default());
    for greatest in 0..100_000u32 {
        let bytes = greatest.to_be_bytes();
        for raster in [&[0][..], &[bytes[3]], &[bytes[2], bytes[3]], &[0xff; 2]] {
            let file = [format!("P5 1 1 {greatest}\n").as_bytes(), raster].concat();
            seen.note(compare(&mut chance, &file, 1));
        }
    }
    seen.assert_all(&[0, 5, 12, 14, 15, 28]);
}

/// 16 MB of comments, or of blanks, ahead of the width, on a stack of 8 MB.
#[test]
fn long_headers() {
    for filler in [&b"#\n"[..], b" ", b"\n"] {
        let mut file = b"P5\n".to_vec();
        file.extend(filler.repeat(16_000_000 / filler.len()));
        file.extend(b"1 1 255\n\x07");
        let read = std::thread::Builder::new()
            .stack_size(8 << 20)
            .spawn(move || {
                let mut out = [0];
                (lent::read_pgm(&file, &mut out), out)
            });
        let (answer, out) = read.expect("a thread").join().expect("an answer");
        assert_eq!((answer.refusal, answer.width, answer.height), (0, 1, 1));
        assert_eq!(out, [7]);
    }
}

/// Writes the file of a plate into an output that is not always long enough.
fn compare_writing(chance: &mut Chance, plate: &Plate) -> u32 {
    let mut out = chance.buffer(plate.file_by_reference().len());
    let mut out2 = out.clone();
    let (width, height, greatest, _) = plate.numbers();
    let answer = lent::write_pgm(&plate.greys, width, height, greatest, &mut out);
    let wanted = plate.write_by_reference(&mut out2);
    let numbers = (wanted.refusal, wanted.length);
    assert_eq!((answer.refusal, answer.length), numbers, "{plate:?}");
    assert_eq!(out, out2, "{plate:?}");
    answer.refusal
}

#[test]
fn writing() {
    let (mut chance, mut seen) = (Chance::new(28), Seen::default());
    for case in 0..CASES {
        let plate = chance.job(if case % 1_000 == 0 { 60 } else { 7 });
        seen.note(compare_writing(&mut chance, &plate));
    }
    seen.assert_all(&[0, 2, 3, 5, 28, 29]);
}

/// Every greatest grey that a plate may have, and some that none has, on the greys about it.
#[test]
fn writing_greatest_greys() {
    let (mut chance, mut seen) = (Chance::new(29), Seen::default());
    for greatest in (0..70_000).chain([1 << 24, u32::MAX]) {
        let top = greatest.min(65_535) as u16;
        let next = top.saturating_add(chance.below(2) as u16); // one above, now and then
        let plate = Plate {
            width: 3,
            height: 1,
            greatest,
            connectivity: 4,
            greys: vec![0, top / 2, next],
        };
        seen.note(compare_writing(&mut chance, &plate));
    }
    seen.assert_all(&[0, 5, 28, 29]);
}

/// Widths and heights of every number of digits, and beyond the grid.
#[test]
fn writing_sizes() {
    const EXTENTS: [u32; 16] = [
        0, 1, 9, 10, 11, 99, 100, 101, 999, 1_000, 1_001, 9_999, 10_000, 32_767, 32_768, 32_769,
    ];
    let (mut chance, mut seen) = (Chance::new(30), Seen::default());
    let sizes = EXTENTS.map(|extent| [(extent, 1), (1, extent), (extent, 13), (13, extent)]);
    for (width, height) in [sizes; 3].into_iter().flatten().flatten() {
        let greys = (0..width * height).map(|_| chance.below(256) as u16);
        let plate = Plate {
            width,
            height,
            connectivity: 4,
            greys: greys.collect(),
            greatest: chance.pick(&[255, 256]),
        };
        seen.note(compare_writing(&mut chance, &plate));
    }
    seen.assert_all(&[0, 2, 5]);
}
