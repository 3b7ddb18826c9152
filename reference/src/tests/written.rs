//! Plate files that are written: their bytes, reading them back, their form and that no
//! other file of a plate has it, the refusals and what is left in the output.

use super::helpers::*;
use crate::*;

#[test]
fn the_bytes_of_a_file() {
    let mut small = b"P5\n4 3\n255\n".to_vec();
    small.extend([10, 10, 10, 10, 10, 50, 30, 10, 10, 10, 10, 90]);
    assert_eq!(plate_file(&SMALL, 4, 3, 255), small);
    let files: [(&[u16], [u32; 3], &[u8]); 6] = [
        (&[1], [1, 1, 1], b"P5\n1 1\n1\n\x01"),
        (&[7, 255], [1, 2, 255], b"P5\n1 2\n255\n\x07\xff"),
        (&[7, 256], [2, 1, 256], b"P5\n2 1\n256\n\x00\x07\x01\x00"),
        (&[772], [1, 1, 65_535], b"P5\n1 1\n65535\n\x03\x04"),
        (&[9; 4], [4, 1, 9], b"P5\n4 1\n9\n\t\t\t\t"),
        (&[2_595; 2], [1, 2, 10_000], b"P5\n1 2\n10000\n\n#\n#"),
    ];
    for (plate, [width, height, greatest], file) in files {
        assert_eq!(plate_file(plate, width, height, greatest), file);
    }
}

/// The plate that a file stands for, or its refusal; places for so many pixels are lent.
fn plate_of(file: &[u8], places: usize) -> Result<(u32, u32, u32, Vec<u16>), u32> {
    let mut out = vec![GREY; places + EXCESS];
    let head = read_pgm(file, &mut out);
    if head.refusal != 0 {
        assert!(all_are(&out, GREY));
        return Err(head.refusal);
    }
    out.truncate((head.width * head.height) as usize);
    Ok((head.width, head.height, head.greatest, out))
}

/// The plate's file has the form and reads as the plate; a byte less or more does neither.
pub fn check_reading_back(plate: &[u16], width: u32, height: u32, greatest: u32) {
    let mut file = plate_file(plate, width, height, greatest);
    assert!(has_written_form(&file));
    let read = plate_of(&file, plate.len());
    assert_eq!(read, Ok((width, height, greatest, plate.to_vec())));
    file.push(0);
    assert!(!has_written_form(&file));
    assert_eq!(plate_of(&file, plate.len()), Err(15));
    file.truncate(file.len() - 2);
    assert!(!has_written_form(&file));
    assert_eq!(plate_of(&file, plate.len()), Err(14));
}

#[test]
fn files_of_random_plates_read_back() {
    let mut random = Lcg(60);
    for _ in 0..500 {
        let (plate, width, height, greatest) = random.plate(12);
        check_reading_back(&plate, width, height, greatest);
    }
}

#[test]
fn files_at_the_limits_read_back() {
    let mut random = Lcg(61);
    for greatest in [
        1, 9, 10, 99, 100, 255, 256, 999, 1_000, 9_999, 10_000, 65_535,
    ] {
        for line in [1, 9, 10, 99, 100, 999, 1_000, 9_999, 10_000, 32_768] {
            let plate: Vec<u16> = (0..line)
                .map(|_| random.below(greatest + 1) as u16)
                .collect();
            check_reading_back(&plate, line, 1, greatest);
            check_reading_back(&plate, 1, line, greatest);
        }
    }
    for (width, height) in [(32_768, 512), (512, 32_768), (4_096, 4_096)] {
        check_reading_back(&vec![10; 16_777_216], width, height, 255);
        check_reading_back(&vec![2_595; 16_777_216], width, height, 65_535);
    }
}

/// The plate 7 8 with greatest grey 9, in one row.
const PAIR: &[u8] = b"P5\n2 1\n9\n\x07\x08";

#[test]
fn other_files_of_a_plate_lack_the_form() {
    assert!(has_written_form(PAIR));
    let files: [&[u8]; 16] = [
        b"P5\r2 1\n9\n\x07\x08",
        b"P5\n2 1\r9\n\x07\x08",
        b"P5\n2 1\n9\r\x07\x08",
        b"P5\r\n2 1\n9\n\x07\x08",
        b"P5\n02 1\n9\n\x07\x08",
        b"P5\n2 01\n9\n\x07\x08",
        b"P5\n2 1\n00009\n\x07\x08",
        b"P5\n2  1\n9\n\x07\x08",
        b"P5\n2\t1\n9\n\x07\x08",
        b"P5\n2\n1\n9\n\x07\x08",
        b"P5 2 1 9 \x07\x08",
        b"P5\n2 1\n9 \x07\x08",
        b"P5\n2 1\n\n9\n\x07\x08",
        b"P5\n#\n2 1\n9\n\x07\x08",
        b"P5\n2 #\n1\n9\n\x07\x08",
        b"P5\n2 1\n# 9\n9\n\x07\x08",
    ];
    for file in files {
        assert_eq!(plate_of(file, 2), plate_of(PAIR, 2));
        assert!(!has_written_form(file));
    }
}

#[test]
fn files_that_are_refused_lack_the_form() {
    let files: [&[u8]; 12] = [
        b"",
        b"P5",
        b"P2\n2 1\n9\n\x07\x08",
        b"P52 1\n9\n\x07\x08",
        b"P5\n 1\n9\n\x07\x08",
        b"P5\n2 \n9\n\x07\x08",
        b"P5\n2 1\n\n\x07\x08",
        b"P5\n2 1\n9\x07\x08",
        b"P5\n2 100000\n9\n\x07\x08",
        b"P5\n2 1\n256\n\x00\x08",
        b"P5\n1 1\n9\n\x07\x08",
        b"P5\n0 1\n9\n",
    ];
    for file in files {
        assert!(plate_of(file, 2).is_err());
        assert!(!has_written_form(file));
    }
}

/// The file with a byte of its header removed, replaced by a blank, # or a digit, or with
/// one of these put before it.
fn edited(file: &[u8], header: usize) -> Vec<Vec<u8>> {
    let mut files = Vec::new();
    for at in 0..header {
        let (front, behind) = (&file[..at], &file[at + 1..]);
        files.push([front, behind].concat());
        for byte in b" \t\r\n#0123456789" {
            files.push([front, &[*byte], behind].concat());
            files.push([front, &[*byte], &file[at..]].concat());
        }
    }
    files
}

/// Of these files, those that read as the plate of the written one; of them none but that
/// one has its form.
fn others_of_the_plate(files: Vec<Vec<u8>>, written: &[u8], pixels: usize) -> usize {
    let plate = plate_of(written, pixels);
    let mut others = 0;
    for file in files.iter().filter(|file| *file != written) {
        if plate_of(file, pixels) == plate {
            assert!(!has_written_form(file), "{file:?}");
            others += 1;
        }
    }
    others
}

#[test]
fn one_file_of_a_plate_has_the_form() {
    let plates: [(&[u16], u32, u32, u32); 5] = [
        (&SMALL, 4, 3, 255),
        (&[48, 10, 35], 3, 1, 100),
        (&[9; 10], 1, 10, 9),
        (&[2_595, 12_337], 1, 2, 65_535),
        (&[0; 20], 10, 2, 256),
    ];
    for (plate, width, height, greatest) in plates {
        let file = plate_file(plate, width, height, greatest);
        let files = edited(&file, header_at(&file, 0).raster);
        assert!(others_of_the_plate(files, &file, plate.len()) > 20);
    }
}

#[test]
fn one_file_has_the_form_among_those_with_two_edits() {
    for (plate, greatest) in [([7, 8], 9), ([10, 48], 48), ([266, 35], 300)] {
        let file = plate_file(&plate, 2, 1, greatest);
        let header = header_at(&file, 0).raster;
        let once = edited(&file, header).into_iter();
        let twice = once.flat_map(|file| edited(&file, header)).collect();
        assert!(others_of_the_plate(twice, &file, 2) > 1_000);
    }
}

/// The conditions in their order.
const ORDER: [u32; 5] = [2, 29, 3, 28, 5];

#[test]
fn every_set_of_conditions_gives_its_first() {
    for (greatest, length) in [(90, 22), (300, 35)] {
        for met in 0..32u32 {
            let is_met = |i: usize| met >> i & 1 != 0;
            let mut plate = SMALL.to_vec();
            plate[0] = greatest + u16::from(is_met(3));
            plate.truncate(12 - usize::from(is_met(2)));
            let width = if is_met(0) { 0 } else { 4 };
            let m = if is_met(1) { 65_536 } else { greatest.into() };
            let places = length - usize::from(is_met(4));
            let mut out = vec![BYTE; places];
            let answer = write_pgm(&plate, width, 3, m, &mut out);
            let refusal = (0..5).find(|&i| is_met(i)).map_or(0, |i| ORDER[i]);
            let length = if refusal == 0 { places } else { 0 };
            assert_eq!(answer, FileLength { refusal, length });
            assert_eq!(all_are(&out, BYTE), refusal != 0);
        }
    }
}

#[test]
fn numbers_beyond_what_is_allowed() {
    let most = u32::MAX;
    let cases = [
        ([0, 0, 255], 2),
        ([32_769, 1, 0], 2),
        ([1, 32_769, 255], 2),
        ([32_768, 513, most], 2),
        ([65_536, 65_536, 255], 2),
        ([2_147_483_654, 2, 255], 2),
        ([4, 3, 0], 29),
        ([4, 3, 65_536], 29),
        ([4, 3, most], 29),
        ([32_768, 512, 0], 29),
        ([32_768, 512, 9], 3),
        ([3, 3, 9], 3),
        ([4, 3, 89], 28),
    ];
    for ([width, height, greatest], refusal) in cases {
        let mut out = [BYTE; 60];
        let answer = write_pgm(&SMALL, width, height, greatest, &mut out);
        assert_eq!(answer, FileLength { refusal, length: 0 });
        assert_eq!(out, [BYTE; 60]);
    }
}

#[test]
fn the_output_gets_the_whole_file_or_nothing() {
    for greatest in [90, 255, 256, 65_535] {
        let file = plate_file(&SMALL, 4, 3, greatest);
        for places in 0..file.len() + 9 {
            let mut out = vec![BYTE; places];
            let answer = write_pgm(&SMALL, 4, 3, greatest, &mut out);
            let length = if places < file.len() { 0 } else { file.len() };
            let refusal = if length == 0 { 5 } else { 0 };
            assert_eq!(answer, FileLength { refusal, length });
            assert_eq!(out[..length], file[..length]);
            assert!(all_are(&out[length..], BYTE));
        }
    }
}
