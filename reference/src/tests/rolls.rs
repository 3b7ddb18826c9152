//! Rolls: the specification's examples, the plates found by another way and by every cut
//! into plate files, each plate alone, what follows a sound roll, the order of the
//! conditions, the output, the plate at a place.

use std::collections::BTreeSet;

use super::helpers::*;
use crate::grid::{is_greatest, is_size};
use crate::*;

/// A number, or a refusal.
type Answer = Result<usize, u32>;

/// Width, height, greatest grey and greys.
type Plate = (u32, u32, u32, Vec<u16>);

/// The plate that was read into an output, or the refusal; checks the excess, and that a
/// refusal has zeros beside it and left the output untouched.
fn plate_read(head: PlateHead, mut out: Vec<u16>) -> Result<Plate, u32> {
    if head.refusal != 0 {
        assert_eq!((head.width, head.height, head.greatest), (0, 0, 0));
        assert!(all_are(&out, GREY));
        return Err(head.refusal);
    }
    let pixels = (head.width * head.height) as usize;
    assert!(all_are(&out[pixels..], GREY));
    out.truncate(pixels);
    Ok((head.width, head.height, head.greatest, out))
}

/// The plate that a file alone stands for, or its refusal.
fn plate_of(file: &[u8], places: usize) -> Result<Plate, u32> {
    let mut out = vec![GREY; places + EXCESS];
    let head = read_pgm(file, &mut out);
    plate_read(head, out)
}

/// The number of plates, or the refusal.
fn counted(roll: &[u8]) -> Answer {
    let PlateCount { refusal, count } = roll_count(roll);
    if refusal != 0 {
        assert_eq!(count, 0);
        return Err(refusal);
    }
    Ok(count)
}

/// The plate of a number, or the refusal; so many places are lent.
fn chosen(roll: &[u8], number: usize, places: usize) -> Result<Plate, u32> {
    let mut out = vec![GREY; places];
    let head = roll_plate(roll, number, &mut out);
    plate_read(head, out)
}

/// The answer of a refusal at a place.
fn no_plate(refusal: u32) -> PlacedPlate {
    PlacedPlate {
        refusal,
        ..PlacedPlate::default()
    }
}

/// The place after the plate that begins at a place, or the refusal.
fn end_of(roll: &[u8], at: usize) -> Answer {
    let plate = plate_at(roll, at);
    if plate.refusal != 0 {
        assert_eq!(plate, no_plate(plate.refusal));
        return Err(plate.refusal);
    }
    Ok(plate.end)
}

/// One pixel of grey 1, of 9.
const ONE: &[u8] = b"P5 1 1 9 \x01";

#[test]
fn the_examples() {
    let examples: [(&[u8], Answer, Answer); 6] = [
        (b"", Err(10), Ok(0)),
        (b"P5 1 1 255 a", Ok(1), Ok(1)),
        (b"P5 1 1 255 aP5 1 1 7 \x01", Err(15), Ok(2)),
        (b"P5 1 1 255 a\n", Err(15), Err(10)),
        (b"P5 1 1 255 aP5 2 1 255 a", Err(15), Err(14)),
        (b"P5 1 1 7 aP6", Err(15), Err(28)),
    ];
    for (roll, alone, count) in examples {
        assert_eq!(plate_of(roll, 9).map(|_| 1), alone);
        assert_eq!(counted(roll), count);
    }
    let two = examples[2].0;
    assert_eq!(chosen(two, 0, 4), Ok((1, 1, 255, vec![97])));
    assert_eq!(chosen(two, 1, 4), Ok((1, 1, 7, vec![1])));
    assert_eq!(chosen(two, 2, 4), Err(25));
    assert_eq!(chosen(b"", 0, 4), Err(25));
}

/// A sound plate file by chance, its header in one of many forms; some rasters are bytes of
/// a header.
fn some_file(random: &mut Lcg) -> Vec<u8> {
    let gaps = [
        " ",
        "\n",
        "\t",
        "\r",
        "\r\n",
        " #\n",
        "\n#P5 1 1 9 \r",
        " \t## #\n\r",
    ];
    let (mut plate, width, height, mut greatest) = random.plate(4);
    if random.below(3) == 0 {
        let letters = b"P5 1 1 9 #\n\t\r";
        let letter = |_| letters[random.below(13) as usize].into();
        plate = plate.into_iter().map(letter).collect();
        greatest = 255;
    }
    let written = plate_file(&plate, width, height, greatest);
    let mut file = b"P5".to_vec();
    for number in [width, height, greatest] {
        let digits = 1 + random.below(5) as usize;
        let gap = gaps[random.below(8) as usize];
        file.extend(format!("{gap}{number:0digits$}").bytes());
    }
    file.push(b" \t\r\n"[random.below(4) as usize]);
    file.extend(&written[header_at(&written, 0).raster..]);
    file
}

/// Up to four sound plate files.
fn some_files(random: &mut Lcg) -> Vec<Vec<u8>> {
    let count = random.below(5);
    (0..count).map(|_| some_file(random)).collect()
}

/// Bytes of which headers and small plates are often a part.
fn some_bytes(random: &mut Lcg) -> Vec<u8> {
    let parts: [&[u8]; 16] = [
        b"P5 1 1 9 ",
        ONE,
        b"P5 1 2 256 ",
        b"P5 ",
        b"P5",
        b"P",
        b"5",
        b" ",
        b"\n",
        b"#",
        b"1 ",
        b"0 ",
        b"9 ",
        b"2",
        b"\x00",
        b"\xff",
    ];
    let count = random.below(9);
    let chosen = (0..count).map(|_| parts[random.below(16) as usize]);
    chosen.collect::<Vec<_>>().concat()
}

/// Rolls by chance, many of them refused: sound ones, sound ones with some bytes edited,
/// and bytes of which headers are a part, alone and after a sound roll.
fn rolls() -> Vec<Vec<u8>> {
    let mut random = Lcg(80);
    let mut rolls = Vec::new();
    for _ in 0..500 {
        let sound = some_files(&mut random).concat();
        let bytes = some_bytes(&mut random);
        let mut edited = sound.clone();
        for _ in 0..1 + random.below(2) {
            let at = random.below(1 + edited.len() as u32) as usize;
            let byte = b"P5 #\n0129\x00\xff"[random.below(11) as usize];
            match edited.get_mut(at) {
                Some(place) if random.below(2) == 0 => *place = byte,
                _ => edited.insert(at, byte),
            }
        }
        rolls.extend([[&sound[..], &bytes].concat(), sound, bytes, edited]);
    }
    rolls
}

#[test]
fn rolls_by_chance_are_of_every_kind() {
    let answers: BTreeSet<_> = rolls().iter().map(|roll| counted(roll)).collect();
    let counts = (0..=4).map(Ok);
    let refusals = [2, 10, 11, 12, 14, 28].map(Err);
    let kinds: BTreeSet<_> = counts.chain(refusals).collect();
    assert!(answers.is_superset(&kinds), "{answers:?}");
    assert!(!answers.contains(&Err(15)) && !answers.contains(&Err(5)));
}

/// The plate that begins at a place, by its header and the length of its raster.
fn by_header(roll: &[u8], at: usize) -> Result<PlacedPlate, u32> {
    let Header {
        refusal,
        width,
        height,
        greatest,
        raster,
    } = header_at(roll, at);
    if refusal != 0 {
        return Err(refusal);
    }
    if !is_size(width, height) {
        return Err(2);
    }
    if !is_greatest(greatest) {
        return Err(12);
    }
    let size = if greatest > 255 { 2 } else { 1 };
    let end = raster + (width * height) as usize * size;
    let bytes = roll.get(raster..end).ok_or(14u32)?;
    let grey = |pixel: &[u8]| match *pixel {
        [high, low] => 256 * u32::from(high) + u32::from(low),
        _ => pixel[0].into(),
    };
    if bytes.chunks(size).any(|pixel| grey(pixel) > greatest) {
        return Err(28);
    }
    Ok(PlacedPlate {
        refusal,
        width,
        height,
        greatest,
        raster,
        end,
    })
}

#[test]
fn the_plate_at_every_place_by_its_header() {
    for roll in rolls() {
        for at in 0..roll.len() + 3 {
            let placed = by_header(&roll, at).unwrap_or_else(no_plate);
            assert_eq!(plate_at(&roll, at), placed, "{at} {roll:?}");
        }
        assert_eq!(end_of(&roll, usize::MAX), Err(10));
    }
}

/// The plates of a roll from header to raster to header, or the first fault.
fn from_header_to_header(roll: &[u8]) -> Result<Vec<PlacedPlate>, u32> {
    let mut plates = Vec::new();
    let mut at = 0;
    while at < roll.len() {
        let plate = by_header(roll, at)?;
        at = plate.end;
        plates.push(plate);
    }
    Ok(plates)
}

#[test]
fn the_count_and_each_plate_from_header_to_header() {
    for roll in rolls() {
        let plates = from_header_to_header(&roll);
        assert_eq!(
            counted(&roll),
            plates.as_ref().map(Vec::len).map_err(|&r| r)
        );
        match plates {
            Err(refusal) => assert_eq!(chosen(&roll, 0, 99), Err(refusal)),
            Ok(plates) => {
                let mut at = 0;
                for (number, plate) in plates.iter().enumerate() {
                    let alone = plate_of(&roll[at..plate.end], 99);
                    assert!(alone.is_ok());
                    assert_eq!(chosen(&roll, number, 99), alone);
                    at = plate.end;
                }
                assert_eq!(chosen(&roll, plates.len(), 99), Err(25));
            }
        }
    }
}

/// For each place, in how many ways the bytes from there on can be cut into plate files, and
/// the number of files in one of them.
fn ways(roll: &[u8]) -> Vec<(usize, usize)> {
    let mut ways = vec![(0, 0); roll.len() + 1];
    ways[roll.len()] = (1, 0);
    for at in (0..roll.len()).rev() {
        for end in at + 1..=roll.len() {
            let (behind, count) = ways[end];
            if behind > 0 && plate_of(&roll[at..end], 99).is_ok() {
                ways[at] = (ways[at].0 + behind, count + 1);
            }
        }
    }
    ways
}

#[test]
fn a_sound_roll_is_cut_into_plate_files_in_one_way_and_another_in_none() {
    for roll in rolls() {
        for (at, (ways, files)) in ways(&roll).into_iter().enumerate() {
            match counted(&roll[at..]) {
                Ok(count) => assert_eq!((ways, files), (1, count)),
                Err(_) => assert_eq!(ways, 0),
            }
        }
    }
}

#[test]
fn plate_files_one_after_the_other_are_the_roll_of_their_plates() {
    let mut random = Lcg(81);
    for _ in 0..400 {
        let files = some_files(&mut random);
        let roll = files.concat();
        assert_eq!(counted(&roll), Ok(files.len()));
        let mut at = 0;
        for (number, file) in files.iter().enumerate() {
            assert_eq!(counted(file), Ok(1));
            assert_eq!(chosen(&roll, number, 30), plate_of(file, 30));
            assert_eq!(end_of(&roll, at), Ok(at + file.len()));
            at += file.len();
        }
        assert_eq!(at, roll.len());
    }
}

#[test]
fn a_roll_of_one_plate_is_a_file_that_reads_alone() {
    for roll in rolls() {
        let alone = plate_of(&roll, 99);
        assert_eq!(alone.is_ok(), counted(&roll) == Ok(1));
        if alone.is_ok() {
            assert_eq!(chosen(&roll, 0, 99), alone);
        }
    }
}

#[test]
fn bytes_after_a_sound_roll_are_a_roll_too() {
    let mut random = Lcg(82);
    for _ in 0..500 {
        let sound = some_files(&mut random);
        let behind = [some_bytes(&mut random), some_file(&mut random)].concat();
        let both = [&sound.concat()[..], &behind].concat();
        assert_eq!(
            counted(&both),
            counted(&behind).map(|count| sound.len() + count)
        );
        for number in 0..3 {
            let later = chosen(&both, sound.len() + number, 99);
            assert_eq!(later, chosen(&behind, number, 99));
        }
    }
}

#[test]
fn the_faulty_plate_alone_is_refused_with_the_same_number() {
    for roll in rolls() {
        let Err(refusal) = counted(&roll) else {
            continue;
        };
        let mut at = 0;
        while let Ok(end) = end_of(&roll, at) {
            at = end;
        }
        assert!(at < roll.len() && counted(&roll[..at]).is_ok());
        let mut fronts = (at + 1..=roll.len()).map(|end| plate_of(&roll[at..end], 99));
        assert!(fronts.any(|front| front == Err(refusal)));
        assert_eq!(end_of(&roll, at), Err(refusal));
        // alone with all that follows it, it has bytes left over only where it is 28
        let alone = plate_of(&roll[at..], 99);
        assert!(alone == Err(refusal) || (alone, refusal) == (Err(15), 28));
    }
}

#[test]
fn written_files_are_the_roll_of_their_plates() {
    let mut random = Lcg(83);
    let plates: Vec<_> = (0..40).map(|_| random.plate(5)).collect();
    let file = |(greys, w, h, m): &(Vec<u16>, u32, u32, u32)| plate_file(greys, *w, *h, *m);
    let roll = plates.iter().map(file).collect::<Vec<_>>().concat();
    assert_eq!(counted(&roll), Ok(40));
    for (number, (greys, w, h, m)) in plates.into_iter().enumerate() {
        assert_eq!(chosen(&roll, number, 25), Ok((w, h, m, greys)));
    }
}

/// A plate with each fault, in the order in which they are judged.
const FAULTS: [(u32, &[u8]); 6] = [
    (10, b"p5 x"),
    (11, b"P5 0 1 0"),
    (2, b"P5 0 1 0\n"),
    (12, b"P5 2 1 0\n"),
    (14, b"P5 99 1 1\na"),
    (28, b"P5 1 1 9\na"),
];

#[test]
fn the_first_faulty_plate_decides() {
    for (number, fault) in FAULTS {
        for (_, later) in FAULTS {
            for sound in 0..3 {
                let front = ONE.repeat(sound);
                for roll in [
                    [&front[..], fault].concat(),
                    [&front[..], fault, later].concat(),
                    [&front[..], fault, ONE, later].concat(),
                ] {
                    // a number and an output that are refused too
                    for (plate, places) in [(0, 9), (0, 0), (99, 0), (usize::MAX, 9)] {
                        assert_eq!(chosen(&roll, plate, places), Err(number));
                    }
                    assert_eq!(counted(&roll), Err(number));
                    assert_eq!(end_of(&roll, front.len()), Err(number));
                }
            }
        }
    }
}

#[test]
fn within_a_plate_the_conditions_in_order() {
    let cases: [(&[u8], u32); 8] = [
        (b"p5 0 x 0", 10),
        (b"P5 0 x 0", 11),
        (b"P5 0 1 0\n", 2),
        (b"P5 2 1 0\n", 12),
        (b"P5 2 1 1\na", 14),
        (b"P5 2 1 1\nabP6", 28),
        (b"P5 2 1 256\nabc", 14),
        (b"P5 2 1 256\nabcdP6", 28),
    ];
    for (plate, number) in cases {
        for front in [&b""[..], ONE] {
            assert_eq!(counted(&[front, plate].concat()), Err(number));
        }
    }
}

#[test]
fn bytes_left_over_after_a_raster() {
    for byte in 0..=255 {
        let roll = [ONE, &[byte]].concat();
        assert_eq!(counted(&roll), Err(10));
        assert_eq!(plate_of(&roll, 1), Err(15));
        assert_eq!(end_of(&roll, 0), Ok(ONE.len()));
    }
    assert_eq!(counted(b"P5 1 1 9 \x01P5"), Err(11));
    assert_eq!(counted(b"P5 1 1 9 \x01\nP5 1 1 9 \x01"), Err(10));
    assert_eq!(counted(b"P5 1 1 9 \x01#\nP5 1 1 9 \x01"), Err(10));
}

#[test]
fn numbers_of_plates_and_outputs() {
    let mut random = Lcg(84);
    for _ in 0..60 {
        let files = some_files(&mut random);
        let roll = files.concat();
        for (number, file) in files.iter().enumerate() {
            let plate = plate_of(file, 16);
            let pixels = plate.as_ref().map_or(0, |plate| plate.3.len());
            for places in 0..20 {
                let refused = places < pixels;
                let expected = if refused { Err(5) } else { plate.clone() };
                assert_eq!(chosen(&roll, number, places), expected);
            }
        }
        for beyond in [files.len(), files.len() + 1, u32::MAX as usize, usize::MAX] {
            for places in [0, 1, 20] {
                assert_eq!(chosen(&roll, beyond, places), Err(25));
            }
        }
    }
}
