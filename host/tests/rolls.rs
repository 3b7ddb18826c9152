//! Rolls against the second program's reader of one plate file: sound and damaged ones, every cut and every changed byte
//! of one, short and long outputs, many plates and large ones.

mod common;

use common::{Chance, Plate, Seen};
use livukoe::lent::{self, PlateHead, PlatePlace, RollCount};
use livukoe::pictures::{fine_picture, picture};
use livukoe::{Refusal, Roll};

const CASES: u64 = 40_000;

/// Every refusal of a roll, and none.
const REFUSALS: [u32; 7] = [0, 2, 10, 11, 12, 14, 28];

/// What stands at the front of some bytes, by the second program's reader: a refusal, or where the plate's file ends, its
/// numbers and its greys. The file is the longest part that has no bytes left over.
fn first_plate(bytes: &[u8]) -> Result<(usize, PlateHead, Vec<u16>), u32> {
    let mut greys = vec![0; bytes.len()];
    let mut read = |end: usize| reference::read_pgm(&bytes[..end], &mut greys);
    let (mut end, mut beyond) = (0, bytes.len() + 1);
    while end + 1 < beyond {
        let middle = (end + beyond) / 2;
        match read(middle).refusal {
            15 => beyond = middle,
            _ => end = middle,
        }
    }
    let head = read(end);
    if head.refusal != 0 {
        return Err(head.refusal);
    }
    let (width, height, greatest) = (head.width, head.height, head.greatest);
    greys.truncate(width as usize * height as usize);
    let head = PlateHead {
        refusal: 0,
        width,
        height,
        greatest,
    };
    Ok((end, head, greys))
}

/// The plates of a roll, one after the other, or the first refusal.
fn plates_of(mut bytes: &[u8]) -> Result<Vec<(PlateHead, Vec<u16>)>, u32> {
    let mut plates = Vec::new();
    while !bytes.is_empty() {
        let (end, head, greys) = first_plate(bytes)?;
        plates.push((head, greys));
        bytes = &bytes[end..];
    }
    Ok(plates)
}

/// Asks for a plate, into an output that is not always long enough.
fn compare_plate(
    chance: &mut Chance,
    bytes: &[u8],
    number: usize,
    plates: &Result<Vec<(PlateHead, Vec<u16>)>, u32>,
) -> u32 {
    let wanted = match plates {
        Ok(plates) => plates.get(number).ok_or(25),
        Err(refusal) => Err(*refusal),
    };
    let pixels = wanted.map_or(3, |(_, greys)| greys.len());
    let mut out: Vec<u16> = chance.buffer(pixels);
    let mut left = out.clone();
    let answer = lent::roll_plate(bytes, number, &mut out);
    let refused = |refusal| PlateHead {
        refusal,
        ..PlateHead::default()
    };
    let head = match wanted {
        Err(refusal) => refused(refusal),
        Ok((_, greys)) if out.len() < greys.len() => refused(5),
        Ok((head, greys)) => {
            left[..greys.len()].copy_from_slice(greys);
            *head
        }
    };
    assert_eq!(answer, head, "{number} of {}", bytes.escape_ascii());
    assert_eq!(out, left, "{number} of {}", bytes.escape_ascii());
    answer.refusal
}

/// What lies at a place, also where no plate of the roll begins there.
fn compare_place(bytes: &[u8], at: usize) {
    let wanted = match first_plate(bytes.get(at..).unwrap_or_default()) {
        Err(refusal) => PlatePlace {
            refusal,
            ..PlatePlace::default()
        },
        Ok((length, head, greys)) => PlatePlace {
            refusal: 0,
            width: head.width,
            height: head.height,
            greatest: head.greatest,
            raster: at + length - greys.len() * if head.greatest < 256 { 1 } else { 2 },
            end: at + length,
        },
    };
    let answer = lent::plate_at(bytes, at);
    assert_eq!(answer, wanted, "{at} of {}", bytes.escape_ascii());
}

/// What the wrapper gives: the plates ahead of the faulty one, then its refusal, then nothing.
fn compare_walk(bytes: &[u8], refusal: u32) {
    let mut plates = Roll::from_bytes(bytes).plates();
    let mut end = 0;
    while let Some(Ok(plate)) = plates.next() {
        assert_eq!((plate.at, plate.number + 1), (end, plates.number()));
        let (length, head, greys) = first_plate(&bytes[plate.at..]).expect("a plate");
        assert_eq!(plate.bytes, &bytes[plate.at..plate.at + length]);
        let wanted = livukoe::Plate::new(head.width, head.height, head.greatest, greys);
        assert_eq!(plate.pixels(), wanted.greys().len());
        assert_eq!(plate.plate(), Ok(wanted));
        end = plate.at + length;
    }
    assert_eq!(plates.at(), end);
    let faulty = first_plate(&bytes[end..]).err();
    let faulty = if end == bytes.len() { None } else { faulty };
    assert_eq!(faulty.unwrap_or(0), refusal);
    assert_eq!(plates.next(), None);
}

/// Counts a roll, asks for each of its plates and for others, and walks over it.
fn compare(chance: &mut Chance, seen: &mut Seen, bytes: &[u8]) {
    let plates = plates_of(bytes);
    let wanted = match &plates {
        Ok(plates) => RollCount {
            refusal: 0,
            count: plates.len(),
        },
        Err(refusal) => RollCount {
            refusal: *refusal,
            count: 0,
        },
    };
    let counted = lent::roll_count(bytes);
    assert_eq!(counted, wanted, "{}", bytes.escape_ascii());
    seen.note(counted.refusal);
    for number in 0..=wanted.count + 1 {
        seen.note(compare_plate(chance, bytes, number, &plates));
    }
    seen.note(compare_plate(chance, bytes, usize::MAX, &plates));
    compare_walk(bytes, counted.refusal);
}

/// Every refusal of reading a plate of a roll, and none.
fn every_refusal() -> Vec<u32> {
    [&REFUSALS[..], &[5, 25]].concat()
}

/// The file of a plate, in its written form or with a header that is longer.
fn file_by_chance(chance: &mut Chance) -> Vec<u8> {
    let plate = chance.plate(4);
    if chance.one_in(2) {
        return plate.file();
    }
    let (width, height, greatest, _) = plate.numbers();
    let gap = chance.pick(&[" ", "\t\n", "\n# P5\r", " #\n#\n"]);
    let header = format!("P5{gap}{width}{gap}0{height}\n{greatest} ");
    [header.as_bytes(), &plate.raster()].concat()
}

#[test]
fn by_chance() {
    let (mut chance, mut seen) = (Chance::new(41), Seen::default());
    for case in 0..CASES {
        let files = (0..chance.below(5)).map(|_| file_by_chance(&mut chance));
        let mut roll = files.collect::<Vec<_>>().concat();
        if case % 2 == 0 {
            chance.damage(&mut roll);
        }
        compare(&mut chance, &mut seen, &roll);
        for _ in 0..3 {
            compare_place(&roll, chance.below(roll.len() + 2));
        }
    }
    seen.assert_all(&every_refusal());
}

/// Three plates: of one byte a pixel, of two, and with a comment.
fn three() -> Vec<u8> {
    b"P5 2 1 9 \x01\x09P5\n1 1\n256\n\x01\x00P5 #\n1 2 #P5\r255 P5".to_vec()
}

/// Every beginning and every end of a roll, and every place of it.
#[test]
fn every_cut() {
    let (mut chance, mut seen) = (Chance::new(42), Seen::default());
    let roll = three();
    for cut in 0..=roll.len() {
        compare(&mut chance, &mut seen, &roll[..cut]);
        compare(&mut chance, &mut seen, &roll[cut..]);
        compare_place(&roll, cut);
        compare_place(&roll[..cut], roll.len() / 2);
    }
    for beyond in [roll.len() + 1, usize::MAX - 1, usize::MAX] {
        compare_place(&roll, beyond);
    }
}

/// Every byte of a roll as every other.
#[test]
fn every_changed_byte() {
    let (mut chance, mut seen) = (Chance::new(43), Seen::default());
    let mut roll = three();
    for at in 0..roll.len() {
        let kept = roll[at];
        for byte in 0..=255 {
            roll[at] = byte;
            compare(&mut chance, &mut seen, &roll);
            compare_place(&roll, 11);
        }
        roll[at] = kept;
    }
    seen.assert_all(&every_refusal());
}

/// The table of the specification.
#[test]
fn as_specified() {
    let one = livukoe::Plate::new(1, 1, 255, vec![97]);
    for (bytes, as_file, as_roll) in [
        (&b""[..], Err(Refusal::Letters), Ok(0)),
        (b"P5 1 1 255 a", Ok(one.clone()), Ok(1)),
        (
            b"P5 1 1 255 aP5 1 1 7 \x01",
            Err(Refusal::RasterLong),
            Ok(2),
        ),
        (
            b"P5 1 1 255 a\n",
            Err(Refusal::RasterLong),
            Err(Refusal::Letters),
        ),
        (
            b"P5 1 1 255 aP5 2 1 255 a",
            Err(Refusal::RasterLong),
            Err(Refusal::RasterShort),
        ),
        (
            b"P5 1 1 7 aP6",
            Err(Refusal::RasterLong),
            Err(Refusal::Grey),
        ),
    ] {
        assert_eq!(livukoe::Plate::from_pgm(bytes), as_file);
        let roll = Roll::from_bytes(bytes);
        assert_eq!(roll.count(), as_roll);
        let beyond = as_roll.err().unwrap_or(Refusal::PlateNumber);
        assert_eq!(roll.plate(2), Err(beyond));
        if as_roll.is_ok_and(|count| count > 0) {
            assert_eq!(roll.plate(0), Ok(one.clone()));
        }
    }
    let second = Roll::from_bytes(b"P5 1 1 255 aP5 1 1 7 \x01").plate(1);
    assert_eq!(second, Ok(livukoe::Plate::new(1, 1, 7, vec![1])));
}

/// The files of plates, one after the other, are the roll of these plates, whose parts are the files.
#[test]
fn written_plates() {
    let mut chance = Chance::new(44);
    for _ in 0..2_000 {
        let plates: Vec<Plate> = (0..chance.below(6)).map(|_| chance.plate(5)).collect();
        let files: Vec<Vec<u8>> = plates.iter().map(Plate::file).collect();
        let bytes = files.concat();
        let roll = Roll::from_bytes(&bytes);
        assert_eq!(roll.count(), Ok(plates.len()));
        let parts: Vec<_> = roll.plates().map(|plate| plate.expect("a plate")).collect();
        assert_eq!(parts.len(), plates.len());
        for (number, ((plate, file), part)) in plates.iter().zip(&files).zip(&parts).enumerate() {
            assert_eq!(part.bytes, file);
            assert_eq!(part.plate(), Ok(plate.owned()));
            assert_eq!(roll.plate(number), Ok(plate.owned()));
        }
        assert_eq!(roll.plate(plates.len()), Err(Refusal::PlateNumber));
    }
}

/// A walk by the C functions; the number of plates, and the greys of all together.
fn walked(bytes: &[u8]) -> (usize, u64) {
    let (mut at, mut count, mut total) = (0, 0, 0);
    let mut greys = vec![0; bytes.len()];
    while at < bytes.len() {
        let place = lent::plate_at(bytes, at);
        assert_eq!(place.refusal, 0);
        let pixels = place.width as usize * place.height as usize;
        let head = lent::read_pgm(&bytes[at..place.end], &mut greys[..pixels]);
        assert_eq!((head.refusal, head.greatest), (0, place.greatest));
        total += greys[..pixels].iter().copied().map(u64::from).sum::<u64>();
        count += 1;
        at = place.end;
    }
    (count, total)
}

#[test]
fn many_plates() {
    const MANY: usize = 100_000;
    let files = (0..MANY).map(|number| [b"P5 1 1 255\n", &[number as u8][..]].concat());
    let mut roll = files.collect::<Vec<_>>().concat();
    let counted = |roll: &[u8]| {
        let answer = lent::roll_count(roll);
        (answer.refusal, answer.count)
    };
    assert_eq!(counted(&roll), (0, MANY));
    let total = (0..MANY).map(|number| u64::from(number as u8)).sum();
    assert_eq!(walked(&roll), (MANY, total));
    for number in [0, 1, MANY / 2, MANY - 1] {
        let mut out = [0; 2];
        assert_eq!(lent::roll_plate(&roll, number, &mut out).refusal, 0);
        assert_eq!(out, [number as u16 % 256, 0]);
    }
    assert_eq!(lent::roll_plate(&roll, MANY, &mut [0]).refusal, 25);
    // the last one is faulty, and then the first of what is left
    roll.pop();
    assert_eq!(counted(&roll), (14, 0));
    assert_eq!(lent::roll_plate(&roll, 0, &mut [0]).refusal, 14);
    assert_eq!(counted(&roll[1..]), (10, 0));
}

/// Two plates of 8 megapixels, of one byte a pixel and of two.
#[test]
fn large_plates() {
    let plates = [
        picture("terrain", 4096, 2048),
        fine_picture("noise", 2048, 4096),
    ];
    let files = plates
        .each_ref()
        .map(|plate| plate.to_pgm().expect("its file"));
    let mut roll = files.concat();
    assert_eq!(lent::roll_count(&roll).count, 2);
    for (number, plate) in plates.iter().enumerate() {
        assert!(Roll::from_bytes(&roll).plate(number).as_ref() == Ok(plate));
        let mut short = vec![77; plate.greys().len() - 1];
        assert_eq!(lent::roll_plate(&roll, number, &mut short).refusal, 5);
        assert!(short.iter().all(|&grey| grey == 77));
    }
    let second = lent::plate_at(&roll, files[0].len());
    let head = (second.refusal, second.width, second.height, second.greatest);
    assert_eq!(head, (0, 2048, 4096, plates[1].greatest()));
    assert_eq!(
        (second.raster, second.end),
        (roll.len() - 2 * 2048 * 4096, roll.len())
    );
    let last = roll.pop();
    assert_eq!(lent::roll_count(&roll).refusal, 14);
    roll.extend(last);
    roll.push(b'P');
    assert_eq!(lent::roll_count(&roll).refusal, 10);
}
