//! Plate files written: every set of the conditions, widths, heights and greatest greys of
//! each number of digits, outputs that just fit and that just do not, pixels above the
//! greatest grey, greys that look like a header.

use super::files::file_of;
use super::{Case, Chance, Plate};

/// All of them.
pub fn cases(cases: &mut Vec<Case>) {
    for met in 0..32 {
        cases.push(meeting(Plate::small().up_to(90), met));
        cases.push(meeting(wide(), met));
    }
    sizes(cases);
    unfit_sizes(cases);
    lengths(cases);
    greatest(cases);
    above(cases);
    for plate in like_headers().iter().chain(&by_chance()) {
        cases.push(written(plate, file_of(plate).len()));
    }
}

/// The plate written into an output of so many places.
pub fn written(plate: &Plate, places: usize) -> Case<'static> {
    plate.shaped(Case::new("pgm")).with("out", places)
}

/// A plate of two bytes a pixel with its greatest grey at the last pixel.
fn wide() -> Plate {
    Plate::new(3, 2, |p| [0, 10, 255, 256, 299, 300][p as usize]).up_to(300)
}

/// The case that meets the conditions 2, 29, 3, 28, 5 whose bits are set, on a plate with
/// its greatest grey at the last pixel.
fn meeting(mut plate: Plate, met: u32) -> Case<'static> {
    let [size, greatest, length, above, short] = [1, 2, 4, 8, 16].map(|bit| met & bit != 0);
    let places = file_of(&plate).len() - usize::from(short);
    plate.greatest = match (greatest, above) {
        (false, false) => plate.greatest,
        (false, true) => plate.greatest - 1,
        (true, false) => 65_536,
        (true, true) => 0,
    };
    if size {
        plate.height = 0;
    }
    if length {
        plate.greys.remove(0);
    }
    written(&plate, places)
}

/// Widths and heights of each number of digits; the greatest greys take turns. The output
/// just fits, for every third a byte is missing too.
fn sizes(cases: &mut Vec<Case>) {
    let numbers = [1, 9, 10, 99, 100, 999, 1_000, 1_024, 9_999, 10_000];
    let numbers = numbers.into_iter().chain([32_767, 32_768]);
    let lines = numbers.flat_map(|number| [(number, 1), (1, number)]);
    let others = [(9, 9), (9, 10), (10, 9), (99, 100), (101, 99), (999, 10)];
    let large = [
        (256, 255),
        (257, 255),
        (1_024, 64),
        (66, 1_024),
        (2, 32_768),
    ];
    let turns = [255, 65_535, 9, 256, 10_000];
    let sizes = lines.chain(others).chain(large);
    for (i, (width, height)) in sizes.enumerate() {
        let greatest = match width * height {
            0..=32_768 => turns[i % turns.len()],
            _ => 254,
        };
        let plate = halves(width, height, greatest);
        let length = file_of(&plate).len();
        cases.push(written(&plate, length));
        if i % 3 == 0 {
            cases.push(written(&plate, length - 1));
        }
    }
}

/// A plate that begins with grey 1 and ends with its greatest, half of the others of one
/// grey and half 0. That grey is one byte or two equal ones, so the answer's line is short.
fn halves(width: u32, height: u32, greatest: u32) -> Plate {
    let last = width * height - 1;
    let upper = match greatest {
        0..=255 => greatest,
        _ => greatest / 257 * 257,
    };
    let grey = |p| match p {
        _ if p == last => greatest,
        0 => 1,
        _ if p <= last / 2 => upper,
        _ => 0,
    };
    Plate::new(width, height, |p| grey(p) as u16).up_to(greatest)
}

/// Sizes beyond the grid; the products of some are 12 at most when wrapped to 32 bits.
pub fn beyond_the_grid() -> impl Iterator<Item = (u32, u32)> {
    let most = u32::MAX;
    let numbers = [(0, 3), (4, 0), (0, 0), (0, most), (32_769, 1), (1, 32_769)];
    let products = [(32_768, 513), (513, 32_768), (4_097, 4_096)];
    let of_16_bits = [(65_540, 3), (4, 65_539), (1, 65_536)];
    let of_32_bits = [(65_536, 65_536), (most, most), (2_147_483_649, 2)];
    let of_32_bits_to_12 = [(2_147_483_654, 2), (6, 2_147_483_650)];
    let wrapped = of_16_bits
        .into_iter()
        .chain(of_32_bits)
        .chain(of_32_bits_to_12);
    numbers.into_iter().chain(products).chain(wrapped)
}

/// Sizes beyond the grid, with the small plate's greys and with as many as the product
/// wrapped to 32 bits, up to 13; then sizes within the grid.
fn unfit_sizes(cases: &mut Vec<Case>) {
    let within = [
        (12, 1),
        (1, 12),
        (2, 6),
        (4, 4),
        (32_768, 512),
        (4_096, 4_096),
    ];
    for (width, height) in beyond_the_grid().chain(within) {
        let product = width.wrapping_mul(height).min(13);
        for length in [12, product as usize] {
            let case = small_of(length, 255, 40);
            cases.push(case.with("width", width).with("height", height));
        }
    }
}

/// The small plate with so many greys, this greatest grey and this output.
fn small_of(length: usize, greatest: u32, places: usize) -> Case<'static> {
    let mut plate = Plate::small().up_to(greatest);
    plate.greys.resize(length, 10);
    written(&plate, places)
}

/// Too few greys and too many; outputs of no byte, of the pixels, of the raster, of the
/// file, of one less and one more. The files have 23 and 37 bytes.
fn lengths(cases: &mut Vec<Case>) {
    for (greatest, file) in [(255, 23), (65_535, 37)] {
        for length in [0, 1, 11, 13, 24] {
            cases.push(small_of(length, greatest, 60));
        }
        for places in [0, 1, 11, 12, 24, file - 1, file, file + 1, 60] {
            cases.push(small_of(12, greatest, places));
        }
    }
}

/// Greatest greys of each number of digits, the output just long enough and a byte short;
/// numbers that are no greatest grey.
fn greatest(cases: &mut Vec<Case>) {
    let narrow = [1, 9, 10, 99, 100, 254, 255];
    let wide = [256, 257, 999, 1_000, 9_999, 10_000, 32_767, 65_534, 65_535];
    for greatest in narrow.into_iter().chain(wide) {
        let greys = [0, greatest, greatest / 2, greatest - 1, greatest % 256, 1];
        let plate = Plate::new(3, 2, |p| greys[p as usize] as u16).up_to(greatest);
        let length = file_of(&plate).len();
        cases.extend([length, length - 1].map(|places| written(&plate, places)));
    }
    for unfit in [0, 65_536, 65_537, 65_791, 131_071, u32::MAX] {
        cases.extend([60, 0].map(|places| small_of(12, unfit, places)));
    }
}

/// One pixel above the greatest grey: the first, one between, the last; and none.
fn above(cases: &mut Vec<Case>) {
    for greatest in [1, 9, 254, 255, 256, 65_534] {
        for at in [0, 4, 8, 9] {
            let grey = |p| greatest as u16 + u16::from(p == at);
            let plate = Plate::new(3, 3, grey).up_to(greatest);
            cases.push(written(&plate, file_of(&plate).len()));
        }
    }
    // no byte of these greys is above 255
    for grey in [256, 266, 65_280] {
        cases.push(written(&Plate::new(1, 1, |_| grey), 40));
    }
}

/// Greys that are bytes of a header, alone and as a whole header; greys of two bytes one
/// of which, or both, are such a byte.
fn like_headers() -> Vec<Plate> {
    let of = |greys: &[u8]| Plate::new(greys.len() as u32, 1, |p| greys[p as usize].into());
    let mut plates = vec![
        of(b"P5\n1 1\n255\n#"),
        of(b" \t\r\n\n#c\n#\r"),
        of(b"0123456789"),
    ];
    let pairs = [0x5035, 0x0a31, 0x2031, 0x0a32, 0x3535, 0x0a23];
    plates.push(Plate::new(6, 1, |p| pairs[p as usize]).up_to(65_535));
    for byte in [9, 10, 13, 32, 35, 48, 57, 80] {
        plates.push(Plate::new(1, 1, |_| byte));
        let greys = [256 * byte, byte, 257 * byte];
        plates.push(Plate::new(3, 1, |p| greys[p as usize]).up_to(65_535));
    }
    plates
}

/// Plates by chance, with one and with two bytes a pixel.
fn by_chance() -> Vec<Plate> {
    let mut chance = Chance(27);
    let mut plate = |greatest| {
        let (width, height) = (1 + chance.below(5), 1 + chance.below(5));
        let grey = |_| chance.below(greatest + 1) as u16;
        Plate::new(width, height, grey).up_to(greatest)
    };
    let greatest = [1, 200, 255, 256, 600, 4_095, 40_000, 65_534];
    greatest.map(&mut plate).into()
}
