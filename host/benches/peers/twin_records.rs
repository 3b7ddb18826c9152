//! The operations on records and plate files in plain Rust, with the same passes as the proved ones: a record is
//! measured and then written; one that is read is parsed, its tree is built, and the record of that tree is compared
//! with it. Only records of plates in the new form are read here: another one panics.

use livukoe::lent::Image;

use crate::twin::{build, clear, cut_values, plate_tree, put_attributes, write_values, Columns};

/// What the first fields say.
#[derive(Clone, Copy)]
struct Head {
    greatest: u32,
    width: u32,
    height: u32,
    connectivity: u32,
}

impl Head {
    fn pixels(self) -> usize {
        self.width as usize * self.height as usize
    }
}

/// Calls `each` with every field of the record of the tree in the work space, until it answers false.
fn all_fields<const CHECKED: bool>(
    work: &mut [u32],
    head: Head,
    count: usize,
    mut each: impl FnMut(u32) -> bool,
) -> bool {
    let columns = Columns::<CHECKED>::of(work, head.pixels());
    let (level, parent, area) = (&columns.flood_parent, &columns.parent, &columns.area);
    let Head {
        greatest,
        width,
        height,
        connectivity,
    } = head;
    let front = [0, 2, greatest, width, height, connectivity];
    let root = [count as u32, level[0], area[0]];
    front.into_iter().chain(root).all(&mut each)
        && (1..count).all(|i| {
            let rise = level[i] - level[parent[i] as usize];
            each(i as u32 - parent[i]) && each(rise) && each(area[i])
        })
        && columns.own.0.iter().all(|&own| each(own))
}

fn field_size(value: u32) -> usize {
    match value {
        0..128 => 1,
        128..16_384 => 2,
        16_384..2_097_152 => 3,
        2_097_152..268_435_456 => 4,
        _ => 5,
    }
}

/// Writes a field at a place, and gives the place after it.
fn put_field(out: &mut [u8], mut at: usize, mut value: u32) -> usize {
    while value > 127 {
        out[at] = (128 + value % 128) as u8;
        value /= 128;
        at += 1;
    }
    out[at] = value as u8;
    at + 1
}

/// Reads the field at a place, and moves the place after it.
fn take_field(bytes: &[u8], at: &mut usize, least: u32, greatest: u32) -> u32 {
    let length = bytes[*at..]
        .iter()
        .position(|&byte| byte < 128)
        .expect("a last group");
    let groups = &bytes[*at..=*at + length];
    assert!(
        length == 0 || (length < 5 && groups[length] != 0),
        "shortest"
    );
    let value = groups
        .iter()
        .rev()
        .fold(0u64, |value, &byte| value * 128 + u64::from(byte & 127));
    *at += length + 1;
    let value = u32::try_from(value).expect("32 bits");
    assert!(least <= value && value <= greatest, "within its range");
    value
}

/// Compares a field with the bytes at a place; the place after it.
fn same_field(bytes: &[u8], mut at: usize, mut value: u32) -> Option<usize> {
    while value > 127 {
        if u32::from(*bytes.get(at)?) != 128 + value % 128 {
            return None;
        }
        value /= 128;
        at += 1;
    }
    (u32::from(*bytes.get(at)?) == value).then_some(at + 1)
}

pub fn write_record<const CHECKED: bool>(image: Image, out: &mut [u8], work: &mut [u32]) {
    let head = Head {
        greatest: image.greatest,
        width: image.width,
        height: image.height,
        connectivity: image.connectivity,
    };
    let count = plate_tree::<CHECKED>(image, false, work);
    let mut size = 0;
    all_fields::<CHECKED>(work, head, count, |field| {
        size += field_size(field);
        true
    });
    assert!(size <= out.len(), "the output is long enough");
    let mut at = 0;
    all_fields::<CHECKED>(work, head, count, |field| {
        at = put_field(out, at, field);
        true
    });
    clear(work, head.pixels());
}

/// Parses a record; its greys stand in the work space.
fn parse<const CHECKED: bool>(bytes: &[u8], work: &mut [u32]) -> Head {
    let at = &mut 0;
    take_field(bytes, at, 0, 0);
    take_field(bytes, at, 2, 2);
    let head = Head {
        greatest: take_field(bytes, at, 1, 65_535),
        width: take_field(bytes, at, 1, 32_768),
        height: take_field(bytes, at, 1, 32_768),
        connectivity: take_field(bytes, at, 4, 8),
    };
    let pixels = head.pixels();
    let count = take_field(bytes, at, 1, pixels as u32) as usize;
    let mut columns = Columns::<CHECKED>::of(work, pixels);
    let levels = &mut columns.flood_parent;
    levels[0] = take_field(bytes, at, 0, head.greatest);
    take_field(bytes, at, 1, pixels as u32);
    for i in 1..count {
        let below = levels[i - take_field(bytes, at, 1, i as u32) as usize];
        levels[i] = below + take_field(bytes, at, 1, head.greatest - below);
        take_field(bytes, at, 1, pixels as u32);
    }
    for grey in columns.grey.0.iter_mut() {
        *grey = levels[take_field(bytes, at, 0, count as u32 - 1) as usize];
    }
    assert_eq!(*at, bytes.len(), "nothing is left over");
    head
}

/// Reads a record; the tree of its plate stands in the work space, with so many nodes.
fn read_tree<const CHECKED: bool>(bytes: &[u8], work: &mut [u32]) -> (Head, usize) {
    let head = parse::<CHECKED>(bytes, work);
    let Head { width, height, .. } = head;
    let count = build::<CHECKED>(work, width, height, head.greatest, head.connectivity);
    let mut at = 0;
    let same = all_fields::<CHECKED>(work, head, count, |field| {
        let next = same_field(bytes, at, field);
        at = next.unwrap_or(at);
        next.is_some()
    });
    assert!(same && at == bytes.len(), "the record of its plate");
    (head, count)
}

pub fn read_record<const CHECKED: bool>(bytes: &[u8], out: &mut [u16], work: &mut [u32]) {
    let (head, _) = read_tree::<CHECKED>(bytes, work);
    for (out, &grey) in out.iter_mut().zip(&work[..head.pixels()]) {
        *out = grey as u16;
    }
    clear(work, head.pixels());
}

pub fn cut_record<const CHECKED: bool>(
    bytes: &[u8],
    limit: u32,
    out: &mut [u16],
    work: &mut [u32],
) {
    let (head, count) = read_tree::<CHECKED>(bytes, work);
    put_attributes::<CHECKED>(work, head.width, head.height, count);
    cut_values::<CHECKED>(work, head.pixels(), count, limit);
    write_values::<CHECKED>(work, head.pixels(), None, out);
    clear(work, head.pixels());
}

/// Makes the size list; the grey that is held on the trim edge.
pub fn size_list<const CHECKED: bool>(
    bytes: &[u8],
    counts: &mut [u32],
    losses: &mut [u64],
    work: &mut [u32],
) -> u64 {
    let (head, count) = read_tree::<CHECKED>(bytes, work);
    put_attributes::<CHECKED>(work, head.width, head.height, count);
    let places = head.pixels() - 1;
    let columns = Columns::<CHECKED>::of(work, head.pixels());
    counts[..places].fill(0);
    losses[..places].fill(0);
    let attribute = |i| columns.attribute[i] as usize;
    for i in (1..count).filter(|&i| attribute(i) <= places) {
        counts[attribute(i) - 1] += 1;
    }
    let mut held = 0;
    for i in 1..count {
        let below = columns.flood_parent[columns.parent[i] as usize];
        let grey = u64::from(columns.area[i]) * u64::from(columns.flood_parent[i] - below);
        let total = match attribute(i) {
            off_edge if off_edge <= places => &mut losses[off_edge - 1],
            _ => &mut held,
        };
        *total += grey;
    }
    clear(work, head.pixels());
    held
}

/// Reads a plate file whose header has no comments.
pub fn read_pgm(file: &[u8], out: &mut [u16]) {
    let mut words = file.splitn(5, |byte| byte.is_ascii_whitespace());
    let mut next = || words.next().expect("a word of the header");
    assert_eq!(next(), b"P5");
    let number = |word: &[u8]| {
        let text = std::str::from_utf8(word).expect("digits");
        text.parse::<usize>().expect("a number")
    };
    let pixels = number(next()) * number(next());
    let greatest = number(next());
    let depth = if greatest > 255 { 2 } else { 1 };
    let raster = next();
    assert_eq!(raster.len(), depth * pixels);
    let grey_of = |bytes: &[u8]| {
        bytes
            .iter()
            .fold(0, |grey, &byte| 256 * grey + u16::from(byte))
    };
    let greys = || raster.chunks_exact(depth).map(grey_of);
    assert!(greys().all(|grey| usize::from(grey) <= greatest));
    for (out, grey) in out.iter_mut().zip(greys()) {
        *out = grey;
    }
}
