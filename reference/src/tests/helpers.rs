//! Lent buffers full of a sentinel, and calls that check what is left in them.

use crate::*;

/// Rows 10 10 10 10 / 10 50 30 10 / 10 10 10 90. Only pixels 5 and 6 are off the trim edge.
pub const SMALL: [u16; 12] = [10, 10, 10, 10, 10, 50, 30, 10, 10, 10, 10, 90];

/// The small plate's record under connectivity 4, in the old form.
pub const SMALL_RECORD: [u8; 27] = [
    4, 3, 4, 4, 10, 12, 1, 20, 2, 1, 20, 1, 3, 80, 1, 0, 0, 0, 0, 0, 2, 1, 0, 0, 0, 0, 3,
];

/// Its record under connectivity 6: pixel 11 is at the lower right of pixel 6, so
/// the node of level 30 has it too.
pub const SMALL_RECORD_6: [u8; 27] = [
    4, 3, 6, 4, 10, 12, 1, 20, 3, 1, 20, 1, 2, 60, 1, 0, 0, 0, 0, 0, 2, 1, 0, 0, 0, 0, 3,
];

/// The fields in front of the old form that make it the new one, for greatest grey 255.
pub const FRONT: [u8; 4] = [0, 2, 255, 1];

/// The new form of a record of the old form.
pub fn in_new_form(old: &[u8]) -> Vec<u8> {
    [&FRONT, old].concat()
}

/// Both, in the old form.
pub static SMALL_RECORDS: [[u8; 27]; 2] = [SMALL_RECORD, SMALL_RECORD_6];

/// Connectivities, each with a number that is none.
pub const FIT_AND_UNFIT: [(u32, u32); 4] = [(4, 3), (6, 5), (6, 7), (8, 9)];

/// What a lent byte holds before the call.
pub const BYTE: u8 = 0xA5;
/// What a lent grey holds before the call.
pub const GREY: u16 = 0xA5C3;
/// What a lent 32-bit number holds before the call.
pub const WORD: u32 = 0xA5A5_5A5A;
/// What a lent 64-bit number holds before the call.
pub const LONG: u64 = 0xA5A5_5A5A_1234_4321;
/// How much longer than needed an ample buffer is.
pub const EXCESS: usize = 3;

/// A small linear congruential generator.
pub struct Lcg(pub u64);

impl Lcg {
    /// A number from 0 to bound minus 1.
    pub fn below(&mut self, bound: u32) -> u32 {
        self.0 = self
            .0
            .wrapping_mul(6_364_136_223_846_793_005)
            .wrapping_add(1_442_695_040_888_963_407);
        ((self.0 >> 33) % u64::from(bound)) as u32
    }

    /// A random plate with its width and height, at most this many of each, and its
    /// greatest grey.
    pub fn plate(&mut self, most: u32) -> (Vec<u16>, u32, u32, u32) {
        let greatest = self.greatest();
        let (plate, width, height) = self.plate_up_to(most, greatest);
        (plate, width, height, greatest)
    }

    /// The same with this greatest grey.
    pub fn plate_up_to(&mut self, most: u32, greatest: u32) -> (Vec<u16>, u32, u32) {
        let width = 1 + self.below(most);
        let height = 1 + self.below(most);
        let count = 1 + self.below(6);
        let palette: Vec<u16> = (0..count).map(|_| self.grey(greatest)).collect();
        let plate = (0..width * height)
            .map(|_| palette[self.below(count) as usize])
            .collect();
        (plate, width, height)
    }

    /// A random greatest grey, those at which something changes rather often.
    pub fn greatest(&mut self) -> u32 {
        let some = [1, 2, 127, 128, 254, 255, 256, 16_384, 65_535];
        match self.below(12) as usize {
            i if i < some.len() => some[i],
            _ => 1 + self.below(65_535),
        }
    }

    /// A random grey, the ends 0 and the greatest rather often.
    fn grey(&mut self, greatest: u32) -> u16 {
        match self.below(8) {
            0 => 0,
            1 => greatest as u16,
            _ => self.below(greatest + 1) as u16,
        }
    }
}

/// The connectivities in turn, round after round.
pub fn in_turn(round: usize) -> u32 {
    CONNECTIVITIES[round % CONNECTIVITIES.len()]
}

/// Work space of this many entries, all sentinels.
pub fn work_of(entries: usize) -> Vec<u32> {
    vec![WORD; entries]
}

/// Is the work space as it was lent?
pub fn work_untouched(work: &[u32]) -> bool {
    all_are(work, WORD)
}

/// Is the work space as a return after 6 leaves it?
pub fn work_zeroed(work: &[u32], pixels: usize) -> bool {
    all_are(&work[..8 * pixels], 0) && work_untouched(&work[8 * pixels..])
}

/// Is every place as it was lent?
pub fn all_are<T: PartialEq>(lent: &[T], sentinel: T) -> bool {
    lent.iter().all(|place| *place == sentinel)
}

/// Cleans with ample buffers, checks the buffers, returns the plate.
pub fn cleaned(side: u32, plate: &[u16], w: u32, h: u32, m: u32, c: u32, limit: u32) -> Vec<u16> {
    let n = plate.len();
    let mut out = vec![GREY; n + EXCESS];
    let mut work = work_of(8 * n + EXCESS);
    let done = clean(side, plate, w, h, m, c, limit, &mut out, &mut work);
    assert_eq!(done.refusal, 0);
    assert!(all_are(&out[n..], GREY) && work_zeroed(&work, n));
    out.truncate(n);
    out
}

/// Marks with ample buffers, checks the buffers, returns the marks.
pub fn marked(plate: &[u16], w: u32, h: u32, m: u32, c: u32) -> Vec<u16> {
    let n = plate.len();
    let mut out = vec![GREY; n + EXCESS];
    let mut work = work_of(8 * n + EXCESS);
    let done = regional_maxima(plate, w, h, m, c, &mut out, &mut work);
    assert_eq!(done.refusal, 0);
    assert!(all_are(&out[n..], GREY) && work_zeroed(&work, n));
    out.truncate(n);
    out
}

/// The four columns as own lists.
#[derive(Debug, PartialEq, Eq)]
pub struct Columns {
    pub levels: Vec<u32>,
    pub parents: Vec<u32>,
    pub areas: Vec<u32>,
    pub anchors: Vec<u32>,
}

impl Columns {
    /// Columns of these lengths, all sentinels.
    pub fn of(lengths: [usize; 4]) -> Columns {
        Columns {
            levels: vec![WORD; lengths[0]],
            parents: vec![WORD; lengths[1]],
            areas: vec![WORD; lengths[2]],
            anchors: vec![WORD; lengths[3]],
        }
    }

    /// The columns as they are lent.
    pub fn lent(&mut self) -> NodeColumns<'_> {
        NodeColumns {
            levels: &mut self.levels,
            parents: &mut self.parents,
            areas: &mut self.areas,
            anchors: &mut self.anchors,
        }
    }

    /// Cuts all columns to the count, checking that the excess is untouched.
    fn shorten(&mut self, count: usize) {
        let tree = [&mut self.levels, &mut self.parents];
        for column in tree.into_iter().chain([&mut self.areas, &mut self.anchors]) {
            assert!(all_are(&column[count..], WORD));
            column.truncate(count);
        }
    }
}

/// Lists the nodes with ample buffers, checks the buffers.
pub fn listed(plate: &[u16], w: u32, h: u32, m: u32, c: u32) -> Columns {
    let n = plate.len();
    let mut columns = Columns::of([n, n + 1, n + 2, n + 3]);
    let mut work = work_of(8 * n + EXCESS);
    let lent = columns.lent();
    let answer = node_list(plate, w, h, m, c, lent, &mut work);
    assert_eq!(answer.refusal, 0);
    assert!(work_zeroed(&work, n));
    columns.shorten(answer.count as usize);
    columns
}

/// Writes with ample buffers, checks the buffers, returns the record.
pub fn written(plate: &[u16], w: u32, h: u32, m: u32, c: u32) -> Vec<u8> {
    let n = plate.len();
    let mut out = vec![BYTE; 64 + 32 * n];
    let mut work = work_of(8 * n + EXCESS);
    let answer = write_record(plate, w, h, m, c, &mut out, &mut work);
    assert_eq!(answer.refusal, 0);
    assert!(all_are(&out[answer.length..], BYTE) && work_zeroed(&work, n));
    out.truncate(answer.length);
    out
}

/// Reads with ample buffers for n pixels, checks the buffers.
pub fn read_back(record: &[u8], n: usize) -> (RecordHead, Vec<u16>) {
    let mut out = vec![GREY; n + EXCESS];
    let mut work = work_of(8 * n + EXCESS);
    let head = read_record(record, &mut out, &mut work);
    assert_eq!(head.refusal, 0);
    assert!(all_are(&out[n..], GREY) && work_zeroed(&work, n));
    out.truncate(n);
    (head, out)
}

/// Cuts with ample buffers for n pixels, checks the buffers.
pub fn cut_back(record: &[u8], limit: u32, n: usize) -> (RecordHead, Vec<u16>) {
    let mut out = vec![GREY; n + EXCESS];
    let mut work = work_of(8 * n + EXCESS);
    let head = cut_record(record, limit, &mut out, &mut work);
    assert_eq!(head.refusal, 0);
    assert!(all_are(&out[n..], GREY) && work_zeroed(&work, n));
    out.truncate(n);
    (head, out)
}

/// Makes the size list with ample buffers for n pixels, checks the buffers.
pub fn sized(record: &[u8], n: usize) -> (SizeHead, Vec<u32>, Vec<u64>) {
    let mut counts = vec![WORD; n + 1];
    let mut losses = vec![LONG; n + 2];
    let mut work = work_of(8 * n + EXCESS);
    let head = size_list(record, &mut counts, &mut losses, &mut work);
    assert_eq!(head.refusal, 0);
    assert!(work_untouched(&counts[n - 1..]) && work_zeroed(&work, n));
    assert!(all_are(&losses[n - 1..], LONG));
    counts.truncate(n - 1);
    losses.truncate(n - 1);
    (head, counts, losses)
}

/// The buffers of the joint operation.
#[derive(Debug, PartialEq, Eq)]
pub struct Joint {
    pub record: Vec<u8>,
    pub out: Vec<u16>,
    pub counts: Vec<u32>,
    pub losses: Vec<u64>,
    pub work: Vec<u32>,
}

impl Joint {
    /// Buffers of these lengths, all sentinels: record, cut, counts, losses,
    /// work space.
    pub fn of(lengths: [usize; 5]) -> Joint {
        Joint {
            record: vec![BYTE; lengths[0]],
            out: vec![GREY; lengths[1]],
            counts: vec![WORD; lengths[2]],
            losses: vec![LONG; lengths[3]],
            work: work_of(lengths[4]),
        }
    }

    /// The joint operation over these buffers.
    pub fn run(&mut self, plate: &[u16], [w, h, m, c]: [u32; 4], limit: u32) -> JointHead {
        let outputs = JointOutputs {
            record: &mut self.record,
            out: &mut self.out,
            counts: &mut self.counts,
            losses: &mut self.losses,
        };
        write_cut_list(plate, w, h, m, c, limit, outputs, &mut self.work)
    }
}

/// The beginnings of both records of the small plate, none of them whole.
pub fn beginnings() -> impl Iterator<Item = &'static [u8]> {
    let records = SMALL_RECORDS.iter();
    records.flat_map(|record| (0..record.len()).map(move |length| &record[..length]))
}

/// Writes a plate file with an ample output, checks the excess, returns the file.
pub fn plate_file(plate: &[u16], w: u32, h: u32, m: u32) -> Vec<u8> {
    let mut out = vec![BYTE; 2 * plate.len() + 21 + EXCESS];
    let answer = write_pgm(plate, w, h, m, &mut out);
    assert_eq!(answer.refusal, 0);
    assert!(answer.length + EXCESS <= out.len() && all_are(&out[answer.length..], BYTE));
    out.truncate(answer.length);
    out
}

/// The plate with a border one pixel wide of a grey: none of its pixels is on the
/// trim edge of the framed plate, which has two columns and two rows more.
pub fn framed(plate: &[u16], width: u32, grey: u16) -> Vec<u16> {
    let wide = width as usize + 2;
    let mut all = vec![grey; wide];
    for row in plate.chunks(width as usize) {
        all.push(grey);
        all.extend(row);
        all.push(grey);
    }
    all.extend(vec![grey; wide]);
    all
}

/// A record head without a refusal.
pub fn head(width: u32, height: u32, greatest: u32, connectivity: u32) -> RecordHead {
    RecordHead {
        refusal: 0,
        width,
        height,
        greatest,
        connectivity,
    }
}
