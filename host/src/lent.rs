//! The proved functions over lent slices, as C sees them, without any allocation.
//!
//! Each answers 0 in `refusal`, or the number of a refusal (see [`crate::Refusal`]) and zeros elsewhere. An output may be
//! longer than the answer; its excess stays as it was, and so does all of it on a refusal. The work space has 8 numbers
//! for each pixel; what is in it does not matter, and its first 8 × pixels numbers are zero afterwards unless 6 or a
//! refusal ahead of it is answered.

mod c {
    use super::{
        FileLength, Ink, JointHead, Node, NodeCount, PlateHead, PlatePlace, RecordHead,
        RecordLength, RollCount, SizeHead,
    };

    extern "C" {
        pub fn livukoe_clean(
            side: u32,
            image: *const u16,
            image_length: usize,
            width: u32,
            height: u32,
            greatest: u32,
            connectivity: u32,
            limit: u32,
            out: *mut u16,
            out_length: usize,
            work: *mut u32,
            work_length: usize,
        ) -> u32;

        pub fn livukoe_regional_maxima(
            image: *const u16,
            image_length: usize,
            width: u32,
            height: u32,
            greatest: u32,
            connectivity: u32,
            out: *mut u16,
            out_length: usize,
            work: *mut u32,
            work_length: usize,
        ) -> u32;

        pub fn livukoe_node_list(
            image: *const u16,
            image_length: usize,
            width: u32,
            height: u32,
            greatest: u32,
            connectivity: u32,
            levels: *mut u32,
            levels_length: usize,
            parents: *mut u32,
            parents_length: usize,
            areas: *mut u32,
            areas_length: usize,
            anchors: *mut u32,
            anchors_length: usize,
            work: *mut u32,
            work_length: usize,
        ) -> NodeCount;

        pub fn livukoe_node_entries(
            image: *const u16,
            image_length: usize,
            width: u32,
            height: u32,
            greatest: u32,
            connectivity: u32,
            list: *mut Node,
            list_length: usize,
            work: *mut u32,
            work_length: usize,
        ) -> NodeCount;

        pub fn livukoe_read_pgm(
            file: *const u8,
            file_length: usize,
            out: *mut u16,
            out_length: usize,
        ) -> PlateHead;

        pub fn livukoe_roll_count(file: *const u8, file_length: usize) -> RollCount;

        pub fn livukoe_roll_plate(
            file: *const u8,
            file_length: usize,
            number: usize,
            out: *mut u16,
            out_length: usize,
        ) -> PlateHead;

        pub fn livukoe_plate_at(file: *const u8, file_length: usize, at: usize) -> PlatePlace;

        pub fn livukoe_write_pgm(
            image: *const u16,
            image_length: usize,
            width: u32,
            height: u32,
            greatest: u32,
            out: *mut u8,
            out_length: usize,
        ) -> FileLength;

        pub fn livukoe_seeded_plate(
            seed: u32,
            width: u32,
            height: u32,
            out: *mut u16,
            out_length: usize,
        ) -> u32;

        pub fn livukoe_write_record(
            image: *const u16,
            image_length: usize,
            width: u32,
            height: u32,
            greatest: u32,
            connectivity: u32,
            out: *mut u8,
            out_length: usize,
            work: *mut u32,
            work_length: usize,
        ) -> RecordLength;

        pub fn livukoe_read_record(
            bytes: *const u8,
            bytes_length: usize,
            out: *mut u16,
            out_length: usize,
            work: *mut u32,
            work_length: usize,
        ) -> RecordHead;

        pub fn livukoe_cut_record(
            bytes: *const u8,
            bytes_length: usize,
            limit: u32,
            out: *mut u16,
            out_length: usize,
            work: *mut u32,
            work_length: usize,
        ) -> RecordHead;

        pub fn livukoe_size_list(
            bytes: *const u8,
            bytes_length: usize,
            counts: *mut u32,
            counts_length: usize,
            losses: *mut u64,
            losses_length: usize,
            work: *mut u32,
            work_length: usize,
        ) -> SizeHead;

        pub fn livukoe_record_to_old(
            bytes: *const u8,
            bytes_length: usize,
            out: *mut u8,
            out_length: usize,
            work: *mut u32,
            work_length: usize,
        ) -> RecordLength;

        pub fn livukoe_record_to_new(
            bytes: *const u8,
            bytes_length: usize,
            out: *mut u8,
            out_length: usize,
            work: *mut u32,
            work_length: usize,
        ) -> RecordLength;

        pub fn livukoe_write_cut_list(
            image: *const u16,
            image_length: usize,
            width: u32,
            height: u32,
            greatest: u32,
            connectivity: u32,
            limit: u32,
            bytes: *mut u8,
            bytes_length: usize,
            out: *mut u16,
            out_length: usize,
            counts: *mut u32,
            counts_length: usize,
            losses: *mut u64,
            losses_length: usize,
            work: *mut u32,
            work_length: usize,
        ) -> JointHead;

        pub fn livukoe_ink_percentage(grey: u16, greatest: u32) -> Ink;
    }
}

/// A node of a component tree: a connected component of the pixels that are at least as light as some grey.
#[repr(C)]
#[derive(Clone, Copy, Debug, Default, PartialEq, Eq)]
pub struct Node {
    /// The least grey in the node.
    pub level: u32,
    /// The number of the smallest node that strictly contains it; 0 for the root.
    pub parent: u32,
    /// The number of its pixels.
    pub area: u32,
    /// The lowest number of a pixel at its level.
    pub anchor: u32,
}

/// What the node list answers.
#[repr(C)]
#[derive(Clone, Copy, Debug, Default, PartialEq, Eq)]
pub struct NodeCount {
    pub refusal: u32,
    pub count: u32,
}

/// What reading a plate file, or one plate of a roll, answers.
#[repr(C)]
#[derive(Clone, Copy, Debug, Default, PartialEq, Eq)]
pub struct PlateHead {
    pub refusal: u32,
    pub width: u32,
    pub height: u32,
    pub greatest: u32,
}

/// What counting the plates of a roll answers.
#[repr(C)]
#[derive(Clone, Copy, Debug, Default, PartialEq, Eq)]
pub struct RollCount {
    pub refusal: u32,
    pub count: usize,
}

/// Where a plate of a roll lies: the places of its raster's first byte and after its last.
#[repr(C)]
#[derive(Clone, Copy, Debug, Default, PartialEq, Eq)]
pub struct PlatePlace {
    pub refusal: u32,
    pub width: u32,
    pub height: u32,
    pub greatest: u32,
    pub raster: usize,
    pub end: usize,
}

/// What writing a plate file answers: its length in bytes.
#[repr(C)]
#[derive(Clone, Copy, Debug, Default, PartialEq, Eq)]
pub struct FileLength {
    pub refusal: u32,
    pub length: usize,
}

/// What writing a record and converting it answer: its length in bytes.
#[repr(C)]
#[derive(Clone, Copy, Debug, Default, PartialEq, Eq)]
pub struct RecordLength {
    pub refusal: u32,
    pub length: usize,
}

/// What reading a record and cutting it answer. The greatest grey is 255 for the old form.
#[repr(C)]
#[derive(Clone, Copy, Debug, Default, PartialEq, Eq)]
pub struct RecordHead {
    pub refusal: u32,
    pub width: u32,
    pub height: u32,
    pub greatest: u32,
    pub connectivity: u32,
}

/// What the size list answers. The greatest grey is 255 for the old form.
#[repr(C)]
#[derive(Clone, Copy, Debug, Default, PartialEq, Eq)]
pub struct SizeHead {
    pub refusal: u32,
    pub width: u32,
    pub height: u32,
    pub greatest: u32,
    pub connectivity: u32,
    pub nodes: u32,
    pub darkest: u32,
    pub held: u64,
}

/// What writing, cutting and listing at once answer.
#[repr(C)]
#[derive(Clone, Copy, Debug, Default, PartialEq, Eq)]
pub struct JointHead {
    pub refusal: u32,
    pub length: usize,
    pub nodes: u32,
    pub darkest: u32,
    pub held: u64,
}

/// What the ink percentage answers.
#[repr(C)]
#[derive(Clone, Copy, Debug, Default, PartialEq, Eq)]
pub struct Ink {
    pub refusal: u32,
    pub percentage: u32,
}

/// A plate as a caller has it, with the connectivity that an operation goes by. Nothing is checked here.
#[derive(Clone, Copy, Debug)]
pub struct Image<'a> {
    pub greys: &'a [u16],
    pub width: u32,
    pub height: u32,
    pub greatest: u32,
    pub connectivity: u32,
}

/// The columns of a node list.
#[derive(Debug)]
pub struct NodeColumns<'a> {
    pub levels: &'a mut [u32],
    pub parents: &'a mut [u32],
    pub areas: &'a mut [u32],
    pub anchors: &'a mut [u32],
}

/// The outputs of writing, cutting and listing at once: the record, the cut and the tables of the size list.
#[derive(Debug)]
pub struct JointOutputs<'a> {
    pub bytes: &'a mut [u8],
    pub out: &'a mut [u16],
    pub counts: &'a mut [u32],
    pub losses: &'a mut [u64],
}

/// Calls a C function. `read s` and `write s` pass the pointer and the length of a slice, `plate p` what an [`Image`] has,
/// and any other name itself.
macro_rules! call {
    // SAFETY: the slices are borrowed for the whole call, the written ones mutably, so that they are valid and do not
    // overlap. The proved functions ask nothing else.
    (@ $function:expr, [$($passed:expr,)*]) => { unsafe { $function($($passed),*) } };
    (@ $function:expr, [$($passed:expr,)*] read $slice:ident, $($rest:tt)*) => {
        call!(@ $function, [$($passed,)* $slice.as_ptr(), $slice.len(),] $($rest)*)
    };
    (@ $function:expr, [$($passed:expr,)*] write $slice:ident, $($rest:tt)*) => {
        call!(@ $function, [$($passed,)* $slice.as_mut_ptr(), $slice.len(),] $($rest)*)
    };
    (@ $function:expr, [$($passed:expr,)*] plate $image:ident, $($rest:tt)*) => {{
        let Image { greys, width, height, greatest, connectivity } = $image;
        call!(@ $function, [$($passed,)*] read greys, width, height, greatest, connectivity, $($rest)*)
    }};
    (@ $function:expr, [$($passed:expr,)*] $value:ident, $($rest:tt)*) => {
        call!(@ $function, [$($passed,)* $value,] $($rest)*)
    };
    ($function:expr, $($rest:tt)*) => { call!(@ $function, [] $($rest)*,) };
}

/// Cleans a plate at a limit on a side, 1 for light patches and 2 for dark ones. Patches that reach the trim edge, the
/// first or last row or column, stay at every limit.
pub fn clean(side: u32, image: Image, limit: u32, out: &mut [u16], work: &mut [u32]) -> u32 {
    call!(c::livukoe_clean, side, plate image, limit, write out, write work)
}

/// Marks the regional maxima of a plate: 1 inside one, 0 elsewhere.
pub fn regional_maxima(image: Image, out: &mut [u16], work: &mut [u32]) -> u32 {
    call!(c::livukoe_regional_maxima, plate image, write out, write work)
}

/// The nodes of a plate, a column for each of level, parent (0 for the root), area and anchor.
pub fn node_list(image: Image, columns: NodeColumns, work: &mut [u32]) -> NodeCount {
    let NodeColumns {
        levels,
        parents,
        areas,
        anchors,
    } = columns;
    call!(
        c::livukoe_node_list,
        plate image, write levels, write parents, write areas, write anchors, write work
    )
}

/// The nodes of a plate as one list of entries.
pub fn node_entries(image: Image, list: &mut [Node], work: &mut [u32]) -> NodeCount {
    call!(c::livukoe_node_entries, plate image, write list, write work)
}

/// Reads a plate file. An output of as many numbers as the file has bytes is always long enough.
pub fn read_pgm(file: &[u8], out: &mut [u16]) -> PlateHead {
    call!(c::livukoe_read_pgm, read file, write out)
}

/// The number of plates of a roll.
pub fn roll_count(file: &[u8]) -> RollCount {
    call!(c::livukoe_roll_count, read file)
}

/// Reads the plate of a number, counted from 0, of a roll. All plates are judged at each call.
pub fn roll_plate(file: &[u8], number: usize, out: &mut [u16]) -> PlateHead {
    call!(c::livukoe_roll_plate, read file, number, write out)
}

/// Where the plate lies that begins at a byte, judged as one of a roll.
pub fn plate_at(file: &[u8], at: usize) -> PlatePlace {
    call!(c::livukoe_plate_at, read file, at)
}

/// Writes the plate file of a plate, in the one form that is written. An output of two bytes for each pixel and 21 more is
/// always long enough.
pub fn write_pgm(
    image: &[u16],
    width: u32,
    height: u32,
    greatest: u32,
    out: &mut [u8],
) -> FileLength {
    call!(c::livukoe_write_pgm, read image, width, height, greatest, write out)
}

/// Writes the test plate of a seed, whose greatest grey is 255.
pub fn seeded_plate(seed: u32, width: u32, height: u32, out: &mut [u16]) -> u32 {
    call!(c::livukoe_seeded_plate, seed, width, height, write out)
}

/// Writes the record of a plate with its connectivity, in the new form.
pub fn write_record(image: Image, out: &mut [u8], work: &mut [u32]) -> RecordLength {
    call!(c::livukoe_write_record, plate image, write out, write work)
}

/// Reads a record of either form: its plate.
pub fn read_record(bytes: &[u8], out: &mut [u16], work: &mut [u32]) -> RecordHead {
    call!(c::livukoe_read_record, read bytes, write out, write work)
}

/// Cuts a record at a limit: its plate, cleaned on the light side.
pub fn cut_record(bytes: &[u8], limit: u32, out: &mut [u16], work: &mut [u32]) -> RecordHead {
    call!(c::livukoe_cut_record, read bytes, limit, write out, write work)
}

/// The size list of a record: at place a - 1 the number of nodes of area a off the trim edge, and the grey that is lost at
/// it. `held` is the grey, above the darkest, of the cut at the full limit.
pub fn size_list(
    bytes: &[u8],
    counts: &mut [u32],
    losses: &mut [u64],
    work: &mut [u32],
) -> SizeHead {
    call!(c::livukoe_size_list, read bytes, write counts, write losses, write work)
}

/// Converts a record to the old form, which has at most as many bytes.
pub fn record_to_old(bytes: &[u8], out: &mut [u8], work: &mut [u32]) -> RecordLength {
    call!(c::livukoe_record_to_old, read bytes, write out, write work)
}

/// Converts a record to the new form, which has at most 4 bytes more.
pub fn record_to_new(bytes: &[u8], out: &mut [u8], work: &mut [u32]) -> RecordLength {
    call!(c::livukoe_record_to_new, read bytes, write out, write work)
}

/// Writes the record of a plate, cuts it at a limit and lists its sizes, with the exact bytes passed on.
pub fn write_cut_list(
    image: Image,
    limit: u32,
    outputs: JointOutputs,
    work: &mut [u32],
) -> JointHead {
    let JointOutputs {
        bytes,
        out,
        counts,
        losses,
    } = outputs;
    call!(
        c::livukoe_write_cut_list,
        plate image, limit, write bytes, write out, write counts, write losses, write work
    )
}

/// The ink percentage of a grey of plates with this greatest grey.
pub fn ink_percentage(grey: u16, greatest: u32) -> Ink {
    call!(c::livukoe_ink_percentage, grey, greatest)
}
