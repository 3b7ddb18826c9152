//! Cases run one by one, a line for each: what the program `test_vectors` prints.
//! It is the operation's name, its answer and, after a bar each, every lent
//! buffer as it was left, spelled as `case.rs` says.
//!
//! The fields of a plate are `width`, `height`, `greatest`, `connectivity` and
//! `greys`. A record or a file is `bytes`. The fields of a lent buffer are its
//! places. An output of bytes holds 170 before, an output of greys 43690, a table,
//! a column or an entry 9, the work space 7. In the answers of `joint` and `sizes`
//! the grey held stands directly after the darkest grey.
//!
//! - `clean`: `side`, a plate, `limit`, `out`, `work`
//! - `maxima`, `write`: a plate, `out`, `work`
//! - `nodes`: a plate, `levels`, `parents`, `areas`, `anchors`, `work`
//! - `entries`: a plate, `at` (the entry that is read), `work`; six entries are lent
//! - `joint`: a plate, `limit`, `record`, `out`, `counts`, `losses`, `work`
//! - `read`: a record, `out`, `work`
//! - `cut`: a record, `limit`, `out`, `work`
//! - `sizes`: a record, `counts`, `losses`, `work`
//! - `old`, `new`: a record, `out`, `work`; it is converted to that form
//! - `file`: a file, `out`
//! - `pgm`: a plate without `connectivity`, `out`; its file is written
//! - `seeded`: `seed`, `width`, `height`, `out`; the plate of the seed
//! - `header`: a file, `at` (where the header begins)
//! - `text`: a file; what sizelist prints
//! - `ink`: `greatest`, `greys`; refusal and percentage for each grey

use std::fmt::Display;

use crate::case::{listed, Case};
use crate::*;

/// The text for all cases of the input.
pub fn vectors_text(input: &str) -> String {
    input.lines().map(|line| answer(&Case::of(line))).collect()
}

/// The line of a case.
fn answer(case: &Case) -> String {
    let said = match case.name {
        "clean" => cleaned(case),
        "maxima" => maxima(case),
        "write" => write(case),
        "nodes" => nodes(case),
        "entries" => entries(case),
        "joint" => joint(case),
        "read" => read(case),
        "cut" => cut(case),
        "sizes" => sizes(case),
        "old" => converted(case, to_old_form),
        "new" => converted(case, to_new_form),
        "file" => file(case),
        "pgm" => pgm(case),
        "seeded" => seeded(case),
        "header" => header(case),
        "text" => text(case),
        "ink" => inks(case),
        other => panic!("no operation is called {other}"),
    };
    format!("{}{said}\n", case.name)
}

/// A bar and a buffer.
fn barred<T: Display + PartialEq + Copy>(buffer: &[T]) -> String {
    format!(" |{}", listed(buffer.iter().copied()))
}

/// Width, height, greatest grey and connectivity.
fn shape(case: &Case) -> [u32; 4] {
    ["width", "height", "greatest", "connectivity"].map(|name| case.number(name))
}

/// What a byte of an output holds before.
const BYTE: u8 = 170;
/// What a grey of an output holds before.
const GREY: u16 = 43_690;

/// The output, each place holding this before, and the work space.
fn buffers<T: Clone>(case: &Case, before: T) -> (Vec<T>, Vec<u32>) {
    (case.lent("out", before), case.lent("work", 7))
}

/// Cleaning.
fn cleaned(case: &Case) -> String {
    let [w, h, m, k] = shape(case);
    let (mut out, mut work) = buffers(case, GREY);
    let (side, limit) = (case.number("side"), case.number("limit"));
    let done = clean(side, &case.greys(), w, h, m, k, limit, &mut out, &mut work);
    format!(" {}", done.refusal) + &barred(&out) + &barred(&work)
}

/// Marking maxima.
fn maxima(case: &Case) -> String {
    let [w, h, m, k] = shape(case);
    let (mut out, mut work) = buffers(case, GREY);
    let done = regional_maxima(&case.greys(), w, h, m, k, &mut out, &mut work);
    format!(" {}", done.refusal) + &barred(&out) + &barred(&work)
}

/// Writing a record.
fn write(case: &Case) -> String {
    let [w, h, m, k] = shape(case);
    let (mut out, mut work) = buffers(case, BYTE);
    let written = write_record(&case.greys(), w, h, m, k, &mut out, &mut work);
    with_length(written, &out, &work)
}

/// The answer of writing or converting, and what it left.
fn with_length(answer: RecordLength, out: &[u8], work: &[u32]) -> String {
    let said = format!(" {} {}", answer.refusal, answer.length);
    said + &barred(out) + &barred(work)
}

/// Converting a record to a form.
fn converted(case: &Case, to_form: fn(&[u8], &mut [u8], &mut [u32]) -> RecordLength) -> String {
    let (mut out, mut work) = buffers(case, BYTE);
    let answer = to_form(&case.bytes(), &mut out, &mut work);
    with_length(answer, &out, &work)
}

/// The node list.
fn nodes(case: &Case) -> String {
    let [w, h, m, k] = shape(case);
    let mut levels = case.lent("levels", 9);
    let mut parents = case.lent("parents", 9);
    let mut areas = case.lent("areas", 9);
    let mut anchors = case.lent("anchors", 9);
    let mut work = case.lent("work", 7);
    let columns = NodeColumns {
        levels: &mut levels,
        parents: &mut parents,
        areas: &mut areas,
        anchors: &mut anchors,
    };
    let list = node_list(&case.greys(), w, h, m, k, columns, &mut work);
    let said = format!(" {} {}", list.refusal, list.count);
    let columns = barred(&levels) + &barred(&parents) + &barred(&areas) + &barred(&anchors);
    said + &columns + &barred(&work)
}

/// The node list as entries, and the entry at a place.
fn entries(case: &Case) -> String {
    let [w, h, m, k] = shape(case);
    let mut list = [NodeEntry::of([9; 4]); 6];
    let mut work = case.lent("work", 7);
    let answer = node_entries(&case.greys(), w, h, m, k, &mut list, &mut work);
    let read = node_at(&list, case.number("at") as usize);
    let said = format!(" {} {}", answer.refusal, answer.count);
    let list: String = list.iter().map(|entry| barred(&entry.numbers())).collect();
    said + &list + &barred(&read.numbers()) + &barred(&work)
}

/// Writing a record, cutting it and listing its sizes by one call.
fn joint(case: &Case) -> String {
    let [w, h, m, k] = shape(case);
    let mut record = case.lent("record", BYTE);
    let (mut out, mut work) = buffers(case, GREY);
    let mut counts = case.lent("counts", 9);
    let mut losses = case.lent("losses", 9);
    let outputs = JointOutputs {
        record: &mut record,
        out: &mut out,
        counts: &mut counts,
        losses: &mut losses,
    };
    let limit = case.number("limit");
    let head = write_cut_list(&case.greys(), w, h, m, k, limit, outputs, &mut work);
    let said = format!(
        " {} {} {} {} {}",
        head.refusal, head.length, head.nodes, head.darkest, head.held
    );
    let tables = barred(&counts) + &barred(&losses);
    said + &barred(&record) + &barred(&out) + &tables + &barred(&work)
}

/// The answer of reading or cutting, and what it left.
fn on_record(head: RecordHead, out: &[u16], work: &[u32]) -> String {
    let said = format!(
        " {} {} {} {} {}",
        head.refusal, head.width, head.height, head.greatest, head.connectivity
    );
    said + &barred(out) + &barred(work)
}

/// Reading a record.
fn read(case: &Case) -> String {
    let (mut out, mut work) = buffers(case, GREY);
    let head = read_record(&case.bytes(), &mut out, &mut work);
    on_record(head, &out, &work)
}

/// Cutting a record.
fn cut(case: &Case) -> String {
    let (mut out, mut work) = buffers(case, GREY);
    let limit = case.number("limit");
    let head = cut_record(&case.bytes(), limit, &mut out, &mut work);
    on_record(head, &out, &work)
}

/// The size list.
fn sizes(case: &Case) -> String {
    let mut counts = case.lent("counts", 9);
    let mut losses = case.lent("losses", 9);
    let mut work = case.lent("work", 7);
    let head = size_list(&case.bytes(), &mut counts, &mut losses, &mut work);
    let said = format!(
        " {} {} {} {} {}",
        head.refusal, head.width, head.height, head.greatest, head.connectivity
    );
    let grey = format!(" {} {} {}", head.nodes, head.darkest, head.held);
    said + &grey + &barred(&counts) + &barred(&losses) + &barred(&work)
}

/// Reading a plate file.
fn file(case: &Case) -> String {
    let mut out = case.lent("out", GREY);
    let head = read_pgm(&case.bytes(), &mut out);
    let said = format!(
        " {} {} {} {}",
        head.refusal, head.width, head.height, head.greatest
    );
    said + &barred(&out)
}

/// Writing a plate file.
fn pgm(case: &Case) -> String {
    let [w, h, m, _] = shape(case);
    let mut out = case.lent("out", BYTE);
    let written = write_pgm(&case.greys(), w, h, m, &mut out);
    format!(" {} {}", written.refusal, written.length) + &barred(&out)
}

/// The plate of a seed.
fn seeded(case: &Case) -> String {
    let [w, h, _, _] = shape(case);
    let mut out = case.lent("out", GREY);
    let done = seeded_plate(case.number("seed"), w, h, &mut out);
    format!(" {}", done.refusal) + &barred(&out)
}

/// Reading the header that begins at a place.
fn header(case: &Case) -> String {
    let head = header_at(&case.bytes(), case.number("at") as usize);
    format!(
        " {} {} {} {} {}",
        head.refusal, head.width, head.height, head.greatest, head.raster
    )
}

/// What sizelist prints.
fn text(case: &Case) -> String {
    let text = sizelist_text(&case.bytes());
    format!(" {}", text.len()) + &barred(text.as_bytes())
}

/// The ink percentage of each grey.
fn inks(case: &Case) -> String {
    let greys = case.greys().into_iter();
    greys
        .map(|grey| ink_percentage(grey, case.number("greatest")))
        .map(|ink| format!(" {} {}", ink.refusal, ink.percentage))
        .collect()
}
