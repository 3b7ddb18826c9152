//! The cases of vectors: every refusal of every operation occurs, the
//! specification's examples are among them, and their lines are right.

use std::collections::{BTreeMap, BTreeSet};

use crate::case::{listed, Case};
use crate::cases::UNFIT;
use crate::*;

/// The numbers that an operation answers in these lines.
fn answers(text: &str, name: &str) -> BTreeSet<u32> {
    let lines = text.lines().map(|line| line.split(' ').collect::<Vec<_>>());
    lines
        .filter(|words| words[0] == name)
        .map(|words| words[1].parse().expect("a number"))
        .collect()
}

/// The numbers that each operation answers: six on plates, three on records that both
/// forms share, then two conversions, two on files, writing a file, a plate from a seed.
const NUMBERS: [(&str, &[u32]); 15] = [
    ("clean", &[0, 1, 2, 3, 4, 5, 6, 26, 28, 29]),
    ("maxima", &[0, 1, 2, 3, 5, 6, 28, 29]),
    ("nodes", &[0, 1, 2, 3, 5, 6, 28, 29]),
    ("entries", &[0, 1, 2, 3, 5, 6, 28, 29]),
    ("write", &[0, 1, 2, 3, 5, 6, 28, 29]),
    ("joint", &[0, 1, 2, 3, 4, 5, 6, 28, 29]),
    ("read", &[0, 5, 6, 20, 21, 22, 23, 24]),
    ("cut", &[0, 4, 5, 6, 20, 21, 22, 23, 24]),
    ("sizes", &[0, 5, 6, 20, 21, 22, 23, 24]),
    ("old", &[0, 5, 6, 20, 21, 22, 23, 24, 30]),
    ("new", &[0, 5, 6, 20, 21, 22, 23, 24]),
    ("file", &[0, 2, 5, 10, 11, 12, 14, 15, 28]),
    ("header", &[0, 10, 11]),
    ("pgm", &[0, 2, 3, 5, 28, 29]),
    ("seeded", &[0, 2, 5]),
];

#[test]
fn every_refusal_occurs() {
    let text = vectors_text(&cases_text());
    for (name, numbers) in NUMBERS {
        let expected = numbers.iter().copied().collect();
        assert_eq!(answers(&text, name), expected, "{name}");
    }
}

/// The numbers that an operation answers in the cases that are chosen.
fn chosen_answers(cases: &str, name: &str, chosen: impl Fn(&Case) -> bool) -> BTreeSet<u32> {
    let lines = cases
        .lines()
        .filter(|line| line.split(' ').next() == Some(name));
    let chosen: Vec<&str> = lines.filter(|line| chosen(&Case::of(line))).collect();
    answers(&vectors_text(&chosen.join("\n")), name)
}

/// Is the case on a plate, or on a record of a plate, of connectivity 6?
fn has_six(case: &Case) -> bool {
    match case.name {
        "read" | "cut" | "sizes" => matches!(case.bytes()[..], [0..=127, 0..=127, 6, ..]),
        _ => case.number("connectivity") == 6,
    }
}

#[test]
fn every_refusal_but_1_occurs_with_connectivity_6() {
    let cases = cases_text();
    for (name, numbers) in &NUMBERS[..9] {
        let mut expected: BTreeSet<u32> = numbers.iter().copied().collect();
        expected.remove(&1);
        assert_eq!(chosen_answers(&cases, name, has_six), expected, "{name}");
    }
}

/// Is the case on a record of the new form, and past its first two fields?
fn is_of_new_form(case: &Case) -> bool {
    case.bytes().starts_with(&[0, 2])
}

#[test]
fn every_refusal_of_a_record_occurs_with_either_form() {
    let cases = cases_text();
    for (name, numbers) in &NUMBERS[6..11] {
        let mut expected: BTreeSet<u32> = numbers.iter().copied().collect();
        let met = chosen_answers(&cases, name, is_of_new_form);
        assert_eq!(met, expected, "{name}");
        // a record of the old form has another greatest grey in no case
        expected.remove(&30);
        let met = chosen_answers(&cases, name, |case| !case.bytes().starts_with(&[0]));
        assert_eq!(met, expected, "{name}");
    }
}

#[test]
fn each_greatest_grey_at_which_something_changes_is_there() {
    let cases = cases_text();
    for (name, _) in &NUMBERS[..6] {
        for greatest in [1, 2, 254, 255, 256, 65_535] {
            let met = chosen_answers(&cases, name, |case| case.number("greatest") == greatest);
            assert!(met.contains(&0), "{name} {greatest}");
        }
        for greatest in [0, 65_536, u32::MAX] {
            let met = chosen_answers(&cases, name, |case| case.number("greatest") == greatest);
            assert!(met.contains(&29), "{name} {greatest}");
            assert!(!met.contains(&0), "{name} {greatest}");
        }
    }
}

#[test]
fn a_number_that_is_no_connectivity_is_refused_by_1() {
    let cases = cases_text();
    for (name, _) in &NUMBERS[..6] {
        for unfit in UNFIT {
            let met = chosen_answers(&cases, name, |case| {
                let side_fits = *name != "clean" || SIDES.contains(&case.number("side"));
                side_fits && case.number("connectivity") == unfit
            });
            assert_eq!(met, BTreeSet::from([1]), "{name} {unfit}");
        }
    }
}

#[test]
fn every_refusal_of_cleaning_occurs_on_both_sides() {
    let cases = cases_text();
    let all = [0, 1, 2, 3, 4, 5, 6, 28, 29];
    let sides = SIDES.map(|side| (side, BTreeSet::from(all)));
    let neither = [0, 3, u32::MAX].map(|side| (side, BTreeSet::from([26])));
    for (side, numbers) in sides.into_iter().chain(neither) {
        let met = chosen_answers(&cases, "clean", |case| case.number("side") == side);
        assert_eq!(met, numbers);
    }
}

#[test]
fn a_line_spells_its_case() {
    for line in cases_text().lines() {
        assert_eq!(Case::of(line).line(), format!("{line}\n"));
    }
    let case = Case::of("clean width 7 greys 1*3 65535 marker 2 2*2");
    assert_eq!((case.number("width"), case.number("height")), (7, 0));
    assert_eq!(case.greys(), [1, 1, 1, 65_535]);
    assert_eq!(case.list("marker"), [2; 3]);
    assert_eq!(case.list("wid"), []);
}

/// The program vectors has so many places for a field, at most.
fn most_places(case: &Case, field: &str) -> u32 {
    match (case.name, field) {
        (_, "work") => 543_000,
        ("joint", "record" | "out") => 1_000,
        ("joint" | "nodes" | "file", _) => 200,
        _ => 69_000,
    }
}

#[test]
fn the_program_holds_every_case() {
    assert!(cases_text().len() <= 1_310_720);
    let buffers = ["work", "out", "record", "counts", "losses"];
    let columns = ["levels", "parents", "areas", "anchors"];
    for line in cases_text().lines() {
        let case = Case::of(line);
        let longest = case.bytes().len().max(case.greys().len());
        assert!(longest <= 69_000, "{line}");
        for buffer in buffers.into_iter().chain(columns) {
            let places = case.number(buffer);
            assert!(places <= most_places(&case, buffer), "{line}");
        }
    }
}

/// A case with its line.
fn holds(case: &str, line: &str) {
    assert_eq!(vectors_text(&format!("{case}\n")), format!("{line}\n"));
    assert!(cases_text().lines().any(|other| other == case), "{case}");
}

const SMALL_GREYS: &str = "greys 10*5 50 30 10*4 90";
const SMALL_FIELDS: &str = "4 3 4*2 10 12 1 20 2 1 20 1 3 80 1 0*5 2 1 0*4 3";

#[test]
fn the_specifications_examples() {
    let plate = "width 4 height 3 greatest 255 connectivity 4 work 98";
    for limit in [0, 13] {
        let case = format!("clean side 1 {plate} limit {limit} out 13 {SMALL_GREYS}");
        holds(&case, "clean 4 | 43690*13 | 7*98");
    }
    holds(
        "clean side 1 width 1 height 1 greatest 255 connectivity 4 work 10 limit 1 out 2 greys 7",
        "clean 0 | 7 43690 | 0*8 7*2",
    );
    holds(
        &format!("write {plate} out 31 {SMALL_GREYS}"),
        &format!("write 0 31 | 0 2 255 1 {SMALL_FIELDS} | 0*96 7*2"),
    );
    holds(
        &format!("pgm width 4 height 3 greatest 255 out 24 {SMALL_GREYS}"),
        "pgm 0 23 | 80 53 10 52 32 51 10 50 53*2 10*6 50 30 10*4 90 170",
    );
    // the first byte 132, followed by 0
    holds(
        &format!("read work 97 out 12 bytes 132 0{}", &SMALL_FIELDS[1..]),
        "read 21 0 0 0 0 | 43690*12 | 7*97",
    );
}

#[test]
fn a_plate_on_the_light_side_and_its_negative_on_the_dark_side() {
    let fields = "width 4 height 3 greatest 255 connectivity 4 work 98 limit 3 out 13";
    holds(
        &format!("clean side 1 {fields} greys 0*2 9*2 0 9*2 0 9 0*2 9"),
        "clean 0 | 0*2 9*2 0 9*2 0 9 0*2 9 43690 | 0*96 7*2",
    );
    holds(
        &format!("clean side 2 {fields} greys 255*2 246*2 255 246*2 255 246 255*2 246"),
        "clean 0 | 255*2 246*2 255 246*2 255 246 255*2 246 43690 | 0*96 7*2",
    );
}

#[test]
fn the_plate_of_seed_0_and_its_file() {
    for size in ["width 4 height 1", "width 2 height 2", "width 1 height 4"] {
        let case = format!("seeded seed 0 {size} out 4");
        holds(&case, "seeded 0 | 60 71 209 170");
    }
    let greys = "60 71 209 170";
    let file = format!("80 53 10 50 32 50 10 50 53*2 10 {greys}");
    holds(
        &format!("pgm width 2 height 2 greatest 255 out 15 greys {greys}"),
        &format!("pgm 0 15 | {file}"),
    );
    holds(
        &format!("file out 4 bytes {file}"),
        &format!("file 0 2 2 255 | {greys}"),
    );
}

#[test]
fn plates_from_a_seed_that_are_refused() {
    for size in ["width 0 height 3", "width 65536 height 65536"] {
        let case = format!("seeded seed 5 {size} out 12");
        holds(&case, "seeded 2 | 43690*12");
        let case = format!("seeded seed 5 {size} out 0");
        holds(&case, "seeded 2 |");
    }
    for (case, places) in [
        ("seeded seed 4294967295 width 4 height 3 out", 11),
        ("seeded seed 6 width 4096 height 4096 out", 3),
    ] {
        let line = format!("seeded 5 | 43690*{places}");
        holds(&format!("{case} {places}"), &line);
    }
}

#[test]
fn three_kinds_of_touch_and_a_number_that_is_none() {
    let begun = "clean side 1 width 4 height 3 greatest 255 connectivity";
    let fields = "work 98 limit 2 out 13 greys 0 7 0*4 9 0*2 8 0*2";
    for (connectivity, plate) in [
        (4, "0 7 0*7 8 0*2"),
        (6, "0 7 0*4 7 0*2 8 0*2"),
        (8, "0 7 0*4 8 0*2 8 0*2"),
    ] {
        let line = format!("clean 0 | {plate} 43690 | 0*96 7*2");
        holds(&format!("{begun} {connectivity} {fields}"), &line);
    }
    let later = "work 95 limit 0 out 3 greys 10*5 50 30 10*4";
    for unfit in [5, 7] {
        let shape = format!("width 4 height 0 greatest 255 connectivity {unfit} {later}");
        holds(&format!("clean side 1 {shape}"), "clean 1 | 43690*3 | 7*95");
        holds(
            &format!("clean side 3 {shape}"),
            "clean 26 | 43690*3 | 7*95",
        );
    }
}

#[test]
fn the_small_plate_as_entries_and_jointly() {
    let plate = "width 4 height 3 greatest 255 connectivity 4 work 98";
    holds(
        &format!("entries {plate} at 3 {SMALL_GREYS}"),
        "entries 0 4 | 10 0 12 0 | 30 0 2 6 | 50 1*2 5 | 90 0 1 11 | 9*4 | 9*4 | 90 0 1 11 | 0*96 7*2",
    );
    holds(
        &format!("joint {plate} limit 2 out 13 record 34 counts 12 losses 13 {SMALL_GREYS}"),
        &format!(
            "joint 0 31 4 10 80 | 0 2 255 1 {SMALL_FIELDS} 170*3 | 10*5 30*2 10*4 90 43690 | \
             1*2 0*9 9 | 20 40 0*9 9*2 | 0*96 7*2"
        ),
    );
}

/// The greys of the small plate, one higher, in a border of a grey: five rows of six.
fn framed_greys(grey: u8) -> String {
    let g = grey;
    format!("{g}*7 11*4 {g}*2 11 51 31 11 {g}*2 11*3 91 {g}*7")
}

#[test]
fn the_small_plate_in_a_darker_border() {
    let fields = "greatest 255 connectivity 4 work 242 limit 2 out 31 greys";
    holds(
        &format!(
            "clean side 1 width 6 height 5 {fields} {}",
            framed_greys(10)
        ),
        "clean 0 | 10*7 11*4 10*2 11 31*2 11 10*2 11*4 10*7 43690 | 0*240 7*2",
    );
    // the whole small plate is a node of area 12 and rise 1 off the trim edge
    let nodes = "10 30 1*2 12 1 20 2 1 20 1 3 80 1";
    let own = "0*7 1*4 0*2 1 3 2 1 0*2 1*3 4 0*7";
    holds(
        &format!("sizes work 240 counts 29 losses 29 bytes 6 5 4 5 {nodes} {own}"),
        "sizes 0 6 5 255 4 5 10 0 | 2 1 0*9 1 0*17 | 100 40 0*9 12 0*17 | 0*240",
    );
}

#[test]
fn the_small_plate_in_a_lighter_border() {
    // at 91 the border has pixel 11, so 19 pixels rise by 80 and 18 by 1
    let text = "size 6 5 4 5\n1 1 20\n2 1 40\nheld 1538\nrest 11 96\n";
    assert_eq!(20 + 40 + 1_538 + 30 * 11, 260 + 12 + 18 * 92);
    let file = format!("80 53 10 54 32 53 10 50 53*2 10 {}", framed_greys(92));
    let bytes = listed(text.bytes());
    holds(
        &format!("text bytes {file}"),
        &format!("text {} |{bytes}", text.len()),
    );
}

/// The different plates that cleaning on a side, with a connectivity, makes of one
/// plate at the limits among the cases: the most for any plate.
fn most_different(cases: &str, side: u32, connectivity: u32) -> usize {
    let mut made: BTreeMap<_, BTreeSet<String>> = BTreeMap::new();
    for line in cases.lines().filter(|line| line.starts_with("clean ")) {
        let case = Case::of(line);
        let of = (case.number("side"), case.number("connectivity"));
        if of != (side, connectivity) {
            continue;
        }
        let answer = vectors_text(line);
        if answer.starts_with("clean 0 ") {
            let plate = (case.number("width"), case.greys());
            made.entry(plate).or_default().insert(answer);
        }
    }
    made.values().map(BTreeSet::len).max().unwrap_or(0)
}

#[test]
fn the_limits_decide_on_each_side_with_each_connectivity() {
    let cases = cases_text();
    let small = |line: &&str| Case::of(line).greys().len() <= 81;
    let cases: Vec<&str> = cases.lines().filter(small).collect();
    for side in SIDES {
        for connectivity in CONNECTIVITIES {
            assert!(most_different(&cases.join("\n"), side, connectivity) >= 4);
        }
    }
}

#[test]
fn the_second_of_two_images() {
    let images = "80 53 10 51 32 50 10 50 53*2 10 128*6 80 53 10 49 32 49 10 50 53*2 10 64";
    holds(
        &format!("header at 17 bytes {images}"),
        "header 0 1 1 255 28",
    );
    holds(&format!("header at 16 bytes {images}"), "header 10 0 0 0 0");
    holds(
        &format!("file out 13 bytes {images}"),
        "file 15 0 0 0 | 43690*13",
    );
}
