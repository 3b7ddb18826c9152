//! C programs over `include/livukoe.h`: compiled by `cc`, linked with the static library, run, and, where valgrind is
//! installed, run once more under it.

#[path = "c/compile.rs"]
mod compile;

use std::collections::BTreeMap;
use std::process::Command;

use compile::{assert_passed, compiled, compiler, declared, printed, HERE};
use livukoe::Refusal;

#[test]
fn every_function() {
    let printed = printed(&mut Command::new(compiled("tests/c/check.c", "check")));
    assert_eq!(printed, "");
}

#[test]
fn the_example() {
    let printed = printed(&mut Command::new(compiled("examples/clean.c", "clean")));
    assert_eq!(printed, "pixel 5: 30\n");
}

/// No access beyond a buffer, no use of what was never written, nothing left after.
#[test]
fn under_valgrind() {
    let program = compiled("tests/c/check.c", "check_memory");
    let run = Command::new("valgrind")
        .args(["--quiet", "--error-exitcode=9", "--leak-check=full"])
        .arg(program)
        .output();
    match run {
        Ok(output) => assert_passed(&output),
        Err(_) => eprintln!("valgrind is not installed: memory is not checked"),
    }
}

/// Every function runs on a stack of 64 KB, and in what the header says that it needs.
#[test]
fn stack() {
    let printed = printed(&mut Command::new(compiled("tests/c/stack.c", "stack")));
    let used = numbers_by_name(printed.lines());
    let header = include_str!("../../include/livukoe.h");
    let table = header
        .lines()
        .filter_map(|line| line.strip_prefix(" *     "));
    let stated = numbers_by_name(table);
    assert_eq!(used.len(), declared().len());
    for name in declared() {
        let (used, stated) = (used[name], stated[name]);
        assert!(used <= stated, "{name} used {used} bytes of {stated}");
        assert!(stated <= 16_384, "{name} is stated to need {stated}");
    }
}

/// The numbers of lines that have a name and a number.
fn numbers_by_name<'a>(lines: impl Iterator<Item = &'a str>) -> BTreeMap<&'a str, usize> {
    let parts = lines.map(|line| {
        let (name, number) = line.split_once(' ').expect("two words");
        (
            name,
            number
                .trim_end_matches("*/")
                .trim()
                .parse()
                .expect("a whole number"),
        )
    });
    parts.collect()
}

/// The texts of the refusals are those of this crate.
#[test]
fn refusals_in_words() {
    let texts = printed(&mut Command::new(compiled(
        "tests/c/refusals.c",
        "refusals",
    )));
    let refusals = [
        Refusal::Connectivity,
        Refusal::Grid,
        Refusal::PlateLength,
        Refusal::Limit,
        Refusal::OutputShort,
        Refusal::WorkShort,
        Refusal::Letters,
        Refusal::Header,
        Refusal::FileGreatest,
        Refusal::RasterShort,
        Refusal::RasterLong,
        Refusal::FieldUnended,
        Refusal::FieldForm,
        Refusal::FieldRange,
        Refusal::RecordLong,
        Refusal::NotCanonical,
        Refusal::PlateNumber,
        Refusal::Side,
        Refusal::Grey,
        Refusal::Greatest,
        Refusal::NoOldForm,
    ];
    let wanted = |number| match refusals.iter().find(|refusal| refusal.number() == number) {
        Some(refusal) => refusal.to_string(),
        None if number == 0 => "refused 0: not refused".into(),
        None => format!("refused {number}: no refusal has this number"),
    };
    let wanted: Vec<String> = (0..40).map(wanted).collect();
    assert_eq!(texts.lines().collect::<Vec<_>>(), wanted);
}

/// The header is C++ as well.
#[test]
fn from_cxx() {
    let made = compiler("c++")
        .args(["-std=c++11", "-fsyntax-only", "-x", "c++"])
        .arg(format!("{HERE}/../include/livukoe.h"))
        .output();
    match made {
        Ok(output) => assert_passed(&output),
        Err(_) => eprintln!("c++ is not installed: the header is not compiled by it"),
    }
}

/// The README shows the examples as they stand.
#[test]
fn the_readme() {
    let readme = include_str!("../../README.md");
    assert!(readme.contains(include_str!("../examples/clean.c")));
    assert!(readme.contains(include_str!("../examples/clean.rs")));
}
