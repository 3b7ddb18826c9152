//! Compiles C programs of this crate and runs them.

#![allow(dead_code)] // each test uses a part of it

use std::path::{Path, PathBuf};
use std::process::{Command, Output};

/// The crate's folder; the repository is above it.
pub const HERE: &str = env!("CARGO_MANIFEST_DIR");

/// A compiler's command with every warning an error.
pub fn compiler(name: &str) -> Command {
    let mut command = Command::new(name);
    command.args(["-O1", "-g", "-Wall", "-Wextra", "-Werror", "-pedantic"]);
    command
}

/// Compiles a C program with words that say where the header and the library are, and gives the path of what was made.
pub fn compiled_with(source: &str, name: &str, words: &[String]) -> PathBuf {
    let program = Path::new(env!("CARGO_TARGET_TMPDIR")).join(name);
    let made = compiler("cc")
        .args(["-std=c11", "-pthread", "-o"])
        .arg(&program)
        .arg(Path::new(HERE).join(source))
        .args(words)
        .output()
        .expect("the C compiler, cc, runs");
    assert_passed(&made);
    program
}

/// Compiles a C program with the header and the archive of the repository.
pub fn compiled(source: &str, name: &str) -> PathBuf {
    let words = [
        format!("-I{HERE}/../include"),
        format!("{}/liblivukoe.a", env!("LIVUKOE_LIB_DIR")),
    ];
    compiled_with(source, name, &words)
}

pub fn assert_passed(output: &Output) {
    let said = |text| String::from_utf8_lossy(text).into_owned();
    let (printed, errors) = (said(&output.stdout), said(&output.stderr));
    assert!(
        output.status.success(),
        "{}: {printed}{errors}",
        output.status
    );
}

/// What a program prints, where it succeeds.
pub fn printed(command: &mut Command) -> String {
    let output = command.output().expect("the program runs");
    assert_passed(&output);
    String::from_utf8(output.stdout).expect("text")
}

/// The functions that the header declares, in its order.
pub fn declared() -> Vec<&'static str> {
    let header = include_str!("../../../include/livukoe.h");
    let starts = header
        .lines()
        .filter(|line| line.starts_with("uint") || line.starts_with("struct "));
    let names = starts
        .filter_map(|line| line.split_once('('))
        .filter_map(|(ahead, _)| ahead.rsplit(' ').next());
    names.collect()
}
