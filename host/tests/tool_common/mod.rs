//! What the tests of the command-line tool share: directories, runs, and what is expected of a run.

#![allow(dead_code)] // each test uses a part of it

use std::fs;
use std::io::Write;
use std::path::{Path, PathBuf};
use std::process::{Command, Output, Stdio};

/// The small plate.
pub const SMALL: &[u8] = b"P5\n4 3\n255\n\x0a\x0a\x0a\x0a\x0a\x32\x1e\x0a\x0a\x0a\x0a\x5a";
/// Its record in the old form.
pub const OLD_RECORD: [u8; 27] = [
    4, 3, 4, 4, 10, 12, 1, 20, 2, 1, 20, 1, 3, 80, 1, 0, 0, 0, 0, 0, 2, 1, 0, 0, 0, 0, 3,
];
/// The same in the new form.
pub const SMALL_RECORD: [u8; 31] = [
    0, 2, 255, 1, 4, 3, 4, 4, 10, 12, 1, 20, 2, 1, 20, 1, 3, 80, 1, 0, 0, 0, 0, 0, 2, 1, 0, 0, 0,
    0, 3,
];
/// The record of one pixel whose greatest grey is 100.
pub const FINER_RECORD: [u8; 10] = [0, 2, 100, 1, 1, 4, 1, 7, 1, 0];

/// A directory of a test's own, removed at its end.
pub struct Folder(PathBuf);

impl Folder {
    pub fn new(test: &str) -> Folder {
        let path = std::env::temp_dir().join(format!("livukoe-{test}-{}", std::process::id()));
        fs::create_dir_all(&path).expect("a directory");
        Folder(path)
    }

    pub fn path(&self, name: &str) -> PathBuf {
        self.0.join(name)
    }

    /// Writes a file and gives its path.
    pub fn file(&self, name: &str, bytes: &[u8]) -> PathBuf {
        fs::write(self.path(name), bytes).expect("a file");
        self.path(name)
    }

    pub fn names(&self) -> Vec<String> {
        let entries = fs::read_dir(&self.0).expect("the directory");
        let names = entries.map(|entry| entry.expect("an entry").file_name());
        let mut names: Vec<String> = names.map(|name| name.to_string_lossy().into()).collect();
        names.sort();
        names
    }
}

impl Drop for Folder {
    fn drop(&mut self) {
        let _ = fs::remove_dir_all(&self.0);
    }
}

pub fn tool() -> Command {
    Command::new(env!("CARGO_BIN_EXE_livukoe"))
}

/// The tool started by a line of the shell, in which `"$@"` is the tool with its words.
pub fn by_shell(line: &str, words: &[&str]) -> Command {
    let mut shell = Command::new("sh");
    shell.args(["-c", line, "sh", env!("CARGO_BIN_EXE_livukoe")]);
    shell.args(words);
    shell
}

/// Runs the tool with words and files.
pub fn run(words: &[&str], files: &[&Path]) -> Output {
    tool().args(words).args(files).output().expect("a run")
}

/// Runs the tool on standard input.
pub fn run_on(words: &[&str], input: &[u8]) -> Output {
    run_fed(tool().args(words), input)
}

/// Runs the tool with the words of a line, on standard input.
pub fn run_line(line: &str, input: &[u8]) -> Output {
    let words: Vec<&str> = line.split(' ').collect();
    run_on(&words, input)
}

/// What the tool prints with the words of a line, on standard input.
pub fn answer(line: &str, input: &[u8]) -> Vec<u8> {
    let output = run_line(line, input);
    assert_ok(&output);
    output.stdout
}

/// Runs a command on standard input.
pub fn run_fed(command: &mut Command, input: &[u8]) -> Output {
    let mut child = command
        .stdin(Stdio::piped())
        .stdout(Stdio::piped())
        .stderr(Stdio::piped())
        .spawn()
        .expect("a run");
    let mut stdin = child.stdin.take().expect("its input");
    let _ = stdin.write_all(input); // it may end without reading all
    drop(stdin);
    child.wait_with_output().expect("its output")
}

pub fn assert_ok(output: &Output) {
    assert_eq!(text(&output.stderr), "");
    assert_eq!(output.status.code(), Some(0));
}

/// A run that says one line and ends with a status.
pub fn assert_says(output: &Output, status: i32, line: &str) {
    assert_eq!(text(&output.stderr), format!("livukoe: {line}\n"));
    assert_eq!(text(&output.stdout), "");
    assert_eq!(output.status.code(), Some(status));
}

/// A run that says one line with these words in it and ends with a status.
pub fn assert_says_of(output: &Output, status: i32, words: &str) {
    let message = text(&output.stderr);
    assert!(message.starts_with("livukoe: "), "{message}");
    assert!(message.contains(words), "{message} lacks {words}");
    assert_eq!(message.lines().count(), 1, "{message}");
    assert_eq!(text(&output.stdout), "");
    assert_eq!(output.status.code(), Some(status), "{message}");
}

/// A command on standard input is refused in these words.
pub fn assert_tells(command: &str, input: &[u8], wanted: &str) {
    let output = run_line(&format!("{command} - -"), input);
    let line = format!("standard input: refused {wanted}");
    assert_says(&output, 1, &line);
}

pub fn assert_refused(output: &Output, number: u32) {
    assert_says_of(output, 1, &format!(": refused {number}: "));
}

pub fn text(bytes: &[u8]) -> String {
    String::from_utf8_lossy(bytes).into_owned()
}

/// The plate file of 4 x 3 greys.
pub fn small_file(greys: [u8; 12]) -> Vec<u8> {
    [b"P5\n4 3\n255\n", &greys[..]].concat()
}
