//! What the command-line tool leaves in the file system.

mod tool_common;

use std::ffi::c_int;
use std::fs::{self, File, Permissions};
use std::io::{Read, Seek, SeekFrom};
use std::os::unix::fs::{chown, symlink, MetadataExt, PermissionsExt};
use std::os::unix::process::{CommandExt, ExitStatusExt};
use std::path::{Path, PathBuf};
use std::process::{Child, Command, ExitStatus, Stdio};
use std::thread;
use std::time::Duration;

use tool_common::*;

/// What `clean --side light --limit 2` makes of the small plate.
const CLEANED: [u8; 12] = [10, 10, 10, 10, 10, 30, 30, 10, 10, 10, 10, 90];
const CLEAN: [&str; 5] = ["clean", "--side", "light", "--limit", "2"];
const CONVERT_TO_OLD: [&str; 3] = ["convert", "--to", "old"];
/// Nobody's number as a user and as a group.
const NOBODY: u32 = 65_534;

/// C functions in place of the system's, which tell on standard error which of the calls that matter for a power cut are
/// made, in order. With SLOW in the environment there is time for an interrupt.
const TELLING: &str = r#"
#define _GNU_SOURCE
#include <dlfcn.h>
#include <stdio.h>
#include <stdlib.h>
#include <sys/stat.h>
#include <unistd.h>

int fsync(int descriptor)
{
    struct stat about;
    fstat(descriptor, &about);
    dprintf(2, S_ISDIR(about.st_mode) ? "sync directory\n" : "sync file\n");
    if (getenv("SLOW"))
        sleep(1);
    return ((int (*)(int))dlsym(RTLD_NEXT, "fsync"))(descriptor);
}

int rename(const char *from, const char *to)
{
    dprintf(2, "rename\n");
    return ((int (*)(const char *, const char *))dlsym(RTLD_NEXT, "rename"))(from, to);
}
"#;

/// A directory with the small plate in it, and what may be said of an output there.
struct Case {
    folder: Folder,
    input: PathBuf,
}

impl Case {
    fn new(test: &str) -> Case {
        let folder = Folder::new(test);
        let input = folder.file("in.pgm", SMALL);
        Case { folder, input }
    }

    /// A file that is there already, with these permissions.
    fn old(&self, name: &str, mode: u32) -> PathBuf {
        let path = self.folder.file(name, b"as it was");
        set_mode(&path, mode);
        path
    }

    /// The tool that cleans the plate into a file.
    fn clean(&self, output: &Path) -> Command {
        let mut tool = tool();
        tool.args(CLEAN).arg(&self.input).arg(output);
        tool
    }

    /// The same by a line of the shell, in which `"$@"` is the tool with its words.
    fn clean_by_shell(&self, line: &str, output: &Path) -> Command {
        let files = [&self.input, output].map(|path| path.to_str().expect("a name"));
        by_shell(line, &[&CLEAN[..], &files].concat())
    }

    /// The C functions of `TELLING` as a library to be loaded ahead of others.
    fn telling(&self) -> PathBuf {
        let source = self.folder.file("telling.c", TELLING.as_bytes());
        let library = self.folder.path("telling.so");
        let mut compiler = Command::new("cc");
        compiler.args(["-shared", "-fPIC", "-o"]);
        compiler.args([&library, &source]).arg("-ldl");
        assert!(compiler.status().expect("cc").success());
        library
    }

    fn assert_cleaned(&self, output: &Path) {
        assert_ok(&self.clean(output).output().expect("a run"));
        assert_eq!(fs::read(output).expect("OUT"), small_file(CLEANED));
    }

    /// Is not done, and nothing is changed by it.
    fn assert_left(&self, output: &Path, words: &str) {
        let before = self.folder.names();
        assert_says_of(&self.clean(output).output().expect("a run"), 3, words);
        assert_eq!(self.folder.names(), before);
    }
}

fn set_mode(path: &Path, mode: u32) {
    fs::set_permissions(path, Permissions::from_mode(mode)).expect("permissions");
}

fn about(path: &Path) -> fs::Metadata {
    fs::symlink_metadata(path).expect("a file")
}

fn is_root() -> bool {
    fs::metadata("/proc/self").expect("this process").uid() == 0
}

/// Has a command run as a user whom permissions bind, to whom a directory is given.
fn as_user<'a>(command: &'a mut Command, folder: &Path) -> &'a mut Command {
    if !is_root() {
        return command;
    }
    chown(folder, Some(NOBODY), Some(NOBODY)).expect("another owner");
    command.uid(NOBODY).gid(NOBODY)
}

#[test]
fn files() {
    let folder = Folder::new("files");
    let (input, output) = (folder.file("in.pgm", SMALL), folder.path("out.pgm"));
    assert_ok(&run(&CLEAN, &[&input, &output]));
    assert_eq!(fs::read(&output).expect("OUT").len(), SMALL.len());
    assert_eq!(folder.names(), ["in.pgm", "out.pgm"]);
    // IN and OUT may be one file
    assert_ok(&run(&CLEAN, &[&input, &input]));
    assert_eq!(
        fs::read(&input).expect("IN"),
        fs::read(&output).expect("OUT")
    );
}

#[test]
fn a_refusal_leaves_the_output() {
    let folder = Folder::new("refusal");
    let (input, output) = (
        folder.file("in.pgm", SMALL),
        folder.file("out.pgm", b"as it was"),
    );
    for (limit, number) in [("0", 4), ("13", 4), ("99999999999999999999", 4)] {
        let words = ["clean", "--side", "light", "--limit", limit];
        assert_refused(&run(&words, &[&input, &output]), number);
    }
    let damaged = folder.file("damaged.rec", &SMALL_RECORD[..26]);
    assert_refused(&run(&["plate"], &[&damaged, &output]), 20);
    assert_refused(&run(&CONVERT_TO_OLD, &[&damaged, &output]), 20);
    let finer = folder.file("finer.rec", &FINER_RECORD);
    assert_refused(&run(&CONVERT_TO_OLD, &[&finer, &output]), 30);
    assert_refused(&run(&CONVERT_TO_OLD, &[&finer, &finer]), 30);
    assert_eq!(fs::read(&finer).expect("IN"), FINER_RECORD);
    assert_eq!(fs::read(&output).expect("OUT"), b"as it was");
    assert_eq!(
        folder.names(),
        ["damaged.rec", "finer.rec", "in.pgm", "out.pgm"]
    );
}

/// A record is converted into a new file, and into itself.
#[test]
fn converted_files() {
    let folder = Folder::new("converted");
    let (input, output) = (folder.file("in.rec", &SMALL_RECORD), folder.path("out.rec"));
    assert_ok(&run(&CONVERT_TO_OLD, &[&input, &output]));
    assert_eq!(fs::read(&output).expect("OUT"), OLD_RECORD);
    assert_eq!(fs::read(&input).expect("IN"), SMALL_RECORD);
    for (form, wanted) in [("new", &SMALL_RECORD[..]), ("old", &OLD_RECORD)] {
        assert_ok(&run(&["convert", "--to", form], &[&output, &output]));
        assert_eq!(fs::read(&output).expect("OUT"), wanted);
    }
    assert_eq!(folder.names(), ["in.rec", "out.rec"]);
}

#[test]
fn devices_are_written_and_not_replaced() {
    let folder = Folder::new("devices");
    let input = folder.file("in.pgm", SMALL);
    assert_ok(&run(&CLEAN, &[&input, Path::new("/dev/null")]));
    let about = fs::metadata("/dev/null").expect("the device");
    assert!(!about.is_file());
}

#[test]
fn files_that_cannot_be_used() {
    let folder = Folder::new("unusable");
    let input = folder.file("in.pgm", SMALL);
    let missing = folder.path("missing.pgm");
    let output = folder.path("no/such/folder/out.pgm");
    for files in [[&missing, &missing], [&input, &output]] {
        let output = run(&CLEAN, &files.map(PathBuf::as_path));
        assert_eq!(output.status.code(), Some(3));
        assert!(text(&output.stderr).starts_with("livukoe: cannot "));
    }
    assert_eq!(folder.names(), ["in.pgm"]);
}

/// A link to a file stays, and the file is replaced.
#[test]
fn a_link_to_a_file() {
    let case = Case::new("link");
    let file = case.old("out.pgm", 0o640);
    let (near, far) = (case.folder.path("near"), case.folder.path("far"));
    symlink("out.pgm", &near).expect("a link");
    symlink(&near, &far).expect("a link");
    case.assert_cleaned(&far);
    assert!(about(&near).is_symlink() && about(&far).is_symlink());
    assert_eq!(fs::read(&file).expect("OUT"), small_file(CLEANED));
    assert_eq!(case.folder.names(), ["far", "in.pgm", "near", "out.pgm"]);
}

/// A link that leads nowhere is neither replaced nor followed.
#[test]
fn a_link_to_nothing() {
    let case = Case::new("nothing");
    let link = |name: &str, to: &str| {
        symlink(to, case.folder.path(name)).expect("a link");
        case.folder.path(name)
    };
    let dangling = link("dangling", "missing.pgm");
    case.assert_left(&dangling, "it is a symbolic link to nothing");
    let itself = link("loop", "loop");
    case.assert_left(&itself, "it is a loop of symbolic links");
    let folder = link("folder", ".");
    case.assert_left(&folder, "Is a directory");
}

/// A link to what standard output is: the output goes there, even where no name leads to it any more, and is put where
/// standard output is.
#[test]
fn a_link_to_standard_output() {
    let case = Case::new("stdout");
    let link = case.folder.path("link");
    symlink("/proc/self/fd/1", &link).expect("a link");
    for (name, remove) in [("deleted.pgm", true), ("kept.pgm", false)] {
        let path = case.folder.file(name, b"ahead;");
        let mut options = File::options();
        let mut file = options.read(true).append(true).open(&path).expect("a file");
        if remove {
            fs::remove_file(&path).expect("removed");
        }
        let run = case
            .clean(&link)
            .stdout(file.try_clone().expect("it"))
            .output();
        assert_ok(&run.expect("a run"));
        let mut content = Vec::new();
        file.seek(SeekFrom::Start(0)).expect("its start");
        file.read_to_end(&mut content).expect("its content");
        assert_eq!(content, [b"ahead;", &small_file(CLEANED)[..]].concat());
        assert!(about(&link).is_symlink());
    }
    assert_eq!(case.folder.names(), ["in.pgm", "kept.pgm", "link"]);
    let output = case.clean(&link).output().expect("a run"); // a pipe
    assert_ok(&output);
    assert_eq!(output.stdout, small_file(CLEANED));
}

/// The same of /dev/stdout, as a user who could not replace it.
#[test]
fn dev_stdout() {
    let case = Case::new("devstdout");
    let name = Path::new("/dev/stdout");
    if !name.exists() {
        return;
    }
    let path = case.folder.path("out.pgm");
    let file = File::create(&path).expect("a file");
    fs::remove_file(&path).expect("removed");
    let mut tool = case.clean(name);
    let run = as_user(&mut tool, &case.folder.path("")).stdout(file.try_clone().expect("it"));
    assert_ok(&run.output().expect("a run"));
    assert_eq!(
        about(&case.input).len(),
        file.metadata().expect("its size").len()
    );
}

/// A pipe under a name is written, and stays one.
#[test]
fn a_named_pipe() {
    let case = Case::new("fifo");
    let pipe = case.folder.path("pipe");
    let made = Command::new("mkfifo").arg(&pipe).status().expect("mkfifo");
    assert!(made.success());
    let reader = thread::spawn({
        let pipe = pipe.clone();
        move || fs::read(pipe).expect("what was written")
    });
    assert_ok(&case.clean(&pipe).output().expect("a run"));
    assert_eq!(reader.join().expect("a reader"), small_file(CLEANED));
    assert!(!about(&pipe).is_file());
}

/// A name may be as long as the file system has it.
#[test]
fn long_names() {
    let case = Case::new("longnames");
    for length in [244, 245, 254, 255] {
        let path = case.folder.path(&"n".repeat(length));
        case.assert_cleaned(&path);
        case.assert_cleaned(&path);
    }
    let path = case.folder.path(&"n".repeat(256));
    case.assert_left(&path, "File name too long");
}

/// Runs at one time, on one output, do not disturb each other.
#[test]
fn runs_at_one_time() {
    let case = Case::new("together");
    let output = case.folder.path("out.pgm");
    let spawn = |_| case.clean(&output).spawn().expect("a run");
    let runs: Vec<Child> = (0..16).map(spawn).collect();
    for mut run in runs {
        assert_eq!(run.wait().expect("its end").code(), Some(0));
    }
    assert_eq!(fs::read(&output).expect("OUT"), small_file(CLEANED));
    assert_eq!(case.folder.names(), ["in.pgm", "out.pgm"]);
}

extern "C" {
    fn kill(process: c_int, number: c_int) -> c_int;
    fn signal(number: c_int, action: usize) -> usize;
}

/// HUP, INT and TERM.
const INTERRUPTS: [c_int; 3] = [1, 2, 15];

/// The command with no interrupt ignored, however the tests were started.
fn interruptible(mut command: Command) -> Command {
    let by_default = || {
        for number in INTERRUPTS {
            // SAFETY: no memory is passed
            unsafe { signal(number, 0) };
        }
        Ok(())
    };
    // SAFETY: between fork and exec only `signal` is called, which may be
    unsafe { command.pre_exec(by_default) };
    command
}

/// Sends a signal to a run that synchronises slowly, once its temporary file is there, and gives its end.
fn interrupt(case: &Case, mut command: Command, number: c_int) -> ExitStatus {
    let slow = command.env("LD_PRELOAD", case.telling()).env("SLOW", "1");
    let mut run = slow.stderr(Stdio::null()).spawn().expect("a run");
    let begun = |names: Vec<String>| names.iter().any(|name| name.starts_with(".livukoe-"));
    while !begun(case.folder.names()) {
        assert_eq!(run.try_wait().expect("a run"), None, "it ended too soon");
        thread::sleep(Duration::from_millis(1));
    }
    // SAFETY: no memory is passed; the process is a child that was not waited for
    unsafe { kill(run.id() as c_int, number) };
    run.wait().expect("its end")
}

/// An interrupt takes the temporary file away, leaves the output and ends the run as interrupts do.
#[cfg(target_os = "linux")]
#[test]
fn interrupts() {
    let case = Case::new("interrupts");
    let output = case.old("out.pgm", 0o644);
    let names = ["in.pgm", "out.pgm", "telling.c", "telling.so"];
    for number in INTERRUPTS {
        let status = interrupt(&case, interruptible(case.clean(&output)), number);
        assert_eq!(status.signal(), Some(number));
        assert_eq!(fs::read(&output).expect("OUT"), b"as it was");
        assert_eq!(case.folder.names(), names);
    }
    // an interrupt that is ignored from the start, as `nohup` has it, is ignored
    let command = case.clean_by_shell("trap '' HUP; exec \"$@\"", &output);
    assert_eq!(interrupt(&case, command, 1).code(), Some(0));
    assert_eq!(fs::read(&output).expect("OUT"), small_file(CLEANED));
    assert_eq!(case.folder.names(), names);
}

/// A new output has the permissions that the process's mask leaves; an old one keeps its own, and its owner and group.
#[test]
fn owner_group_and_permissions() {
    let case = Case::new("owner");
    let new = case.folder.path("new.pgm");
    let run = case.clean_by_shell("umask 027; exec \"$@\"", &new).output();
    assert_ok(&run.expect("a run"));
    assert_eq!(about(&new).mode() & 0o7777, 0o640);
    for mode in [0o600, 0o664, 0o755] {
        let old = case.old("old.pgm", mode);
        if is_root() {
            chown(&old, Some(NOBODY), Some(NOBODY)).expect("another owner");
        }
        let before = about(&old);
        case.assert_cleaned(&old);
        let after = about(&old);
        assert_ne!(after.ino(), before.ino(), "a new file took its place");
        let kept = |about: &fs::Metadata| (about.mode(), about.uid(), about.gid());
        assert_eq!(kept(&after), kept(&before));
    }
}

/// A write-protected output is left, and replaced by force.
#[test]
fn a_write_protected_output() {
    let case = Case::new("protected");
    let output = case.old("out.pgm", 0o444);
    case.assert_left(
        &output,
        "out.pgm: it is write-protected; --force replaces it",
    );
    assert_eq!(fs::read(&output).expect("OUT"), b"as it was");
    let run = case.clean(&output).arg("--force").output();
    assert_ok(&run.expect("a run"));
    assert_eq!(fs::read(&output).expect("OUT"), small_file(CLEANED));
    assert_eq!(about(&output).mode() & 0o7777, 0o444);
    assert_eq!(case.folder.names(), ["in.pgm", "out.pgm"]);
}

/// All names of one file have the new content.
#[test]
fn hard_links() {
    let case = Case::new("hardlinks");
    let output = case.folder.file("out.pgm", &[7; 1000]);
    let other = case.folder.path("other.pgm");
    fs::hard_link(&output, &other).expect("another name");
    let before = about(&output);
    case.assert_cleaned(&output);
    assert_eq!(fs::read(&other).expect("OUT"), small_file(CLEANED));
    assert_eq!(about(&output).ino(), before.ino());
    assert_eq!(case.folder.names(), ["in.pgm", "other.pgm", "out.pgm"]);
}

/// Where the directory lets no new file in, or a new file could not have the owner of the old one, it is written in place.
#[test]
fn in_place() {
    let case = Case::new("inplace");
    let closed = case.folder.path("closed");
    fs::create_dir(&closed).expect("a directory");
    let output = case.old("closed/out.pgm", 0o666);
    let before = about(&output);
    let mut modes = vec![0o555];
    if is_root() {
        modes.push(0o755); // the file is root's, the directory the user's
    }
    for mode in modes {
        fs::write(&output, b"as it was").expect("OUT");
        set_mode(&closed, mode);
        let mut tool = case.clean(&output);
        let run = as_user(&mut tool, &closed).output();
        assert_ok(&run.expect("a run"));
        assert_eq!(fs::read(&output).expect("OUT"), small_file(CLEANED));
        let after = about(&output);
        assert_eq!((after.ino(), after.uid()), (before.ino(), before.uid()));
        let new = closed.join("new.pgm");
        let mut tool = case.clean(&new);
        let run = as_user(&mut tool, &closed).output().expect("a run");
        let status = if mode == 0o555 { 3 } else { 0 };
        assert_eq!(run.status.code(), Some(status), "{}", text(&run.stderr));
    }
    let names = fs::read_dir(&closed).expect("it").count();
    assert_eq!(names, if is_root() { 2 } else { 1 });
    set_mode(&closed, 0o755);
}

/// A file that a user may not write to is protected from that user.
#[test]
fn the_output_of_another() {
    let case = Case::new("another");
    if !is_root() {
        return; // there is no file of another user's to be made
    }
    let output = case.old("out.pgm", 0o644);
    let folder = case.folder.path("");
    let mut tool = case.clean(&output);
    let run = as_user(&mut tool, &folder).output().expect("a run");
    assert_says_of(&run, 3, "it is write-protected; --force replaces it");
    assert_eq!(fs::read(&output).expect("OUT"), b"as it was");
    let mut tool = case.clean(&output);
    let run = as_user(&mut tool, &folder).arg("--force").output();
    assert_ok(&run.expect("a run"));
    assert_eq!(about(&output).uid(), NOBODY);
    assert_eq!(about(&output).mode() & 0o7777, 0o644);
}

/// What cannot be written whole leaves the old output, or says that it does not.
#[test]
fn no_space() {
    let case = Case::new("nospace");
    let plate = [b"P5 64 64 255\n", &[7; 4096][..]].concat();
    fs::write(&case.input, plate).expect("a larger plate");
    let output = case.old("out.pgm", 0o644);
    let run = || {
        let mut shell = case.clean_by_shell("ulimit -f 1; exec \"$@\"", &output); // in units of 512 or 1024 bytes
        shell.stdin(Stdio::null()).output().expect("a run")
    };
    assert_says_of(&run(), 3, "out.pgm: File too large");
    assert_eq!(fs::read(&output).expect("OUT"), b"as it was");
    assert_eq!(case.folder.names(), ["in.pgm", "out.pgm"]);
    fs::hard_link(&output, case.folder.path("other.pgm")).expect("another name");
    assert_says_of(&run(), 3, "it was written in place and may be incomplete");
}

/// The new file is on the disk ahead of its name, and then so is the name.
#[cfg(target_os = "linux")]
#[test]
fn what_a_power_cut_leaves() {
    let case = Case::new("sync");
    let library = case.telling();
    let output = case.folder.path("out.pgm");
    for _ in 0..2 {
        let run = case.clean(&output).env("LD_PRELOAD", &library).output();
        let told = text(&run.expect("a run").stderr);
        assert_eq!(told, "sync file\nrename\nsync directory\n");
    }
}
