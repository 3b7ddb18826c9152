//! What `make install` leaves in a folder: C programs are compiled with it, and run.

#[path = "c/compile.rs"]
mod compile;

use std::collections::BTreeSet;
use std::fs;
use std::path::{Path, PathBuf};
use std::process::Command;
use std::sync::OnceLock;

use compile::{assert_passed, compiled_with, declared, printed, HERE};

const VERSION: &str = env!("CARGO_PKG_VERSION");

/// A folder that stands for the root of a machine, and the shared library that is made for it.
struct Root {
    folder: PathBuf,
    shared: PathBuf,
}

impl Root {
    /// A new one, with everything in it.
    fn installed(name: &str) -> Root {
        let place = Path::new(env!("CARGO_TARGET_TMPDIR")).join(name);
        let _ = fs::remove_dir_all(&place); // of an earlier run
        let root = Root {
            folder: place.join("root"),
            shared: place.join("liblivukoe.so"),
        };
        root.make("install");
        root
    }

    /// The one that the tests share.
    fn shared() -> &'static Root {
        static ROOT: OnceLock<Root> = OnceLock::new();
        ROOT.get_or_init(|| Root::installed("installed"))
    }

    /// Runs a target of the Makefile on this folder, with the tool and the archive of this test.
    fn make(&self, target: &str) {
        let made = Command::new("make")
            .current_dir(Path::new(HERE).join(".."))
            .env_remove("MAKEFLAGS")
            .arg(target)
            .arg(format!("DESTDIR={}", self.folder.display()))
            .arg("PREFIX=/usr")
            .arg(format!("ARCHIVE={}/liblivukoe.a", env!("LIVUKOE_LIB_DIR")))
            .arg(format!("SHARED={}", self.shared.display()))
            .arg(format!("TOOL={}", env!("CARGO_BIN_EXE_livukoe")))
            .output()
            .expect("make runs");
        assert_passed(&made);
    }

    fn path(&self, name: &str) -> PathBuf {
        self.folder.join("usr").join(name)
    }

    /// The names of the files below it, links included.
    fn files(&self) -> BTreeSet<String> {
        let (mut files, mut folders) = (BTreeSet::new(), vec![self.folder.clone()]);
        while let Some(folder) = folders.pop() {
            for entry in fs::read_dir(folder).expect("a folder") {
                let entry = entry.expect("an entry");
                if entry.file_type().expect("its type").is_dir() {
                    folders.push(entry.path());
                } else {
                    let path = entry.path();
                    let name = path.strip_prefix(&self.folder).expect("a part of it");
                    files.insert(name.display().to_string());
                }
            }
        }
        files
    }
}

const EXAMPLE: &str = "examples/clean.c";
const ANSWER: &str = "pixel 5: 30\n";

#[test]
fn every_file() {
    let root = Root::installed("removed");
    let names = [
        "bin/livukoe",
        "include/livukoe.h",
        "lib/liblivukoe.a",
        "lib/liblivukoe.so",
        "lib/liblivukoe.so.4",
        &format!("lib/liblivukoe.so.{VERSION}"),
        "lib/pkgconfig/livukoe.pc",
        "share/bash-completion/completions/livukoe",
        "share/man/man1/livukoe.1",
    ];
    let names = names.iter().map(|name| format!("usr/{name}"));
    assert_eq!(root.files(), names.collect());
    root.make("uninstall");
    assert_eq!(root.files(), BTreeSet::new());
}

#[test]
fn the_shared_library() {
    let root = Root::shared();
    let program = compiled_with(EXAMPLE, "clean_shared", &flags(root));
    let libraries = root.path("lib");
    let answer = printed(Command::new(&program).env("LD_LIBRARY_PATH", &libraries));
    assert_eq!(answer, ANSWER);
    // it runs with the library of that name and with no other
    let lonely = Command::new(&program).output().expect("a run");
    assert!(String::from_utf8_lossy(&lonely.stderr).contains("liblivukoe.so.4"));
}

/// The words that compile a program with what is installed, by its livukoe.pc.
fn flags(root: &Root) -> Vec<String> {
    let asked = Command::new("pkg-config")
        .args(["--cflags", "--libs", "livukoe"])
        .env("PKG_CONFIG_PATH", root.path("lib/pkgconfig"))
        .env("PKG_CONFIG_SYSROOT_DIR", &root.folder)
        .env("PKG_CONFIG_ALLOW_SYSTEM_CFLAGS", "1")
        .env("PKG_CONFIG_ALLOW_SYSTEM_LIBS", "1")
        .output();
    let Ok(asked) = asked else {
        eprintln!("pkg-config is not installed: livukoe.pc is not checked");
        let (include, lib) = (root.path("include"), root.path("lib"));
        return vec![
            format!("-I{}", include.display()),
            format!("-L{}", lib.display()),
            "-llivukoe".into(),
        ];
    };
    assert_passed(&asked);
    let words = String::from_utf8(asked.stdout).expect("text");
    words.split_whitespace().map(str::to_owned).collect()
}

#[test]
fn the_archive() {
    let root = Root::shared();
    let words = [
        format!("-I{}", root.path("include").display()),
        root.path("lib/liblivukoe.a").display().to_string(),
    ];
    let program = compiled_with(EXAMPLE, "clean_archive", &words);
    assert_eq!(printed(&mut Command::new(program)), ANSWER);
}

/// The shared library has the names of the header, and no other.
#[test]
fn exported_names() {
    let root = Root::shared();
    let names = Command::new("nm")
        .args(["--dynamic", "--defined-only", "--format=posix"])
        .arg(root.path("lib/liblivukoe.so"))
        .output()
        .expect("nm runs");
    assert_passed(&names);
    let names = String::from_utf8(names.stdout).expect("text");
    let functions = names.lines().filter(|line| line.contains(" T "));
    let functions: BTreeSet<&str> = functions
        .filter_map(|line| line.split(['@', ' ']).next())
        .collect();
    assert_eq!(functions, declared().into_iter().collect());
    assert!(names
        .lines()
        .all(|line| line.contains(" T ") || line.starts_with("LIVUKOE_4")));
}

/// The tool runs, and the man page and the completions have each of its commands.
#[test]
fn the_tool() {
    let root = Root::shared();
    let help = printed(Command::new(root.path("bin/livukoe")).arg("--help"));
    let commands = help
        .lines()
        .filter_map(|line| line.strip_prefix("  livukoe "));
    let commands: BTreeSet<&str> = commands.filter_map(|line| line.split(' ').next()).collect();
    assert!(commands.contains("clean"));
    let page = fs::read_to_string(root.path("share/man/man1/livukoe.1")).expect("the page");
    let completed = completed(root, &["livukoe", ""]);
    for command in commands {
        assert!(page.contains(&format!("\n.B {command}\n")), "{command}");
        assert!(completed.contains(command), "{command}");
    }
    for gone in ["open", "close"] {
        assert!(!page.contains(&format!("\n.B {gone}\n")), "{gone}");
        assert!(!completed.contains(gone), "{gone}");
    }
}

/// What bash offers for the last of some words.
fn completed(root: &Root, words: &[&str]) -> BTreeSet<String> {
    let script = root.path("share/bash-completion/completions/livukoe");
    let offered = printed(
        Command::new("bash")
            .args(["-c", "source \"$1\"; shift; COMP_WORDS=(\"$@\"); COMP_CWORD=$(($# - 1)); _livukoe; printf '%s\\n' \"${COMPREPLY[@]}\"", "-"])
            .arg(script)
            .args(words),
    );
    offered.lines().map(str::to_owned).collect()
}

#[test]
fn completions() {
    let root = Root::shared();
    let offered = |words: &[&str]| completed(root, words).into_iter().collect::<Vec<_>>();
    assert_eq!(offered(&["livukoe", "c"]), ["clean", "convert", "cut"]);
    assert_eq!(offered(&["livukoe", "cut", "--"]), ["--force", "--limit"]);
    assert_eq!(offered(&["livukoe", "convert", "--"]), ["--force", "--to"]);
    assert_eq!(offered(&["livukoe", "seed", "--s"]), ["--seed", "--size"]);
    assert_eq!(offered(&["livukoe", "ro"]), ["roll"]);
    assert_eq!(offered(&["livukoe", "roll", ""]), ["count", "plate"]);
    assert_eq!(offered(&["livukoe", "roll", "p"]), ["plate"]);
    let options = offered(&["livukoe", "roll", "plate", "--"]);
    assert_eq!(options, ["--force", "--number"]);
    assert_eq!(offered(&["livukoe", "roll", "count", "--"]), [""]);
    assert_eq!(
        offered(&["livukoe", "clean", "--"]),
        ["--connectivity", "--force", "--limit", "--side"]
    );
    for (option, values) in [
        ("--connectivity", &["4", "6", "8"][..]),
        ("--side", &["dark", "light"]),
        ("--to", &["new", "old"]),
    ] {
        assert_eq!(offered(&["livukoe", "clean", option, ""]), values);
        assert_eq!(offered(&["livukoe", "clean", option, "="]), values);
        for value in values {
            let begun = &value[..1];
            assert_eq!(offered(&["livukoe", "clean", option, begun]), [*value]);
            assert_eq!(offered(&["livukoe", "clean", option, "=", begun]), [*value]);
        }
    }
}
