//! A temporary file beside an output, which is gone when the tool ends, however it ends.

use std::fs::{self, File};
use std::hash::{BuildHasher, RandomState};
use std::io;
use std::os::unix::fs::OpenOptionsExt;
use std::path::{Path, PathBuf};

use crate::system;
use crate::target::folder_of;

/// How many names are tried. They are by chance, of 64 bits.
const TRIES: usize = 20;

/// A file that this run made, under a name of its own.
pub struct Temporary {
    path: PathBuf,
    pub file: File,
    renamed: bool,
}

impl Temporary {
    /// A new file in the directory of another, with these permissions, from which the process's mask is taken off.
    pub fn beside(other: &Path, mode: u32) -> io::Result<Temporary> {
        system::catch_interrupts();
        Temporary::under(folder_of(other), mode, names_by_chance())
    }

    /// A new file under the first of these names that no file has.
    fn under(
        folder: &Path,
        mode: u32,
        names: impl Iterator<Item = String>,
    ) -> io::Result<Temporary> {
        let mut refused = io::Error::from(io::ErrorKind::AlreadyExists);
        for name in names.take(TRIES) {
            let path = folder.join(name);
            match system::uninterrupted(|| make(&path, mode)) {
                Ok(file) => {
                    return Ok(Temporary {
                        path,
                        file,
                        renamed: false,
                    })
                }
                Err(error) if error.kind() == io::ErrorKind::AlreadyExists => refused = error,
                Err(error) => return Err(error),
            }
        }
        Err(refused)
    }

    /// Gives the file its name, in place of a file that has it, never of a link.
    pub fn rename(mut self, name: &Path) -> io::Result<()> {
        if fs::symlink_metadata(name).is_ok_and(|about| about.is_symlink()) {
            return Err(io::Error::other("it has become a symbolic link"));
        }
        system::uninterrupted(|| {
            fs::rename(&self.path, name)?;
            self.renamed = true;
            system::remember(None);
            Ok(())
        })
    }
}

impl Drop for Temporary {
    fn drop(&mut self) {
        if !self.renamed {
            system::uninterrupted(|| {
                let _ = fs::remove_file(&self.path); // what went wrong ahead of this is what is reported
                system::remember(None);
            });
        }
    }
}

/// Makes a file that was not there, and remembers it.
fn make(path: &Path, mode: u32) -> io::Result<File> {
    let mut options = File::options();
    let file = options.write(true).create_new(true).mode(mode).open(path)?;
    system::remember(Some(path));
    Ok(file)
}

/// Names that nobody can foresee: the standard library takes its keys for hashing from the system's chance.
fn names_by_chance() -> impl Iterator<Item = String> {
    let keys = RandomState::new();
    (0u64..).map(move |count| format!(".livukoe-{:016x}.tmp", keys.hash_one(count)))
}

#[cfg(test)]
mod tests {
    use super::*;

    /// A name that another file has is left alone, and the next one is tried.
    #[test]
    fn another_name_where_one_is_taken() {
        let folder = Temporary::beside(&std::env::temp_dir().join("x"), 0o600).expect("a file");
        let folder = folder.path.with_extension("test");
        fs::create_dir(&folder).expect("a directory");
        fs::write(folder.join("taken"), "as it was").expect("a file");
        let names = ["taken", "free"].map(String::from);
        let temporary = Temporary::under(&folder, 0o600, names.into_iter()).expect("a file");
        assert_eq!(temporary.path, folder.join("free"));
        drop(temporary);
        let names = std::iter::repeat(String::from("taken"));
        let refused = Temporary::under(&folder, 0o600, names)
            .err()
            .expect("an error");
        assert_eq!(refused.kind(), io::ErrorKind::AlreadyExists);
        let left = fs::read_to_string(folder.join("taken"));
        assert_eq!(left.expect("the file"), "as it was");
        assert!(!folder.join("free").exists());
        fs::remove_dir_all(&folder).expect("removed");
    }

    #[test]
    fn names_are_short_and_differ() {
        let mut names: Vec<String> = names_by_chance().take(TRIES).collect();
        names.extend(names_by_chance().take(TRIES));
        assert!(names.iter().all(|name| name.len() == 29));
        names.sort();
        names.dedup();
        assert_eq!(names.len(), 2 * TRIES);
    }
}
