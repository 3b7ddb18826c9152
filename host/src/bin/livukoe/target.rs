//! What is under the name of an output. A symbolic link is followed here, so that none is ever replaced.

use std::ffi::c_int;
use std::fs::{self, Metadata};
use std::io;
use std::path::{Path, PathBuf};

/// Where an output goes.
#[derive(Debug)]
pub enum Target {
    /// Nothing is there yet.
    New(PathBuf),
    /// A regular file, under a name that is no link.
    File(PathBuf, Metadata),
    /// A device, a pipe, or what a process has open: it is opened and written as it is.
    Special(PathBuf),
    /// A descriptor of the tool's own, such as standard output.
    Descriptor(c_int),
}

/// As many links as Linux follows.
const MOST_LINKS: usize = 40;

/// Follows the links of a name.
pub fn resolve(name: &Path) -> io::Result<Target> {
    let mut path = name.to_owned();
    for followed in 0..MOST_LINKS {
        let about = match fs::symlink_metadata(&path) {
            Err(error) if error.kind() == io::ErrorKind::NotFound => return absent(path, followed),
            about => about?,
        };
        let folder = fs::canonicalize(folder_of(&path))?;
        if !about.is_symlink() {
            return Ok(there(path, &folder, about));
        }
        if let Some(number) = own_descriptor(&folder, &path) {
            return Ok(Target::Descriptor(number));
        }
        if folder.starts_with("/proc") {
            return Ok(Target::Special(path)); // such a link may lead to a file that no name leads to
        }
        path = folder.join(fs::read_link(&path)?);
    }
    Err(io::Error::other("it is a loop of symbolic links"))
}

/// The directory of a file.
pub fn folder_of(path: &Path) -> &Path {
    match path.parent() {
        Some(folder) if folder != Path::new("") => folder,
        Some(_) => Path::new("."),
        None => path,
    }
}

fn absent(path: PathBuf, followed: usize) -> io::Result<Target> {
    match followed {
        0 => Ok(Target::New(path)),
        _ => Err(io::Error::other("it is a symbolic link to nothing")),
    }
}

fn there(path: PathBuf, folder: &Path, about: Metadata) -> Target {
    let of_system = ["/proc", "/sys"].iter().any(|of| folder.starts_with(of));
    if about.is_file() && !of_system {
        Target::File(path, about)
    } else {
        Target::Special(path)
    }
}

/// Which of the tool's own descriptors a link in the process file system is.
fn own_descriptor(folder: &Path, path: &Path) -> Option<c_int> {
    let own = fs::canonicalize("/proc/self/fd").ok()?;
    (folder == own).then_some(())?;
    path.file_name()?.to_str()?.parse().ok()
}
