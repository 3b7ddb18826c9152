//! Writing an output: a new file appears whole or not at all, and an old one is kept until then where that can be.

use std::ffi::OsStr;
use std::fs::{File, Metadata};
use std::io::{self, BufWriter, ErrorKind, Seek, Write};
use std::os::unix::fs::{fchown, MetadataExt};
use std::path::Path;

use crate::arguments::Command;
use crate::failure::Failure;
use crate::system;
use crate::target::{self, Target};
use crate::temporary::Temporary;

/// What writes the content of an output. It may be asked twice.
type Content<'a> = &'a dyn Fn(&mut dyn Write) -> io::Result<()>;

/// Prints to standard output.
pub fn print(content: Content) -> Result<(), Failure> {
    let written = system::descriptor(1).and_then(|file| buffered(&file, content));
    written.map_err(|error| Failure::writing(OsStr::new("-"), error))
}

/// Writes a command's output.
pub fn write(command: &Command, content: Content) -> Result<(), Failure> {
    let name = &command.output;
    if name == "-" {
        return print(content);
    }
    let written = match target::resolve(Path::new(name)) {
        Ok(Target::New(path)) => replace(&path, 0o666, content, |_| Ok(())),
        Ok(Target::File(path, about)) => overwrite(&path, &about, command.force, content),
        Ok(Target::Special(path)) => open(&path).and_then(|file| in_place(&file, content)),
        Ok(Target::Descriptor(number)) => {
            system::descriptor(number).and_then(|file| buffered(&file, content))
        }
        Err(error) => Err(error),
    };
    written.map_err(|error| Failure::writing(name, error))
}

/// Writes to a regular file that is there: by a new file that takes its place and has its owner, group and permissions,
/// or, where it cannot have them or the file has other names, in place. A write-protected file is only replaced by force.
fn overwrite(path: &Path, about: &Metadata, force: bool, content: Content) -> io::Result<()> {
    if is_protected(path, about)? {
        if !force {
            let words = "it is write-protected; --force replaces it";
            return Err(io::Error::other(words));
        }
        return replace(path, 0o600, content, |new| {
            let _ = keep_owner(new, about); // by force it may have another
            new.set_permissions(about.permissions())
        });
    }
    let written = || open(path).and_then(|file| in_place(&file, content));
    if about.nlink() > 1 {
        return written();
    }
    let replaced = replace(path, 0o600, content, |new| {
        keep_owner(new, about)?;
        new.set_permissions(about.permissions())
    });
    match replaced {
        Err(error) if forbids_a_new_file(&error) => written(),
        replaced => replaced,
    }
}

/// Whether the tool may not write to a file, or nobody may by its permissions, which do not bind root.
fn is_protected(path: &Path, about: &Metadata) -> io::Result<bool> {
    if about.mode() & 0o222 == 0 {
        return Ok(true);
    }
    match open(path) {
        Err(error) if error.kind() == ErrorKind::PermissionDenied => Ok(true),
        opened => opened.map(|_| false),
    }
}

/// Opens what is there, and does not change it yet.
fn open(path: &Path) -> io::Result<File> {
    File::options().write(true).open(path)
}

/// Writes a temporary file beside the target and renames it.
fn replace(
    path: &Path,
    mode: u32,
    content: Content,
    prepare: impl FnOnce(&File) -> io::Result<()>,
) -> io::Result<()> {
    let temporary = Temporary::beside(path, mode)?;
    prepare(&temporary.file)?;
    buffered(&temporary.file, content)?;
    temporary.file.sync_all()?;
    temporary.rename(path)?;
    // the file has its name; where a directory cannot be synchronised, a power cut may undo that
    let _ = File::open(target::folder_of(path)).and_then(|folder| folder.sync_all());
    Ok(())
}

fn keep_owner(new: &File, about: &Metadata) -> io::Result<()> {
    let now = new.metadata()?;
    if (now.uid(), now.gid()) == (about.uid(), about.gid()) {
        return Ok(());
    }
    fchown(new, Some(about.uid()), Some(about.gid()))
}

/// Whether a new file cannot be made, be given an owner or take the place of the old one.
fn forbids_a_new_file(error: &io::Error) -> bool {
    matches!(
        error.kind(),
        ErrorKind::PermissionDenied
            | ErrorKind::ReadOnlyFilesystem
            | ErrorKind::ResourceBusy
            | ErrorKind::InvalidInput
    )
}

/// Writes over what is there. A regular file then ends where the content does, and an interrupt waits for that.
fn in_place(mut file: &File, content: Content) -> io::Result<()> {
    if !file.metadata()?.is_file() {
        return buffered(file, content);
    }
    system::catch_interrupts();
    let written = system::uninterrupted(|| {
        buffered(file, content)?;
        file.set_len(file.stream_position()?)?;
        file.sync_all()
    });
    written.map_err(|error| {
        let words = format!("{error}; it was written in place and may be incomplete");
        io::Error::new(error.kind(), words)
    })
}

fn buffered(file: &File, content: Content) -> io::Result<()> {
    let mut out = BufWriter::new(file);
    content(&mut out)?;
    out.flush()
}
