//! Files by path; `-` is standard input or output.

use crate::elements::BLOCK;
use crate::failure::Failure;
use std::ffi::OsStr;
use std::fs::{self, File, OpenOptions, Permissions};
use std::io::{self, BufReader, ErrorKind, Read, Write};
use std::os::fd::AsFd;
use std::os::unix::fs::MetadataExt;
use std::path::{Path, PathBuf};
use std::process;

pub fn open(path: &OsStr) -> Result<Box<dyn Read>, Failure> {
    if path == "-" {
        return Ok(Box::new(io::stdin().lock()));
    }
    let file = File::open(path).map_err(|error| Failure::file("read", path, error))?;
    Ok(Box::new(BufReader::with_capacity(BLOCK, file)))
}

/// Lets `content` write to a path. A file appears whole or not at all; where it was there before, it keeps its content until then. A path
/// that leads to standard output, such as /dev/stdout, is written as `-` is.
pub fn write(path: &OsStr, content: impl FnOnce(&mut dyn Write) -> io::Result<()>) -> Result<(), Failure> {
    let written = if path == "-" || is_standard_output(Path::new(path)) {
        standard_output().and_then(|mut output| content(&mut output))
    } else {
        write_file(Path::new(path), content)
    };
    written.map_err(|error| Failure::file("write", path, error))
}

/// Standard output without a buffer. Unlike `io::stdout`, it tells where it is not open for writing.
fn standard_output() -> io::Result<File> {
    io::stdout().as_fd().try_clone_to_owned().map(File::from)
}

/// Whether a path leads to the file, pipe or device that is standard output. To replace that file would lose what others write there.
fn is_standard_output(path: &Path) -> bool {
    let output = standard_output().and_then(|output| output.metadata());
    match (fs::metadata(path), output) {
        (Ok(there), Ok(output)) => (there.dev(), there.ino()) == (output.dev(), output.ino()),
        _ => false,
    }
}

fn write_file(path: &Path, content: impl FnOnce(&mut dyn Write) -> io::Result<()>) -> io::Result<()> {
    match OpenOptions::new().write(true).open(path) {
        // A link to nothing is left as it is.
        Err(error) if error.kind() == ErrorKind::NotFound && !path.is_symlink() => replace(path, None, content),
        Err(error) => Err(error),
        Ok(mut there) => {
            let kind = there.metadata()?;
            if kind.is_file() {
                // The file itself is replaced, not a link to it.
                replace(&fs::canonicalize(path)?, Some(kind.permissions()), content)
            } else {
                // A device or a pipe cannot be replaced.
                content(&mut there)
            }
        }
    }
}

/// Writes a new file beside the path, then gives it the path's name.
fn replace(path: &Path, permissions: Option<Permissions>, content: impl FnOnce(&mut dyn Write) -> io::Result<()>) -> io::Result<()> {
    let (mut file, name) = new_file_beside(path)?;
    let written = permissions
        .map_or(Ok(()), |permissions| file.set_permissions(permissions))
        .and_then(|()| content(&mut file))
        // An error that is told late is told before the file has its name.
        .and_then(|()| file.sync_all())
        .and_then(|()| fs::rename(&name, path));
    if written.is_err() {
        let _ = fs::remove_file(&name);
    }
    written
}

/// A new file in the folder of a path, with a name that no other file has.
fn new_file_beside(path: &Path) -> io::Result<(File, PathBuf)> {
    let mut number = 0;
    loop {
        let name = path.with_file_name(format!(".dofnihet-{}-{number}.part", process::id()));
        match File::create_new(&name) {
            Err(error) if error.kind() == ErrorKind::AlreadyExists => number += 1,
            made => return made.map(|file| (file, name)),
        }
    }
}
