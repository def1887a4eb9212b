//! Files: read up to a limit, and replaced in one piece.
//!
//! A file is replaced by a new one that is written beside it, synced and renamed over it, so that a power cut or a
//! failure leaves the old file or the new one, whole.

use crate::failure::Failure;
use gaffreel::volume::{MOST_SECTORS, SECTOR_LENGTH};
use std::ffi::OsStr;
use std::fs::{self, File, Metadata, OpenOptions};
use std::io::{self, ErrorKind, Read, Write};
use std::os::unix::fs::{fchown, MetadataExt, OpenOptionsExt};
use std::path::{Path, PathBuf};
use std::process;

/// The length in bytes of the longest volume.
const LONGEST_VOLUME: u64 = (MOST_SECTORS * SECTOR_LENGTH) as u64;

/// The name of standard input and output.
const STANDARD: &str = "-";

/// The bytes of an image. Of a file that is longer than any volume one byte more is read, so that it is refused.
pub fn read_image(path: &Path) -> Result<Vec<u8>, Failure> {
    read_at_most(path, LONGEST_VOLUME + 1)
}

/// The bytes of a file, at most so many.
pub fn read_at_most(path: &Path, limit: u64) -> Result<Vec<u8>, Failure> {
    let read = || {
        let mut bytes = Vec::new();
        File::open(path)?.take(limit).read_to_end(&mut bytes)?;
        Ok(bytes)
    };
    read().map_err(|error| Failure::unreadable(path, error))
}

/// The bytes of an input: a file, or standard input for none or `-`. Longer than any volume, one byte more is read.
pub fn read_input(name: Option<&OsStr>) -> Result<Vec<u8>, Failure> {
    match name {
        Some(name) if name != STANDARD => read_image(Path::new(name)),
        _ => {
            let mut bytes = Vec::new();
            let mut input = io::stdin().lock().take(LONGEST_VOLUME + 1);
            match input.read_to_end(&mut bytes) {
                Ok(_) => Ok(bytes),
                Err(error) => Err(Failure::unreadable(Path::new("standard input"), error)),
            }
        }
    }
}

/// Writes an output: to a file, or to `out` for none or `-`. A file that was there is replaced if it is a regular one.
pub fn write_output(
    name: Option<&OsStr>,
    bytes: &[u8],
    out: &mut dyn Write,
) -> Result<(), Failure> {
    match name {
        Some(name) if name != STANDARD => {
            let path = Path::new(name);
            match fs::metadata(path) {
                Ok(found) if !found.is_file() => {
                    fs::write(path, bytes).map_err(|error| Failure::unwritable(path, error))
                }
                _ => replace(path, bytes),
            }
        }
        _ => Ok(out.write_all(bytes)?),
    }
}

/// What stands at a path, symbolic links followed; none if nothing does.
pub fn found(path: &Path) -> Result<Option<Metadata>, Failure> {
    match fs::metadata(path) {
        Ok(metadata) => Ok(Some(metadata)),
        Err(error) if error.kind() == ErrorKind::NotFound => match path.is_symlink() {
            true => Err(Failure::file(
                path,
                "is a symbolic link to a file that is not there: make that file, or remove the link",
            )),
            false => Ok(None),
        },
        Err(error) => Err(Failure::unreadable(path, error)),
    }
}

/// Whether two names are of one file.
pub fn same(one: &Path, other: &Path) -> bool {
    match (fs::metadata(one), fs::metadata(other)) {
        (Ok(one), Ok(other)) => (one.dev(), one.ino()) == (other.dev(), other.ino()),
        _ => false,
    }
}

/// Puts a new file with these bytes at a path: the old one, if there is one, is there until the new one is whole. The
/// file that a symbolic link leads to is replaced, and not the link. Permissions and owner are kept.
pub fn replace(path: &Path, bytes: &[u8]) -> Result<(), Failure> {
    let old = found(path)?;
    if old.as_ref().is_some_and(|old| !old.is_file()) {
        return Err(Failure::file(path, "is not a regular file: name a file"));
    }
    let replaced = || match &old {
        Some(old) => {
            let target = fs::canonicalize(path)?;
            // A file that may not be written is not replaced either.
            OpenOptions::new().write(true).open(&target)?;
            put(&target, bytes, Some(old))
        }
        None => put(path, bytes, None),
    };
    replaced().map_err(|error| Failure::unwritable(path, error))
}

/// Writes a file beside a place, and moves it there.
fn put(target: &Path, bytes: &[u8], old: Option<&Metadata>) -> io::Result<()> {
    let folder = match target.parent() {
        Some(folder) if folder != Path::new("") => folder,
        _ => Path::new("."),
    };
    let folder_file = File::open(folder)?;
    let (temporary, file) = create_in(folder, old.is_some())?;
    let moved = store(file, bytes, old).and_then(|()| fs::rename(&temporary, target));
    if moved.is_err() {
        // What went wrong first is what is told.
        let _ = fs::remove_file(&temporary);
    }
    moved?;
    folder_file.sync_all()
}

/// Creates a file of a new name in a folder. Where it is to replace one, nobody else may read it before it has the old
/// one's permissions.
fn create_in(folder: &Path, replaces: bool) -> io::Result<(PathBuf, File)> {
    let mut options = OpenOptions::new();
    options.write(true).create_new(true);
    if replaces {
        options.mode(0o600);
    }
    let mut attempt = 0;
    loop {
        let name = format!(".gaffreel.{}.{attempt}.new", process::id());
        let temporary = folder.join(name);
        match options.open(&temporary) {
            Err(error) if error.kind() == ErrorKind::AlreadyExists => attempt += 1,
            opened => return Ok((temporary, opened?)),
        }
    }
}

/// Gives a new file the old one's owner and permissions, and its bytes, and waits until they are on the medium.
fn store(mut file: File, bytes: &[u8], old: Option<&Metadata>) -> io::Result<()> {
    if let Some(old) = old {
        let new = file.metadata()?;
        if (new.uid(), new.gid()) != (old.uid(), old.gid()) {
            fchown(&file, Some(old.uid()), Some(old.gid()))?;
        }
        file.set_permissions(old.permissions())?;
    }
    file.write_all(bytes)?;
    file.sync_all()
}
