//! What is asked of a disk, and how a file is put in the place of another: written beside it,
//! synced, renamed over it, and the folder synced. Whatever ends the program, or the machine, on
//! the way, the file is the old one or the new one, whole; and once it is through, the new one.
//!
//! The steps are a trait, so that the tests can make each of them fail, or be the last.

use std::fs::{self, File, OpenOptions, TryLockError};
use std::io::{self, Write};
use std::path::{Path, PathBuf};

/// A file is written in pieces of so many bytes.
const PIECE: usize = 1 << 20;

pub trait Disk {
    type File;

    /// A new file to be written, like another in who may read and write it; there is none of this
    /// name.
    fn create(&mut self, path: &Path, like: Option<&Path>) -> io::Result<Self::File>;

    /// Holds the file against other programs.
    fn hold(&mut self, file: &mut Self::File) -> io::Result<()>;

    fn write(&mut self, file: &mut Self::File, bytes: &[u8]) -> io::Result<()>;

    /// What was written to the file is on the disk.
    fn sync(&mut self, file: &mut Self::File) -> io::Result<()>;

    /// Puts the file in the place of another.
    fn rename(&mut self, from: &Path, to: &Path) -> io::Result<()>;

    /// Gives the file a second name, which none has.
    fn link(&mut self, from: &Path, to: &Path) -> io::Result<()>;

    fn remove(&mut self, path: &Path) -> io::Result<()>;

    /// The names of a folder's files are on the disk.
    fn sync_folder(&mut self, folder: &Path) -> io::Result<()>;
}

/// Why a file was not saved.
#[derive(Debug)]
pub enum Unsaved {
    /// The file is as it was.
    Before(io::Error),
    /// The file is the new one, but the disk may not have it yet.
    After(io::Error),
}

/// Puts bytes in the place of a file.
pub fn replace<D: Disk>(disk: &mut D, path: &Path, bytes: &[u8]) -> Result<D::File, Unsaved> {
    let beside = beside(path);
    let like = Some(path);
    put(disk, path, &beside, like, bytes, D::rename)
}

/// Puts bytes in a file where none is.
pub fn make<D: Disk>(disk: &mut D, path: &Path, bytes: &[u8]) -> Result<D::File, Unsaved> {
    let beside = beside(path);
    let put_there = |disk: &mut D, from: &Path, to: &Path| {
        disk.link(from, to)?;
        // the file is there; a second name that stays does no harm
        let _ = disk.remove(from);
        Ok(())
    };
    put(disk, path, &beside, None, bytes, put_there)
}

fn put<D: Disk>(
    disk: &mut D,
    path: &Path,
    beside: &Path,
    like: Option<&Path>,
    bytes: &[u8],
    put_there: impl FnOnce(&mut D, &Path, &Path) -> io::Result<()>,
) -> Result<D::File, Unsaved> {
    let mut file = disk.create(beside, like).map_err(Unsaved::Before)?;
    let written = written(disk, &mut file, bytes).and_then(|()| put_there(disk, beside, path));
    if let Err(fault) = written {
        let _ = disk.remove(beside);
        return Err(Unsaved::Before(fault));
    }
    disk.sync_folder(folder(path)).map_err(Unsaved::After)?;
    Ok(file)
}

fn written<D: Disk>(disk: &mut D, file: &mut D::File, bytes: &[u8]) -> io::Result<()> {
    // before it has the file's name, so that no other program finds the file free
    disk.hold(file)?;
    for piece in bytes.chunks(PIECE) {
        disk.write(file, piece)?;
    }
    disk.sync(file)
}

/// The name that a file is written under: its own, this process's number, `.part`.
fn beside(path: &Path) -> PathBuf {
    let mut name = path.as_os_str().to_owned();
    name.push(format!(".{}.part", std::process::id()));
    name.into()
}

/// What programs that were ended left beside a file.
pub fn left_beside(path: &Path) -> Vec<PathBuf> {
    let Some(name) = path.file_name().and_then(|name| name.to_str()) else {
        return Vec::new();
    };
    let left = |found: &str| {
        let number = found
            .strip_prefix(name)
            .and_then(|rest| rest.strip_prefix('.'))
            .and_then(|rest| rest.strip_suffix(".part"));
        number.is_some_and(|number| {
            !number.is_empty() && number.bytes().all(|byte| byte.is_ascii_digit())
        })
    };
    let found = fs::read_dir(folder(path)).into_iter().flatten().flatten();
    found
        .filter(|entry| entry.file_name().to_str().is_some_and(left))
        .map(|entry| entry.path())
        .collect()
}

/// The folder that a file is in.
fn folder(path: &Path) -> &Path {
    match path.parent() {
        Some(folder) if !folder.as_os_str().is_empty() => folder,
        _ => Path::new("."),
    }
}

/// The machine's own.
pub struct System;

impl Disk for System {
    type File = File;

    fn create(&mut self, path: &Path, like: Option<&Path>) -> io::Result<File> {
        let file = OpenOptions::new().write(true).create_new(true).open(path)?;
        if let Some(known) = like.and_then(|like| fs::metadata(like).ok()) {
            use std::os::unix::fs::{fchown, MetadataExt};
            // who owns the new file is for the system to allow; who may read it is held to
            let _ = fchown(&file, Some(known.uid()), Some(known.gid()));
            file.set_permissions(known.permissions())?;
        }
        Ok(file)
    }

    fn hold(&mut self, file: &mut File) -> io::Result<()> {
        file.try_lock().map_err(|why| match why {
            TryLockError::Error(fault) => fault,
            TryLockError::WouldBlock => io::ErrorKind::WouldBlock.into(),
        })
    }

    fn write(&mut self, file: &mut File, bytes: &[u8]) -> io::Result<()> {
        file.write_all(bytes)
    }

    fn sync(&mut self, file: &mut File) -> io::Result<()> {
        file.sync_all()
    }

    fn rename(&mut self, from: &Path, to: &Path) -> io::Result<()> {
        fs::rename(from, to)
    }

    fn link(&mut self, from: &Path, to: &Path) -> io::Result<()> {
        fs::hard_link(from, to)
    }

    fn remove(&mut self, path: &Path) -> io::Result<()> {
        fs::remove_file(path)
    }

    fn sync_folder(&mut self, folder: &Path) -> io::Result<()> {
        File::open(folder)?.sync_all()
    }
}
