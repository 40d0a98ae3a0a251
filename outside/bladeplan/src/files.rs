//! Bytes in and out: a file or standard input read up to a limit; standard output, or a file written beside and renamed.

use crate::trouble::{Outcome, Trouble};
use std::ffi::OsStr;
use std::fs::{self, File, OpenOptions, TryLockError};
use std::io::{self, Read, Write};
use std::os::unix::fs::{fchown, MetadataExt};
use std::path::{Path, PathBuf};

/// How the name begins of a file that is written beside another; the run's number and a further one follow.
const BESIDE: &str = ".bladeplan-";
/// How many such names a run tries.
const TRIED: u32 = 100;

/// A file's name as messages show it.
pub fn shown(path: &OsStr) -> String {
    match path.to_string_lossy().as_ref() {
        "-" => "standard input".to_string(),
        "" => "a file without a name".to_string(),
        name => name.to_string(),
    }
}

/// The first `limit` bytes of a file, or of standard input for `-`.
pub fn read(path: &OsStr, limit: u64) -> Outcome<Vec<u8>> {
    let mut bytes = Vec::new();
    let done = match path == "-" {
        true => io::stdin().lock().take(limit).read_to_end(&mut bytes),
        false => File::open(path).and_then(|file| file.take(limit).read_to_end(&mut bytes)),
    };
    done.map(|_| bytes).map_err(|error| Trouble::file(&shown(path), error))
}

/// Writes to standard output, or to the file named: whole, or not at all.
pub fn write(to: Option<&OsStr>, bytes: &[u8]) -> Outcome<()> {
    match to {
        Some(path) if path != "-" => replace(Path::new(path), bytes).map_err(|error| Trouble::file(&shown(path), error)),
        _ => standard_output(bytes).map_err(|error| Trouble::file("standard output", error)),
    }
}

/// The same, and a second file with it: its bytes are ready before the first is written, and take their place right after.
pub fn write_with(to: Option<&OsStr>, bytes: &[u8], second: Option<(&OsStr, Vec<u8>)>) -> Outcome<()> {
    let Some((path, also)) = second else { return write(to, bytes) };
    let named = |error| Trouble::file(&shown(path), error);
    let also = ready(Path::new(path), &also).map_err(named)?;
    write(to, bytes)?;
    also.put().map_err(named)
}

fn standard_output(bytes: &[u8]) -> io::Result<()> {
    let mut out = io::stdout().lock();
    out.write_all(bytes)?;
    out.flush()
}

/// One line on standard error; where even that fails there is no one left to tell.
pub fn say(line: &str) {
    let plain: String = line.chars().map(|c| if c.is_control() { '?' } else { c }).collect();
    let _ = io::stderr().write_all(format!("bladeplan: {plain}\n").as_bytes());
}

/// A file takes these bytes by a rename, so that it is the old one or the new one at any moment. A link stays, its target changes; what
/// is no plain file (a device, a pipe) is written as it is.
fn replace(path: &Path, bytes: &[u8]) -> io::Result<()> {
    ready(path, bytes)?.put()
}

/// Bytes that are to take a file's place: where they stand, and where they go. Nothing where they went already.
struct Ready {
    way: Option<(PathBuf, PathBuf)>,
    /// Locked until they are there.
    _file: Option<File>,
}

impl Ready {
    fn put(mut self) -> io::Result<()> {
        let Some((from, to)) = &self.way else { return Ok(()) };
        fs::rename(from, to)?;
        self.way = None;
        Ok(())
    }
}

impl Drop for Ready {
    fn drop(&mut self) {
        if let Some((from, _)) = &self.way {
            let _ = fs::remove_file(from);
        }
    }
}

fn ready(path: &Path, bytes: &[u8]) -> io::Result<Ready> {
    let target = fs::canonicalize(path).unwrap_or_else(|_| path.to_path_buf());
    let old = fs::metadata(&target).ok();
    if old.as_ref().is_some_and(|old| !old.is_file()) {
        OpenOptions::new().write(true).open(&target)?.write_all(bytes)?;
        return Ok(Ready { way: None, _file: None });
    }
    clear_away(&target);
    let (beside, file) = beside(&target)?;
    let mut ready = Ready { way: Some((beside, target)), _file: None };
    fill(&file, bytes, old)?;
    ready._file = Some(file);
    Ok(ready)
}

/// Removes what runs that were killed left in the target's directory. A run keeps its file locked until it has renamed it, so a file that
/// can be locked is nobody's.
fn clear_away(target: &Path) {
    let place = target.parent().filter(|place| *place != Path::new("")).unwrap_or(Path::new("."));
    for entry in fs::read_dir(place).into_iter().flatten().flatten() {
        if is_beside(&entry.file_name()) && entry.file_type().is_ok_and(|kind| kind.is_file()) {
            let left = File::open(entry.path());
            if left.as_ref().is_ok_and(|left| left.try_lock().is_ok()) {
                let _ = fs::remove_file(entry.path());
            }
        }
    }
}

/// Whether a name is of a file that a run wrote beside another.
fn is_beside(name: &OsStr) -> bool {
    let is_number = |text: &str| !text.is_empty() && text.bytes().all(|byte| byte.is_ascii_digit());
    let numbers = name.to_str().and_then(|name| name.strip_prefix(BESIDE)).and_then(|rest| rest.split_once('-'));
    numbers.is_some_and(|(run, tried)| is_number(run) && is_number(tried))
}

/// A new file in the same directory, under a hidden name of this run.
fn beside(target: &Path) -> io::Result<(PathBuf, File)> {
    if target.file_name().is_none() {
        return Err(io::ErrorKind::InvalidInput.into());
    }
    for tried in 0..TRIED {
        let path = target.with_file_name(format!("{BESIDE}{}-{tried}", std::process::id()));
        match OpenOptions::new().write(true).create_new(true).open(&path) {
            Ok(file) if is_kept(&file) => return Ok((path, file)),
            Err(error) if error.kind() != io::ErrorKind::AlreadyExists => return Err(error),
            _ => {}
        }
    }
    Err(io::ErrorKind::AlreadyExists.into())
}

/// Locks a new file; false where another run was just clearing it away. Where there are no locks none is cleared away.
fn is_kept(file: &File) -> bool {
    match file.try_lock() {
        Ok(()) => file.metadata().is_ok_and(|now| now.nlink() > 0),
        Err(TryLockError::WouldBlock) => false,
        Err(TryLockError::Error(_)) => true,
    }
}

/// Writes the whole file, for the owner and with the rights of the one that it replaces.
fn fill(mut file: &File, bytes: &[u8], old: Option<fs::Metadata>) -> io::Result<()> {
    if let Some(old) = old {
        let _ = fchown(file, Some(old.uid()), Some(old.gid())); // only root may
        file.set_permissions(old.permissions())?;
    }
    file.write_all(bytes)?;
    file.sync_all()
}
