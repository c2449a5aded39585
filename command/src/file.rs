//! Reads files, and replaces them whole or not at all.

use std::fs::{self, File, OpenOptions};
use std::io::{self, ErrorKind, Read, Write};
use std::path::{Path, PathBuf};
use std::process;

/// Reads a file, at most one byte more than a transaction may have: the check refuses that.
pub fn read(path: &Path) -> Result<Vec<u8>, String> {
    let most = cellfacet::MOST_BYTES as u64 + 1;
    let mut bytes = Vec::new();
    let got = File::open(path).and_then(|file| file.take(most).read_to_end(&mut bytes));
    got.map_err(|error| format!("{}: {error}", path.display()))?;
    Ok(bytes)
}

/// Replaces the content of a file. The bytes are written to a new file in the same folder, which is
/// then renamed: after a crash the file holds either the old content or all of the bytes.
pub fn replace(path: &Path, bytes: &[u8]) -> io::Result<()> {
    let target = target(path)?;
    let folder = match target.parent() {
        Some(folder) if folder != Path::new("") => folder,
        _ => Path::new("."),
    };
    let opened = File::open(folder)?;
    let (beside, file) = beside(folder)?;
    let written = write(file, bytes, &target).and_then(|()| fs::rename(&beside, &target));
    if let Err(error) = written {
        // The first error is the one that is reported.
        let _ = fs::remove_file(&beside);
        return Err(error);
    }
    opened.sync_all()
}

/// The file that a link points to, or a name that is free. What is not a regular file (a folder, a
/// device) is not replaced.
fn target(path: &Path) -> io::Result<PathBuf> {
    match fs::canonicalize(path) {
        Ok(found) if found.is_file() => Ok(found),
        Ok(_) => Err(io::Error::other("not a regular file")),
        Err(error) if error.kind() == ErrorKind::NotFound => Ok(path.to_path_buf()),
        Err(error) => Err(error),
    }
}

/// A new file in a folder, under a free name.
fn beside(folder: &Path) -> io::Result<(PathBuf, File)> {
    let mut turn = 0;
    loop {
        let path = folder.join(format!(".cellfacet-{}-{turn}", process::id()));
        match OpenOptions::new().write(true).create_new(true).open(&path) {
            Err(error) if error.kind() == ErrorKind::AlreadyExists => turn += 1,
            opened => return opened.map(|file| (path, file)),
        }
    }
}

/// Writes all bytes to the disk, with the permissions that the target has.
fn write(mut file: File, bytes: &[u8], target: &Path) -> io::Result<()> {
    file.write_all(bytes)?;
    if let Ok(found) = fs::metadata(target) {
        file.set_permissions(found.permissions())?;
    }
    file.sync_all()
}
