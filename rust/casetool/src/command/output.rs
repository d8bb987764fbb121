//! Where answers go: standard output, or a file that is replaced whole and never half written.

use std::ffi::OsString;
use std::fs::{self, File, OpenOptions};
use std::io::{self, ErrorKind, Write};
use std::path::{Path, PathBuf};

/// Writes an answer to a file or to standard output. A reader of the output that has gone away is
/// no mistake.
pub fn write(answer: &[u8], path: Option<&Path>, output: &mut dyn Write) -> Result<(), String> {
    let Some(path) = path else {
        return match output.write_all(answer).and_then(|()| output.flush()) {
            Err(error) if error.kind() != ErrorKind::BrokenPipe => {
                Err(format!("can't write standard output: {error}"))
            }
            _ => Ok(()),
        };
    };
    let written = match fs::metadata(path) {
        Ok(_) if !is_file(path) => fs::write(path, answer),
        // A link stays, and the file that it names is replaced.
        Ok(_) => fs::canonicalize(path).and_then(|path| replace(&path, answer)),
        Err(_) => replace(path, answer),
    };
    written.map_err(|error| format!("can't write {}: {error}", path.display()))
}

/// The names, and folders of names, that stand for what a process has open already.
const OPEN_ALREADY: [&str; 5] = [
    "/dev/stdin",
    "/dev/stdout",
    "/dev/stderr",
    "/dev/fd",
    "/proc",
];

/// Whether a path names a file that a next command could read as an old answer: no folder, pipe or
/// terminal, and nothing that is open already.
fn is_file(path: &Path) -> bool {
    path.is_file() && !OPEN_ALREADY.iter().any(|name| path.starts_with(name))
}

/// Writes a file beside the path and renames it onto it.
fn replace(path: &Path, answer: &[u8]) -> io::Result<()> {
    let before = fs::metadata(path).ok();
    if before.is_some() {
        // What may not be written may not be replaced either.
        OpenOptions::new().write(true).open(path)?;
    }
    let (mut file, beside) = file_beside(path)?;
    let done = file
        .write_all(answer)
        .and_then(|()| match before {
            Some(before) => file.set_permissions(before.permissions()),
            None => Ok(()),
        })
        .and_then(|()| fs::rename(&beside, path));
    if done.is_err() {
        let _ = fs::remove_file(&beside);
    }
    done
}

/// A new file in the folder of a path.
fn file_beside(path: &Path) -> io::Result<(File, PathBuf)> {
    let process = std::process::id();
    for number in 0_u32.. {
        let beside = path.with_file_name(format!(".casetool-{process}-{number}"));
        match OpenOptions::new()
            .write(true)
            .create_new(true)
            .open(&beside)
        {
            Err(error) if error.kind() == ErrorKind::AlreadyExists => {}
            opened => return opened.map(|file| (file, beside)),
        }
    }
    Err(ErrorKind::AlreadyExists.into())
}

/// Renames the old file at the path of an answer that there is not: `F` to `F.old`. What was done, for
/// a message; nothing where there was no file.
pub fn set_aside(path: &Path) -> Option<String> {
    if !is_file(path) {
        return None;
    }
    let mut old = OsString::from(path);
    old.push(".old");
    let (name, old_name) = (path.display(), Path::new(&old).display());
    Some(match fs::rename(path, &old) {
        Ok(()) => format!("nothing is written; the {name} that was there is now {old_name}"),
        Err(error) => format!(
            "nothing is written; the {name} that was there is an old one: it can't be renamed {old_name}: {error}"
        ),
    })
}
