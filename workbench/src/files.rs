//! Files of the host, '-' being standard input and output.

use crate::failure::{refused, Failure, Outcome};
use crate::good;
use kernel::sizes::{AREA_LEN, LONG_DISC, SHORT_DISC};
use std::fs;
use std::io::{self, Read, Write};
use std::path::{Path, PathBuf};

/// The path as messages name it.
pub fn shown(path: &str) -> &str {
    if path == "-" {
        "standard input"
    } else {
        path
    }
}

/// Whether two paths are one file, be it there or not; '-' is none.
pub fn is_same(a: &str, b: &str) -> bool {
    let real = |path: &str| if path == "-" { None } else { real_path(Path::new(path)) };
    real(a).is_some_and(|a| Some(a) == real(b))
}

/// Where a file is, or would be made: by its folder if it is not there, and by what a link names.
fn real_path(path: &Path) -> Option<PathBuf> {
    if let Ok(found) = fs::canonicalize(path) {
        return Some(found);
    }
    let place = fs::read_link(path).map_or(path.to_path_buf(), |link| folder_of(path).join(link));
    Some(fs::canonicalize(folder_of(&place)).ok()?.join(place.file_name()?))
}

fn folder_of(path: &Path) -> &Path {
    path.parent().filter(|parent| !parent.as_os_str().is_empty()).unwrap_or(Path::new("."))
}

/// Writes a message to standard error. There is nobody to tell that it cannot be written.
pub fn tell(text: &str) {
    let _ = io::stderr().write_all(text.as_bytes());
}

/// The most bytes that are read of a file: sources and records are far shorter.
const MOST: u64 = 1 << 30;

/// A whole file.
pub fn read(path: &str) -> Outcome<Vec<u8>> {
    let bytes = read_front(path, MOST)?;
    if bytes.len() as u64 == MOST {
        return refused(format!("{}: too long", shown(path)));
    }
    Ok(bytes)
}

/// The first bytes of a file, at most so many: a device may have no end.
pub fn read_front(path: &str, most: u64) -> Outcome<Vec<u8>> {
    let mut bytes = Vec::new();
    let read = if path == "-" {
        io::stdin().lock().take(most).read_to_end(&mut bytes)
    } else {
        fs::File::open(path).and_then(|file| file.take(most).read_to_end(&mut bytes))
    };
    match read {
        Ok(_) => Ok(bytes),
        Err(error) => refused(format!("{}: {error}", shown(path))),
    }
}

/// Refuses a path that no file can be written to: one in a folder that is not there, or a folder itself.
pub fn check_place(path: &str) -> Outcome {
    match fs::metadata(folder_of(Path::new(path))) {
        Err(error) => refused(format!("{path}: {error}")),
        Ok(_) if Path::new(path).is_dir() => refused(format!("{path}: it is a folder")),
        Ok(_) => Ok(()),
    }
}

/// Writes a whole file: a new one beside it first, so that no write is left half done.
pub fn write(path: &str, bytes: &[u8]) -> Outcome {
    if path == "-" {
        return write_output(bytes);
    }
    replace(Path::new(path), bytes).or_else(|error| refused(format!("{path}: {error}")))
}

/// Writes to standard output. A reader that wants no more, such as `head`, needs no message.
pub fn write_output(bytes: &[u8]) -> Outcome {
    let mut out = io::stdout().lock();
    match out.write_all(bytes).and_then(|()| out.flush()) {
        Ok(()) => Ok(()),
        Err(error) if error.kind() == io::ErrorKind::BrokenPipe => Err(Failure::Told),
        Err(error) => refused(format!("standard output: {error}")),
    }
}

fn replace(path: &Path, bytes: &[u8]) -> io::Result<()> {
    // A device or a link is written through, not replaced.
    if fs::symlink_metadata(path).is_ok_and(|metadata| !metadata.is_file()) {
        return fs::write(path, bytes);
    }
    let mut name = path.as_os_str().to_owned();
    name.push(format!(".{}.new", std::process::id()));
    let new = PathBuf::from(name);
    let moved = fs::write(&new, bytes).and_then(|()| {
        if let Ok(metadata) = fs::metadata(path) {
            fs::set_permissions(&new, metadata.permissions())?;
        }
        fs::rename(&new, path)
    });
    if moved.is_err() {
        let _ = fs::remove_file(&new);
    }
    moved
}

/// An EEPROM image of a good disc.
pub fn read_disc(path: &str) -> Outcome<Vec<u8>> {
    let disc = read_image(path)?;
    if kernel::free_space(&disc) >= 0 {
        return Ok(disc);
    }
    let clauses: Vec<String> = good::disc(&disc).iter().map(|clause| format!("\n  {clause}")).collect();
    refused(format!("{}: the disc is not good (refusal 2):{}", shown(path), clauses.concat()))
}

/// An EEPROM image, good or not.
pub fn read_image(path: &str) -> Outcome<Vec<u8>> {
    read_buffer(path, &[SHORT_DISC, LONG_DISC], "an EEPROM image has 1024 or 4096")
}

/// A work area, good or not.
pub fn read_area(path: &str) -> Outcome<Vec<u8>> {
    read_buffer(path, &[AREA_LEN], "a work area has 1056")
}

/// A file of one of some lengths.
fn read_buffer(path: &str, lengths: &[usize], expected: &str) -> Outcome<Vec<u8>> {
    let most = lengths.iter().copied().max().unwrap_or(0);
    let bytes = read_front(path, most as u64 + 1)?;
    match bytes.len() {
        length if lengths.contains(&length) => Ok(bytes),
        length if length > most => refused(format!("{}: more than {most} bytes; {expected}", shown(path))),
        length => refused(format!("{}: {length} bytes; {expected}", shown(path))),
    }
}
