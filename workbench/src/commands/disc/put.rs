//! `arduinos disc put`.

use super::{booted_area, refusal};
use crate::commands::arguments::{Given, Options};
use crate::failure::{misused, refused, Outcome};
use crate::files;
use crate::layout::DATA_START;
use crate::literal;
use kernel::sizes::LONG_DISC;
use std::path::Path;

pub const HELP: &str = "\
usage: arduinos disc put IMAGE FILE .. [--as NAME] [--replace]

Stores files, each under the last part of its path: all that are given, or none if one is refused.
A name has 1 to 11 characters from '!' to '~', no space.

  --as NAME  the name on the disc, of a single FILE; needed where FILE is -
  --replace  erase files of these names first
";

const OPTIONS: Options = Options { flags: &["--replace"], valued: &["--as"] };

/// A file to be stored.
struct Item<'a> {
    path: &'a str,
    name: String,
    data: Vec<u8>,
}

pub fn main(arguments: &[String]) -> Outcome {
    let given = Given::read(arguments, &OPTIONS)?;
    let Some((image, paths)) = given.operands.split_first() else { return misused("IMAGE is missing") };
    let names = names(paths, given.value("--as")?)?;
    if image == "-" && paths.iter().any(|path| path == "-") {
        return misused("standard input cannot be both IMAGE and FILE");
    }
    let mut disc = files::read_disc(image)?;
    let mut items = Vec::new();
    for (path, name) in paths.iter().zip(names) {
        items.push(Item { path, name, data: read(path)? });
    }
    if given.has("--replace") {
        for item in &items {
            // Refused where there is no such file: nothing has to go then.
            kernel::erase(&mut disc, &booted_area(), item.name.as_bytes());
        }
    }
    for (index, item) in items.iter().enumerate() {
        let number = kernel::store(&mut disc, item.name.as_bytes(), &item.data);
        if number < 0 {
            return refused(not_stored(number, item, &items[..index], &disc));
        }
    }
    files::write(image, &disc)
}

/// The bytes of a file, or the first of them if no disc takes so many: the kernel then refuses these.
fn read(path: &str) -> Outcome<Vec<u8>> {
    files::read_front(path, LONG_DISC as u64)
}

/// The names on the disc.
fn names(paths: &[String], given: Option<&str>) -> Outcome<Vec<String>> {
    match (paths, given) {
        ([], _) => misused("FILE is missing"),
        ([_], Some(name)) => Ok(vec![name.to_string()]),
        (_, Some(_)) => misused("--as names a single FILE"),
        _ => paths.iter().map(|path| last_part(path)).collect(),
    }
}

fn last_part(path: &str) -> Outcome<String> {
    if path == "-" {
        return misused("--as NAME is needed for standard input");
    }
    let name = Path::new(path).file_name().map(|name| name.to_string_lossy().into_owned());
    name.map_or_else(|| misused(format!("{path} has no last part; --as gives a name")), Ok)
}

/// Why the kernel does not store a file on the disc as it is after the earlier ones, and what helps.
fn not_stored(number: i32, item: &Item, earlier: &[Item], disc: &[u8]) -> String {
    let helps = match -number {
        5 => "; --as gives another name".to_string(),
        6 => {
            let more = if item.data.len() == LONG_DISC { " or more" } else { "" };
            format!("; this one has {}{more}, and the disc takes {}", item.data.len(), disc.len() - DATA_START)
        }
        7 if earlier.iter().any(|other| other.name == item.name) => "; the name is given twice".into(),
        7 => "; --replace erases the old file first".into(),
        8 => "; 'arduinos disc rm' erases one".into(),
        9 => format!("; the file has {}, the longest free run {}", item.data.len(), kernel::free_space(disc)),
        _ => String::new(),
    };
    let (path, name) = (files::shown(item.path), literal::text(item.name.as_bytes()));
    refusal(&format!("{path}: not stored as {name}"), number) + &helps
}
