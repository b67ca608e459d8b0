//! `arduinos disc ls`.

use super::refusal;
use crate::commands::arguments::{Given, Options};
use crate::commands::verdict::disc_summary;
use crate::failure::{refused, Outcome};
use crate::files;
use crate::layout::{entries, free_bytes, name_text};
use kernel::sizes::FILES_OUTPUT;
use std::fmt::Write;

pub const HELP: &str = "\
usage: arduinos disc ls IMAGE [-l]

Lists the files in order of storing, name and length, as the box does.

  -l, --long  a table with the place of each file, and the runs of free bytes
";

const OPTIONS: Options = Options { flags: &["-l", "--long"], valued: &[] };

pub fn main(arguments: &[String]) -> Outcome {
    let given = Given::read(arguments, &OPTIONS)?;
    let [image] = given.exactly(["IMAGE"])?;
    let disc = files::read_disc(image)?;
    if given.has("-l") || given.has("--long") {
        return files::write("-", table(&disc).as_bytes());
    }
    let mut out = [0; FILES_OUTPUT];
    let written = kernel::files(&disc, &mut out);
    match usize::try_from(written) {
        Ok(length) => files::write("-", &out[..length.min(FILES_OUTPUT)]),
        Err(_) => refused(refusal(&format!("{}: it is not listed", files::shown(image)), written)),
    }
}

/// Files in order of storing, then the free runs, then how much of the disc is taken.
fn table(disc: &[u8]) -> String {
    let mut text = String::from("entry  name         first   last  length\n");
    for entry in entries(disc) {
        let (name, last) = (name_text(entry.name), entry.end() - 1);
        let _ = writeln!(text, "{:>5}  {name:<11}  {:>5}  {last:>5}  {:>6}", entry.index, entry.start, entry.length);
    }
    for run in free_bytes(disc) {
        let _ = writeln!(text, "       {:<11}  {:>5}  {:>5}  {:>6}", "(free)", run.start, run.end - 1, run.len());
    }
    text + &disc_summary(disc) + "\n"
}
