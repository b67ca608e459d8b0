//! `arduinos disc new`.

use super::refusal;
use crate::commands::arguments::{Given, Options};
use crate::failure::{refused, Outcome};
use crate::files;
use kernel::sizes::{AREA_LEN, LONG_DISC, SHORT_DISC};
use std::fs;

pub const HELP: &str = "\
usage: arduinos disc new IMAGE [--long] [--force]

Makes the image of an empty disc, as the kernel formats it.

  --long   4096 bytes, for the jib box; else 1024, for the hoist box
  --force  replace a file that is there already
";

const OPTIONS: Options = Options { flags: &["--long", "--force"], valued: &[] };

pub fn main(arguments: &[String]) -> Outcome {
    let given = Given::read(arguments, &OPTIONS)?;
    let [image] = given.exactly(["IMAGE"])?;
    if image != "-" && !given.has("--force") && fs::symlink_metadata(image).is_ok() {
        return refused(format!("{image}: it is there already; --force replaces it"));
    }
    let mut disc = vec![0; if given.has("--long") { LONG_DISC } else { SHORT_DISC }];
    let number = kernel::format(&mut disc, &mut [0; AREA_LEN]);
    if number < 0 {
        return refused(refusal(&format!("{image}: it is not made"), number));
    }
    files::write(image, &disc)
}
