//! `arduinos disc check`.

use crate::commands::arguments::{Given, Options};
use crate::commands::verdict;
use crate::failure::{misused, Outcome};
use crate::files;

pub const HELP: &str = "\
usage: arduinos disc check IMAGE [--area FILE]

Says whether the disc is good, and if not what is wrong: each broken clause of a good disc on a line of
standard output, exit status 1. A disc that is not good is refused by the box (refusal 2).

  --area FILE  a work area of 1056 bytes that was read out with it: whether it is good, and of this disc
               (refusal 3)
";

const OPTIONS: Options = Options { flags: &[], valued: &["--area"] };

pub fn main(arguments: &[String]) -> Outcome {
    let given = Given::read(arguments, &OPTIONS)?;
    let [image] = given.exactly(["IMAGE"])?;
    let area = given.value("--area")?;
    if image == "-" && area == Some("-") {
        return misused("standard input cannot be both IMAGE and the work area");
    }
    let disc = files::read_image(image)?;
    let area = area.map(files::read_area).transpose()?;
    let mut verdicts = vec![verdict::of_disc(&disc)];
    verdicts.extend(area.map(|area| verdict::of_area(&disc, &area)));
    verdict::write("", &verdicts)
}
