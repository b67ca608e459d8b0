//! `arduinos area`.

use super::arguments::{Given, Options};
use super::verdict;
use crate::failure::{misused, Outcome};
use crate::files;
use crate::readout;

pub const HELP: &str = "\
usage: arduinos area FILE [--disc IMAGE]

Reads out a work area of 1056 bytes: each process with its stack as values, bottom first, the variables, and
variable memory as a picture, a letter for each variable. Then what is wrong with it, if anything: exit status 1.

  --disc IMAGE  the EEPROM image that the processes were started from; it shows the instruction at PC and
                the names of open files, and the work area is checked against it
";

const OPTIONS: Options = Options { flags: &[], valued: &["--disc"] };

pub fn main(arguments: &[String]) -> Outcome {
    let given = Given::read(arguments, &OPTIONS)?;
    let [path] = given.exactly(["FILE"])?;
    let image = given.value("--disc")?;
    if path == "-" && image == Some("-") {
        return misused("standard input cannot be both FILE and IMAGE");
    }
    let area = files::read_area(path)?;
    let disc = image.map(files::read_image).transpose()?;
    let verdicts = match &disc {
        None => vec![verdict::of_area_alone(&area, "--disc checks it beside its disc")],
        Some(disc) => vec![verdict::of_disc(disc), verdict::of_area(disc, &area)],
    };
    verdict::write(&format!("{}\n", readout::text(&area, disc.as_deref())), &verdicts)
}
