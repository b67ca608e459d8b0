//! `arduinos disc rm`.

use super::{booted_area, refusal};
use crate::commands::arguments::{Given, Options};
use crate::failure::{misused, refused, Outcome};
use crate::files;
use crate::literal;

pub const HELP: &str = "\
usage: arduinos disc rm IMAGE NAME ..

Erases files: all that are named, or none if one is not there.
Their data bytes stay on the disc until something is stored over them.
";

const OPTIONS: Options = Options { flags: &[], valued: &[] };

pub fn main(arguments: &[String]) -> Outcome {
    let given = Given::read(arguments, &OPTIONS)?;
    let Some((image, names)) = given.operands.split_first() else { return misused("IMAGE is missing") };
    if names.is_empty() {
        return misused("NAME is missing");
    }
    let mut disc = files::read_disc(image)?;
    for name in names {
        let number = kernel::erase(&mut disc, &booted_area(), name.as_bytes());
        if number < 0 {
            let (image, name) = (files::shown(image), literal::text(name.as_bytes()));
            return refused(refusal(&format!("{image}: {name} is not erased"), number));
        }
    }
    files::write(image, &disc)
}
