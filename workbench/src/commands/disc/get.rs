//! `arduinos disc get`.

use super::refusal;
use crate::commands::arguments::{Given, Options};
use crate::failure::{misused, refused, Outcome};
use crate::files;
use crate::literal;

pub const HELP: &str = "\
usage: arduinos disc get IMAGE NAME [-o OUT]

Writes the bytes of a file to OUT, or to standard output.
";

const OPTIONS: Options = Options { flags: &[], valued: &["-o"] };

pub fn main(arguments: &[String]) -> Outcome {
    let given = Given::read(arguments, &OPTIONS)?;
    let [image, name] = given.exactly(["IMAGE", "NAME"])?;
    let out = given.value("-o")?.unwrap_or("-");
    if files::is_same(image, out) {
        return misused(format!("-o {out} would write over the image"));
    }
    let disc = files::read_disc(image)?;
    let mut bytes = vec![0; disc.len()];
    let number = kernel::retrieve(&disc, name.as_bytes(), &mut bytes);
    match usize::try_from(number) {
        Ok(length) => files::write(out, &bytes[..length.min(disc.len())]),
        Err(_) => {
            let (image, name) = (files::shown(image), literal::text(name.as_bytes()));
            refused(refusal(&format!("{image}: {name} is not read"), number))
        }
    }
}
