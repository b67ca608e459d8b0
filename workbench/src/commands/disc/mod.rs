//! `arduinos disc`: files on an EEPROM image. On any refusal nothing is written.

pub mod check;
pub mod get;
pub mod ls;
pub mod new;
pub mod put;
pub mod rm;

use crate::failure::{misused, Outcome};
use kernel::sizes::AREA_LEN;
use kernel::words;

pub const HELP: &str = "\
usage: arduinos disc COMMAND IMAGE ..

Makes, reads and changes EEPROM images: 1024 bytes of the hoist box, 4096 of the jib box.

  new IMAGE             make an empty image
  ls IMAGE              list the files
  put IMAGE FILE ..     store files
  get IMAGE NAME        read a file
  rm IMAGE NAME ..      erase files
  check IMAGE           say what is wrong with a damaged image

'arduinos disc COMMAND --help' tells more.
An image named - is read from standard input, and written to standard output when it is changed.
On any refusal nothing is written.
";

/// Reached where no subcommand's name follows.
pub fn main(arguments: &[String]) -> Outcome {
    match arguments.first() {
        None => misused("new, ls, put, get, rm or check is missing"),
        Some(word) => misused(format!("there is no command 'disc {word}'")),
    }
}

/// Where the kernel refuses: what is not done, the number and why.
fn refusal(what: &str, number: i32) -> String {
    format!("{what} (refusal {}): {}", -number, words::refusal(number))
}

/// A work area without processes.
fn booted_area() -> Vec<u8> {
    let mut area = vec![0; AREA_LEN];
    kernel::boot(&mut area);
    area
}
