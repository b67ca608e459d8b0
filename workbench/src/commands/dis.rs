//! `arduinos dis`: a program as source text.

use super::arguments::{Given, Options};
use crate::dis;
use crate::failure::{misused, Outcome};
use crate::files;

pub const HELP: &str = "\
usage: arduinos dis FILE [-o OUT]

Shows a program as source text, which 'arduinos asm' assembles to the same bytes.

  -o OUT    write to OUT, not to standard output

An instruction a line; after ';' its offset, where it jumps to and what it cannot do. Lengths of IF, ELSE and WHILE
are shown as numbers. To change a routine, take the numbers off IF, ELSE and WHILE first: asm counts them then.
Bytes that are no instruction, and an instruction that the end of the program cuts off, are DATA.
A program on an EEPROM image is taken off it first: arduinos disc get.

Example: counts down.

INT 3                    ; 0
SET n                    ; 3
GET n                    ; 5
WHILE 2 8                ; 7     zero: to 19, else again from 5
GET n                    ; 10
PRINTLN                  ; 12
GET n                    ; 13
DECREMENT                ; 15
SET n                    ; 16
ENDWHILE                 ; 18
STOP                     ; 19
";

const OPTIONS: Options = Options { flags: &[], valued: &["-o"] };

pub fn main(arguments: &[String]) -> Outcome {
    let given = Given::read(arguments, &OPTIONS)?;
    let [file] = given.exactly(["FILE"])?;
    let out = given.value("-o")?.unwrap_or("-");
    if files::is_same(file, out) {
        return misused(format!("-o {out} would write over the program"));
    }
    let code = files::read(file)?;
    files::write(out, dis::disassemble(&code).as_bytes())
}
