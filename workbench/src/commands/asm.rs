//! `arduinos asm`: a source text becomes a program.

use super::arguments::{Given, Options};
use crate::asm::{self, Diagnostic, Program};
use crate::failure::{misused, Failure, Outcome};
use crate::files;
use crate::layout::DATA_START;
use kernel::sizes::{LONG_DISC, SHORT_DISC};

pub const HELP: &str = r#"usage: arduinos asm FILE [-o OUT] [--list]

Assembles a source text. Without -o, NAME.asm gives the file NAME beside it. With errors nothing is written;
with warnings the program is.

  -o OUT    write the program to OUT
  --list    print offsets, bytes and source lines; without -o nothing is written

A line:  [LABEL:] [INSTRUCTION | LITERAL | DATA BYTES] [; COMMENT]       (# and // begin comments too)
Instructions are those of the guide's appendix C, in capitals or small letters.

  -7  3.5  'a'  "text"     a literal alone is pushed: as INT, FLOAT, CHAR, STRING
  CHAR 97  CHAR 'a'        -128 to 255, a character, an instruction's number (CHAR STOP), or LED_BUILTIN, OUTPUT, INPUT
  INT 300  INT 1 44        -32768 to 32767, 0 to 0xFFFF, or two bytes, the high one first
  FLOAT 3.5  FLOAT nan     a number, nan, inf, -inf, or four bytes
  STRING "Hi"              text, its zero is added; or bytes with the zero: STRING 'H' 'i' 0
  SET n  GET hours         a letter is that byte, as is 'n' or 110; a longer name is given a byte that is free:
                           one of its letters, else another one (--list shows which)
  IF .. ELSE .. ENDIF      the lengths are counted; or IF 7 and ELSE 8 give them
  condition WHILE .. ENDWHILE
                           the lengths are counted, the condition being the shortest run of instructions before
                           WHILE that leaves one value; WHILE LABEL begins it at a label; WHILE 6 8 gives both
  DATA ENDIF               takes a number off the stack inside a block, where ENDIF would be the block's end
  DATA 1 'a' "text" STOP   bytes as they are
Escapes in quotes: \n \t \r \0 \\ \' \" \xHH

Example: counts down.

         INT 3
         SET count
         GET count
         WHILE               ; zero: past ENDWHILE
         GET count
         PRINTLN
         GET count
         DECREMENT
         SET count
         ENDWHILE            ; back to GET count
         STOP
"#;

const OPTIONS: Options = Options { flags: &["--list"], valued: &["-o"] };

/// The longest file of a short and of a long disc.
const SHORT_MAX: usize = SHORT_DISC - DATA_START;
const LONG_MAX: usize = LONG_DISC - DATA_START;

pub fn main(arguments: &[String]) -> Outcome {
    let given = Given::read(arguments, &OPTIONS)?;
    let [file] = given.exactly(["FILE"])?;
    let lists = given.has("--list");
    let out = output(file, given.value("-o")?, lists)?;
    let source = files::read(file)?;
    let program = asm::assemble(&source).map_err(|errors| {
        tell(file, &errors);
        Failure::Told
    })?;
    tell(file, &program.warnings);
    warn_of_length(file, &program);
    if let Some(out) = out {
        files::write(&out, &program.bytes)?;
    }
    if lists {
        files::write("-", asm::listing(&program, &source).as_bytes())?;
    }
    Ok(())
}

/// Where the program goes; nowhere if it is only listed.
fn output(file: &str, given: Option<&str>, lists: bool) -> Outcome<Option<String>> {
    match given {
        Some("-") if lists => misused("--list and -o - would both write to standard output"),
        Some(out) if files::is_same(file, out) => misused(format!("-o {out} would write over the source")),
        Some(out) => Ok(Some(out.to_string())),
        None if lists => Ok(None),
        None => beside(file).map(Some),
    }
}

/// The file NAME beside NAME.asm.
fn beside(file: &str) -> Outcome<String> {
    let why = match file.strip_suffix(".asm") {
        _ if file == "-" => "standard input has no name".to_string(),
        None => format!("{file} does not end in .asm"),
        Some(out) if out.is_empty() || out.ends_with('/') => format!("there is no name before .asm in {file}"),
        Some(out) => return Ok(out.to_string()),
    };
    misused(format!("-o OUT is missing: {why}"))
}

fn tell(file: &str, diagnostics: &[Diagnostic]) {
    for diagnostic in diagnostics {
        files::tell(&diagnostic.render(files::shown(file)));
    }
}

/// A program that no disc takes, or only a long one, is written all the same: `asm` of `dis` is every byte string.
fn warn_of_length(file: &str, program: &Program) {
    let length = program.bytes.len();
    let why = match length {
        0 => "no disc takes a file without bytes".to_string(),
        1..=SHORT_MAX => return,
        _ if length <= LONG_MAX => format!("above {SHORT_MAX} only a long disc takes it"),
        _ => format!("no disc takes a file above {LONG_MAX}"),
    };
    files::tell(&format!("arduinos asm: warning: {}: {length} bytes; {why}\n", files::shown(file)));
}
