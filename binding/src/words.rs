//! What the numbers of the kernel mean, in words (include/arduinos.h).

use crate::sizes::{LONG_MAX_DATA, MAX_DATA, MAX_NAME, MAX_SHARE, NAME_BYTES};

/// What a refusal means: the kernel's number, which is below 0.
pub fn refusal(number: i32) -> String {
    let words = match -number {
        1 => "a buffer of the wrong length",
        2 => "the disc is not good",
        3 => "the work area is not good, or not of this disc",
        4 => "the output is shorter than needed",
        5 => return bad_name(),
        6 => return bad_length(),
        7 => "the name exists already",
        8 => "there are ten files already",
        9 => "no run of free bytes is long enough",
        10 => "no such file",
        11 => "the file is in use",
        12 => "ten processes live already",
        13 => "all process IDs are used up",
        14 => "no live process of that ID",
        15 => "the process is in that state already",
        16 => "the slot does not run",
        22 => return format!("a share is 1 to {MAX_SHARE}"),
        _ => "an unknown refusal",
    };
    words.into()
}

fn bad_name() -> String {
    let (first, last) = (char::from(*NAME_BYTES.start()), char::from(*NAME_BYTES.end()));
    format!("a bad name: a name has 1 to {MAX_NAME} characters from '{first}' to '{last}', no space")
}

fn bad_length() -> String {
    format!("a file has at least 1 byte, and at most {MAX_DATA}, on a long disc {LONG_MAX_DATA}")
}

/// What a fault means: the number in an ended record.
pub fn fault(number: u8) -> &'static str {
    match number {
        0 => "no fault",
        1 => "no such instruction",
        2 => "the code ended",
        3 => "a jump outside the program, or ENDLOOP with no LOOP",
        4 => "a stack above 32 bytes",
        5 => "too few bytes on the stack",
        6 => "a type that is not taken here, or a malformed string",
        7 => "a whole divisor of zero",
        8 => "out of range: a conversion, a negative whole root, POW's y, or WHILE",
        9 => "no such variable",
        10 => "no variable entry, or no free memory in a row for the value",
        11 => "no open file",
        12 => "past the file's end",
        13 => "OPEN's new file was refused",
        _ => "an unknown fault",
    }
}
