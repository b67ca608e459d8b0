//! Wrong and doubtful sources: each message of the assembler with its line, its column and the caret.

mod random;

use random::Random;
use std::collections::BTreeSet;
use workbench::asm::{assemble, Diagnostic, Message};
use workbench::instruction::{Arguments, Instruction, TABLE};

fn errors(source: &[u8]) -> Vec<Diagnostic> {
    assemble(source).err().unwrap_or_else(|| panic!("{:?} is taken", String::from_utf8_lossy(source)))
}

fn warnings(source: &str) -> Vec<Diagnostic> {
    assemble(source.as_bytes()).unwrap_or_else(|errors| panic!("{source:?}: {errors:?}")).warnings
}

fn told(source: &[u8]) -> String {
    errors(source).iter().map(|error| error.render("f.asm")).collect()
}

/// A source with one error, the error's line and column, its message, and the caret.
const WRONG: &[(&str, &str, &str, &str)] = &[
    // Quotes and numbers.
    ("\"abc", "1:1", "expected a closing \", found the end of the line", "^~~~"),
    ("PLUS\n CHAR 'a", "2:7", "expected a closing ', found the end of the line", "      ^~"),
    ("\"a\\qb\"", "1:3", "expected \\n, \\t, \\r, \\0, \\\\, \\', \\\" or \\xHH, found \\q", "  ^~"),
    ("'\\x4'", "1:2", "expected \\n, \\t, \\r, \\0, \\\\, \\', \\\" or \\xHH, found \\x4", " ^~~"),
    ("\"\\", "1:2", "expected \\n, \\t, \\r, \\0, \\\\, \\', \\\" or \\xHH, found the end of the line", " ^"),
    (
        "\t\"caf\u{e9}\"",
        "1:6",
        "expected a printable ASCII character, found '\u{e9}'; write its bytes as \\xHH",
        "\t    ^",
    ),
    ("\"a\tb\"", "1:3", "expected a printable ASCII character, found U+0009; write its bytes as \\xHH", "  ^"),
    ("''", "1:1", "expected one character between the quotes, found 0", "^~"),
    ("CHAR 'abc'", "1:6", "expected one character between the quotes, found 3", "     ^~~~~"),
    ("12x", "1:1", "expected a number, found '12x'", "^~~"),
    ("- 7", "1:1", "expected a number, found '-'", "^"),
    ("+7", "1:1", "expected a number, found '+7'", "^~"),
    ("INT 0x", "1:5", "expected a number, found '0x'", "    ^~"),
    ("FLOAT 1.2.3", "1:7", "expected a number, found '1.2.3'", "      ^~~~~"),
    ("PLUS @", "1:6", "expected a word, a number or quotes, found '@'", "     ^"),
    ("1e39", "1:1", "expected a number that fits a FLOAT (at most 3.4028235e38), found 1e39", "^~~~"),
    (
        "FLOAT 400000000000000000000000000000000000000",
        "1:7",
        "expected a number that fits a FLOAT (at most 3.4028235e38), found 400000000000000000000000000000000000000",
        "      ^~~~~~~~~~~~~~~~~~~~~~~~~~~~~~~~~~~~~~~",
    ),
    ("32768", "1:1", "expected a whole number from -32768 to 32767, found 32768; with a point it is a FLOAT", "^~~~~"),
    (
        "99999999999999999999",
        "1:1",
        "expected a whole number from -32768 to 32767, found 99999999999999999999; with a point it is a FLOAT",
        "^~~~~~~~~~~~~~~~~~~~",
    ),
    // Lines.
    ("PRINTLM", "1:1", "expected an instruction, a literal or DATA, found 'PRINTLM'; did you mean PRINTLN?", "^~~~~~~"),
    ("  dta 1", "1:3", "expected an instruction, a literal or DATA, found 'dta'; did you mean DATA?", "  ^~~"),
    ("lamp", "1:1", "expected an instruction, a literal or DATA, found 'lamp'", "^~~~"),
    ("something", "1:1", "expected an instruction, a literal or DATA, found 'something'", "^~~~~~~~~"),
    (": STOP", "1:1", "expected an instruction, a literal or DATA, found ':'", "^"),
    ("-inf", "1:1", "expected an instruction, a literal or DATA, found '-inf'", "^~~~"),
    ("PLUS 3", "1:6", "expected the end of the line after PLUS, found 3", "     ^"),
    (
        "INT 300 println",
        "1:9",
        "expected the end of the line after INT, found the instruction PRINTLN",
        "        ^~~~~~~",
    ),
    ("'a' SET a", "1:5", "expected the end of the line after 'a', found the instruction SET", "    ^~~"),
    ("INT 1 2 3", "1:9", "expected the end of the line after INT, found 3", "        ^"),
    ("SET a b", "1:7", "expected the end of the line after SET, found 'b'", "      ^"),
    ("STRING \"a\" 0", "1:12", "expected the end of the line after STRING, found 0", "           ^"),
    ("a: b: STOP", "1:4", "expected an instruction, a literal or DATA, found 'b'", "   ^"),
    ("STOP: PLUS", "1:1", "expected a label in front of ':', found the instruction STOP", "^~~~"),
    ("a: PLUS\n\na: PLUS", "3:1", "expected a new label, found 'a', the label of line 1", "^"),
    // Arguments.
    (
        "CHAR 256",
        "1:6",
        "expected a number from -128 to 255, a 'c' or an instruction after CHAR, found 256",
        "     ^~~",
    ),
    (
        "CHAR -129",
        "1:6",
        "expected a number from -128 to 255, a 'c' or an instruction after CHAR, found -129",
        "     ^~~~",
    ),
    (
        "CHAR",
        "1:5",
        "expected a number from -128 to 255, a 'c' or an instruction after CHAR, found the end of the line",
        "    ^",
    ),
    ("INT 3.5", "1:5", "expected a whole number from -32768 to 32767, or two bytes, after INT, found 3.5", "    ^~~"),
    (
        "INT 0x10000",
        "1:5",
        "expected a whole number from -32768 to 32767, or two bytes, after INT, found 0x10000",
        "    ^~~~~~~",
    ),
    ("INT 1 256", "1:7", "expected a byte from 0 to 255 after INT, found 256", "      ^~~"),
    ("FLOAT \"1\"", "1:7", "expected a number, or four bytes, after FLOAT, found \"1\"", "      ^~~"),
    (
        "FLOAT 1 2 3 ; no more",
        "1:12",
        "expected a number, or four bytes, after FLOAT, found the end of the line",
        "           ^",
    ),
    ("FLOAT 1 2 3 -4", "1:13", "expected a byte from 0 to 255 after FLOAT, found -4", "            ^~"),
    ("FLOAT 1.5 2", "1:11", "expected the end of the line after FLOAT, found 2", "          ^"),
    ("FLOAT 0x10", "1:7", "expected a number, or four bytes, after FLOAT, found 0x10", "      ^~~~"),
    ("STRING abc", "1:8", "expected \"text\", or bytes up to a zero, after STRING, found 'abc'", "       ^~~"),
    ("STRING 'a' \"b\" 0", "1:12", "expected a byte from 0 to 255 after STRING, found \"b\"", "           ^~~"),
    ("STRING \"a\\0\"", "1:8", "expected text without a zero (STRING adds its own), found one", "       ^~~~~"),
    ("\"\\x00\"", "1:1", "expected text without a zero (STRING adds its own), found one", "^~~~~~"),
    ("STRING 'a' 0 0", "1:12", "expected a zero only at the end of STRING's bytes, found one before", "           ^"),
    (
        "STRING 'a' 'b'",
        "1:15",
        "expected a zero at the end of STRING's bytes, found the end of the line",
        "              ^",
    ),
    (
        "GET 256",
        "1:5",
        "expected a variable after GET (a letter, a 'c', a number from 0 to 255 or a name), found 256",
        "    ^~~",
    ),
    (
        "GET -inf",
        "1:5",
        "expected a variable after GET (a letter, a 'c', a number from 0 to 255 or a name), found '-inf'",
        "    ^~~~",
    ),
    (
        "SET min",
        "1:5",
        "expected a variable after SET, found the instruction MIN: that name cannot be a variable's",
        "    ^~~",
    ),
    ("GET data", "1:5", "expected a variable after GET, found DATA: that name cannot be a variable's", "    ^~~~"),
    ("IF a", "1:4", "expected a length from 0 to 255, or the end of the line, after IF, found 'a'", "   ^"),
    ("ELSE 256", "1:6", "expected a length from 0 to 255, or the end of the line, after ELSE, found 256", "     ^~~"),
    (
        "WHILE 256 1",
        "1:7",
        "expected two lengths from 0 to 255, a label, or the end of the line after WHILE, found 256",
        "      ^~~",
    ),
    (
        "WHILE 6",
        "1:8",
        "expected a second length from 0 to 255 (the body's) after WHILE 6, found the end of the line",
        "       ^",
    ),
    (
        "WHILE 6 here",
        "1:9",
        "expected a second length from 0 to 255 (the body's) after WHILE 6, found 'here'",
        "        ^~~~",
    ),
    (
        "GET n\nWHILE later\nlater: ENDWHILE",
        "2:7",
        "expected the label of an earlier line after WHILE, found 'later'",
        "      ^~~~~",
    ),
    (
        "GET n\nhere: WHILE here\nENDWHILE",
        "2:13",
        "expected the label of an earlier line after WHILE, found 'here'",
        "            ^~~~",
    ),
    (
        "DATA 1 256",
        "1:8",
        "expected bytes after DATA (0 to 255, a 'c', \"text\" or an instruction), found 256",
        "       ^~~",
    ),
    (
        "DATA",
        "1:5",
        "expected bytes after DATA (0 to 255, a 'c', \"text\" or an instruction), found the end of the line",
        "    ^",
    ),
    // Blocks.
    ("GET n\n  IF\nPLUS", "2:3", "expected ENDIF for this IF, found the end of the source", "  ^~"),
    ("IF\nELSE", "2:1", "expected ENDIF for this ELSE, found the end of the source", "^~~~"),
    ("GET n\nWHILE", "2:1", "expected ENDWHILE for this WHILE, found the end of the source", "^~~~~"),
    (
        "GET n\nWHILE\nENDIF",
        "3:1",
        "expected ENDWHILE for the WHILE of line 2, found ENDIF; \
         an ENDIF that only takes a number off the stack is written DATA ENDIF",
        "^~~~~",
    ),
    (
        "IF\nENDIF\nGET n\nWHILE\nENDIF\nENDWHILE",
        "5:1",
        "expected ENDWHILE for the WHILE of line 4, found ENDIF; \
         an ENDIF that only takes a number off the stack is written DATA ENDIF",
        "^~~~~",
    ),
    (
        "GET n\nWHILE\nGET n\nIF\nFORK\nENDIF\nENDIF\nENDWHILE",
        "7:1",
        "expected ENDWHILE for the WHILE of line 2, found ENDIF (the IF of line 4 ended in line 6); \
         an ENDIF that only takes a number off the stack is written DATA ENDIF",
        "^~~~~",
    ),
    (
        "GET n\nIF\nENDWHILE\nENDIF",
        "3:1",
        "expected ENDIF for the IF of line 2, found ENDWHILE; \
         an ENDWHILE that only takes a byte off the stack is written DATA ENDWHILE",
        "^~~~~~~~",
    ),
    ("IF\nGET n\nWHILE\nELSE\nENDIF", "4:1", "expected ENDWHILE for the WHILE of line 3, found ELSE", "^~~~"),
    (
        "GET n\nWHILE\nGET n\nIF\nFORK\nENDIF\nELSE\nENDIF\nENDWHILE",
        "7:1",
        "expected ENDWHILE for the WHILE of line 2, found ELSE (the IF of line 4 ended in line 6); \
         an ENDIF that only takes a number off the stack is written DATA ENDIF",
        "^~~~",
    ),
    ("IF\nELSE\nELSE 3\nENDIF", "3:1", "expected ENDIF for the ELSE of line 2, found another ELSE", "^~~~"),
    ("IF\nELSE\nELSE\nENDIF", "3:1", "expected ENDIF for the ELSE of line 2, found another ELSE", "^~~~"),
    ("IF 0\nELSE 3\nELSE\nENDIF", "3:1", "expected ENDIF for the ELSE of line 2, found another ELSE", "^~~~"),
    ("ELSE\nENDIF", "1:1", "expected an open IF before this ELSE, or a length after it, found neither", "^~~~"),
    (
        "GET n\nIF\nFORK\nENDIF\nELSE\nENDIF",
        "5:1",
        "expected an open IF before this ELSE, or a length after it, found neither (the IF of line 2 ended in line 4); \
         an ENDIF that only takes a number off the stack is written DATA ENDIF",
        "^~~~",
    ),
    (
        "WHILE\nENDWHILE",
        "1:1",
        "expected a condition before WHILE that leaves one value, found the beginning of the source",
        "^~~~~",
    ),
    (
        "GET n\nPLUS\nWHILE\nENDWHILE",
        "3:1",
        "expected a condition before WHILE that leaves one value, found the beginning of the source",
        "^~~~~",
    ),
];

/// A source with one warning, as the table above.
const DOUBTFUL: &[(&str, &str, &str, &str)] = &[
    (
        "GET n\nIF\nFORK\nENDIF\nPLUS\n  endif",
        "6:3",
        "this ENDIF closes no IF (the IF of line 2 ended in line 4); \
         an ENDIF that only takes a number off the stack is written DATA ENDIF",
        "  ^~~~~",
    ),
    (
        "IF\nELSE\nENDIF\nENDIF",
        "4:1",
        "this ENDIF closes no IF (the ELSE of line 2 ended in line 3); \
         an ENDIF that only takes a number off the stack is written DATA ENDIF",
        "^~~~~",
    ),
    (
        "FORK\nENDIF\nGET n\nWHILE\nENDWHILE",
        "2:1",
        "this ENDIF closes no IF; an ENDIF that only takes a number off the stack is written DATA ENDIF",
        "^~~~~",
    ),
    (
        "GET n\nWHILE\nENDWHILE\nENDWHILE",
        "4:1",
        "this ENDWHILE closes no WHILE (the WHILE of line 2 ended in line 3); \
         an ENDWHILE that only takes a byte off the stack is written DATA ENDWHILE",
        "^~~~~~~~",
    ),
    // Only of a block whose lengths are counted it is told where it ended.
    (
        "IF 1\nPLUS\nENDIF\nENDIF\nIF\nENDIF",
        "4:1",
        "this ENDIF closes no IF; an ENDIF that only takes a number off the stack is written DATA ENDIF",
        "^~~~~",
    ),
    ("ELSE 3\nIF\nENDIF\nENDIF", "1:1", "this ELSE closes no IF", "^~~~"),
    (
        "IF\nFORK\nENDIF\nELSE 1\nPLUS\nENDIF",
        "4:1",
        "this ELSE closes no IF (the IF of line 1 ended in line 3); \
         an ENDIF that only takes a number off the stack is written DATA ENDIF",
        "^~~~",
    ),
    // Given lengths.
    (
        "GET n\n IF 2\n300\nELSE 1\nPLUS\nENDIF",
        "2:2",
        "IF 2 does not lead to its ELSE of line 4, 3 bytes on; without a number the length is counted",
        " ^~",
    ),
    (
        "GET n\nIF 0\nelse 2\nPLUS\nENDIF",
        "3:1",
        "ELSE 2 does not lead to its ENDIF of line 5, 1 byte on; without a number the length is counted",
        "^~~~",
    ),
    (
        "GET n\nIF\nIF 0\nPLUS\nENDIF\nENDIF",
        "3:1",
        "IF 0 does not lead to its ENDIF of line 5, 1 byte on; without a number the length is counted",
        "^~",
    ),
    (
        "GET n\nWHILE 2 4\nGET n\n\nPRINTLN\nENDWHILE",
        "2:1",
        "WHILE 2 4: its body up to the ENDWHILE of line 6 has 3 bytes; without numbers the lengths are counted",
        "^~~~~",
    ),
    (
        "GET n\nIF 3\nELSE 1\nPLUS\nENDIF",
        "2:1",
        "IF 3 does not lead to its ELSE of line 3, 0 bytes on; without a number the length is counted",
        "^~",
    ),
    // What dis makes of DATA ENDIF and DATA ENDWHILE inside a block.
    (
        "GET n\nIF 2\nFORK\nENDIF\nELSE 0\nENDIF",
        "2:1",
        "IF 2 does not lead to its ENDIF of line 4, 1 byte on; without a number the length is counted; \
         an ENDIF that only takes a number off the stack is written DATA ENDIF",
        "^~",
    ),
    (
        "GET n\nWHILE 2 1\nENDWHILE\nENDWHILE",
        "2:1",
        "WHILE 2 1: its body up to the ENDWHILE of line 3 has 0 bytes; without numbers the lengths are counted; \
         an ENDWHILE that only takes a byte off the stack is written DATA ENDWHILE",
        "^~~~~",
    ),
    (
        "GET n\nWHILE 2 1\nENDWHILE\nENDIF",
        "2:1",
        "WHILE 2 1: its body up to the ENDWHILE of line 3 has 0 bytes; without numbers the lengths are counted",
        "^~~~~",
    ),
    (
        "GET n\nWHILE 200 52",
        "2:1",
        "WHILE 200 52: condition and body together are at most 251 bytes; \
         on a value that is not zero it ends by fault 8",
        "^~~~~",
    ),
    (
        "WHILE 255 255\nENDWHILE",
        "1:1",
        "WHILE 255 255: condition and body together are at most 251 bytes; \
         on a value that is not zero it ends by fault 8",
        "^~~~~",
    ),
    // What ends by a fault.
    ("GET n\n pinmode ; a pin", "2:2", "PINMODE is not built: the box ends the process by fault 1 here", " ^~~~~~~"),
    (
        "\"123456789012345678901234567890\"",
        "1:1",
        "a STRING of 31 bytes and its length and type do not fit a stack of 32 bytes: fault 4",
        "^~~~~~~~~~~~~~~~~~~~~~~~~~~~~~~~",
    ),
    ("SET count\n GET counts\nGET counts", "2:6", "counts is never SET: GET ends by fault 9", "     ^~~~~~"),
    ("PRINTLN\n endloop", "2:2", "the source has no LOOP: ENDLOOP ends by fault 3", " ^~~~~~~"),
];

/// Instructions that a condition is not counted over.
const UNCLEAR: [&str; 11] =
    ["IF 0", "ELSE 0", "ENDIF", "WHILE 0 0", "ENDWHILE", "LOOP", "ENDLOOP", "STOP", "DATA 6", "DIGITALREAD", "DELAY"];

/// The line that a place is in.
fn line_at<'a>(source: &'a str, place: &str) -> &'a str {
    let line: usize = place.split(':').next().unwrap_or("").parse().unwrap();
    source.lines().nth(line - 1).unwrap()
}

#[test]
fn every_wrong_source_is_told() {
    for (source, place, message, caret) in WRONG {
        let text = line_at(source, place);
        assert_eq!(told(source.as_bytes()), format!("f.asm:{place}: {message}\n{text}\n{caret}\n"), "{source}");
    }
}

#[test]
fn every_doubtful_source_is_warned_of() {
    for (source, place, message, caret) in DOUBTFUL {
        let text = line_at(source, place);
        let told: String = warnings(source).iter().map(|warning| warning.render("f.asm")).collect();
        assert_eq!(told, format!("f.asm:{place}: warning: {message}\n{text}\n{caret}\n"), "{source}");
    }
}

#[test]
fn sources_without_warnings() {
    for source in [
        // All lengths are given: any shape may be meant.
        "ENDIF\nENDWHILE\nELSE 3\nIF 0\nENDIF\nENDIF",
        "IF 3\nWHILE 2 249\nELSE 9\nPRINTLN",
        "IF 0\nELSE 7\nELSE 1\nPLUS\nENDIF",
        "GET n\nWHILE 2 0\nENDWHILE",
        // What is written as bytes is no end of a block.
        "GET n\nIF\nFORK\nDATA ENDIF\nELSE\nDATA ENDIF ENDWHILE PINMODE\nENDIF",
        "GET n\nWHILE\nGET n\nIF 1\nPLUS\nENDIF\nENDWHILE\nCHAR DELAY",
        "\"12345678901234567890123456789\"\nDATA \"123456789012345678901234567890\"",
        // A SET or a LOOP that comes later in the source may be executed before.
        "GET count\nSET count\nGET n\nENDLOOP\nLOOP",
    ] {
        assert_eq!(warnings(source), [], "{source}");
    }
}

/// Every instruction that is not built, and no other; a source with errors has no warnings.
#[test]
fn instructions_that_are_not_built_are_warned_of() {
    let source: String = TABLE.iter().map(|found| format!("DATA 1 {0}\nCHAR {0}\n", found.mnemonic)).collect();
    assert_eq!(warnings(&source), []);
    let given = |found: &Instruction| match found.arguments {
        Arguments::None => "",
        Arguments::Text => "\"\"",
        Arguments::Lengths => "1 0",
        Arguments::Length => "0",
        _ => "1",
    };
    let source: String = TABLE.iter().map(|found| format!("{} {}\n", found.mnemonic, given(found))).collect();
    let warned: Vec<String> = warnings(&source).iter().map(|warning| warning.text.trim().to_string()).collect();
    assert_eq!(warned, ["DELAY", "PINMODE", "ANALOGREAD", "ANALOGWRITE", "DIGITALREAD", "DIGITALWRITE"]);
    let names: Vec<&str> = errors(b"DELAY\nDELAY 1\n").iter().map(|error| error.problem.message.name()).collect();
    assert_eq!(names, ["EndOfLine"]);
}

#[test]
fn control_characters_are_not_sent_to_the_terminal() {
    let expected = "f.asm:1:1: expected a word, a number or quotes, found 'a\\u{7}b'\na\u{fffd}b\n^~~\n";
    assert_eq!(told(b"a\x07b"), expected);
}

#[test]
fn conditions_that_cannot_be_counted() {
    for instruction in UNCLEAR {
        let name = instruction.split(' ').next().unwrap_or("");
        let source = format!("GET n\n{instruction}\nCLOSE\nWHILE\nENDWHILE");
        let expected = format!(
            "f.asm:4:1: expected a condition of plain instructions before WHILE, found {name} in line 2; \
             put a label where the condition begins: WHILE label\nWHILE\n^~~~~\n"
        );
        assert_eq!(told(source.as_bytes()), expected);
    }
}

/// Sources that are too long, or have too many names, for the table.
fn long_sources() -> [(String, String); 4] {
    let data = |count: usize| "DATA 1\n".repeat(count);
    let numbers: String = (0..=255).map(|byte| format!("SET {byte}\n")).collect();
    [
        (
            format!("IF\n{}ELSE\nENDIF", data(256)),
            "f.asm:1:1: expected at most 255 bytes between IF and ELSE, found 256\nIF\n^~\n".into(),
        ),
        (
            format!("IF 0\n ELSE\n{}ENDIF", data(300)),
            "f.asm:2:2: expected at most 255 bytes between ELSE and ENDIF, found 300\n ELSE\n ^~~~\n".into(),
        ),
        (
            format!("GET n\nWHILE\n{}ENDWHILE", data(250)),
            "f.asm:2:1: expected at most 251 bytes of condition and body together, found 252; \
             WHILE would end by fault 8\nWHILE\n^~~~~\n"
                .into(),
        ),
        (
            format!("{numbers}GET more\nSET more\nSET n"),
            "f.asm:257:5: expected at most 256 variables, found one more: 'more'\nGET more\n    ^~~~\n\
             f.asm:258:5: expected at most 256 variables, found one more: 'more'\nSET more\n    ^~~~\n"
                .into(),
        ),
    ]
}

#[test]
fn what_is_too_much_is_told() {
    for (source, expected) in long_sources() {
        assert_eq!(told(source.as_bytes()), expected);
    }
}

const NOT_TEXT: [(&[u8], &str); 2] = [
    (b"\xff\xfeP\0", "f.asm:1:1: expected text in UTF-8, found the byte 255\n\u{fffd}\u{fffd}P\u{fffd}\n^\n"),
    (
        b"PLUS\r\n; \xc3\xa9 \xe9!\r\nPLUS",
        "f.asm:2:5: expected text in UTF-8, found the byte 233\n; \u{e9} \u{fffd}!\n    ^\n",
    ),
];

#[test]
fn what_is_no_text_is_told() {
    for (source, expected) in NOT_TEXT {
        assert_eq!(told(source), expected);
    }
}

#[test]
fn all_messages_are_reached() {
    let mut sources: Vec<Vec<u8>> = WRONG.iter().map(|(source, ..)| source.as_bytes().to_vec()).collect();
    sources.push(b"GET n\nSTOP\nWHILE\nENDWHILE".to_vec());
    sources.extend(long_sources().map(|(source, _)| source.into_bytes()));
    sources.extend(NOT_TEXT.map(|(source, _)| source.to_vec()));
    let wrong = sources.iter().flat_map(|source| errors(source));
    let doubtful = DOUBTFUL.iter().flat_map(|(source, ..)| warnings(source));
    let reached: BTreeSet<&str> = wrong.chain(doubtful).map(|found| found.problem.message.name()).collect();
    let all: BTreeSet<&str> = Message::NAMES.iter().copied().collect();
    assert_eq!(reached, all);
}

#[test]
fn every_wrong_line_is_told_once_and_in_order() {
    let source = "IF\nINT 70000 'a\nSET\nPRINTLM\nENDIFF\na: STOP\na: PLUS 1\nWHILE 1\nfoo\nWHILE\nENDWHILE\nIF\nSTOP";
    let lines: Vec<(usize, &str)> =
        errors(source.as_bytes()).iter().map(|error| (error.line, error.problem.message.name())).collect();
    let expected = [
        (2, "Unclosed"),
        (3, "Variable"),
        (4, "Instruction"),
        (5, "Instruction"),
        (7, "EndOfLine"),
        (8, "SecondLength"),
        (9, "Instruction"),
        (12, "NoEnd"),
    ];
    assert_eq!(lines, expected);
}

/// Words, halves of words and strange characters.
#[rustfmt::skip]
const SOUP: &[&str] = &[
    "IF", "ELSE", "ENDIF", "WHILE", "ENDWHILE", "GET", "SET", "n", "name", "a:", ":", "INT", "FLOAT", "STRING",
    "CHAR", "DATA", "1", "-1", "0x", "0xFF", "300", "1.5", "1e99", "nan", "-inf", "\u{2212}", "'a'", "'", "\"",
    "\"ab\"", "\\", "\\x", ";", "#", "//", "/", "\u{e9}", "\u{1F600}", "\0", "\t", "\r", "\u{a0}", "PLUS", "PLSU",
    "_", "\n", "\n", "\n",
];

/// Any of them in any order: it ends with a program, or with places that are there.
#[test]
fn places_are_inside_the_source() {
    let mut random = Random(5);
    let mut wrong = 0;
    for _ in 0..20000 {
        let mut source = String::new();
        for _ in 0..random.below(12) {
            source += random.pick(SOUP);
            source += random.pick(&["", " ", " ", "\n"]);
        }
        let Err(errors) = assemble(source.as_bytes()) else { continue };
        wrong += 1;
        assert!(errors.windows(2).all(|pair| pair[0].line < pair[1].line), "{source:?}");
        for error in &errors {
            let line = source.lines().nth(error.line - 1).unwrap_or_else(|| panic!("{source:?}"));
            let (first, width) = (error.problem.column, error.problem.width);
            assert_eq!(error.text, line);
            assert!(first >= 1 && width >= 1 && first + width <= line.chars().count() + 2, "{source:?}: {error:?}");
            assert_eq!(error.render("f").lines().count(), 3, "{source:?}");
        }
    }
    assert!(wrong > 5000, "{wrong}");
}

#[test]
fn random_bytes_do_no_harm() {
    let mut random = Random(6);
    for _ in 0..3000 {
        let mut source = vec![0; random.below(40)];
        random.fill(&mut source);
        if let Err(errors) = assemble(&source) {
            errors.iter().for_each(|error| assert!(error.render("f").starts_with("f:")));
        }
    }
}
