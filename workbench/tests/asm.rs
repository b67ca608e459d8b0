//! The assembler and the disassembler: every byte string comes back, the guides' programs, names, counted lengths.

mod random;

use random::Random;
use std::collections::BTreeSet;
use std::path::{Path, PathBuf};
use workbench::asm::{assemble, listing, Program};
use workbench::dis::{disassemble, instruction_text};
use workbench::instruction::{self, Arguments, TABLE};

fn assembled(source: &str) -> Program {
    assemble(source.as_bytes()).unwrap_or_else(|errors| {
        let told: String = errors.iter().map(|error| error.render("source")).collect();
        panic!("{told}")
    })
}

fn bytes(source: &str) -> Vec<u8> {
    assembled(source).bytes
}

/// What `dis` notes and the assembler warns of: the note's end and the message.
const NOTED: [(&str, &str); 3] = [
    ("not built: fault 1", "NotBuilt"),
    ("above 29 letters: fault 4", "LongString"),
    ("else fault 8", "LengthsTooLarge"),
];

/// The assembler's warnings of a text of `dis`: where that has a note they are of the same. The names of the others.
fn comes_back(code: &[u8]) -> BTreeSet<&'static str> {
    let text = disassemble(code);
    let program = assembled(&text);
    assert_eq!(program.bytes, code, "{text}");
    let mut others: BTreeSet<&str> = program.warnings.iter().map(|warning| warning.problem.message.name()).collect();
    for (note, message) in NOTED {
        let warned = program.warnings.iter().filter(|warning| warning.problem.message.name() == message);
        let noted = text.lines().enumerate().filter(|(_, line)| line.ends_with(note));
        let noted: Vec<usize> = noted.map(|(index, _)| index + 1).collect();
        assert_eq!(warned.map(|warning| warning.line).collect::<Vec<_>>(), noted, "{text}");
        others.remove(message);
    }
    others
}

/// A program whose blocks have their ends where the lengths say, and a LOOP before each ENDLOOP.
fn comes_back_quietly(code: &[u8]) {
    assert_eq!(comes_back(code), BTreeSet::new(), "{code:?}");
}

#[test]
fn single_bytes_and_pairs_come_back() {
    comes_back(&[]);
    for first in 0..=255 {
        comes_back(&[first]);
        for second in 0..=255 {
            comes_back(&[first, second]);
        }
    }
}

/// Argument bytes of every kind: all there are of one and two bytes, edges and a selection of the others.
fn argument_bytes(arguments: Arguments, random: &mut Random) -> Vec<Vec<u8>> {
    match arguments {
        Arguments::None => vec![vec![]],
        Arguments::Char | Arguments::Name | Arguments::Length => (0..=255).map(|byte| vec![byte]).collect(),
        Arguments::Int | Arguments::Lengths => (0..=u16::MAX).map(|word| word.to_be_bytes().to_vec()).collect(),
        Arguments::Float => floats(random).iter().map(|bits| bits.to_be_bytes().to_vec()).collect(),
        Arguments::Text => (1..=255).map(|byte| vec![65, byte, 66, 0]).chain([vec![0], vec![34, 39, 92, 0]]).collect(),
    }
}

/// Both zeros, subnormals, powers of two with their neighbours, infinities, NaNs of every kind, and any others.
fn floats(random: &mut Random) -> Vec<u32> {
    let mut bits = vec![0, 1, 0x007F_FFFF, 0x7FC0_0000, 0x7F80_0001, 0x7FFF_FFFF, 0x7FA0_0000, 0x3DCC_CCCD];
    for exponent in 0..=255u32 {
        let power = exponent << 23;
        bits.extend([power, power | 1, power | 0x7F_FFFF, power.saturating_sub(1)]);
    }
    let negative: Vec<u32> = bits.iter().map(|bits| bits | 0x8000_0000).collect();
    bits.extend(negative);
    bits.extend((0..5000).map(|_| random.next() as u32));
    bits
}

#[test]
fn every_instruction_comes_back_with_every_kind_of_argument() {
    let mut random = Random(1);
    for instruction in &TABLE {
        let all = argument_bytes(instruction.arguments, &mut random);
        let code: Vec<u8> = all.iter().flat_map(|arguments| [&[instruction.number][..], arguments].concat()).collect();
        let text = disassemble(&code);
        assert_eq!(bytes(&text), code, "{}", instruction.mnemonic);
        let data = text.lines().filter(|line| line.starts_with("DATA")).count();
        assert_eq!((text.lines().count(), data), (all.len(), 0), "{}", instruction.mnemonic);
    }
}

#[test]
fn random_bytes_come_back() {
    let mut random = Random(2);
    // Dense in blocks and strings, dense in instructions, anything.
    let blocks: Vec<u8> = vec![0, 1, 2, 3, 4, 5, 6, 60, 61, 62, 63, 64, 65, 66, 34, 39, 92, 255];
    let instructions: Vec<u8> = (0..=70).collect();
    let all: Vec<u8> = (0..=255).collect();
    let mut warned = BTreeSet::new();
    for alphabet in [&blocks, &instructions, &all] {
        for _ in 0..1500 {
            let length = random.below(301);
            let code: Vec<u8> = (0..length).map(|_| random.pick(alphabet)).collect();
            warned.extend(comes_back(&code));
        }
    }
    // Lengths that miss the ends, but no ends without blocks: all lengths are given.
    assert_eq!(warned, BTreeSet::from(["BodyDiffers", "EndMissed", "NoLoop"]));
}

#[test]
fn the_text_of_one_instruction_assembles_to_it() {
    let mut random = Random(3);
    let mut kinds = BTreeSet::new();
    for _ in 0..2000 {
        let code: Vec<u8> = (0..12).map(|_| random.below(76) as u8).collect();
        let text = instruction_text(&code, 0);
        match instruction::at(&code, 0) {
            Some((found, arguments)) => {
                assert_eq!(bytes(&text), code[..1 + arguments.len()], "{text}");
                kinds.insert(found.mnemonic);
            }
            None => assert!(text.starts_with(&format!("DATA {}", code[0])), "{text}"),
        }
    }
    assert_eq!(kinds.len(), TABLE.len());
}

#[test]
fn texts_of_instructions() {
    for (code, text) in [
        (&[2, 1, 44][..], "INT 300"),
        (&[1, 97], "CHAR 'a'"),
        (&[1, 200], "CHAR -56"),
        (&[3, b'a', b'"', 10, 0], "STRING \"a\\\"\\n\""),
        (&[4, 66, 246, 230, 102], "FLOAT 123.45"),
        (&[4, 127, 192, 0, 0], "FLOAT nan"),
        (&[4, 255, 128, 0, 0], "FLOAT -inf"),
        (&[4, 127, 192, 0, 1], "FLOAT 127 192 0 1"),
        (&[4, 128, 0, 0, 0], "FLOAT -0.0"),
        (&[5, b'n'], "SET n"),
        (&[6, b'7'], "GET 55"),
        (&[63, 2, 8], "WHILE 2 8"),
        (&[60, 7], "IF 7"),
        (&[46], "PINMODE"),
        (&[200, 201], "DATA 200"),
        (&[0], "DATA 0"),
        (&[2, 1], "DATA 2 1"),
        (&[3, 65, 66], "DATA 3 65 66"),
        (&[], "DATA "),
    ] {
        assert_eq!(instruction_text(code, 0), text);
    }
    assert_eq!(instruction_text(&[67, 5, b'n'], 1), "SET n");
    assert_eq!(instruction_text(&[67], 9), "DATA ");
}

#[test]
fn dis_says_where_jumps_go_and_what_cannot_be_done() {
    for (code, note) in [
        (&[60, 3, 7, 7, 7, 62][..], "IF 3                     ; 0     zero: to 5"),
        (&[60, 4, 7, 7, 7, 62], "IF 4                     ; 0     zero: to 6"),
        (&[60, 5, 7, 7, 7, 62], "IF 5                     ; 0     zero: to 7, past the end: fault 3"),
        (&[61, 1, 7, 62], "ELSE 1                   ; 0     not zero: to 3"),
        (&[63, 0, 1, 7, 64], "WHILE 0 1                ; 0     zero: to 5, else again from 0"),
        (&[63, 0, 2, 7, 64], "WHILE 0 2                ; 0     zero: to 6, past the end: fault 3, else again from 0"),
        (
            &[63, 1, 1, 7, 64],
            "WHILE 1 1                ; 0     zero: to 5, else again from before the program: fault 3",
        ),
        (&[63, 251, 1, 7, 64], "WHILE 251 1              ; 0     zero: to 5, else fault 8"),
        (
            &[&[3][..], &[65; 30], &[0]].concat(),
            &format!("STRING \"{}\" ; 0     above 29 letters: fault 4", "A".repeat(30)),
        ),
        (&[&[3][..], &[65; 29], &[0]].concat(), &format!("STRING \"{}\" ; 0", "A".repeat(29))),
        (&[43], "DELAY                    ; 0     not built: fault 1"),
        (&[1, 97], "CHAR 'a'                 ; 0     97"),
        (
            &[67, 2],
            "STOP                     ; 0\nDATA 2                   ; 1     INT without all its arguments: fault 2",
        ),
        (&[70, 0, 255, 67], "DATA 70 0 255            ; 0     no instruction: fault 1\nSTOP                     ; 3"),
    ] {
        let text = disassemble(code);
        assert!(text.starts_with(&format!("{note}\n")), "{text}");
    }
}

#[test]
fn a_cut_off_string_is_data_to_the_end() {
    let code = [&[3][..], &[65; 20]].concat();
    let text = disassemble(&code);
    assert!(text.lines().all(|line| line.starts_with("DATA ")), "{text}");
    assert_eq!((text.lines().count(), bytes(&text)), (3, code));
}

fn guide(name: &str) -> String {
    let path = PathBuf::from(env!("CARGO_MANIFEST_DIR")).join("tests/guide").join(name).with_extension("asm");
    std::fs::read_to_string(&path).unwrap_or_else(|error| panic!("{}: {error}", path.display()))
}

/// Appendix A of document 004, its bytes as in crates/guide_programs.
const APPENDIX_A: [(&str, &[u8]); 9] = [
    ("a1_numbers", &[2, 1, 44, 5, 97, 6, 97, 2, 0, 3, 9, 5, 98]),
    ("a1_hello", &[3, 72, 101, 108, 108, 111, 0]),
    ("a2_printed", &[1, 97, 52, 2, 1, 7, 52, 4, 66, 246, 230, 102, 52, 3, 116, 101, 115, 116, 0, 52]),
    (
        "a3_branch",
        &[
            2, 0, 3, 5, 97, 6, 97, 2, 0, 5, 15, 60, 7, 3, 84, 114, 117, 101, 0, 52, 61, 8, 3, 70, 97, 108, 115, 101, 0,
            52, 62, 67,
        ],
    ),
    ("a3_endless", &[2, 0, 0, 5, 105, 65, 6, 105, 7, 5, 105, 6, 105, 52, 66]),
    ("a3_counted", &[2, 0, 0, 5, 105, 6, 105, 2, 0, 5, 17, 63, 6, 8, 6, 105, 7, 5, 105, 6, 105, 52, 64, 67]),
    (
        "a4_blink",
        &[
            1, 13, 5, 112, 1, 1, 5, 111, 6, 112, 1, 1, 46, 65, 6, 112, 6, 111, 50, 6, 111, 24, 5, 111, 45, 2, 1, 244,
            9, 44, 66,
        ],
    ),
    (
        "a5_written",
        &[
            3, 110, 101, 119, 95, 102, 105, 108, 101, 0, 5, 115, 6, 115, 2, 0, 20, 53, 3, 116, 101, 120, 116, 10, 0,
            55, 1, 97, 55, 2, 98, 99, 55, 4, 61, 204, 204, 205, 55, 6, 115, 2, 0, 20, 53, 59, 52, 57, 52, 56, 52, 58,
            52, 67,
        ],
    ),
    (
        "a6_forked",
        &[
            3, 104, 101, 108, 108, 111, 44, 0, 52, 3, 119, 111, 114, 108, 100, 0, 5, 115, 6, 115, 2, 0, 10, 53, 6, 115,
            55, 1, 52, 55, 1, 67, 55, 6, 115, 68, 69, 3, 98, 121, 101, 0, 52, 67,
        ],
    ),
];

#[test]
fn the_programs_of_appendix_a() {
    for (name, code) in APPENDIX_A {
        assert_eq!(bytes(&guide(name)), code, "{name}");
        assert_eq!(bytes(&guide(&format!("{name}_short"))), code, "{name}_short");
        comes_back_quietly(code);
    }
}

/// The byte arrays of docs/GUIDE.md, part 5.
fn guide_arrays() -> Vec<(String, Vec<u8>)> {
    let path = Path::new(env!("CARGO_MANIFEST_DIR")).join("../docs/GUIDE.md");
    let text = std::fs::read_to_string(&path).unwrap();
    let mut arrays = Vec::new();
    for rest in text.split("static const uint8_t ").skip(1) {
        let (name, rest) = rest.split_once("[] = {").unwrap();
        let (body, _) = rest.split_once("};").unwrap();
        let code: String = body.lines().map(|line| line.split("/*").next().unwrap_or("")).collect();
        let numbers = code.split(',').map(str::trim).filter(|number| !number.is_empty());
        arrays.push((name.to_string(), numbers.map(guide_byte).collect()));
    }
    arrays
}

fn guide_byte(text: &str) -> u8 {
    match text.as_bytes() {
        &[b'\'', byte, b'\''] => byte,
        _ => text.parse().unwrap(),
    }
}

/// Their sources leave all lengths to be counted.
#[test]
fn the_programs_of_the_guide() {
    let arrays = guide_arrays();
    for name in ["hours", "lamp", "load", "down", "logger", "reader", "starter", "powerups"] {
        let (_, code) = arrays.iter().find(|(found, _)| found == name).unwrap_or_else(|| panic!("{name}"));
        assert_eq!(&bytes(&guide(name)), code, "{name}");
        comes_back_quietly(code);
    }
}

#[test]
fn literals_push_themselves() {
    for (source, code) in [
        ("-7", vec![2, 255, 249]),
        ("\u{2212}7", vec![2, 255, 249]),
        ("32767", vec![2, 127, 255]),
        ("-32768", vec![2, 128, 0]),
        ("0xFFFF", vec![2, 255, 255]),
        ("-0x8000", vec![2, 128, 0]),
        ("3.5", vec![4, 64, 96, 0, 0]),
        ("\u{2212}3.5", vec![4, 192, 96, 0, 0]),
        ("1e3", vec![4, 68, 122, 0, 0]),
        ("'a'", vec![1, 97]),
        ("'\\0'", vec![1, 0]),
        ("'\\''", vec![1, 39]),
        ("';'", vec![1, 59]),
        ("\"text\"", vec![3, 116, 101, 120, 116, 0]),
        ("\"\"", vec![3, 0]),
        ("\"a;#//b\" ; comment", vec![3, 97, 59, 35, 47, 47, 98, 0]),
        ("\"\\n\\t\\r\\\\\\\"\\'\\xfF\"", vec![3, 10, 9, 13, 92, 34, 39, 255, 0]),
    ] {
        assert_eq!(bytes(source), code, "{source}");
    }
}

const FORMS: &[(&str, &[u8])] = &[
    ("CHAR -128", &[1, 128]),
    ("CHAR 255", &[1, 255]),
    ("CHAR 0x41", &[1, 65]),
    ("CHAR println", &[1, 52]),
    ("CHAR INPUT", &[1, 0]),
    ("INT 300", &[2, 1, 44]),
    ("INT 1 44", &[2, 1, 44]),
    ("INT 'a' 'b'", &[2, 97, 98]),
    ("INT 0x8000", &[2, 128, 0]),
    ("FLOAT 1", &[4, 63, 128, 0, 0]),
    ("FLOAT 1.5", &[4, 63, 192, 0, 0]),
    ("FLOAT .5", &[4, 63, 0, 0, 0]),
    ("FLOAT 16777217", &[4, 75, 128, 0, 0]),
    ("FLOAT 66 246 230 102", &[4, 66, 246, 230, 102]),
    ("FLOAT nan", &[4, 127, 192, 0, 0]),
    ("FLOAT INF", &[4, 127, 128, 0, 0]),
    ("FLOAT \u{2212}inf", &[4, 255, 128, 0, 0]),
    ("FLOAT 3.4028235e38", &[4, 127, 127, 255, 255]),
    ("FLOAT 1e-50", &[4, 0, 0, 0, 0]),
    ("STRING \"Hi\"", &[3, 72, 105, 0]),
    ("STRING 'H' 105 0", &[3, 72, 105, 0]),
    ("STRING 0", &[3, 0]),
    ("STRING'H'105 0", &[3, 72, 105, 0]),
    ("here:STRING\"Hi\";", &[3, 72, 105, 0]),
    ("SET n", &[5, 110]),
    ("set 'n'", &[5, 110]),
    ("Set 110", &[5, 110]),
    ("GET _", &[6, 95]),
    ("IF 0", &[60, 0]),
    ("ELSE 255", &[61, 255]),
    ("WHILE 6 8", &[63, 6, 8]),
    ("DATA 0 255 'a' \"b\\0c\" STOP OUTPUT", &[0, 255, 97, 98, 0, 99, 67, 1]),
    ("here: STOP", &[67]),
];

#[test]
fn arguments_in_all_their_forms() {
    for (source, code) in FORMS {
        assert_eq!(&bytes(source), code, "{source}");
    }
}

#[test]
fn all_mnemonics_in_capitals_and_small_letters() {
    for instruction in &TABLE {
        let argument = match instruction.arguments {
            Arguments::None => "",
            Arguments::Text => "\"\"",
            Arguments::Lengths => "0 0",
            _ => "0",
        };
        for mnemonic in [instruction.mnemonic.to_string(), instruction.mnemonic.to_lowercase()] {
            let code = bytes(&format!("  {mnemonic} {argument} ; comment"));
            assert_eq!(code[0], instruction.number, "{mnemonic}");
        }
    }
}

#[test]
fn line_ends_comments_and_marks() {
    let code = vec![9, 10];
    for source in [
        "PLUS\nMINUS",
        "PLUS\r\nMINUS\r\n",
        "\u{FEFF}PLUS\n\n\t MINUS",
        "# a\nPLUS//b\nMINUS#c ; d\n",
        "PLUS ; 'é\nMINUS",
    ] {
        assert_eq!(bytes(source), code, "{source:?}");
    }
    assert_eq!(bytes(""), []);
}

#[test]
fn names_are_given_bytes_that_nothing_else_uses() {
    let program = assembled("SET number\nSET n\nGET number\nSET 'u'\nSET 109\nSET name\nGET nn\nGET nnn\n");
    let named: Vec<(&str, u8)> = program.variables.iter().map(|(name, byte)| (name.as_str(), *byte)).collect();
    assert_eq!(named, [("number", b'b'), ("name", b'a'), ("nn", b'c'), ("nnn", b'd')]);
    assert_eq!(program.bytes, [5, 98, 5, 110, 6, 98, 5, 117, 5, 109, 5, 97, 6, 99, 6, 100]);
}

#[test]
fn there_are_256_variables_and_no_more() {
    let numbers: String = (0..200).map(|byte| format!("SET {byte}\n")).collect();
    let names: String = (0..56).map(|index| format!("SET name{index}\n")).collect();
    let program = assembled(&format!("{numbers}{names}"));
    let used: BTreeSet<u8> = program.bytes.chunks(2).map(|pair| pair[1]).collect();
    assert_eq!((program.bytes.len(), used.len()), (512, 256));
    assert!(assemble(format!("{numbers}{names}SET more\n").as_bytes()).is_err());
}

#[test]
fn conditions_are_counted_back_to_where_they_begin() {
    for (source, condition) in [
        ("3\nSET n\nGET n\nWHILE\nENDWHILE", 2),
        ("GET a\nGET b\nPLUS\nWHILE\nENDWHILE", 5),
        ("CHAR 1\nGET a\nPRINT\nWHILE\nENDWHILE", 5),
        ("GET a\nCLOSE\nWHILE\nENDWHILE", 3),
        ("PRINTLN\n700\n0\n1023\n0\n255\nMAP\nWHILE\nENDWHILE", 16),
        ("\"down\"\nFORK\nWHILE\nENDWHILE", 7),
        ("STOP\nhere: MILLIS\nthere:\nWHILE\nENDWHILE", 1),
        ("GET a\nIF\nGET a\nENDIF\nhere:\nGET b\nWHILE here\nENDWHILE", 2),
        ("here: GET a\nIF\nGET a\nENDIF\nWHILE here\nENDWHILE", 7),
        ("here:\nWHILE here\nENDWHILE", 0),
    ] {
        let code = bytes(source);
        assert_eq!(code[code.len() - 4..], [63, condition, 0, 64], "{source}");
    }
}

#[test]
fn blocks_with_given_lengths_may_have_any_shape() {
    for source in [
        "ENDIF\nENDWHILE\nELSE 3\nIF 9\nWHILE 1 2",
        "IF 1\nWHILE 2 3\nENDIF\nELSE 1\nELSE 2\nENDWHILE",
        "WHILE 1 1\nENDIF\nENDWHILE\nENDIF",
    ] {
        bytes(source);
    }
    // Counted and given lengths beside each other.
    for (source, code) in [
        ("IF\nIF 1\nENDIF\nPLUS\nENDIF", vec![60, 4, 60, 1, 62, 9, 62]),
        ("IF\nWHILE 1 2\nPLUS\nENDIF", vec![60, 4, 63, 1, 2, 9, 62]),
        ("IF 9\nPLUS\nELSE\nMINUS\nENDIF", vec![60, 9, 9, 61, 1, 10, 62]),
        ("IF\nPLUS\nELSE 7\nMINUS\nENDIF", vec![60, 1, 9, 61, 7, 10, 62]),
        ("IF\nENDIF\nENDIF\nENDWHILE", vec![60, 0, 62, 62, 64]),
        ("WHILE 5 5\nIF\nENDIF", vec![63, 5, 5, 60, 0, 62]),
    ] {
        assert_eq!(bytes(source), code, "{source}");
    }
}

/// FORK's number is taken off inside the block; ENDIF there would be its end.
#[test]
fn data_endif_is_no_end_of_a_block() {
    for (source, code) in [
        ("IF\nFORK\nDATA ENDIF\nENDIF", vec![60, 2, 68, 62, 62]),
        ("IF\nFORK\nENDIF\nENDIF", vec![60, 1, 68, 62, 62]),
        ("IF\nELSE\nDATA ENDIF\nENDIF", vec![60, 0, 61, 1, 62, 62]),
        ("GET n\nWHILE\nFORK\ndata endif\nENDWHILE", vec![6, 110, 63, 2, 2, 68, 62, 64]),
        ("GET n\nWHILE\nDATA ENDWHILE\nENDWHILE", vec![6, 110, 63, 2, 1, 64, 64]),
    ] {
        assert_eq!(bytes(source), code, "{source}");
    }
}

/// A program with nested blocks: its source, and its bytes with lengths taken from the parts they are made of.
fn nested(random: &mut Random, depth: usize) -> (String, Vec<u8>) {
    let mut source = String::new();
    let mut code = Vec::new();
    for _ in 0..random.below(4) {
        let (text, part) = if depth == 0 { plain(random) } else { block(random, depth) };
        source += &text;
        code.extend(part);
    }
    (source, code)
}

fn plain(random: &mut Random) -> (String, Vec<u8>) {
    let plain: [(&str, &[u8]); 4] = [
        ("\"ab\"\nPRINT\n", &[3, 97, 98, 0, 51]),
        ("GET n\nSET n\n", &[6, 110, 5, 110]),
        ("\n", &[]),
        ("CLOSE\n", &[54]),
    ];
    let (source, code) = random.pick(&plain);
    (source.to_string(), code.to_vec())
}

fn block(random: &mut Random, depth: usize) -> (String, Vec<u8>) {
    let conditions: [(&str, &[u8]); 3] =
        [("GET n\n", &[6, 110]), ("GET n\n5\nLESSTHAN\n", &[6, 110, 2, 0, 5, 17]), ("READCHAR\nTOINT\n", &[57, 30])];
    let (condition, condition_code) = random.pick(&conditions);
    let ((body, body_code), (other, other_code)) = (nested(random, depth - 1), nested(random, depth - 1));
    let (length, other_length) = (body_code.len() as u8, other_code.len() as u8);
    match random.below(4) {
        0 => plain(random),
        1 => (
            format!("{condition}WHILE\n{body}ENDWHILE\n"),
            [condition_code, &[63, condition_code.len() as u8, length], &body_code, &[64]].concat(),
        ),
        2 => (format!("{condition}IF\n{body}ENDIF\n"), [condition_code, &[60, length], &body_code, &[62]].concat()),
        _ => (
            format!("{condition}IF\n{body}ELSE\n{other}ENDIF\n"),
            [condition_code, &[60, length], &body_code, &[61, other_length], &other_code, &[62]].concat(),
        ),
    }
}

#[test]
fn lengths_of_nested_blocks() {
    let mut random = Random(4);
    let mut deep = 0;
    for _ in 0..2000 {
        let (source, code) = nested(&mut random, 3);
        if code.len() <= 251 {
            assert_eq!(bytes(&source), code, "{source}");
            comes_back_quietly(&code);
            deep += usize::from(source.contains("WHILE\n") && source.contains("ELSE\n"));
        }
    }
    assert!(deep > 100, "{deep}");
}

#[test]
fn bodies_up_to_the_limits() {
    let body = "DATA 7\n".repeat(255);
    assert_eq!(bytes(&format!("IF\n{body}ENDIF"))[..2], [60, 255]);
    assert_eq!(bytes(&format!("IF\n{body}ELSE\n{body}ENDIF"))[257..259], [61, 255]);
    let body = "DATA 7\n".repeat(249);
    assert_eq!(bytes(&format!("GET n\nWHILE\n{body}ENDWHILE"))[2..5], [63, 2, 249]);
    assert!(assemble(format!("3\nWHILE\n{body}ENDWHILE").as_bytes()).is_err());
}

#[test]
fn a_listing_shows_offsets_bytes_lines_and_names() {
    let source = "; count\n3\nSET count\n\"a long text\"\nagain:\nDATA \"\"\nSTOP\n";
    let comment = format!("{:39}; count\n", "");
    let expected = "   0  2 0 3                            3
   3  5 99                             SET count
   5  3 97 32 108 111 110 103 32       \"a long text\"
  13  116 101 120 116 0
                                       again:
  18                                   DATA \"\"
  18  67                               STOP

variables
   99 'c'    count
";
    assert_eq!(listing(&assembled(source), source.as_bytes()), comment + expected);
}
