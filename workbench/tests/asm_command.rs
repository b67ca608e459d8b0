//! `arduinos asm` and `arduinos dis` on the command line: what is read and written, messages and exit statuses.

mod bench;

use bench::{Bench, DOWN};

const SOURCE: &[u8] = b"3\nSET n\nGET n\nWHILE\nGET n\nPRINTLN\nGET n\nDECREMENT\nSET n\nENDWHILE\nSTOP\n";

#[test]
fn asm_writes_beside_the_source_or_where_it_is_told() {
    let bench = Bench::new("asm-writes", &[]);
    bench.write("down.asm", SOURCE);
    for (words, file) in [
        (vec!["asm", "down.asm"], "down"),
        (vec!["asm", "down.asm", "-o", "x"], "x"),
        (vec!["asm", "./down.asm"], "down"),
    ] {
        let ran = bench.arduinos(&words);
        assert_eq!((ran.status, ran.out.as_str(), ran.err.as_str()), (0, "", ""), "{words:?}");
        assert_eq!(bench.read(file), DOWN, "{words:?}");
        bench.write(file, b"other");
    }
    bench.write("source", SOURCE);
    assert_eq!(bench.arduinos(&["asm", "-o", "y", "--", "source"]).status, 0);
    assert_eq!(bench.read("y"), DOWN);
}

#[test]
fn asm_and_dis_take_standard_input_and_output() {
    let bench = Bench::new("asm-dash", &[]);
    let ran = bench.arduinos_with(&["asm", "-", "-o", "-"], b"\"Hi\"\nPRINTLN");
    assert_eq!((ran.status, ran.out.as_str(), ran.err.as_str()), (0, "\x03Hi\0\x34", ""));
    let text = "STRING \"Hi\"              ; 0\nPRINTLN                  ; 4\n";
    let ran = bench.arduinos_with(&["dis", "-"], b"\x03Hi\0\x34");
    assert_eq!((ran.status, ran.out.as_str(), ran.err.as_str()), (0, text, ""));
    let ran = bench.arduinos_with(&["dis", "-", "-o", "text.asm"], b"\x03Hi\0\x34");
    assert_eq!((ran.status, ran.out.as_str(), bench.read("text.asm")), (0, "", text.as_bytes().to_vec()));
    let ran = bench.arduinos_with(&["asm", "-", "-o", "x"], b"PLUS\nMINU");
    assert_eq!(ran.status, 1);
    assert!(ran.err.starts_with("standard input:2:1: expected"), "{}", ran.err);
    assert!(!bench.has("x"));
}

#[test]
fn a_listing_is_printed_instead_of_writing_or_beside_it() {
    let bench = Bench::new("asm-list", &[]);
    bench.write("a.asm", b"SET lamp\n");
    let listing = "   0  5 108                            SET lamp\n\nvariables\n  108 'l'    lamp\n";
    let ran = bench.arduinos(&["asm", "a.asm", "--list"]);
    assert_eq!((ran.status, ran.out.as_str(), ran.err.as_str(), bench.has("a")), (0, listing, "", false));
    let ran = bench.arduinos(&["asm", "--list", "a.asm", "-o", "b"]);
    assert_eq!((ran.status, ran.out.as_str(), bench.read("b")), (0, listing, vec![5, 108]));
}

#[test]
fn wrong_sources_write_nothing() {
    let bench = Bench::new("asm-wrong", &[]);
    bench.write("bad.asm", b"PLUS\n\tPRINTLM\nENDIFF\n");
    bench.write("image.asm", b"PLUS\n\x80");
    let told = "bad.asm:2:2: expected an instruction, a literal or DATA, found 'PRINTLM'; did you mean PRINTLN?\n\
                \tPRINTLM\n\t^~~~~~~\n\
                bad.asm:3:1: expected an instruction, a literal or DATA, found 'ENDIFF'; did you mean ENDIF?\n\
                ENDIFF\n^~~~~~\n";
    for (file, message) in
        [("bad", told), ("image", "image.asm:2:1: expected text in UTF-8, found the byte 128\n\u{fffd}\n^\n")]
    {
        bench.write("kept", b"kept");
        let source = format!("{file}.asm");
        for words in [vec!["asm", &source], vec!["asm", &source, "-o", "kept"], vec!["asm", &source, "--list"]] {
            let ran = bench.arduinos(&words);
            assert_eq!((ran.status, ran.out.as_str(), ran.err.as_str()), (1, "", message), "{words:?}");
        }
        assert_eq!((bench.has(file), bench.read("kept")), (false, b"kept".to_vec()), "{file}");
    }
}

#[test]
fn a_doubtful_source_is_assembled_with_a_warning() {
    let bench = Bench::new("asm-doubtful", &[]);
    let source = b"GET n\nIF\nDELAY\nENDIF\n\tENDIF\n";
    bench.write("a.asm", source);
    let told = |file: &str| {
        format!(
            "{file}:3:1: warning: DELAY is not built: the box ends the process by fault 1 here\nDELAY\n^~~~~\n\
             {file}:5:2: warning: this ENDIF closes no IF (the IF of line 2 ended in line 4); \
             an ENDIF that only takes a number off the stack is written DATA ENDIF\n\tENDIF\n\t^~~~~\n"
        )
    };
    let ran = bench.arduinos(&["asm", "a.asm"]);
    assert_eq!((ran.status, ran.out.as_str(), ran.err), (0, "", told("a.asm")));
    assert_eq!(bench.read("a"), [6, 110, 60, 1, 43, 62, 62]);
    let ran = bench.arduinos(&["asm", "a.asm", "--list"]);
    assert_eq!((ran.status, ran.out.lines().count(), ran.err), (0, 5, told("a.asm")));
    let ran = bench.arduinos_with(&["asm", "-", "-o", "b"], source);
    assert_eq!((ran.status, ran.out.as_str(), ran.err), (0, "", told("standard input")));
    assert_eq!(bench.read("b"), bench.read("a"));
}

#[test]
fn a_program_that_not_every_disc_takes_is_written_with_a_warning() {
    let bench = Bench::new("asm-long", &[]);
    for (length, message) in [
        (0, "arduinos asm: warning: a.asm: 0 bytes; no disc takes a file without bytes\n"),
        (863, ""),
        (864, "arduinos asm: warning: a.asm: 864 bytes; above 863 only a long disc takes it\n"),
        (3935, "arduinos asm: warning: a.asm: 3935 bytes; above 863 only a long disc takes it\n"),
        (3936, "arduinos asm: warning: a.asm: 3936 bytes; no disc takes a file above 3935\n"),
    ] {
        bench.write("a.asm", "STOP\n".repeat(length).as_bytes());
        let ran = bench.arduinos(&["asm", "a.asm"]);
        assert_eq!((ran.status, ran.err.as_str(), bench.read("a").len()), (0, message, length));
    }
}

#[test]
fn files_that_are_missing_are_refused() {
    let bench = Bench::new("asm-missing", &[]);
    bench.write("a.asm", b"STOP");
    for words in [
        &["asm", "no.asm"][..],
        &["dis", "no"],
        &["asm", "no/folder.asm"],
        &["asm", "a.asm", "-o", "no/folder"],
        &["dis", "a.asm", "-o", "no/folder"],
    ] {
        let ran = bench.arduinos(words);
        assert_eq!((ran.status, ran.out.as_str()), (1, ""), "{words:?}");
        let prefix = format!("arduinos {}: no", words[0]);
        assert!(ran.err.starts_with(&prefix) && ran.err.contains("No such file"), "{words:?}: {}", ran.err);
    }
    assert!(!bench.has("no"));
}

#[test]
fn wrong_use_writes_nothing() {
    let bench = Bench::new("asm-use", &[]);
    bench.write("source", SOURCE);
    bench.write("a.asm", SOURCE);
    bench.write(".asm", SOURCE);
    for (words, message) in [
        (&["asm"][..], "arduinos asm: FILE is missing"),
        (&["asm", "source"], "arduinos asm: -o OUT is missing: source does not end in .asm"),
        (&["asm", ".asm"], "arduinos asm: -o OUT is missing: there is no name before .asm in .asm"),
        (&["asm", "./.asm"], "arduinos asm: -o OUT is missing: there is no name before .asm in ./.asm"),
        (&["asm", "-"], "arduinos asm: -o OUT is missing: standard input has no name"),
        (&["asm", "a.asm", "-o", "a.asm"], "arduinos asm: -o a.asm would write over the source"),
        (&["asm", "a.asm", "-o", "./a.asm"], "arduinos asm: -o ./a.asm would write over the source"),
        (&["asm", "a.asm", "-o", "-", "--list"], "arduinos asm: --list and -o - would both write to standard output"),
        (&["asm", "a.asm", "b.asm"], "arduinos asm: 'b.asm' is one argument too many"),
        (&["asm", "a.asm", "-x"], "arduinos asm: there is no option -x"),
        (&["dis", "source", "-o", "source"], "arduinos dis: -o source would write over the program"),
        (&["dis", "source", "--list"], "arduinos dis: there is no option --list"),
    ] {
        let ran = bench.arduinos(words);
        assert_eq!((ran.status, ran.out.as_str(), ran.first_error()), (2, "", message), "{words:?}");
    }
    assert_eq!((bench.read("source"), bench.read("a.asm"), bench.has("a")), (SOURCE.to_vec(), SOURCE.to_vec(), false));
}

/// The examples of --help are the guide's program and what dis makes of it.
#[test]
fn the_examples_of_the_help_hold() {
    let bench = Bench::new("asm-help", &[]);
    let help = bench.arduinos(&["asm", "--help"]).out;
    let (_, example) = help.split_once("Example: counts down.\n").expect("an example");
    bench.write("example.asm", example.as_bytes());
    assert_eq!(bench.arduinos(&["asm", "example.asm"]).err, "");
    let renamed: Vec<u8> = DOWN.iter().map(|&byte| if byte == b'n' { b'c' } else { byte }).collect();
    assert_eq!(bench.read("example"), renamed);
    let help = bench.arduinos(&["dis", "--help"]).out;
    let (_, example) = help.split_once("Example: counts down.\n\n").expect("an example");
    assert_eq!(bench.arduinos_with(&["dis", "-"], DOWN).out, example);
}
