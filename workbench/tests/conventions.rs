//! What every command has in common: --help, exit statuses, messages on standard error, '-'.

mod bench;

use bench::{Bench, DOWN};
use kernel::words;

const COMMANDS: [&[&str]; 12] = [
    &["asm"],
    &["dis"],
    &["disc"],
    &["disc", "new"],
    &["disc", "ls"],
    &["disc", "put"],
    &["disc", "get"],
    &["disc", "rm"],
    &["disc", "check"],
    &["run"],
    &["area"],
    &["replay"],
];

#[test]
fn help_is_on_standard_output() {
    let bench = Bench::new("help", &[]);
    for command in COMMANDS.iter().copied().chain([&[] as &[&str]]) {
        for help in ["--help", "-h"] {
            let words: Vec<&str> = command.iter().copied().chain([help]).collect();
            let ran = bench.arduinos(&words);
            assert_eq!((ran.status, ran.err.as_str()), (0, ""), "{words:?}");
            let usage = ["usage:", "arduinos"].iter().chain(command).copied().collect::<Vec<_>>().join(" ");
            assert!(ran.out.starts_with(&usage), "{words:?}: {}", ran.out);
            assert!(ran.out.ends_with('\n') && ran.out.lines().count() > 2, "{words:?}");
            let wide = ran.out.lines().find(|line| line.chars().count() > 120);
            assert_eq!(wide, None, "{words:?}");
        }
    }
}

#[test]
fn the_first_help_names_every_command() {
    let bench = Bench::new("names", &[]);
    let help = bench.arduinos(&["--help"]).out;
    for command in COMMANDS.iter().filter(|command| command.len() == 1) {
        assert!(help.contains(&format!("\n  {} ", command[0])), "{command:?}");
    }
    let version = bench.arduinos(&["--version"]);
    assert_eq!((version.status, version.out.as_str()), (0, "arduinos 0.1.0\n"));
}

#[test]
fn wrong_use_has_status_2_and_a_message() {
    let bench = Bench::new("use", &[("down", DOWN)]);
    let before = bench.read("box.img");
    for (words, message) in [
        (vec![], "arduinos: a command is missing"),
        (vec!["walk"], "arduinos: there is no command 'walk'"),
        (vec!["asm"], "arduinos asm: FILE is missing"),
        (vec!["dis"], "arduinos dis: FILE is missing"),
        (vec!["dis", "box.img", "box.img"], "arduinos dis: 'box.img' is one argument too many"),
        (vec!["replay", "--fast", "x"], "arduinos replay: there is no option --fast"),
        (vec!["replay", "--trace=yes", "x"], "arduinos replay: --trace takes no value"),
        (vec!["run", "box.img", "down", "--rounds"], "arduinos run: --rounds wants a value"),
        (vec!["run", "box.img", "down", "--rounds=1", "--rounds=2"], "arduinos run: --rounds is given twice"),
    ] {
        let ran = bench.arduinos(&words);
        assert_eq!((ran.status, ran.first_error(), ran.out.as_str()), (2, message, ""), "{words:?}");
        assert!(ran.err.lines().nth(1).is_some_and(|line| line.starts_with("See 'arduinos")), "{}", ran.err);
    }
    for words in
        [["disc", "walk"], ["disc", "get"], ["disc", "rm"], ["disc", "put"], ["disc", "check"], ["disc", "new"]]
    {
        let ran = bench.arduinos(&words);
        assert_eq!((ran.status, ran.out.as_str()), (2, ""), "{words:?}");
        assert!(ran.err.starts_with("arduinos disc"), "{}", ran.err);
    }
    assert_eq!(bench.read("box.img"), before);
}

#[test]
fn after_two_dashes_there_are_no_options() {
    let bench = Bench::new("dashes", &[("--help", DOWN)]);
    let ran = bench.arduinos(&["run", "--clock", "1", "--", "box.img", "--help"]);
    assert_eq!((ran.status, ran.out.as_str()), (0, "3\n2\n1\n"));
}

#[test]
fn streams_that_cannot_be_written_end_the_program_in_order() {
    let bench = Bench::new("streams", &[("down", DOWN)]);
    assert_eq!(bench.arduinos_to(&["run", "box.img", "nosuch"], "out", "/dev/full"), 1);
    assert_eq!(bench.arduinos_to(&["walk"], "out", "/dev/full"), 2);
    assert_eq!(bench.arduinos_to(&["--help"], "/dev/full", "err"), 1);
    assert_eq!(bench.arduinos_to(&["run", "box.img", "down", "--clock", "1"], "out", "/dev/full"), 0);
    assert_eq!(bench.read("out"), b"3\n2\n1\n");
}

#[test]
fn a_reader_that_has_enough_needs_no_message() {
    let bench = Bench::new("pipe", &[("down", DOWN)]);
    let arduinos = env!("CARGO_BIN_EXE_arduinos");
    for line in [
        format!("'{arduinos}' run box.img down --clock 1 --trace 2>err | true"),
        format!("'{arduinos}' dis box.img 2>err | true"),
        format!("'{arduinos}' run box.img nosuch 2>&1 | true; : >err"),
    ] {
        let line = format!("{line}; cat err");
        let shell = std::process::Command::new("sh").args(["-c", &line]).current_dir(bench.path(".")).output().unwrap();
        let told = String::from_utf8(shell.stdout).unwrap();
        assert!(!told.contains("panicked") && !told.contains("pipe"), "{line}: {told}");
    }
}

#[cfg(unix)]
#[test]
fn arguments_are_text() {
    use std::os::unix::ffi::OsStrExt;
    let bench = Bench::new("text", &[]);
    let output = std::process::Command::new(env!("CARGO_BIN_EXE_arduinos"))
        .args(["disc", "new"])
        .arg(std::ffi::OsStr::from_bytes(b"x\xff"))
        .current_dir(bench.path("."))
        .output()
        .unwrap();
    assert_eq!(output.status.code(), Some(2));
    let message = "arduinos: \"x\\xFF\" is no text in UTF-8\nSee 'arduinos --help'.\n";
    assert_eq!(String::from_utf8(output.stderr).unwrap(), message);
    assert_eq!(bench.names(), ["box.img"]);
}

#[test]
fn a_device_without_an_end_is_refused() {
    let bench = Bench::new("endless", &[]);
    for (words, message) in [
        (vec!["disc", "ls", "/dev/zero"], "disc ls: /dev/zero: more than 4096 bytes; an EEPROM image has 1024 or 4096"),
        (vec!["area", "/dev/zero"], "area: /dev/zero: more than 1056 bytes; a work area has 1056"),
    ] {
        bench.arduinos(&words).refused(message);
    }
    let put = bench.arduinos(&["disc", "put", "box.img", "/dev/zero", "--as", "z"]);
    assert_eq!(put.status, 1);
}

/// docs/GUIDE.md, part 2: the numbers of its table of refusals.
#[test]
fn every_refusal_of_the_guide_has_words() {
    let guide = include_str!("../../docs/GUIDE.md");
    let table = guide.split("### Refusals").nth(1).unwrap().split("###").next().unwrap();
    let rows = table.lines().filter_map(|line| line.strip_prefix("| \u{2212}")?.split(' ').next()?.parse::<i32>().ok());
    let numbers: Vec<i32> = rows.collect();
    assert_eq!(numbers, (1..=16).chain([22]).collect::<Vec<i32>>());
    let words: Vec<String> = numbers.iter().map(|number| words::refusal(-number)).collect();
    let unknown = words::refusal(-17);
    for (index, text) in words.iter().enumerate() {
        assert!(*text != unknown && !words[..index].contains(text), "{text}");
    }
}
