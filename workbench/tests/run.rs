//! `arduinos run`: output, trace, shares, records, what is saved and what is refused.

mod bench;

use bench::{Bench, DOWN, LAMP, WRONG_TYPE};
use workbench::buffers::Answer;
use workbench::run::{turns, Session};

#[test]
fn prints_what_the_box_prints() {
    let bench = Bench::new("prints", &[("down", DOWN)]);
    let ran = bench.arduinos(&["run", "box.img", "down", "--clock", "100"]);
    assert_eq!((ran.status, ran.out.as_str(), ran.err.as_str()), (0, "3\n2\n1\n", "29 rounds, no process runs\n"));
}

#[test]
fn rounds_are_limited() {
    let bench = Bench::new("rounds", &[("lamp", LAMP)]);
    let ran = bench.arduinos(&["run", "box.img", "lamp", "--clock", "100", "--rounds", "45"]);
    assert_eq!((ran.status, ran.out.as_str()), (0, "red\ngreen\nred\ngreen\n"));
    assert_eq!(ran.err, "45 rounds, 1 process runs\n");
    let none = bench.arduinos(&["run", "box.img", "lamp", "lamp", "--rounds", "0"]);
    assert_eq!((none.status, none.err.as_str()), (0, "0 rounds, 2 processes run\n"));
}

#[test]
fn a_real_clock_lets_a_wait_end() {
    // MILLIS, INT 30, PLUS, DELAYUNTIL, STRING "ok", PRINTLN, STOP
    let wait = [45, 2, 0, 30, 9, 44, 3, b'o', b'k', 0, 52, 67];
    let bench = Bench::new("real", &[("wait", &wait)]);
    let begun = std::time::Instant::now();
    let ran = bench.arduinos(&["run", "box.img", "wait", "--clock", "real"]);
    assert_eq!((ran.status, ran.out.as_str()), (0, "ok\n"));
    assert!(begun.elapsed().as_millis() >= 30);
}

#[test]
fn a_share_gives_turns_in_a_row() {
    let bench = Bench::new("share", &[("down", DOWN), ("lamp", LAMP)]);
    let ran = bench.arduinos(&["run", "box.img", "down", "--share", "down=8", "--clock", "100"]);
    assert_eq!((ran.out.as_str(), ran.err.as_str()), ("3\n2\n1\n", "4 rounds, no process runs\n"));
    let both =
        ["run", "box.img", "down", "lamp", "--share", "down=8", "--share=lamp=2", "--rounds", "4", "--clock", "0"];
    assert_eq!(bench.arduinos(&both).out, "3\n2\nred\n1\n");
    let again = ["run", "box.img", "down", "--share", "down=2", "--share", "down=8", "--clock", "100"];
    assert_eq!(bench.arduinos(&again).err, "4 rounds, no process runs\n");
    let named = Bench::new("share_named", &[("a=b", DOWN)]);
    let ran = named.arduinos(&["run", "box.img", "a=b", "--share", "a=b=8", "--clock", "100"]);
    assert_eq!((ran.status, ran.err.as_str()), (0, "4 rounds, no process runs\n"));
    for (share, status, message) in [
        ("down=9", 1, "share of 9 for \"down\": a share is 1 to 8 (refusal 22)"),
        ("down=0", 1, "share of 0 for \"down\": a share is 1 to 8 (refusal 22)"),
        ("down", 2, "--share wants NAME=N, not 'down'"),
        ("down=x", 2, "--share wants a number after '=', not 'x'"),
        ("lamp=2", 2, "--share names 'lamp', which is not started here"),
    ] {
        let ran = bench.arduinos(&["run", "box.img", "down", "--share", share]);
        assert_eq!((ran.status, ran.first_error()), (status, format!("arduinos run: {message}").as_str()));
        assert_eq!(ran.out, "");
    }
}

#[test]
fn a_trace_shows_every_turn() {
    let bench = Bench::new("trace", &[("down", DOWN), ("wrong", WRONG_TYPE)]);
    let ran = bench.arduinos(&["run", "box.img", "down", "wrong", "--clock", "100", "--trace"]);
    assert_eq!(ran.status, 1);
    let lines: Vec<&str> = ran.out.lines().collect();
    assert_eq!(lines.len(), 1 + 29 + 3);
    let expected = [
        " round      clock  slot    ID  offset  instruction           stack after it, bottom first",
        "     1        100     0     1       0  INT 3                 [INT 3]",
        "     1        100     1     2       0  STRING \"abc\"          [STRING \"abc\"]",
        "     2        200     0     1       3  SET n                 []  n = INT 3",
        "     2        200     1     2       5  INT 5                 [STRING \"abc\", INT 5]",
        "     3        300     0     1       5  GET n                 [INT 3]",
        "     3        300     1     2       8  PLUS                    ended by fault 6",
        "     4        400     0     1       7  WHILE 2 8             [byte 14]",
        "     5        500     0     1      10  GET n                 [byte 14, INT 3]",
        "     6        600     0     1      12  PRINTLN               [byte 14]  printed \"3\\n\"",
    ];
    assert_eq!(lines[..10], expected);
    assert_eq!(lines[32], "    29       2900     0     1      19  STOP                    ended");
    assert_eq!(
        ran.err,
        "wrong (ID 2) ended by fault 6 at offset 8: PLUS takes numbers; below the INT 5 lay the string \"abc\"\n\
         29 rounds, no process runs\n"
    );
}

/// The lines of a trace, from the instruction on.
fn traced(bench: &Bench, name: &str) -> Vec<String> {
    let ran = bench.arduinos(&["run", "box.img", name, "--clock", "10", "--rounds", "20", "--trace"]);
    assert_eq!(ran.status, 0);
    ran.out.lines().skip(1).map(|line| line[39..].to_string()).collect()
}

#[test]
fn a_trace_shows_waits_and_only_variables_that_changed() {
    // MILLIS, CHAR 45, PLUS, DELAYUNTIL, STOP: from clock 10 to 55, a turn each 10
    let wait: &[u8] = &[45, 1, 45, 9, 44, 67];
    // CHAR 1, SET a, CHAR 2, SET b, CHAR 1, SET a, STOP: a's entry comes after b's
    let set: &[u8] = &[1, 1, 5, b'a', 1, 2, 5, b'b', 1, 1, 5, b'a', 67];
    let bench = Bench::new("waits", &[("wait", wait), ("set", set)]);
    let waits = [
        "PLUS                  [INT 55]",
        "DELAYUNTIL            [INT 55]  stays",
        "DELAYUNTIL            [INT 55]  stays",
        "DELAYUNTIL            []",
        "STOP                    ended",
    ];
    assert_eq!(traced(&bench, "wait")[2..], waits);
    let sets = [
        "SET a                 []  a = CHAR 1",
        "CHAR 2                [CHAR 2]",
        "SET b                 []  b = CHAR 2",
        "CHAR 1                [CHAR 1]",
        "SET a                 []",
        "STOP                    ended",
    ];
    assert_eq!(traced(&bench, "set")[1..], sets);
}

#[test]
fn trace_and_output_come_to_the_same_buffers() {
    let bench = Bench::new("same", &[("down", DOWN), ("lamp", LAMP), ("wrong", WRONG_TYPE)]);
    let run =
        ["run", "box.img", "down", "wrong", "lamp", "lamp", "--share", "lamp=3", "--clock", "40", "--rounds", "90"];
    let plain: Vec<&str> =
        run.iter().copied().chain(["--save-area", "a", "--save-disc", "d", "--record", "r"]).collect();
    let traced: Vec<&str> =
        run.iter().copied().chain(["--save-area", "b", "--save-disc", "e", "--record", "s", "--trace"]).collect();
    assert_eq!((bench.arduinos(&plain).status, bench.arduinos(&traced).status), (1, 1));
    assert_eq!(bench.read("a"), bench.read("b"));
    assert_eq!(bench.read("d"), bench.read("e"));
    assert_eq!(bench.read("r"), bench.read("s"));
}

#[test]
fn the_image_changes_only_if_it_is_saved() {
    // STRING "n", CHAR 1, OPEN, CHAR 65, WRITE, STOP
    let writes = [3, b'n', 0, 1, 1, 53, 1, 65, 55, 67];
    let bench = Bench::new("saved", &[("writes", &writes)]);
    let before = bench.read("box.img");
    assert_eq!(bench.arduinos(&["run", "box.img", "writes"]).status, 0);
    assert_eq!(bench.read("box.img"), before);
    assert_eq!(bench.arduinos(&["run", "box.img", "writes", "--save-disc", "box.img"]).status, 0);
    assert_eq!(bench.arduinos(&["disc", "get", "box.img", "n"]).out, "A");
}

#[test]
fn an_image_comes_from_standard_input() {
    let bench = Bench::new("stdin", &[("down", DOWN)]);
    let ran = bench.arduinos_with(&["run", "-", "down", "--clock", "1"], &bench.read("box.img"));
    assert_eq!((ran.status, ran.out.as_str()), (0, "3\n2\n1\n"));
}

#[test]
fn ends_inside_a_round_are_told() {
    // STRING "wrong", FORK, STOP: the child takes the next slot and goes on alone
    let forks = [3, b'w', b'r', b'o', b'n', b'g', 0, 68, 67];
    let bench = Bench::new("ends", &[("forks", &forks), ("wrong", WRONG_TYPE)]);
    let ran = bench.arduinos(&["run", "box.img", "forks", "--share", "forks=8", "--clock", "1"]);
    assert_eq!(ran.status, 1);
    assert!(ran.err.starts_with("wrong (ID 2) ended by fault 6 at offset 8: "), "{}", ran.err);
    // A child that ends in the round in which it was started: no work area between two rounds has it alive.
    let bench = Bench::new("at_once", &[("forks", &[3, b'z', 0, 68, 67]), ("z", &[0])]);
    let ran = bench.arduinos(&["run", "box.img", "forks", "--clock", "1"]);
    assert_eq!(ran.first_error(), "z (ID 2) ended by fault 1 at offset 0: byte 0 is no instruction");
    assert_eq!(ran.status, 1);
}

#[test]
fn a_wait_is_shown_as_one() {
    // MILLIS, INT 40, PLUS, DELAYUNTIL waits in round 4. CHAR 5, ENDWHILE goes back by 1, to itself: that is no wait
    let wait = [45, 2, 0, 40, 9, 44, 1, 5, 64];
    let bench = Bench::new("wait", &[("wait", &wait)]);
    let ran = bench.arduinos(&["run", "box.img", "wait", "--clock", "10", "--rounds", "7", "--trace"]);
    let waits: Vec<&str> = ran.out.lines().filter(|line| line.ends_with("  stays")).collect();
    assert_eq!(waits, ["     4         40     0     1       5  DELAYUNTIL            [INT 50]  stays"]);
    assert!(ran.out.ends_with("8  ENDWHILE              [byte 5]\n"), "{}", ran.out);
}

#[test]
fn the_code_ends_in_a_trace_too() {
    let bench = Bench::new("code-end", &[("short", &[65])]);
    let ran = bench.arduinos(&["run", "box.img", "short", "--clock", "1", "--trace"]);
    assert_eq!(
        ran.out.lines().last(),
        Some("     2          2     0     1       1  (the code's end)        ended by fault 2")
    );
}

#[test]
fn what_a_run_writes_is_checked_before_it_runs() {
    let bench = Bench::new("outputs", &[("down", DOWN)]);
    let before = bench.read("box.img");
    for (options, status, message) in [
        (vec!["--save-area", "box.img"], 2, "--save-area would write over the image"),
        (vec!["--record", "./box.img"], 2, "--record would write over the image"),
        (vec!["--record", "x", "--save-disc", "x"], 2, "--save-disc would write over the file of --record"),
        (vec!["--save-disc", "x", "--save-area", "x"], 2, "--save-area would write over the file of --save-disc"),
        (vec!["--record", "x", "--save-area", "./x"], 2, "--save-area would write over the file of --record"),
        (vec!["--save-disc", "-"], 2, "--save-disc wants a file: standard output has what the programs print"),
        (vec!["--record", "-"], 2, "--record wants a file: standard output has what the programs print"),
        (vec!["--record", "r", "--save-area", "no/x"], 1, "no/x: No such file or directory (os error 2)"),
        (vec!["--record", "r", "--save-disc", "."], 1, ".: it is a folder"),
    ] {
        let ran = bench.arduinos(&[&["run", "box.img", "down"], options.as_slice()].concat());
        assert_eq!((ran.status, ran.first_error()), (status, format!("arduinos run: {message}").as_str()));
        assert_eq!((ran.out.as_str(), bench.names()), ("", vec!["box.img".to_string()]), "{options:?}");
    }
    assert_eq!(bench.read("box.img"), before);
    std::os::unix::fs::symlink("nowhere", bench.path("link")).unwrap();
    let ran = bench.arduinos(&["run", "box.img", "down", "--record", "link", "--save-area", "nowhere"]);
    assert_eq!((ran.status, bench.has("nowhere")), (2, false));
}

#[test]
fn a_record_is_whole_where_the_output_fails() {
    let bench = Bench::new("full", &[("down", DOWN)]);
    let words = ["run", "box.img", "down", "--clock", "1", "--record", "r", "--save-area", "a"];
    let ran = bench.arduinos_to(&words, "/dev/full", "errors");
    assert_eq!(ran, 1);
    let message = "arduinos run: standard output: No space left on device (os error 28)\n";
    assert_eq!(String::from_utf8(bench.read("errors")).unwrap(), message);
    assert_eq!(bench.arduinos(&["replay", "r"]).status, 0);
    assert!(bench.has("a"));
}

#[test]
fn what_is_refused_writes_nothing() {
    let bench = Bench::new("refused", &[("down", DOWN)]);
    bench.write("short.img", [0; 1000]);
    bench.write("new.img", [255; 1024]);
    for (arguments, status, message) in [
        (vec!["box.img", "up"], 1, "run \"up\": no such file (refusal 10)"),
        (vec!["box.img", "no name"], 1, "run \"no name\": no such file (refusal 10)"),
        (vec!["box.img", ""], 1, "run \"\": no such file (refusal 10)"),
        (vec!["short.img", "down"], 1, "short.img: 1000 bytes; an EEPROM image has 1024 or 4096"),
        (vec!["new.img", "down"], 1, "new.img: the disc is not good (refusal 2):"),
        (vec!["no.img", "down"], 1, "no.img: No such file or directory (os error 2)"),
        (vec!["box.img"], 2, "NAME is missing: which program is to run?"),
        (vec![], 2, "IMAGE is missing"),
        (
            vec!["box.img", "down", "--clock", "soon"],
            2,
            "--clock wants 'real' or milliseconds up to 4294967295, not 'soon'",
        ),
        (
            vec!["box.img", "down", "--rounds", "-1"],
            2,
            "--rounds wants a number from 0 to 18446744073709551615, not '-1'",
        ),
        (vec!["box.img", "down", "--fast"], 2, "there is no option --fast"),
        (vec!["box.img", "down", "--save-area", "box.img"], 2, "--save-area would write over the image"),
        (
            vec!["box.img", "down", "--save-area", "-"],
            2,
            "--save-area wants a file: standard output has what the programs print",
        ),
    ] {
        let mut all = vec!["run"];
        all.extend(arguments);
        all.extend(["--record", "r"]);
        let ran = bench.arduinos(&all);
        assert_eq!((ran.status, ran.first_error()), (status, format!("arduinos run: {message}").as_str()));
        assert_eq!(ran.out, "");
        assert!(!bench.has("r"), "{all:?} left a record");
    }
}

#[test]
fn an_eleventh_process_is_refused() {
    let bench = Bench::new("eleven", &[("down", DOWN)]);
    let eleven: Vec<&str> = ["run", "box.img"].into_iter().chain(["down"; 11]).collect();
    let ran = bench.arduinos(&eleven);
    let message = "arduinos run: run \"down\": ten processes live already (refusal 12)";
    assert_eq!((ran.status, ran.first_error()), (1, message));
}

#[test]
fn a_round_that_is_not_its_turns_is_told() {
    let bench = Bench::new("agree", &[("lamp", LAMP)]);
    let mut session = Session::begin(bench.read("box.img"), None).unwrap();
    session.start(b"lamp", Some(3)).unwrap();
    let before = session.buffers.clone();
    let answer = session.round(0).unwrap();
    let (after, turns) = (session.buffers.clone(), turns::of_round(&before, 0));
    assert_eq!((turns.len(), answer.output.as_slice()), (3, &b"red\n"[..]));
    assert!(turns::agree(&turns, &before, &after, &answer));
    let (mut disc, mut area, mut output) = (after.clone(), after.clone(), answer.clone());
    disc.disc[1023] ^= 1;
    area.area[0] ^= 1;
    output.output.pop();
    assert!(!turns::agree(&turns, &before, &disc, &answer));
    assert!(!turns::agree(&turns, &before, &area, &answer));
    assert!(!turns::agree(&turns, &before, &after, &output));
    let nothing = Answer { number: 0, output: Vec::new() };
    assert!(turns::agree(&[], &before, &before, &nothing));
    assert!(!turns::agree(&[], &before, &after, &nothing));
}
