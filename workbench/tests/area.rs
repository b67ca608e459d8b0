//! The command `arduinos area`: a worked state read out, damage told, and no bytes that it cannot read.

mod bench;
mod field;
mod random;
mod support;

use bench::Bench;
use field::{put_word, record_at};
use kernel::sizes::*;
use random::Random;
use support::damage;
use support::state::{self, State};
use workbench::good;
use workbench::layout::*;
use workbench::readout;

/// INT 3, SET n, STRING "abc", SET x, LOOP, FLOAT 3.5, CHAR 97, STRING "log", INT 50, OPEN, INT −1, WRITE, INT 300,
/// CHAR 1, WHILE 0 1 (its byte is on the stack then), STOP.
const BLINK: [u8; 45] = [
    2, 0, 3, 5, 110, 3, 97, 98, 99, 0, 5, 120, 65, 4, 64, 96, 0, 0, 1, 97, 3, 108, 111, 103, 0, 2, 0, 50, 53, 2, 255,
    255, 55, 2, 1, 44, 1, 1, 63, 0, 1, 67, 64, 67, 67,
];
/// STRING "abc", INT 5, PLUS.
const SUM: [u8; 9] = [3, 97, 98, 99, 0, 2, 0, 5, 9];
/// CHAR 7, SET 200, STOP.
const SHORT: [u8; 5] = [1, 7, 5, 200, 67];

/// blink in slot 0, 15 turns on, share 8; sum in slot 1, ended by its fault; short in slot 2, paused at its STOP; short
/// in slot 3, killed.
fn worked() -> State {
    let mut state = State::with_files(&[("blink", &BLINK), ("sum", &SUM), ("short", &SHORT)]);
    state.start(&["blink", "sum", "short", "short"]);
    for (slot, turns) in [(0, 15), (1, 3), (2, 2)] {
        state.turns(slot, turns);
    }
    let (disc, area) = (&state.disc, &mut state.area);
    assert_eq!(kernel::share(disc, area, 1, 8), 0);
    assert_eq!(kernel::suspend(disc, area, 3), 0);
    assert_eq!(kernel::kill(disc, area, 4), 0);
    state
}

const WORKED: &str = "\
live processes: 2, ended: 2, variables: 3 of 25, next ID: 5

slot 0: blink (ID 1), running, share 8
  PC 41 of 45: STOP
  loop at 13
  file \"log\", offset 2 of 50
  stack: FLOAT 3.5, CHAR 97 'a', INT 300, byte 5
slot 1: sum (ID 2), ended by fault 6: a type that is not taken here, or a malformed string
slot 2: short (ID 3), paused, share 1
  PC 4 of 5: STOP
  stack: empty
slot 3: short (ID 4), ended

   name  address  size  process                 type and value
A  n           0     2  blink (ID 1)            INT 3
B  x           2     4  blink (ID 1)            STRING \"abc\"
C  200         6     1  short (ID 3)            CHAR 7

variable memory: 249 of 256 bytes free, the longest free run 249
     0 1 2 3 4 5 6 7 8 9 a b c d e f
  00 A A B B B B C . . . . . . . . .
  10 . . . . . . . . . . . . . . . .
  20 . . . . . . . . . . . . . . . .
  30 . . . . . . . . . . . . . . . .
  40 . . . . . . . . . . . . . . . .
  50 . . . . . . . . . . . . . . . .
  60 . . . . . . . . . . . . . . . .
  70 . . . . . . . . . . . . . . . .
  80 . . . . . . . . . . . . . . . .
  90 . . . . . . . . . . . . . . . .
  a0 . . . . . . . . . . . . . . . .
  b0 . . . . . . . . . . . . . . . .
  c0 . . . . . . . . . . . . . . . .
  d0 . . . . . . . . . . . . . . . .
  e0 . . . . . . . . . . . . . . . .
  f0 . . . . . . . . . . . . . . . .

disc: good; files: 4 of 10, bytes: 109 of 863, longest free run: 754
work area: good; live processes: 2 of 10, variables: 3 of 25
";

const GOOD: &str = "\
disc: good; files: 4 of 10, bytes: 109 of 863, longest free run: 754
work area: good; live processes: 2 of 10, variables: 3 of 25
";

#[test]
fn a_worked_state() {
    let bench = Bench::empty("area");
    let state = worked();
    bench.write("area", &state.area);
    bench.write("box.img", &state.disc);
    assert_eq!(bench.arduinos(&["area", "area", "--disc", "box.img"]).done(), WORKED);
    assert_eq!(bench.arduinos_with(&["area", "-", "--disc", "box.img"], &state.area).done(), WORKED);
    assert_eq!(bench.arduinos_with(&["area", "area", "--disc", "-"], &state.disc).done(), WORKED);
}

#[test]
fn without_its_disc_places_are_numbers() {
    let bench = Bench::empty("alone");
    bench.write("area", worked().area);
    let alone = WORKED
        .replace("PC 41 of 45: STOP", "PC 41 of 45")
        .replace("PC 4 of 5: STOP", "PC 4 of 5")
        .replace("file \"log\"", "file at 220")
        .replace(GOOD, "work area: nothing wrong by itself; --disc checks it beside its disc\n");
    assert_eq!(bench.arduinos(&["area", "area"]).done(), alone);
}

#[test]
fn a_booted_area_has_no_processes() {
    let bench = Bench::empty("booted");
    let mut area = vec![1; AREA_LEN];
    kernel::boot(&mut area);
    let text = bench.arduinos_with(&["area", "-"], &area).done();
    let head = "live processes: 0, ended: 0, variables: 0 of 25, next ID: 1\n\nvariable memory: 256 of 256 bytes free";
    assert!(text.starts_with(head), "{text}");
}

/// The last lines of a readout that finds damage, those about disc and work area.
fn wrong(bench: &Bench, state: &State) -> String {
    bench.write("area", &state.area);
    bench.write("box.img", &state.disc);
    let ran = bench.arduinos(&["area", "area", "--disc", "box.img"]);
    assert_eq!((ran.status, ran.err.as_str()), (1, ""));
    let text = ran.out;
    text[text.find("\ndisc: ").expect("a verdict") + 1..].to_string()
}

#[test]
fn damage_is_told_and_shown() {
    let bench = Bench::empty("damaged");
    let mut state = worked();
    state.area[record_at(0) + 30] = 200;
    state.area[256 + 6 + 2] = 1;
    assert_eq!(
        wrong(&bench, &state),
        "disc: good; files: 4 of 10, bytes: 109 of 863, longest free run: 754\n\
         work area: not good\n  slot 0 (blink, ID 1): SP is 200; a stack has 32 bytes\n  \
         variable 1 (x of ID 1): bytes 1 to 4 overlap those of variable 0 (n of ID 1), 0 to 1\n"
    );
    let text = readout::text(&state.area, Some(&state.disc));
    assert!(text.contains("\n  00 A ! B B B . C . "), "{text}");
    assert!(text.contains(" (SP is 200)\n"), "{text}");
    assert!(text.contains("STRING, no value: bytes 3 97 98 99\n"), "{text}");
}

#[test]
fn places_that_only_damage_or_the_last_turn_leaves() {
    let mut state = worked();
    // "sum" as long as the open file; short at its code's end; x of ten bytes, its zero inside
    put_word(&mut state.disc, 16 + 14, 50);
    put_word(&mut state.area, record_at(2) + 20, 5);
    state.area[256 + 6 + 3] = 10;
    let text = readout::text(&state.area, Some(&state.disc));
    assert!(text.contains("\n  file \"log\", offset 2 of 50\n"), "{text}");
    assert!(text.contains("\n  PC 5 of 5: the code's end\n"), "{text}");
    assert!(text.contains("STRING, no value: bytes 97 98 99 0 7 0 0 0 ..\n"), "{text}");
}

#[test]
fn bytes_that_two_variables_claim_are_free_of_neither() {
    let mut state = worked();
    state.area[256 + 12 + 2] = 3;
    let text = readout::text(&state.area, Some(&state.disc));
    let memory = "\nvariable memory: 250 of 256 bytes free, the longest free run 250\n";
    assert!(text.contains(memory) && text.contains("\n  00 A A B ! B B . "), "{text}");
}

#[test]
fn a_work_area_of_another_disc_is_told() {
    let bench = Bench::empty("another");
    let mut state = worked();
    state.disc[..5].copy_from_slice(b"blank");
    put_word(&mut state.disc, 32 + 12, 800);
    let first = "  slot 0 (blink, ID 1): the disc has no file of its name\n";
    let second = "  slot 2 (short, ID 3): its code is 5 bytes at 215; the disc has that file with 5 at 800\n";
    let good = "disc: good; files: 4 of 10, bytes: 109 of 863, longest free run: 530\n";
    assert_eq!(wrong(&bench, &state), format!("{good}work area: not good\n{first}{second}"));
    state.disc.fill(255);
    let disc = "  the file count, byte 160, is 255; a disc has at most 10 files; all bytes are hex FF, as in \
                an EEPROM that was never formatted\n";
    let area = "work area: nothing wrong by itself; beside this disc it is not judged\n";
    assert_eq!(wrong(&bench, &state), format!("disc: not good\n{disc}{area}"));
}

#[test]
fn what_is_no_work_area_is_refused() {
    let bench = Bench::empty("noarea");
    bench.write("short", [0; 1024]);
    bench.write("area", worked().area);
    bench.arduinos(&["area", "short"]).refused("area: short: 1024 bytes; a work area has 1056");
    bench.arduinos(&["area", "none"]).refused("area: none: No such file or directory (os error 2)");
    bench
        .arduinos(&["area", "area", "--disc", "area"])
        .refused("area: area: 1056 bytes; an EEPROM image has 1024 or 4096");
    bench.arduinos(&["area"]).misused("area", "FILE is missing");
    bench.arduinos(&["area", "-", "--disc", "-"]).misused("area", "standard input cannot be both FILE and IMAGE");
    assert_eq!((bench.read("area"), bench.names()), (worked().area, vec!["area".into(), "short".into()]));
    assert!(bench.arduinos(&["area", "--help"]).done().starts_with("usage: arduinos area FILE"));
}

/// Reads out and judges, with or without the disc. The text has a head, the picture and a blank line between at least;
/// of many clauses some are put into words.
fn read_out(state: &State, with_disc: bool) {
    let disc = with_disc.then_some(state.disc.as_slice());
    assert!(readout::text(&state.area, disc).lines().count() >= 20);
    let of_disc = good::disc(&state.disc);
    let of_area = if with_disc { good::area(&state.disc, &state.area) } else { good::area_alone(&state.area) };
    assert!(of_disc.iter().take(8).all(|clause| !clause.to_string().is_empty()));
    assert!(of_area.iter().step_by(8).all(|clause| !clause.to_string().is_empty()));
}

#[test]
fn any_bytes_can_be_read_out() {
    let mut random = Random(11);
    let mut state = State { disc: vec![0; SHORT_DISC], area: vec![0; AREA_LEN] };
    for round in 0..30_000 {
        if round % 100 == 0 {
            state.disc.resize(random.pick(&[SHORT_DISC, LONG_DISC]), 0);
            random.fill(&mut state.disc);
        }
        random.fill(&mut state.disc[..DATA_START]);
        random.fill(&mut state.area);
        if round % 4 != 0 {
            // Live processes and counts in range, so that all fields are read.
            for slot in 0..MAX_PROCESSES {
                state.area[record_at(slot) + 14] = random.pick(&[RUNNING, PAUSED, ENDED]);
                state.area[record_at(slot) + 30] %= 40;
                state.area[record_at(slot) + 17] %= 8;
                state.area[record_at(slot) + 19] %= 4;
            }
            state.area[VARIABLE_COUNT] %= 12;
            state.disc[FILE_COUNT] %= 12;
        }
        read_out(&state, round % 2 == 0);
    }
}

#[test]
fn damaged_states_can_be_read_out() {
    let mut random = Random(12);
    for _ in 0..2_000 {
        let whole = state::any(&mut random);
        let mut state = whole.clone();
        for damage in 0..36 {
            match random.below(4) {
                0 => damage::disc_field(&mut random, &mut state),
                1 => {
                    let at = random.below(AREA_LEN);
                    state.area[at] = random.byte();
                }
                _ => damage::area_field(&mut random, &mut state),
            }
            read_out(&state, damage % 2 == 0);
            if damage % 6 == 5 {
                state.clone_from(&whole);
            }
        }
    }
}
