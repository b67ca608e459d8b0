//! `arduinos replay`: a record made again, and told where it was altered.

mod bench;

use bench::{Bench, DOWN, LAMP, WRONG_TYPE};
use kernel::call::Call;
use workbench::buffers::Buffers;
use workbench::record::{self, Writer};
use workbench::replay::replay;

/// A record of a run in which one process ends by a fault.
fn recorded(bench: &Bench) -> Vec<u8> {
    let run = ["run", "box.img", "down", "wrong", "--share", "down=3", "--clock", "100", "--record", "r"];
    assert_eq!(bench.arduinos(&run).status, 1);
    bench.read("r")
}

#[test]
fn a_record_is_made_again() {
    let bench = Bench::new("again", &[("down", DOWN), ("wrong", WRONG_TYPE)]);
    recorded(&bench);
    let ran = bench.arduinos(&["replay", "r"]);
    assert_eq!((ran.status, ran.err.as_str()), (0, ""));
    assert_eq!(
        ran.out,
        "line 14, round 300: wrong (ID 2) ended by fault 6 at offset 8: PLUS takes numbers; below the INT 5 lay the \
         string \"abc\"\nr: 14 calls, all as recorded\n"
    );
    let traced = bench.arduinos(&["replay", "r", "--trace"]);
    assert_eq!((traced.status, traced.out.lines().count()), (0, 1 + 29 + 3 + 2));
    let run = bench.arduinos(&["run", "box.img", "down", "wrong", "--share", "down=3", "--clock", "100", "--trace"]);
    let turns: Vec<&str> = traced.out.lines().filter(|line| line.starts_with(' ')).collect();
    assert_eq!(turns, run.out.lines().collect::<Vec<_>>());
    assert_eq!(bench.arduinos_with(&["replay", "-"], &bench.read("r")).status, 0);
}

#[test]
fn an_alteration_by_one_byte_is_told() {
    let bench = Bench::new("altered", &[("down", DOWN), ("wrong", WRONG_TYPE)]);
    let whole = recorded(&bench);
    for place in 0..whole.len() {
        for change in [1, 2, 16, 128] {
            let mut altered = whole.clone();
            altered[place] ^= change;
            assert!(is_told(&altered), "byte {place} changed by {change}");
        }
        assert!(is_told(&whole[..place]), "cut off at {place}");
        assert!(is_told(&[&whole[..place], &whole[place + 1..]].concat()), "byte {place} left out");
    }
    assert!(!is_told(&whole));
}

/// Whether the command would tell a difference.
fn is_told(bytes: &[u8]) -> bool {
    record::read(bytes).map_or(true, |record| !replay(record, false).differences.is_empty())
}

#[test]
fn messages_name_the_place() {
    let bench = Bench::new("messages", &[("down", DOWN), ("wrong", WRONG_TYPE)]);
    let whole = String::from_utf8(recorded(&bench)).unwrap();
    let lines: Vec<&str> = whole.lines().collect();
    assert!(lines[12].starts_with("round 200 = 2 \"3\\n\" disc "), "{}", lines[12]);
    let disc = &lines[12][25..33];
    for (old, new, message) in [
        ("= 2 \"3", "= 3 \"3", "r:13:13: round 200: the record has 3, the kernel answers 2"),
        ("\"3\\n\"", "\"4\\n\"", "r:13:15: round 200: the record has the output \"4\\n\", the kernel writes \"3\\n\""),
        ("run \"down\"", "run \"dawn\"", "r:9:14: run \"dawn\": the record has 1, the kernel answers -10"),
        ("round 200 =", "round 2x0 =", "r:13:7: expected a clock reading"),
        ("round 200 =", "round 0200 =", "r:13:7: expected a clock reading"),
        ("round 200 =", "round 200  ", "r:13:11: expected '='"),
        ("round 200 =", "ground 20 =", "r:13:1: expected a call, 'disc', 'area', 'at' or 'sum'"),
        ("area 1056", "area 1055", "r:8:8: boot: the record has 0, the kernel answers -1"),
        ("disc 1024", "disc 9999999", "r:2:6: expected at most 65536 bytes"),
        ("arduinos record 1", "arduinos record 2", "r:1:1: expected 'arduinos record 1'"),
    ] {
        assert_eq!(whole.matches(old).count(), 1, "{old}");
        bench.write("r", whole.replace(old, new).as_bytes());
        let ran = bench.arduinos(&["replay", "r"]);
        assert_eq!((ran.status, ran.first_error()), (1, message));
    }
    bench.write("r", whole.replace(disc, "00000000").as_bytes());
    let message = format!("r:8:10: boot: the record has the checksum 00000000 of the disc, the kernel leaves {disc}");
    assert_eq!(bench.arduinos(&["replay", "r"]).first_error(), message);
    let area = &lines[12][39..47];
    bench.write("r", whole.replace(area, "00000000").as_bytes());
    let message =
        format!("r:13:35: round 200: the record has the checksum 00000000 of the area, the kernel leaves {area}");
    assert_eq!(bench.arduinos(&["replay", "r"]).first_error(), message);
}

#[test]
fn a_record_has_one_form() {
    let bench = Bench::new("form", &[("down", DOWN), ("wrong", WRONG_TYPE)]);
    let whole = String::from_utf8(recorded(&bench)).unwrap();
    let round = whole.lines().nth(12).unwrap();
    let (front, area) = round.split_at(39);
    assert_ne!(area, area.to_uppercase());
    let order = "expected 'disc', then 'area', each with its bytes, then calls, then 'sum'";
    for (old, new, message) in [
        (round, format!("{front}{}", area.to_uppercase()), "r:13:40: expected a checksum of eight hex digits"),
        (round, format!("{round} x"), "r:13:49: expected the end of the line"),
        (round, format!("{round} "), "r:13:48: expected the end of the line"),
        (round, format!("{round}\r"), "r:13:48: expected a newline alone, found a carriage return"),
        (round, round.replace(" =", " room 2560 ="), "r:13:11: expected the form in which a record is written"),
        (round, format!("{round}\nat 0 00"), &format!("r:14:1: {order}")),
        ("disc 1024", "area 1024".to_string(), &format!("r:2:1: {order}")),
        ("\nsum", "\n\nsum".to_string(), "r:22:1: expected a call, 'disc', 'area', 'at' or 'sum'"),
    ] {
        assert_eq!(whole.matches(old).count(), 1, "{old}");
        bench.write("r", whole.replace(old, &new).as_bytes());
        let ran = bench.arduinos(&["replay", "r"]);
        assert_eq!((ran.status, ran.first_error(), ran.out.as_str()), (1, message, ""));
    }
    bench.write("r", format!("{whole}boot = 0 disc 00000000 area 00000000\n").as_bytes());
    let ran = bench.arduinos(&["replay", "r"]);
    assert_eq!(ran.first_error(), "r:23:1: expected the end of the record after 'sum'");
}

#[test]
fn an_altered_checksum_is_told_after_the_calls() {
    let bench = Bench::new("sum", &[("down", DOWN), ("wrong", WRONG_TYPE)]);
    let mut whole = recorded(&bench);
    let last = whole.len() - 2;
    whole[last] = if whole[last] == b'0' { b'1' } else { b'0' };
    bench.write("r", &whole);
    let ran = bench.arduinos(&["replay", "r"]);
    assert_eq!((ran.status, ran.first_error()), (1, "r:22:1: the record was altered: its lines have another checksum"));
    for text in ["", "\n", "arduinos record 1\n", "arduinos record 1\ndisc 0\narea 0\n", "text"] {
        bench.write("r", text.as_bytes());
        assert_eq!(bench.arduinos(&["replay", "r"]).status, 1, "{text}");
    }
    assert_eq!(
        bench.arduinos(&["replay", "none"]).first_error(),
        "arduinos replay: none: No such file or directory (os error 2)"
    );
    assert_eq!(bench.arduinos(&["replay"]).status, 2);
}

/// Every call, done and refused.
fn every_call() -> Vec<Call> {
    let name = b"lamp".to_vec();
    vec![
        Call::Format,
        Call::Store { name: name.clone(), data: LAMP.to_vec() },
        Call::Store { name: b" \"\\\xff\n".to_vec(), data: vec![] },
        Call::Files { room: 170 },
        Call::Files { room: 3 },
        Call::FreeSpace,
        Call::Retrieve { name: name.clone(), room: 863 },
        Call::Retrieve { name: name.clone(), room: 0 },
        Call::Run { name: name.clone() },
        Call::Share { id: 1, share: 8 },
        Call::Share { id: 1, share: 9 },
        Call::List { room: 200 },
        Call::turn(0, u32::MAX),
        Call::Turn { slot: 10, clock: 0, room: 31 },
        Call::round(5),
        Call::Round { clock: 5, room: 2559 },
        Call::Suspend { id: 1 },
        Call::Resume { id: 1 },
        Call::Resume { id: 65_537 },
        Call::Kill { id: 1 },
        Call::Erase { name },
        Call::Boot,
    ]
}

#[test]
fn every_call_is_written_and_read() {
    for length in [1024, 4096, 7] {
        // Rows of zeros, rows that begin with one, and rows without.
        let bytes = |length| (0..length).map(|at| if at % 48 < 17 { 0 } else { at as u8 }).collect::<Vec<u8>>();
        let mut buffers = Buffers { disc: bytes(length), area: bytes(1056) };
        let begun = buffers.clone();
        let mut writer = Writer::begin(Vec::new(), &buffers).unwrap();
        let mut numbers = Vec::new();
        for call in every_call() {
            let answer = buffers.call(&call);
            writer.call(&call, &answer, &buffers).unwrap();
            numbers.push(answer.number);
        }
        let text = writer.end().unwrap();
        let record = record::read(&text).unwrap();
        assert_eq!(record.buffers, begun);
        let read: Vec<Call> = record.calls.iter().map(|recorded| recorded.made.call.clone()).collect();
        assert_eq!(read, every_call());
        assert!(!is_told(&text));
        if length != 7 {
            assert_eq!(numbers[2..5], [-5, 8, -4]);
            assert_eq!(numbers[8], 1);
        }
    }
}
