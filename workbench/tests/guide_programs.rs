//! The example programs of the ArduinOS guide's appendix A and of docs/GUIDE.md, part 5: assembled, stored and run by
//! the program. What comes out is the guides', not the workbench's.

mod bench;

use bench::{Bench, Ran};
use std::path::Path;
use workbench::asm;
use workbench::layout::Record;
use workbench::run::Session;

fn source(name: &str) -> Vec<u8> {
    std::fs::read(Path::new(env!("CARGO_MANIFEST_DIR")).join(format!("tests/guide/{name}.asm"))).unwrap()
}

fn assembled(name: &str) -> Vec<u8> {
    asm::assemble(&source(name)).unwrap().bytes
}

/// Assembles a source with `asm`, puts it on a new image as `guide` and runs it.
fn ran(name: &str, options: &[&str]) -> Ran {
    let bench = Bench::new(name, &[]);
    bench.write("guide.asm", source(name));
    let done = bench.arduinos(&["asm", "guide.asm"]);
    // Only the blinking LED has pins: PINMODE and DIGITALWRITE, a warning of three lines for each.
    let warnings = if name.starts_with("a4_blink") { 2 } else { 0 };
    assert_eq!((done.status, done.err.lines().count()), (0, 3 * warnings), "{name}: {}", done.err);
    assert_eq!(done.err.matches(" is not built: ").count(), warnings, "{name}: {}", done.err);
    bench.arduinos(&["disc", "put", "box.img", "guide"]).done();
    bench.arduinos(&[&["run", "box.img", "guide", "--clock", "100"], options].concat())
}

/// Document 004, appendix A; worked out by hand in crates/guide_programs.
#[test]
fn appendix_a() {
    let code_ended =
        |offset| format!("guide (ID 1) ended by fault 2 at offset {offset}: the code ends here, without STOP");
    let pins = "guide (ID 1) ended by fault 1 at offset 12: PINMODE is not built".to_string();
    let world = "world (ID 2) ended by fault 1 at offset 0: byte 119 ('w') is no instruction".to_string();
    let no_fault = String::new();
    for (name, options, out, fault, rounds) in [
        ("a1_numbers", &[][..], "", code_ended(13), "7 rounds, no process runs"),
        ("a1_hello", &[], "", code_ended(7), "2 rounds, no process runs"),
        ("a2_printed", &[], "a\n263\n123.45\ntest\n", code_ended(20), "9 rounds, no process runs"),
        ("a3_branch", &[], "False\n", no_fault.clone(), "11 rounds, no process runs"),
        ("a3_endless", &["--rounds", "33"], "1\n2\n3\n4\n5\n", no_fault.clone(), "33 rounds, 1 process runs"),
        ("a3_counted", &[], "1\n2\n3\n4\n5\n", no_fault.clone(), "57 rounds, no process runs"),
        ("a4_blink", &[], "", pins, "7 rounds, no process runs"),
        ("a5_written", &[], "text\n\na\n25187\n0.10\n", no_fault, "25 rounds, no process runs"),
        ("a6_forked", &[], "hello,\nbye\n", world, "19 rounds, no process runs"),
    ] {
        for name in [name.to_string(), format!("{name}_short")] {
            let ran = ran(&name, options);
            let err = if fault.is_empty() { format!("{rounds}\n") } else { format!("{fault}\n{rounds}\n") };
            assert_eq!((ran.out.as_str(), ran.err.as_str()), (out, err.as_str()), "{name}");
            assert_eq!(ran.status, i32::from(!fault.is_empty()), "{name}");
        }
    }
}

/// A block of docs/GUIDE.md that shows what a program prints: its title and its other lines.
fn guide_outputs() -> Vec<(String, Vec<String>)> {
    let text = include_str!("../../docs/GUIDE.md");
    let blocks = text.split("```output\n").skip(1).map(|rest| rest.split("```").next().unwrap());
    let lines = blocks.map(|block| block.lines().map(str::to_string).collect::<Vec<_>>());
    lines.map(|lines| (lines[0].clone(), lines[1..].to_vec())).collect()
}

/// The lines that docs/GUIDE.md would have for a run of slot 0: "round 6: 3", then how it ended.
fn shown(session: &mut Session, most: u64) -> Vec<String> {
    let mut lines = Vec::new();
    for round in 1..=most {
        let answer = session.round(100 * round as u32).unwrap();
        let printed = String::from_utf8(answer.output).unwrap();
        lines.extend(printed.lines().map(|line| format!("round {round}: {line}")));
        let record = Record::of(&session.buffers.area, 0);
        if !record.is_live() {
            lines.push(format!("ended in round {round}, fault {}", record.fault()));
            return lines;
        }
    }
    lines.push(format!("killed after round {most}, fault 0"));
    lines
}

#[test]
fn part_5_of_the_guide() {
    let outputs = guide_outputs();
    let mut met = 0;
    for (name, share, most) in [
        ("hours", None, 72_050),
        ("hours", Some(8), 72_050),
        ("lamp", None, 45),
        ("lamp", Some(8), 45),
        ("load", None, 100),
        ("down", None, 100),
        ("starter", None, 100),
    ] {
        let bench = Bench::new(&format!("guide-{name}-{share:?}"), &[(name, &assembled(name))]);
        let mut disc = bench.read("box.img");
        if name == "starter" {
            assert_eq!(kernel::store(&mut disc, b"down", &assembled("down")), 0);
        }
        let mut session = Session::begin(disc, None).unwrap();
        session.start(name.as_bytes(), share).unwrap();
        let title = share.map_or(name.to_string(), |share| format!("{name} with a share of {share}"));
        let lines = shown(&mut session, most);
        let block = outputs.iter().find(|(shown, _)| *shown == title).unwrap();
        assert_eq!(lines, block.1, "{title}");
        met += 1;
    }
    assert_eq!(met, 7);
}

#[test]
fn files_outlive_a_run() {
    let files = ["logger", "reader", "powerups"].map(|name| (name, assembled(name)));
    let bench = Bench::new("files", &files.each_ref().map(|(name, bytes)| (*name, bytes.as_slice())));
    let run = |name: &str| bench.arduinos(&["run", "box.img", name, "--clock", "100", "--save-disc", "box.img"]);
    assert_eq!((run("logger").out.as_str(), run("reader").out.as_str()), ("", "800\n1600\n2400\n"));
    assert_eq!((run("powerups").out.as_str(), run("powerups").out.as_str()), ("1\n", "2\n"));
}
