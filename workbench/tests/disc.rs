//! The commands `arduinos disc ..`: done, refused with the image as it was, and misused.

mod bench;

use bench::Bench;
use kernel::sizes::{AREA_LEN, LONG_DISC, SHORT_DISC};
use workbench::layout::{entries, entry_named, FILE_COUNT};

/// A bench with the programs `down` (20 bytes) and `log` (50 bytes) and an image `box.img` that has both.
fn shop(name: &str) -> Bench {
    let bench = Bench::empty(name);
    bench.write("down", (0..20).collect::<Vec<u8>>());
    bench.write("log", [7; 50]);
    assert_eq!(bench.arduinos(&["disc", "new", "box.img"]).done(), "");
    assert_eq!(bench.arduinos(&["disc", "put", "box.img", "down", "log"]).done(), "");
    bench
}

/// Runs a command that must be refused and must leave the image as it was and no other file behind.
fn refused(bench: &Bench, arguments: &[&str], message: &str) {
    let (whole, names) = (bench.read("box.img"), bench.names());
    bench.arduinos(arguments).refused(message);
    assert_eq!(bench.read("box.img"), whole);
    assert_eq!(bench.names(), names);
}

#[test]
fn new_makes_the_empty_disc_of_either_length() {
    let bench = Bench::empty("new");
    bench.arduinos(&["disc", "new", "short.img"]).done();
    bench.arduinos(&["disc", "new", "long.img", "--long"]).done();
    let mut area = vec![0; AREA_LEN];
    for (name, length) in [("short.img", SHORT_DISC), ("long.img", LONG_DISC)] {
        let mut disc = vec![9; length];
        kernel::format(&mut disc, &mut area);
        assert_eq!(bench.read(name), disc);
    }
    assert_eq!(bench.arduinos(&["disc", "new", "-"]).bytes, bench.read("short.img"));
    assert_eq!(bench.names(), ["long.img", "short.img"]);
}

#[test]
fn new_replaces_a_file_only_by_force() {
    let bench = shop("force");
    refused(&bench, &["disc", "new", "box.img"], "disc new: box.img: it is there already; --force replaces it");
    bench.arduinos(&["disc", "new", "--force", "box.img"]).done();
    assert_eq!(bench.read("box.img"), vec![0; SHORT_DISC]);
    bench.arduinos(&["disc", "new"]).misused("disc new", "IMAGE is missing");
    bench.arduinos(&["disc", "new", "a", "b"]).misused("disc new", "'b' is one argument too many");
}

#[test]
fn ls_lists_as_the_box_does() {
    let bench = shop("ls");
    assert_eq!(bench.arduinos(&["disc", "ls", "box.img"]).done(), "down 20\nlog 50\n");
    assert_eq!(bench.arduinos_with(&["disc", "ls", "-"], &bench.read("box.img")).done(), "down 20\nlog 50\n");
    bench.arduinos(&["disc", "rm", "box.img", "down"]).done();
    assert_eq!(
        bench.arduinos(&["disc", "ls", "-l", "box.img"]).done(),
        "entry  name         first   last  length\n    \
             0  log            181    230      50\n       \
                (free)         161    180      20\n       \
                (free)         231   1023     793\n\
         files: 1 of 10, bytes: 50 of 863, longest free run: 793\n"
    );
    bench.arduinos(&["disc", "new", "empty.img"]).done();
    assert_eq!(bench.arduinos(&["disc", "ls", "empty.img"]).done(), "");
    bench.arduinos(&["disc", "put", "empty.img", "down", "--as", "it's\"a\\"]).done();
    let table = bench.arduinos(&["disc", "ls", "-l", "empty.img"]).done();
    assert_eq!(table.lines().nth(1), Some("    0  it's\"a\\        161    180      20"));
}

#[test]
fn a_bad_or_short_image_is_refused_by_each_command() {
    let bench = shop("bad");
    let mut bad = bench.read("box.img");
    bad[FILE_COUNT] = 11;
    bench.write("bad.img", &bad);
    bench.write("short.img", &bad[..1000]);
    let commands: [&[&str]; 5] =
        [&["ls"], &["put", "down"], &["put", "down", "--replace"], &["get", "down"], &["rm", "down"]];
    for words in commands {
        let with_image = |image: &'static str| {
            let mut arguments = vec!["disc", words[0], image];
            arguments.extend(&words[1..]);
            arguments
        };
        let count = "the file count, byte 160, is 11; a disc has at most 10 files";
        let of_bad = format!("disc {}: bad.img: the disc is not good (refusal 2):\n  {count}", words[0]);
        refused(&bench, &with_image("bad.img"), &of_bad);
        let of_short = format!("disc {}: short.img: 1000 bytes; an EEPROM image has 1024 or 4096", words[0]);
        refused(&bench, &with_image("short.img"), &of_short);
        let of_none = format!("disc {}: none.img: No such file or directory (os error 2)", words[0]);
        refused(&bench, &with_image("none.img"), &of_none);
    }
    assert_eq!((bench.read("bad.img"), bench.read("short.img")), (bad.clone(), bad[..1000].to_vec()));
}

#[test]
fn put_stores_and_get_reads_back() {
    let bench = shop("put");
    bench.write("other", [1, 2, 3]);
    bench.arduinos(&["disc", "put", "box.img", "other", "--as", "elevenbytes"]).done();
    assert_eq!(bench.arduinos(&["disc", "get", "box.img", "elevenbytes"]).bytes, [1, 2, 3]);
    bench.arduinos(&["disc", "get", "box.img", "down", "-o", "copy"]).done();
    assert_eq!(bench.read("copy"), bench.read("down"));
    std::fs::create_dir(bench.path("sub")).expect("a bench");
    bench.write("sub/deep", [5]);
    bench.arduinos(&["disc", "put", "box.img", "sub/deep"]).done();
    assert_eq!(bench.arduinos(&["disc", "get", "box.img", "deep"]).bytes, [5]);
}

#[test]
fn put_and_rm_take_standard_input_and_output() {
    let bench = shop("dash");
    let whole = bench.read("box.img");
    let changed = bench.arduinos_with(&["disc", "put", "-", "down", "--as", "two"], &whole);
    assert_eq!((changed.status, changed.err.as_str()), (0, ""));
    assert_eq!(entry_named(&changed.bytes, b"two").map(|entry| entry.length), Some(20));
    let back = bench.arduinos_with(&["disc", "rm", "-", "two"], &changed.bytes);
    assert_eq!((back.status, entries(&back.bytes).len()), (0, 2));
    bench.arduinos_with(&["disc", "put", "box.img", "-", "--as", "typed"], b"abc").done();
    assert_eq!(bench.arduinos_with(&["disc", "get", "-", "typed"], &bench.read("box.img")).bytes, b"abc");
    bench
        .arduinos_with(&["disc", "rm", "-", "none"], &whole)
        .refused("disc rm: standard input: \"none\" is not erased (refusal 10): no such file");
    assert_eq!(bench.names(), ["box.img", "down", "log"]);
}

#[cfg(unix)]
#[test]
fn a_changed_image_stays_where_and_what_it_was() {
    use std::os::unix::fs::{symlink, PermissionsExt};
    let bench = shop("kept");
    let image = bench.path("box.img");
    std::fs::set_permissions(&image, PermissionsExt::from_mode(0o640)).expect("a bench");
    bench.arduinos(&["disc", "rm", "box.img", "log"]).done();
    assert_eq!(std::fs::metadata(&image).expect("the image").permissions().mode() & 0o777, 0o640);
    symlink("box.img", bench.path("link.img")).expect("a bench");
    bench.arduinos(&["disc", "rm", "link.img", "down"]).done();
    assert!(std::fs::symlink_metadata(bench.path("link.img")).expect("the link").is_symlink());
    assert_eq!(bench.arduinos(&["disc", "ls", "box.img"]).done(), "");
}

#[test]
fn put_is_refused_with_what_helps() {
    let bench = shop("refused");
    bench.write("twelvebytes!", [1]);
    bench.write("a b", [1]);
    bench.write("empty", []);
    bench.write("big", [0; 864]);
    bench.write("mid", [0; 794]);
    let bad_name = "(refusal 5): a bad name: a name has 1 to 11 characters from '!' to '~', no space; --as gives \
                    another name";
    let bad_size = "(refusal 6): a file has at least 1 byte, and at most 863, on a long disc 3935; this one has";
    let put = |file, message: String| refused(&bench, &["disc", "put", "box.img", file], &message);
    put("twelvebytes!", format!("disc put: twelvebytes!: not stored as \"twelvebytes!\" {bad_name}"));
    put("a b", format!("disc put: a b: not stored as \"a b\" {bad_name}"));
    put("empty", format!("disc put: empty: not stored as \"empty\" {bad_size} 0, and the disc takes 863"));
    put("big", format!("disc put: big: not stored as \"big\" {bad_size} 864, and the disc takes 863"));
    let no_run = "(refusal 9): no run of free bytes is long enough; the file has 794, the longest free run 793";
    put("mid", format!("disc put: mid: not stored as \"mid\" {no_run}"));
    let exists = "(refusal 7): the name exists already; --replace erases the old file first";
    put("down", format!("disc put: down: not stored as \"down\" {exists}"));
    put("none", "disc put: none: No such file or directory (os error 2)".into());
    refused(
        &bench,
        &["disc", "put", "box.img", "down", "--as", "gr\u{fc}n"],
        &format!("disc put: down: not stored as \"gr\\xc3\\xbcn\" {bad_name}"),
    );
}

#[test]
fn put_stores_all_files_or_none() {
    let bench = shop("all");
    bench.write("one", [1]);
    let exists = "disc put: log: not stored as \"log\" (refusal 7): the name exists already";
    let arguments = ["disc", "put", "box.img", "one", "log"];
    refused(&bench, &arguments, &format!("{exists}; --replace erases the old file first"));
    let twice = ["disc", "put", "box.img", "--replace", "log", "one", "log"];
    refused(&bench, &twice, &format!("{exists}; the name is given twice"));
    let twice_new =
        "disc put: one: not stored as \"one\" (refusal 7): the name exists already; the name is given twice";
    refused(&bench, &["disc", "put", "box.img", "one", "one"], twice_new);
    bench.write("log", [8; 60]);
    bench.arduinos(&["disc", "put", "box.img", "one", "log", "--replace"]).done();
    assert_eq!(bench.arduinos(&["disc", "ls", "box.img"]).done(), "down 20\none 1\nlog 60\n");
    assert_eq!(bench.arduinos(&["disc", "get", "box.img", "log"]).bytes, [8; 60]);
}

#[test]
fn an_eleventh_file_is_refused() {
    let bench = shop("ten");
    for name in ["3", "4", "5", "6", "7", "8", "9", "10"] {
        bench.arduinos(&["disc", "put", "box.img", "down", "--as", name]).done();
    }
    let message = "disc put: down: not stored as \"11\" (refusal 8): there are ten files already; 'arduinos disc rm' \
                   erases one";
    refused(&bench, &["disc", "put", "box.img", "down", "--as", "11"], message);
    bench.arduinos(&["disc", "put", "box.img", "log", "--replace"]).done();
}

#[test]
fn get_and_rm_refuse_what_is_not_there() {
    let bench = shop("none");
    let get = ["disc", "get", "box.img", "none", "-o", "copy"];
    refused(&bench, &get, "disc get: box.img: \"none\" is not read (refusal 10): no such file");
    let get = ["disc", "get", "box.img", "a b"];
    refused(&bench, &get, "disc get: box.img: \"a b\" is not read (refusal 10): no such file");
    let rm = ["disc", "rm", "box.img", "log", "none"];
    refused(&bench, &rm, "disc rm: box.img: \"none\" is not erased (refusal 10): no such file");
    let rm = ["disc", "rm", "box.img", "log", "log"];
    refused(&bench, &rm, "disc rm: box.img: \"log\" is not erased (refusal 10): no such file");
    bench.arduinos(&["disc", "rm", "box.img", "log", "down"]).done();
    assert_eq!(bench.arduinos(&["disc", "ls", "box.img"]).done(), "");
}

#[test]
fn check_tells_good_from_bad() {
    let bench = shop("check");
    let good = "disc: good; files: 2 of 10, bytes: 70 of 863, longest free run: 793\n";
    assert_eq!(bench.arduinos(&["disc", "check", "box.img"]).done(), good);
    let mut bad = bench.read("box.img");
    bad[28] = 180;
    bad[17] = 0;
    bench.write("bad.img", &bad);
    let ran = bench.arduinos(&["disc", "check", "bad.img"]);
    let text =
        "disc: not good\n  entry 1 (\"l\"): byte 2 of its name is 103, after a zero; all bytes there must be zeros\n  \
                entry 1 (\"l\"): bytes 180 to 229 overlap those of entry 0 (\"down\"), 161 to 180\n";
    assert_eq!((ran.out.as_str(), ran.status, ran.err.as_str()), (text, 1, ""));
    let ran = bench.arduinos_with(&["disc", "check", "-"], &[255; LONG_DISC]);
    let text =
        "disc: not good\n  the file count, byte 160, is 255; a disc has at most 10 files; all bytes are hex FF, \
                as in an EEPROM that was never formatted\n";
    assert_eq!((ran.out.as_str(), ran.status), (text, 1));
    bench
        .arduinos_with(&["disc", "check", "-"], &[])
        .refused("disc check: standard input: 0 bytes; an EEPROM image has 1024 or 4096");
}

#[test]
fn check_takes_a_work_area_with_the_disc() {
    let bench = shop("checkarea");
    let disc = bench.read("box.img");
    let mut area = vec![0; AREA_LEN];
    kernel::boot(&mut area);
    assert_eq!(kernel::run(&disc, &mut area, b"down"), 1);
    bench.write("area", &area);
    let check = |image: &str| {
        let ran = bench.arduinos(&["disc", "check", image, "--area", "area"]);
        (ran.out, ran.status)
    };
    let good = "disc: good; files: 2 of 10, bytes: 70 of 863, longest free run: 793\n";
    let area_good = "work area: good; live processes: 1 of 10, variables: 0 of 25\n";
    assert_eq!(check("box.img"), (format!("{good}{area_good}"), 0));
    bench.arduinos(&["disc", "new", "other.img"]).done();
    let other = "disc: good; files: 0 of 10, bytes: 0 of 863, longest free run: 863\nwork area: not good\n  \
                 slot 0 (down, ID 1): the disc has no file of its name\n";
    assert_eq!(check("other.img"), (other.into(), 1));
    bench.write("ff.img", [255; SHORT_DISC]);
    let (text, status) = check("ff.img");
    assert!(text.ends_with("\nwork area: nothing wrong by itself; beside this disc it is not judged\n"), "{text}");
    assert_eq!(status, 1);
    bench.write("area", &area[1..]);
    let short = "disc check: area: 1055 bytes; a work area has 1056";
    refused(&bench, &["disc", "check", "box.img", "--area", "area"], short);
}

#[test]
fn each_command_has_its_help() {
    let bench = Bench::empty("help");
    for command in ["new", "ls", "put", "get", "rm", "check"] {
        let help = bench.arduinos(&["disc", command, "--help"]).done();
        assert!(help.starts_with(&format!("usage: arduinos disc {command} IMAGE")), "{help}");
        assert_eq!(bench.arduinos(&["disc", command, "-h"]).done(), help);
    }
    let help = bench.arduinos(&["disc", "--help"]).done();
    assert!(help.starts_with("usage: arduinos disc COMMAND IMAGE"), "{help}");
}

#[test]
fn wrong_use_has_status_2() {
    let bench = shop("misused");
    let misused = |words: &[&str], message: &str| {
        let arguments: Vec<&str> = std::iter::once("disc").chain(words.iter().copied()).collect();
        bench.arduinos(&arguments).misused(&format!("disc {}", words[0]), message);
    };
    bench.arduinos(&["disc"]).misused("disc", "new, ls, put, get, rm or check is missing");
    bench.arduinos(&["disc", "list"]).misused("disc", "there is no command 'disc list'");
    misused(&["ls"], "IMAGE is missing");
    misused(&["ls", "box.img", "--short"], "there is no option --short");
    misused(&["put"], "IMAGE is missing");
    misused(&["put", "box.img"], "FILE is missing");
    misused(&["put", "box.img", "-"], "--as NAME is needed for standard input");
    misused(&["put", "-", "-", "--as", "x"], "standard input cannot be both IMAGE and FILE");
    misused(&["put", "box.img", "down", "log", "--as", "x"], "--as names a single FILE");
    misused(&["put", "box.img", ".."], ".. has no last part; --as gives a name");
    misused(&["get", "box.img"], "NAME is missing");
    misused(&["get", "box.img", "down", "-o"], "-o wants a value");
    let image = bench.read("box.img");
    misused(&["get", "box.img", "down", "-o", "./box.img"], "-o ./box.img would write over the image");
    assert_eq!(bench.read("box.img"), image);
    misused(&["rm", "box.img"], "NAME is missing");
    misused(&["rm"], "IMAGE is missing");
    misused(&["check", "-", "--area", "-"], "standard input cannot be both IMAGE and the work area");
    assert_eq!(bench.names(), ["box.img", "down", "log"]);
}
