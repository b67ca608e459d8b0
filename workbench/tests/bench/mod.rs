//! A folder of its own that goes with the test, and the program run in it.
#![allow(dead_code)] // each file of tests uses its own part of this

use std::fs;
use std::io::Write;
use std::path::PathBuf;
use std::process::{Command, Stdio};

/// Document 01's program.
pub const DOWN: &[u8] = &[2, 0, 3, 5, 110, 6, 110, 63, 2, 8, 6, 110, 52, 6, 110, 8, 5, 110, 64, 67];

/// The guide's lamp sequence: red and green, a second each.
pub const LAMP: &[u8] = &[
    65, 3, b'r', b'e', b'd', 0, 52, 45, 2, 3, 232, 9, 44, 3, b'g', b'r', b'e', b'e', b'n', 0, 52, 45, 2, 3, 232, 9, 44,
    66,
];

/// STRING "abc", INT 5, PLUS: fault 6.
pub const WRONG_TYPE: &[u8] = &[3, b'a', b'b', b'c', 0, 2, 0, 5, 9, 67];

/// How a run ended.
pub struct Ran {
    pub status: i32,
    /// Standard output, as bytes and as text.
    pub bytes: Vec<u8>,
    pub out: String,
    /// Standard error.
    pub err: String,
}

impl Ran {
    pub fn first_error(&self) -> &str {
        self.err.lines().next().unwrap_or("")
    }

    /// Done, with nothing on standard error; its standard output.
    pub fn done(&self) -> String {
        assert_eq!((self.status, self.err.as_str()), (0, ""));
        self.out.clone()
    }

    /// Status 1 and one message, nothing on standard output.
    pub fn refused(&self, message: &str) {
        assert_eq!((self.err.as_str(), self.status), (format!("arduinos {message}\n").as_str(), 1));
        assert_eq!(self.out, "");
    }

    /// Status 2, the message and where to find help.
    pub fn misused(&self, command: &str, message: &str) {
        let expected = format!("arduinos {command}: {message}\nSee 'arduinos {command} --help'.\n");
        assert_eq!((self.err.as_str(), self.status), (expected.as_str(), 2));
        assert_eq!(self.out, "");
    }
}

pub struct Bench {
    folder: PathBuf,
}

impl Bench {
    /// A folder without files.
    pub fn empty(name: &str) -> Bench {
        let folder = std::env::temp_dir().join(format!("arduinos-{name}-{}", std::process::id()));
        let _ = fs::remove_dir_all(&folder);
        fs::create_dir_all(&folder).expect("a folder for the test");
        Bench { folder }
    }

    /// A folder with `box.img`, a short disc that has these files.
    pub fn new(name: &str, files: &[(&str, &[u8])]) -> Bench {
        let bench = Bench::empty(name);
        let (mut disc, mut area) = ([0; 1024], [0; 1056]);
        assert_eq!(kernel::format(&mut disc, &mut area), 0);
        for (name, bytes) in files {
            assert_eq!(kernel::store(&mut disc, name.as_bytes(), bytes), 0);
        }
        bench.write("box.img", disc);
        bench
    }

    pub fn path(&self, name: &str) -> PathBuf {
        self.folder.join(name)
    }

    pub fn write(&self, name: &str, bytes: impl AsRef<[u8]>) {
        fs::write(self.path(name), bytes).expect("a file of the test");
    }

    pub fn read(&self, name: &str) -> Vec<u8> {
        fs::read(self.path(name)).expect("a file that was written")
    }

    pub fn has(&self, name: &str) -> bool {
        self.path(name).exists()
    }

    /// The names in the folder, sorted.
    pub fn names(&self) -> Vec<String> {
        let entries = fs::read_dir(&self.folder).expect("the folder");
        let mut names: Vec<String> =
            entries.map(|entry| entry.expect("an entry").file_name().to_string_lossy().into_owned()).collect();
        names.sort();
        names
    }

    pub fn arduinos(&self, arguments: &[&str]) -> Ran {
        self.arduinos_with(arguments, b"")
    }

    /// Runs the program in this folder with bytes on its standard input.
    pub fn arduinos_with(&self, arguments: &[&str], input: &[u8]) -> Ran {
        let mut child = Command::new(env!("CARGO_BIN_EXE_arduinos"))
            .args(arguments)
            .current_dir(&self.folder)
            .stdin(Stdio::piped())
            .stdout(Stdio::piped())
            .stderr(Stdio::piped())
            .spawn()
            .expect("the program starts");
        // A program that refuses its arguments may be gone before it has read.
        let _ = child.stdin.take().expect("its standard input").write_all(input);
        let output = child.wait_with_output().expect("the program ends");
        Ran {
            status: output.status.code().unwrap_or(-1),
            out: String::from_utf8_lossy(&output.stdout).into_owned(),
            bytes: output.stdout,
            err: String::from_utf8_lossy(&output.stderr).into_owned(),
        }
    }
}

impl Bench {
    /// Runs the program with standard output and standard error to files. Returns its status.
    pub fn arduinos_to(&self, arguments: &[&str], out: &str, err: &str) -> i32 {
        let open = |name: &str| fs::OpenOptions::new().write(true).create(true).truncate(true).open(self.path(name));
        let status = Command::new(env!("CARGO_BIN_EXE_arduinos"))
            .args(arguments)
            .current_dir(&self.folder)
            .stdout(open(out).expect("a file for standard output"))
            .stderr(open(err).expect("a file for standard error"))
            .status()
            .expect("the program starts");
        status.code().unwrap_or(-1)
    }
}

impl Drop for Bench {
    fn drop(&mut self) {
        let _ = fs::remove_dir_all(&self.folder);
    }
}
