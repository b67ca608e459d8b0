//! docs/WORKBENCH.md: every source in it is written to a file, every command in it is run, in one folder and in order,
//! and what it writes is compared with what stands there.

use std::path::{Path, PathBuf};
use std::process::Command;

/// A fenced block: the words after its fence, its lines, and the number of its first line.
struct Block {
    words: String,
    lines: Vec<String>,
    first: usize,
}

/// A command and what it is to write, errors too.
struct Shown {
    line: usize,
    command: String,
    output: String,
}

fn blocks(text: &str) -> Vec<Block> {
    let mut blocks: Vec<Block> = Vec::new();
    let mut inside = false;
    for (index, line) in text.lines().enumerate() {
        match (line.strip_prefix("```"), inside) {
            (Some(words), false) => {
                blocks.push(Block { words: words.to_string(), lines: Vec::new(), first: index + 2 });
                inside = true;
            }
            (Some(_), true) => inside = false,
            (None, true) => blocks.last_mut().unwrap().lines.push(line.to_string()),
            (None, false) => {}
        }
    }
    assert!(!inside, "a block of the document has no end");
    blocks
}

/// The commands of a block: lines that begin with "$ ", each with the lines after it.
fn shown(block: &Block) -> Vec<Shown> {
    let mut commands: Vec<Shown> = Vec::new();
    for (index, line) in block.lines.iter().enumerate() {
        match line.strip_prefix("$ ") {
            Some(command) => {
                let line = block.first + index;
                commands.push(Shown { line, command: command.to_string(), output: String::new() });
            }
            None => {
                let last = commands.last_mut().expect("output without a command");
                last.output.push_str(line);
                last.output.push('\n');
            }
        }
    }
    commands
}

/// Runs a command of the document; `status` is what `$?` is to be. Returns its status and all that it wrote.
fn run(folder: &Path, status: i32, command: &str) -> (i32, String) {
    let programs = Path::new(env!("CARGO_BIN_EXE_arduinos")).parent().unwrap();
    let path = format!("{}:{}", programs.display(), std::env::var("PATH").unwrap());
    let output = Command::new("sh")
        .args(["-c", &format!("exec 2>&1\n(exit {status})\n{command}")])
        .env("PATH", path)
        .current_dir(folder)
        .output()
        .unwrap();
    (output.status.code().unwrap_or(-1), String::from_utf8_lossy(&output.stdout).into_owned())
}

#[test]
fn every_command_writes_what_the_document_shows() {
    let text = include_str!("../../docs/WORKBENCH.md");
    let folder: PathBuf = std::env::temp_dir().join(format!("arduinos-document-{}", std::process::id()));
    let _ = std::fs::remove_dir_all(&folder);
    std::fs::create_dir_all(&folder).unwrap();
    let (mut status, mut commands) = (0, 0);
    for block in blocks(text) {
        match block.words.split_once(' ') {
            Some(("asm", name)) => std::fs::write(folder.join(name), block.lines.join("\n") + "\n").unwrap(),
            None if block.words == "console" => {
                for Shown { line, command, output } in shown(&block) {
                    let (now, written) = run(&folder, status, &command);
                    assert_eq!(written, output, "line {line} of the document: {command}");
                    status = now;
                    commands += 1;
                }
            }
            None if block.words == "text" => {
                assert!(block.lines.iter().all(|line| !line.starts_with("$ ")), "a command that is not run");
            }
            _ => panic!("line {} of the document: a block of kind '{}'", block.first - 1, block.words),
        }
    }
    std::fs::remove_dir_all(&folder).unwrap();
    assert!(commands >= 20, "only {commands} commands");
}
