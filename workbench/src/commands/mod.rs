//! The subcommands: what is on the command line, what is read and written, and the exit status.

mod area;
mod arguments;
mod asm;
mod dis;
mod disc;
mod replay;
mod run;
mod verdict;

use crate::failure::{misused, Failure, Outcome};
use crate::files;
use std::ffi::OsString;
use std::process::ExitCode;

/// A command: its name of one word or two, its help, and what it does with the arguments after its name.
struct Command {
    name: &'static str,
    help: &'static str,
    run: fn(&[String]) -> Outcome,
}

const COMMANDS: [Command; 12] = [
    Command { name: "asm", help: asm::HELP, run: asm::main },
    Command { name: "dis", help: dis::HELP, run: dis::main },
    Command { name: "disc", help: disc::HELP, run: disc::main },
    Command { name: "disc new", help: disc::new::HELP, run: disc::new::main },
    Command { name: "disc ls", help: disc::ls::HELP, run: disc::ls::main },
    Command { name: "disc put", help: disc::put::HELP, run: disc::put::main },
    Command { name: "disc get", help: disc::get::HELP, run: disc::get::main },
    Command { name: "disc rm", help: disc::rm::HELP, run: disc::rm::main },
    Command { name: "disc check", help: disc::check::HELP, run: disc::check::main },
    Command { name: "run", help: run::HELP, run: run::main },
    Command { name: "area", help: area::HELP, run: area::main },
    Command { name: "replay", help: replay::HELP, run: replay::main },
];

const HELP: &str = "\
usage: arduinos COMMAND ..

Writes, runs and services the routines of an ArduinOS box. What runs, runs in the proved kernel.

  asm FILE              assemble a source text into a program
  dis FILE              show a program as source text
  disc new|ls|put|get|rm|check IMAGE ..
                        files on an EEPROM image
  run IMAGE NAME ..     run programs of an image, round by round
  area FILE             read out a work area
  replay FILE           make the calls of a record again and compare

'arduinos COMMAND --help' tells more. A file named - is standard input or output.
Exit status: 0 done, 1 refused or a process ended by a fault, 2 wrong use.
";

const VERSION: &str = concat!("arduinos ", env!("CARGO_PKG_VERSION"), "\n");

/// Runs a command line, the program's own name left out.
pub fn main(arguments: &[OsString]) -> ExitCode {
    let (name, outcome) = match texts(arguments) {
        Ok(arguments) => run_line(&arguments),
        Err(failure) => (String::new(), Err(failure)),
    };
    match outcome {
        Ok(()) => ExitCode::SUCCESS,
        Err(Failure::Told) => ExitCode::from(1),
        Err(Failure::Refused(message)) => {
            files::tell(&format!("arduinos{name}: {message}\n"));
            ExitCode::from(1)
        }
        Err(Failure::Misused(message)) => {
            files::tell(&format!("arduinos{name}: {message}\nSee 'arduinos{name} --help'.\n"));
            ExitCode::from(2)
        }
    }
}

/// The arguments as text. One that is none would be another name if it were changed into text.
fn texts(arguments: &[OsString]) -> Outcome<Vec<String>> {
    let text = |argument: &OsString| match argument.to_str() {
        Some(text) => Ok(text.to_string()),
        None => misused(format!("{argument:?} is no text in UTF-8")),
    };
    arguments.iter().map(text).collect()
}

/// The command's name, with a space in front, and how it ended.
fn run_line(arguments: &[String]) -> (String, Outcome) {
    let wants_help = |word: &String| word == "--help" || word == "-h";
    let unnamed = |outcome| (String::new(), outcome);
    match (arguments.first(), find(arguments)) {
        (None, _) => unnamed(misused("a command is missing")),
        (Some(word), _) if wants_help(word) => unnamed(files::write_output(HELP.as_bytes())),
        (Some(word), _) if word == "--version" => unnamed(files::write_output(VERSION.as_bytes())),
        (Some(word), None) => unnamed(misused(format!("there is no command '{word}'"))),
        (_, Some((command, rest))) => {
            let name = format!(" {}", command.name);
            if rest.iter().take_while(|word| *word != "--").any(wants_help) {
                return (name, files::write_output(command.help.as_bytes()));
            }
            (name, (command.run)(rest))
        }
    }
}

/// The command that a line begins with, and the arguments after its name, which has two words or one.
fn find(arguments: &[String]) -> Option<(&'static Command, &[String])> {
    [2, 1].into_iter().filter(|&words| words <= arguments.len()).find_map(|words| {
        let (name, rest) = arguments.split_at(words);
        let command = COMMANDS.iter().find(|command| command.name.split(' ').eq(name))?;
        Some((command, rest))
    })
}
