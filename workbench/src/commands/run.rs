//! `arduinos run`: rounds of the programs that are named.

use super::arguments::{Given, Options};
use crate::buffers::Buffers;
use crate::failure::{misused, refused, Failure, Outcome};
use crate::files;
use crate::run::clock::Clock;
use crate::run::status::Status;
use crate::run::{ends, interrupt, trace, turns, Session};

pub const HELP: &str = "\
usage: arduinos run IMAGE NAME .. [options]

Boots a box with the disc of an EEPROM image, starts the named programs in that order, and makes rounds until none runs.
What they print goes to standard output, as the box prints it. The image stays as it is unless --save-disc names it.
Ctrl-C ends the run.

  --rounds N            make at most N rounds
  --clock real          give each round the milliseconds since the start (the default)
  --clock MS            give round r, counted from 1, the clock r times MS
  --share NAME=N        give the processes of NAME that are started here N turns a round, 1 to 8; may be given again
  --trace               show each turn instead of the output: round, clock, slot, ID, offset, instruction, the stack
                        after it, variables that changed, what was printed
  --record FILE         write every call with its answer to FILE, for 'arduinos replay': some 40 bytes a round, with the
                        real clock megabytes a second
  --save-disc FILE      write the disc to FILE when the run has ended; it may be IMAGE
  --save-area FILE      write the work area to FILE then, for 'arduinos area'

A process that ends by a fault is told on standard error, with the place and the cause.
Exit status: 0 done, 1 refused or a process ended by a fault, 2 wrong use.
";

const OPTIONS: Options = Options {
    flags: &["--trace"],
    valued: &["--rounds", "--clock", "--share", "--record", "--save-disc", "--save-area"],
};

pub fn main(arguments: &[String]) -> Outcome {
    let given = Given::read(arguments, &OPTIONS)?;
    let Some((image, names)) = given.operands.split_first() else { return misused("IMAGE is missing") };
    if names.is_empty() {
        return misused("NAME is missing: which program is to run?");
    }
    let shares = shares(&given, names)?;
    let run = Run { most: given.number("--rounds", 0, u64::MAX)?, clock: clock(&given)?, trace: given.has("--trace") };
    let outputs = Outputs::read(&given, image)?;

    let disc = files::read_disc(image)?;
    // Once without a record: where a start is refused, nothing is written.
    started(disc.clone(), None, names, &shares)?;
    let mut session = started(disc, outputs.record, names, &shares)?;
    let ran = run.rounds(&mut session);
    // Whatever ended the rounds, the record is whole and what was asked for is saved.
    let ended = session.end();
    let saved = outputs.save(&session.buffers);
    let faults = ran?;
    ended?;
    saved?;
    if faults > 0 {
        return Err(Failure::Told);
    }
    Ok(())
}

/// The files that a run writes.
struct Outputs<'a> {
    record: Option<&'a str>,
    disc: Option<&'a str>,
    area: Option<&'a str>,
}

impl<'a> Outputs<'a> {
    /// They must not go over one another, over the image or between what the programs print; their folders are there.
    fn read(given: &'a Given, image: &str) -> Outcome<Outputs<'a>> {
        let named = |option| given.value(option).map(|path| path.map(|path| (option, path)));
        let all = [named("--record")?, named("--save-disc")?, named("--save-area")?];
        let given: Vec<(&str, &str)> = all.into_iter().flatten().collect();
        for (index, &(option, path)) in given.iter().enumerate() {
            if path == "-" {
                return misused(format!("{option} wants a file: standard output has what the programs print"));
            }
            if option != "--save-disc" && files::is_same(path, image) {
                return misused(format!("{option} would write over the image"));
            }
            let same = |&&(_, other): &&(&str, &str)| other == path || files::is_same(other, path);
            if let Some((other, _)) = given[..index].iter().find(same) {
                return misused(format!("{option} would write over the file of {other}"));
            }
            files::check_place(path)?;
        }
        let [record, disc, area] = all.map(|named| named.map(|(_, path)| path));
        Ok(Outputs { record, disc, area })
    }

    fn save(&self, buffers: &Buffers) -> Outcome {
        for (path, bytes) in [(self.disc, &buffers.disc), (self.area, &buffers.area)] {
            if let Some(path) = path {
                files::write(path, bytes)?;
            }
        }
        Ok(())
    }
}

/// A box with the named programs started.
fn started(disc: Vec<u8>, record: Option<&str>, names: &[String], shares: &[(String, u32)]) -> Outcome<Session> {
    let mut session = Session::begin(disc, record)?;
    for name in names {
        let share = shares.iter().rev().find(|(of, _)| of == name).map(|&(_, share)| share);
        session.start(name.as_bytes(), share)?;
    }
    Ok(session)
}

/// The shares of `--share NAME=N`; each name must be one that is started.
fn shares(given: &Given, names: &[String]) -> Outcome<Vec<(String, u32)>> {
    let mut shares = Vec::new();
    for text in given.values("--share") {
        let Some((name, number)) = text.rsplit_once('=') else {
            return misused(format!("--share wants NAME=N, not '{text}'"));
        };
        let Ok(share) = number.parse() else {
            return misused(format!("--share wants a number after '=', not '{number}'"));
        };
        if !names.iter().any(|started| started == name) {
            return misused(format!("--share names '{name}', which is not started here"));
        }
        shares.push((name.to_string(), share));
    }
    Ok(shares)
}

fn clock(given: &Given) -> Outcome<Clock> {
    match given.value("--clock")? {
        None | Some("real") => Ok(Clock::real()),
        Some(text) => match text.parse() {
            Ok(step) => Ok(Clock::Stepped(step)),
            Err(_) => misused(format!("--clock wants 'real' or milliseconds up to {}, not '{text}'", u32::MAX)),
        },
    }
}

struct Run {
    most: Option<u64>,
    clock: Clock,
    trace: bool,
}

impl Run {
    /// Makes the rounds. Returns how many processes ended by a fault.
    fn rounds(&self, session: &mut Session) -> Outcome<usize> {
        interrupt::watch();
        let mut status = Status::new();
        if self.trace {
            status.print(format!("{}\n", trace::HEADER).as_bytes())?;
        }
        let mut before = session.buffers.clone();
        let (mut round, mut faults) = (0, 0);
        while session.running() > 0 && self.most.is_none_or(|most| round < most) && !interrupt::caught() {
            round += 1;
            before.disc.copy_from_slice(&session.buffers.disc);
            before.area.copy_from_slice(&session.buffers.area);
            faults += self.round(session, &before, round, &mut status)?;
            status.show(round, session.running());
        }
        let running = match session.running() {
            0 => "no process runs".to_string(),
            1 => "1 process runs".to_string(),
            running => format!("{running} processes run"),
        };
        let rounds = if round == 1 { "1 round".to_string() } else { format!("{round} rounds") };
        status.tell(&format!("{rounds}, {running}"));
        Ok(faults)
    }

    /// One round, and what is to be said of its turns. Returns how many processes it ended by a fault.
    fn round(&self, session: &mut Session, before: &Buffers, round: u64, status: &mut Status) -> Outcome<usize> {
        let clock = self.clock.reading(round);
        let answer = session.round(clock)?;
        if !self.trace {
            status.print(&answer.output)?;
        }
        if !self.trace && !turns::may_have_ended(&before.area, &session.buffers.area) {
            return Ok(0);
        }
        let turns = turns::of_round(before, clock);
        if !turns::agree(&turns, before, &session.buffers, &answer) {
            return refused(format!("round {round} and its turns came to different buffers: a defect of the kernel"));
        }
        let mut faults = 0;
        for turn in &turns {
            if self.trace {
                status.print(format!("{}\n", trace::line(round, turn)).as_bytes())?;
            }
            if let Some(sentence) = ends::fault_sentence(turn) {
                status.tell(&sentence);
                faults += 1;
            }
        }
        Ok(faults)
    }
}
