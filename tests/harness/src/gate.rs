//! The gate: a fixed amount of everything; and longer runs, pass after pass.

use crate::alone::compare_pair;
use crate::cases::{compare_case, Case};
use crate::comparison::{Compared, Comparison};
use crate::damage::{compare_damages, compare_edges, compare_flips, compare_lengths};
use crate::instructions::{compare_numbers, compare_sizes, compare_stacks, compare_taken};
use crate::kernels::Kernel;
use crate::operands::compare_scaling;
use crate::scaling;
use crate::sequences::{compare_sequence, compare_state};
use crate::sharers::compare_shares;
use crate::shares;
use std::time::{Duration, Instant};

/// What one run does.
pub struct Plan {
    pub seed: u64,
    pub cases: Vec<Case>,
    /// Only the part of this name, if any.
    pub part: Option<String>,
    /// Goes on with further seeds for this long; the gate does one pass.
    pub duration: Option<Duration>,
    /// Tells each call before it is made.
    pub trace: bool,
}

/// How much of each part one pass does; units take short and long discs by turns.
const DAMAGE_REPEATS: u64 = 12;
const FLIP_UNITS: u64 = 3000;
const LENGTH_UNITS: u64 = 300;
const STACK_UNITS: u64 = 4;
const TAKEN_UNITS: u64 = 500;
const SIZE_UNITS: u64 = 200;
const NUMBER_UNITS: u64 = 4;
const NUMBER_PAIRS: usize = 400;
const SCALING_UNITS: u64 = 4;
const SHARE_UNITS: u64 = 400;
const SEQUENCES: u64 = 300;
const SEQUENCE_LENGTH: usize = 400;
const STATES: u64 = 2600;
const PAIRS: u64 = 1000;

/// What must have been reached, at least, in one pass, beside the tables and what `scaling` and `shares` need.
const NEEDED: [(&str, u64); 63] = [
    ("format, bytes behind 1023 that were not 0", 1),
    ("store, more than 863 bytes", 1),
    ("store, 3,935 bytes", 1),
    ("store, a file that begins behind 1023", 1),
    ("store, refused by 6 what a long disc takes", 1),
    ("store, 3,936 bytes refused by 6 on a long disc", 1),
    ("retrieve, more than 863 bytes", 1),
    ("files, a length of four digits", 1),
    ("free space above 863", 1),
    ("free space 3,935", 1),
    ("turn, PC above 863", 1),
    ("turn, a program that begins behind 1023", 1),
    ("LOOP above 863", 1),
    ("ENDLOOP to above 863", 1),
    ("OPEN, a new file of more than 863 bytes", 1),
    ("WRITE behind 1023", 1),
    ("file offset above 863", 1),
    ("turn, PC at 3,935", 1),
    ("turn, loop at 3,935", 1),
    ("turn, file offset at 3,935", 1),
    ("single process, PC above 863", 1),
    ("single process, loop above 863", 1),
    ("store, a lower run fits that is longer", 1),
    ("store, two of the shortest runs", 1),
    ("store, the shortest run is longer than needed", 1),
    ("OPEN, a lower run fits that is longer", 1),
    ("OPEN, two of the shortest runs", 1),
    ("OPEN, the shortest run is longer than needed", 1),
    ("SET, a lower run fits that is longer", 1),
    ("SET, two of the shortest runs", 1),
    ("SET, the shortest run is longer than needed", 1),
    ("DELAYUNTIL, x at the clock", 1),
    ("DELAYUNTIL, x 1 ahead", 1),
    ("DELAYUNTIL, x 32,767 ahead", 1),
    ("DELAYUNTIL, x 32,768 ahead", 1),
    ("DELAYUNTIL, a FLOAT", 1),
    ("DELAYUNTIL, the type FLOAT over too few bytes", 1),
    ("OPEN, a file that exists", 1),
    ("OPEN, a new file, zeros as found", 1),
    ("OPEN, a new file over bytes that are not 0", 1),
    ("OPEN, a new file over a last byte that is not 0", 1),
    ("OPEN, refused by name", 1),
    ("OPEN, refused by size", 1),
    ("OPEN, refused by ten files", 1),
    ("OPEN, refused by no run", 1),
    ("FORK, a process started", 1),
    ("FORK, INT 0 by no ended slot", 1),
    ("FORK, INT 0 by no such file", 1),
    ("FORK, INT 0 by next ID", 1),
    ("SET, no variable entry", 1),
    ("SET, no run in memory", 1),
    ("single process, started", 500),
    ("single process, turns and commands held", 10_000),
    ("single process, refused -14", 1),
    ("single process, refused -15", 1),
    ("single process, refused -16", 1),
    ("single process, let go, a write lands", 1),
    ("single process, let go, SET lacks space", 1),
    ("pair, equal in both runs", 100),
    ("pair, equal on discs of both lengths", 100),
    ("pair, equal with other shares of its own", 100),
    ("pair, equal with other shares of its neighbours", 50),
    ("pair, a supposition was broken", 5),
];

/// The parts by name, in order.
type Part = fn(&mut Comparison, &Plan) -> Compared<()>;
const PARTS: [(&str, Part); 14] = [
    ("cases", |comparison, plan| {
        (0..).zip(&plan.cases).try_for_each(|(index, case)| compare_case(comparison, case, index))
    }),
    ("stacks", |comparison, _| (0..STACK_UNITS).try_for_each(|unit| compare_stacks(comparison, unit))),
    ("taken", |comparison, _| (0..TAKEN_UNITS).try_for_each(|unit| compare_taken(comparison, unit))),
    ("sizes", |comparison, _| (0..SIZE_UNITS).try_for_each(|unit| compare_sizes(comparison, unit))),
    ("numbers", |comparison, _| (0..NUMBER_UNITS).try_for_each(|unit| compare_numbers(comparison, unit, NUMBER_PAIRS))),
    ("scaling", |comparison, _| {
        (0..SCALING_UNITS).try_for_each(|unit| compare_scaling(comparison, unit, SCALING_UNITS))
    }),
    ("shares", |comparison, _| (0..SHARE_UNITS).try_for_each(|unit| compare_shares(comparison, unit))),
    ("states", |comparison, _| (0..STATES).try_for_each(|unit| compare_state(comparison, unit))),
    ("damage", |comparison, _| compare_damages(comparison, DAMAGE_REPEATS)),
    ("edges", |comparison, _| compare_edges(comparison, DAMAGE_REPEATS)),
    ("flips", |comparison, _| compare_flips(comparison, FLIP_UNITS)),
    ("lengths", |comparison, _| compare_lengths(comparison, LENGTH_UNITS)),
    ("sequences", |comparison, _| {
        (0..SEQUENCES).try_for_each(|unit| compare_sequence(comparison, unit, SEQUENCE_LENGTH))
    }),
    ("pairs", |comparison, _| (0..PAIRS).try_for_each(|unit| compare_pair(comparison, unit))),
];

/// Whether there is a part of this name.
pub fn is_part(name: &str) -> bool {
    PARTS.iter().any(|part| part.0 == name)
}

/// One pass over the parts; a difference ends it.
fn pass(comparison: &mut Comparison, plan: &Plan) -> Compared<()> {
    let mut wanted = PARTS.iter().filter(|(name, _)| plan.part.as_deref().is_none_or(|only| only == *name));
    wanted.try_for_each(|(_, part)| part(comparison, plan))
}

/// Runs a plan, prints what was reached, and returns whether nothing differed and nothing was left out.
pub fn run(first: &dyn Kernel, plan: &Plan) -> bool {
    let begin = Instant::now();
    let mut comparison = Comparison::new(first, plan.seed);
    comparison.trace = plan.trace;
    println!("seed {}", plan.seed);
    loop {
        if let Err(difference) = pass(&mut comparison, plan) {
            println!("{difference}\nfound at {}", difference.place);
            println!("{} calls compared, 1 differs", comparison.calls);
            return false;
        }
        let Some(duration) = plan.duration.filter(|&duration| begin.elapsed() < duration) else {
            return conclude(&comparison, plan, begin.elapsed());
        };
        let (spent, whole) = (begin.elapsed().as_secs(), duration.as_secs());
        println!("seed {}: {} calls compared, 0 differ, {spent} of {whole} s", comparison.seed, comparison.calls);
        comparison.seed += 1;
    }
}

/// Prints the tables, the holes and the verdict of a run without a difference.
fn conclude(comparison: &Comparison, plan: &Plan, spent: Duration) -> bool {
    println!("{}", comparison.coverage.text());
    let holes = if plan.part.is_none() { holes(comparison) } else { Vec::new() };
    holes.iter().for_each(|hole| println!("hole: {hole}"));
    println!("{:.1} s, {} holes", spent.as_secs_f64(), holes.len());
    let unreached = if holes.is_empty() { String::new() } else { format!(", but {} not reached", holes.len()) };
    println!("{} calls compared, 0 differ{unreached}", comparison.calls);
    holes.is_empty()
}

/// What was not reached.
fn holes(comparison: &Comparison) -> Vec<String> {
    let coverage = &comparison.coverage;
    let few = NEEDED.iter().filter(|(name, least)| coverage.count(name) < *least);
    let few = few.map(|(name, least)| format!("{name}: {} of at least {least}", coverage.count(name)));
    let named = [scaling::needed(), shares::needed()].concat();
    let never = named.into_iter().filter(|name| coverage.count(name) == 0);
    let never = never.map(|name| format!("{name}: never"));
    coverage.holes().into_iter().chain(few).chain(never).collect()
}
