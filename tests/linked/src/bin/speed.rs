//! Nanoseconds for a call through the C boundary against the second implementation, same states, same run.
//!
//! speed [CALLS FOR EACH SAMPLE]

#[path = "../archive.rs"]
mod archive;
#[path = "../cpu_clock.rs"]
mod cpu_clock;

use harness::kernels::{Kernel, Second, State};
use kernel::call::Call;
use second::instruction::{INCREMENT, OPEN, PRINT, SET};
use second::layout::*;
use second::{directory, records};
use std::hint::black_box;

/// Samples of each kernel for each row, taken in turn.
const REPEATS: usize = 21;
const USUAL_CALLS: usize = 2_000;

fn main() {
    let calls = std::env::args().nth(1).and_then(|argument| argument.parse().ok()).unwrap_or(USUAL_CALLS);
    let rows = rows();
    let measured = measure(&rows, calls);
    println!("{REPEATS} interleaved samples of {calls} calls, ns of processor time");
    println!("ten live processes, 25 variables, ten files whose names differ in the last byte; for OPEN one file");
    println!("on a disc of 1,024 bytes, or of 4,096 where the row says long");
    println!("| call | first: least, median | second: least, median | first / second: median (least to greatest) |");
    println!("|---|---|---|---|");
    for (row, samples) in rows.iter().zip(&measured.rows) {
        print_row(row.name, samples);
    }
    print_parts(&measured);
}

/// A call, the state it is made on and the number it returns.
struct Row {
    name: &'static str,
    state: State,
    call: Call,
    number: i32,
}

impl Row {
    fn new(name: &'static str, state: &State, call: &Call) -> Row {
        let mut work = state.clone();
        let number = Second.answer(call, &mut work.disc, &mut work.area, &mut vec![0; call.room()]);
        Row { name, state: state.clone(), call: call.clone(), number }
    }
}

/// Where the rows stand that [`print_parts`] speaks of.
const TESTS: usize = 0;
const TURN: usize = 1;
const ROUND: usize = 4;
const FULL_ROUND: usize = 5;
const LONG_TURN: usize = 14;

fn rows() -> Vec<Row> {
    let turn = Call::Turn { slot: 5, clock: 0, room: TURN_OUTPUT };
    let round = Call::Round { clock: 0, room: ROUND_OUTPUT };
    let store = Call::Store { name: b"namediffer4".to_vec(), data: vec![7; 80] };
    let increment = full_state(SHORT_DISC, &[INCREMENT], &[0, 5, 2]);
    let set = full_state(SHORT_DISC, &[SET, b'b'], &[0, 5, 2]);
    let print = full_state(SHORT_DISC, &[PRINT], &[66, 246, 230, 102, 4]);
    let long = full_state(LONG_DISC, &[INCREMENT], &[0, 5, 2]);
    let [shared, long_shared] = [SHORT_DISC, LONG_DISC].map(full_shares);
    vec![
        Row::new("tests alone: turn of a paused slot, refused by 16", &paused(&increment), &turn),
        Row::new("turn, INCREMENT", &increment, &turn),
        Row::new("turn, SET", &set, &turn),
        Row::new("turn, PRINT of FLOAT", &print, &turn),
        Row::new("round, ten INCREMENTs", &increment, &round),
        Row::new("round, ten INCREMENTs, shares of 8", &shared, &round),
        Row::new("round, ten SETs", &set, &round),
        Row::new("round, ten PRINTs of FLOAT", &print, &round),
        Row::new("store, nine files there", &nine_files(&increment), &store),
        Row::new("turn, SET, a free run after each variable", &splintered(&set, false), &turn),
        Row::new("turn, SET, the same from high to low", &splintered(&set, true), &turn),
        Row::new("free space, ten files", &increment, &Call::FreeSpace),
        Row::new("turn, OPEN of a new file of 862 bytes", &one_file(SHORT_DISC), &turn),
        Row::new("long: tests alone", &paused(&long), &turn),
        Row::new("long: turn, INCREMENT", &long, &turn),
        Row::new("long: round, ten INCREMENTs", &long, &round),
        Row::new("long: round, ten INCREMENTs, shares of 8", &long_shared, &round),
        Row::new("long: store, nine files there", &nine_files(&long), &store),
        Row::new("long: free space, ten files", &long, &Call::FreeSpace),
        Row::new("long: turn, OPEN of a new file of 3,934 bytes", &one_file(LONG_DISC), &turn),
        Row::new("tests alone, three live processes, six variables", &three_live(&paused(&increment)), &turn),
    ]
}

/// Ten files whose names differ in their last byte and that fill the disc but for a few bytes, ten running processes,
/// 25 variables; every process is at the same instruction with the same stack.
fn full_state(disc_len: usize, code: &[u8], stack: &[u8]) -> State {
    let mut state = State::zero(disc_len);
    let file_len = data_bytes(&state.disc).len() / 10;
    second::format(&mut state.disc, &mut state.area).expect("the lengths are right");
    for digit in b'0'..=b'9' {
        let name = [b"namediffer".as_slice(), &[digit]].concat();
        let mut data = vec![0; file_len];
        data[..code.len()].copy_from_slice(code);
        second::store(&mut state.disc, &name, &data).expect("each is a tenth of the data bytes");
        second::run(&state.disc, &mut state.area, &name).expect("there are ten slots");
    }
    fill(&mut state.area, stack);
    state
}

/// Ten processes, each at eight INCREMENTs with a share of 8: a round of 80 turns.
fn full_shares(disc_len: usize) -> State {
    let mut state = full_state(disc_len, &[INCREMENT; 8], &[0, 5, 2]);
    records::all().for_each(|record| state.area[record + SPARE] = MAX_SHARE);
    state
}

/// Gives every process this stack, and fills the table of variables.
fn fill(area: &mut [u8], stack: &[u8]) {
    for record in records::all() {
        area[record + STACK..record + STACK + stack.len()].copy_from_slice(stack);
        area[record + SP] = stack.len() as u8;
    }
    for index in 0..MAX_VARIABLES {
        let at = VARIABLES + index * VARIABLE_LEN;
        let (name, id) = (b'a' + (index / 10) as u8, 1 + index % 10);
        area[at..at + 4].copy_from_slice(&[name, 2, 2 * index as u8, 2]);
        set_word(area, at + VARIABLE_ID, id);
    }
    area[VARIABLE_COUNT] = MAX_VARIABLES as u8;
}

/// The same with eight free bytes after each variable, so that SET looks at every free run; the table's order is that of
/// the addresses or the other way round.
fn splintered(state: &State, downwards: bool) -> State {
    let mut state = state.clone();
    for index in 0..MAX_VARIABLES {
        let place = if downwards { MAX_VARIABLES - 1 - index } else { index };
        state.area[VARIABLES + index * VARIABLE_LEN + 2] = 10 * place as u8;
    }
    state
}

/// The same with the process of slot 5 paused: a turn of it is refused after all tests, before anything is executed.
fn paused(state: &State) -> State {
    let mut state = state.clone();
    second::suspend(&state.disc, &mut state.area, 6).expect("it runs");
    state
}

/// The same with the processes of slots 5 to 7 alone, and their variables, two each.
fn three_live(state: &State) -> State {
    let mut state = state.clone();
    for id in [1, 2, 3, 4, 5, 9, 10] {
        second::kill(&state.disc, &mut state.area, id).expect("it lives");
    }
    state
}

/// The same without the fifth file, whose place the stored one takes; no process, since that one ran it.
fn nine_files(state: &State) -> State {
    let mut state = state.clone();
    second::boot(&mut state.area).expect("the length is right");
    directory::remove(&mut state.disc, 4);
    state
}

/// Ten processes at OPEN, their program of one byte the only file, the rest of the disc not zero: the most zeros that one
/// OPEN lays.
fn one_file(disc_len: usize) -> State {
    let mut state = State::zero(disc_len);
    second::format(&mut state.disc, &mut state.area).expect("the lengths are right");
    state.disc[DATA_START..].fill(9);
    second::store(&mut state.disc, b"p", &[OPEN]).expect("the disc is empty");
    for _ in records::all() {
        second::run(&state.disc, &mut state.area, b"p").expect("there are ten slots");
    }
    let rest = (data_bytes(&state.disc).len() - 1) as u16;
    fill(&mut state.area, &[&[b'n', 0, 2, 3], &rest.to_be_bytes()[..], &[2]].concat());
    state
}

/// Nanoseconds a call of the first and of the second kernel, a sample for each repeat.
type Samples = [Vec<f64>; 2];

const KERNELS: [(&str, &dyn Kernel); 2] = [("first", &archive::Archive), ("second", &Second)];

struct Measured {
    rows: Vec<Samples>,
    /// Of a short disc and of a long one.
    restoring: [Vec<f64>; 2],
}

/// Every repeat samples every row of both kernels, so that a slower while of the machine falls on all of them.
fn measure(rows: &[Row], calls: usize) -> Measured {
    let mut measured =
        Measured { rows: rows.iter().map(|_| Samples::default()).collect(), restoring: Default::default() };
    for repeat in 0..REPEATS {
        for (row, restoring) in [TURN, LONG_TURN].into_iter().zip(&mut measured.restoring) {
            restoring.push(sample(&Nobody(rows[row].number), &rows[row], calls));
        }
        for (row, samples) in rows.iter().zip(&mut measured.rows) {
            for index in [repeat % 2, 1 - repeat % 2] {
                samples[index].push(sample(KERNELS[index].1, row, calls));
            }
        }
    }
    measured
}

/// Answers a number and does nothing, so that only the restoring is timed.
struct Nobody(i32);

impl Kernel for Nobody {
    fn answer(&self, _: &Call, disc: &mut [u8], area: &mut [u8], _: &mut [u8]) -> i32 {
        black_box((disc, area));
        self.0
    }
}

/// Nanoseconds of processor time for one call; disc and work area are restored before each, the output is not.
fn sample(kernel: &dyn Kernel, row: &Row, calls: usize) -> f64 {
    let mut work = row.state.clone();
    let mut output = vec![0; row.call.room()];
    let begin = cpu_clock::nanoseconds();
    for _ in 0..calls {
        work.disc.copy_from_slice(&row.state.disc);
        work.area.copy_from_slice(&row.state.area);
        let number = kernel.answer(black_box(&row.call), &mut work.disc, &mut work.area, &mut output);
        assert_eq!(black_box(number), row.number, "a measured call gave another number: {}", row.name);
    }
    (cpu_clock::nanoseconds() - begin) as f64 / calls as f64
}

fn sorted(samples: &[f64]) -> Vec<f64> {
    let mut samples = samples.to_vec();
    samples.sort_by(f64::total_cmp);
    samples
}

fn least(samples: &[f64]) -> f64 {
    sorted(samples)[0]
}

fn median(samples: &[f64]) -> f64 {
    sorted(samples)[samples.len() / 2]
}

fn print_row(name: &str, [first, second]: &Samples) {
    let ratios = sorted(&first.iter().zip(second).map(|(a, b)| a / b).collect::<Vec<f64>>());
    println!(
        "| {name} | {:.0}, {:.0} | {:.0}, {:.0} | {:.2} ({:.2} to {:.2}) |",
        least(first),
        median(first),
        least(second),
        median(second),
        median(&ratios),
        ratios[0],
        ratios[ratios.len() - 1]
    );
}

/// What the restoring costs, what of a turn are its tests and how many turns a round is: medians over the repeats, each
/// repeat by itself, so that a slower while falls on both sides.
fn print_parts(measured: &Measured) {
    let [short, long] = &measured.restoring;
    println!("disc and work area are copied afresh before each call, the output is not");
    print!(
        "the copying, {:.0}, {:.0}, with a long disc {:.0}, {:.0}, ",
        least(short),
        median(short),
        least(long),
        median(long)
    );
    println!("is in every figure above and taken off below");
    for (index, (kernel, _)) in KERNELS.iter().enumerate() {
        let of = |row: usize, repeat: usize| measured.rows[row][index][repeat] - short[repeat];
        let over = |part: &dyn Fn(usize) -> f64| median(&(0..REPEATS).map(part).collect::<Vec<f64>>());
        let [turn, tests, round, full] = [TURN, TESTS, ROUND, FULL_ROUND].map(|row| over(&|repeat| of(row, repeat)));
        let share = over(&|repeat| of(TESTS, repeat) / of(TURN, repeat));
        let [turns, full_turns] = [ROUND, FULL_ROUND].map(|row| over(&|repeat| of(row, repeat) / of(TURN, repeat)));
        print!("{kernel}, median: turn at INCREMENT {turn:.0}, its tests {tests:.0} ({share:.2} of it); ");
        println!("round of ten INCREMENTs {round:.0} ({turns:.2} turns), of eighty {full:.0} ({full_turns:.2} turns)");
    }
}
