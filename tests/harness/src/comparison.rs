//! Makes a call on both kernels and compares number, disc, work area and output.

use crate::cases::{call_text, literal};
use crate::coverage::Coverage;
use crate::kernels::{Kernel, Second, State};
use crate::random::Random;
use kernel::call::Call;
use second::layout::AREA_LEN;
use std::fmt;

/// Bytes on either side of each lent buffer that must survive.
const GUARD: usize = 32;
const GUARD_BYTE: u8 = 0xA5;

/// What a call answered, the same for both kernels.
pub struct Answered {
    pub number: i32,
    pub output: Vec<u8>,
}

impl Answered {
    pub fn is_done(&self) -> bool {
        self.number >= 0
    }

    /// The bytes written by an operation whose number counts them.
    pub fn written(&self) -> &[u8] {
        &self.output[..usize::try_from(self.number).map_or(0, |count| count.min(self.output.len()))]
    }
}

/// Everything one kernel left behind.
#[derive(Clone, PartialEq, Eq)]
pub struct Outcome {
    pub number: i32,
    pub state: State,
    pub output: Vec<u8>,
    pub guards_kept: bool,
}

/// The two kernels, and what has been compared so far.
pub struct Comparison<'a> {
    first: &'a dyn Kernel,
    garbage: Random,
    pub part: &'static str,
    pub seed: u64,
    pub unit: u64,
    pub calls: u64,
    pub coverage: Coverage,
    /// Tells each call before it is made, to find one that ends the program.
    pub trace: bool,
}

/// The first call that the kernels answer differently, or another broken promise.
pub struct Difference {
    pub place: String,
    pub text: String,
}

pub type Compared<T> = Result<T, Box<Difference>>;

impl<'a> Comparison<'a> {
    pub fn new(first: &'a dyn Kernel, seed: u64) -> Comparison<'a> {
        let coverage = Coverage::default();
        Comparison { first, garbage: Random::new(seed), part: "", seed, unit: 0, calls: 0, coverage, trace: false }
    }

    /// Starts a numbered unit of a part; its random numbers depend on nothing before it.
    pub fn begin(&mut self, part: &'static str, unit: u64) -> Random {
        self.part = part;
        self.unit = unit;
        let mut random = Random::for_unit(self.seed, part, unit);
        self.garbage = Random::new(random.bits());
        random
    }

    /// Calls both kernels on the state, compares, and leaves the new state.
    pub fn call(&mut self, state: &mut State, call: &Call) -> Compared<Answered> {
        let mut output = vec![0; call.room()];
        self.garbage.fill(&mut output);
        self.call_with_output(state, call, output)
    }

    /// The same, with the bytes that the output holds before the call.
    pub fn call_with_output(&mut self, state: &mut State, call: &Call, output: Vec<u8>) -> Compared<Answered> {
        self.calls += 1;
        if self.trace {
            eprintln!("{}: {}", self.place(), call_text(call));
        }
        let first = outcome(self.first, call, state, &output);
        let second = outcome(&Second, call, state, &output);
        if first != second {
            return Err(self.difference(state, call, &output, &first, &second));
        }
        self.coverage.record(call, state, &first);
        *state = second.state;
        Ok(Answered { number: second.number, output: second.output })
    }

    /// Makes the call on a copy: for calls that a state is only looked at with.
    pub fn try_call(&mut self, state: &State, call: &Call) -> Compared<Answered> {
        self.call(&mut state.clone(), call)
    }

    /// Where this run is, to be found again.
    pub fn place(&self) -> String {
        format!("part {}, seed {}, unit {}, call {}", self.part, self.seed, self.unit, self.calls)
    }

    /// A broken promise other than two kernels differing.
    pub fn broken(&self, text: String) -> Box<Difference> {
        Box::new(Difference { place: self.place(), text })
    }

    fn difference(
        &self,
        before: &State,
        call: &Call,
        output: &[u8],
        first: &Outcome,
        second: &Outcome,
    ) -> Box<Difference> {
        let mut text = format!("# {}: the kernels differ\n", self.place());
        text += &first_differences(first, second);
        text += &as_case(before, call, output, second);
        self.broken(text)
    }
}

impl fmt::Display for Difference {
    fn fmt(&self, f: &mut fmt::Formatter) -> fmt::Result {
        write!(f, "{}", self.text)
    }
}

/// A buffer with guard bytes on both sides.
struct Lent {
    bytes: Vec<u8>,
}

impl Lent {
    fn new(content: &[u8]) -> Lent {
        let mut bytes = vec![GUARD_BYTE; content.len() + 2 * GUARD];
        bytes[GUARD..GUARD + content.len()].copy_from_slice(content);
        Lent { bytes }
    }

    fn content(&mut self) -> &mut [u8] {
        let end = self.bytes.len() - GUARD;
        &mut self.bytes[GUARD..end]
    }

    fn guards_kept(&self) -> bool {
        let end = self.bytes.len() - GUARD;
        self.bytes[..GUARD].iter().chain(&self.bytes[end..]).all(|&byte| byte == GUARD_BYTE)
    }
}

/// What a kernel makes of a call on copies of the buffers.
pub fn outcome(kernel: &dyn Kernel, call: &Call, state: &State, output: &[u8]) -> Outcome {
    let (mut disc, mut area, mut out) = (Lent::new(&state.disc), Lent::new(&state.area), Lent::new(output));
    let number = kernel.answer(call, disc.content(), area.content(), out.content());
    Outcome {
        number,
        guards_kept: disc.guards_kept() && area.guards_kept() && out.guards_kept(),
        state: State { disc: disc.content().to_vec(), area: area.content().to_vec() },
        output: out.content().to_vec(),
    }
}

/// The numbers, and the first differing byte of each buffer.
fn first_differences(first: &Outcome, second: &Outcome) -> String {
    let mut text = format!("# number: first {}, second {}\n", first.number, second.number);
    let buffers = [
        ("disc", &first.state.disc, &second.state.disc),
        ("area", &first.state.area, &second.state.area),
        ("output", &first.output, &second.output),
    ];
    for (name, a, b) in buffers {
        if let Some(at) = (0..a.len()).find(|&at| a[at] != b[at]) {
            text += &format!("# {name} byte {at}: first {}, second {}\n", a[at], b[at]);
        }
    }
    if !first.guards_kept {
        text += "# the first kernel wrote outside a buffer\n";
    }
    text
}

/// The call as a case of a case file, with what the second implementation answers.
fn as_case(before: &State, call: &Call, output: &[u8], second: &Outcome) -> String {
    let mut text = String::from("case differing\n");
    text += &format!("discs {}\n", before.disc.len());
    if before.area.len() != AREA_LEN {
        text += &format!("length area {}\n", before.area.len());
    }
    text += &settings("disc", &before.disc);
    text += &settings("area", &before.area);
    text += &format!("output {}\n", literal(output));
    text += &format!("call {} = {}\n", call_text(call), second.number);
    text += &expectations("disc", &before.disc, &second.state.disc);
    text += &expectations("area", &before.area, &second.state.area);
    text += &format!("expect output 0 {}\n", literal(&second.output));
    text
}

/// Lines that make a buffer out of zeros.
fn settings(name: &str, bytes: &[u8]) -> String {
    let mut text = String::new();
    for (row, chunk) in bytes.chunks(64).enumerate().filter(|(_, chunk)| chunk.iter().any(|&byte| byte != 0)) {
        text += &format!("set {name} {} {}\n", row * 64, literal(chunk));
    }
    text
}

/// Lines for the bytes that a call changes.
fn expectations(name: &str, before: &[u8], after: &[u8]) -> String {
    let mut text = String::new();
    let mut at = 0;
    while at < after.len() {
        let changed = (at..after.len()).take_while(|&index| before[index] != after[index]).count();
        if changed > 0 {
            text += &format!("expect {name} {at} {}\n", literal(&after[at..at + changed]));
        }
        at += changed.max(1);
    }
    text
}
