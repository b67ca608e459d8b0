//! Disc and work area of one box, and what a call on them answers.

use kernel::call::Call;
use kernel::sizes::AREA_LEN;

#[derive(Clone, Debug, PartialEq, Eq)]
pub struct Buffers {
    pub disc: Vec<u8>,
    pub area: Vec<u8>,
}

/// The kernel's number, and what it wrote into the output.
#[derive(Clone, Debug, PartialEq, Eq)]
pub struct Answer {
    pub number: i32,
    pub output: Vec<u8>,
}

impl Buffers {
    /// A box at power-up: its disc, and a work area of zeros, which *boot* must make good.
    pub fn new(disc: Vec<u8>) -> Buffers {
        Buffers { disc, area: vec![0; AREA_LEN] }
    }

    /// Makes the call on them.
    pub fn call(&mut self, call: &Call) -> Answer {
        let mut output = vec![0; call.room()];
        let number = call.make(&mut self.disc, &mut self.area, &mut output);
        output.truncate(usize::try_from(number).unwrap_or(0));
        Answer { number, output }
    }
}
