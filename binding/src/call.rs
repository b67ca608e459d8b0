//! A call of the kernel: which function, and what is lent to it beside disc and work area.

use crate::sizes::{ROUND_OUTPUT, TURN_OUTPUT};

/// `room` is the number of output bytes lent.
#[derive(Clone, Debug, PartialEq, Eq)]
pub enum Call {
    Format,
    Boot,
    Store { name: Vec<u8>, data: Vec<u8> },
    Retrieve { name: Vec<u8>, room: usize },
    Erase { name: Vec<u8> },
    Files { room: usize },
    FreeSpace,
    Run { name: Vec<u8> },
    Suspend { id: u32 },
    Resume { id: u32 },
    Kill { id: u32 },
    Share { id: u32, share: u32 },
    List { room: usize },
    Turn { slot: u32, clock: u32, room: usize },
    Round { clock: u32, room: usize },
}

/// The operations by name, in the order of [`Call`].
pub const OPERATIONS: [&str; 15] = [
    "format",
    "boot",
    "store",
    "retrieve",
    "erase",
    "files",
    "free_space",
    "run",
    "suspend",
    "resume",
    "kill",
    "share",
    "list",
    "turn",
    "round",
];

impl Call {
    pub fn turn(slot: usize, clock: u32) -> Call {
        Call::Turn { slot: slot as u32, clock, room: TURN_OUTPUT }
    }

    pub fn round(clock: u32) -> Call {
        Call::Round { clock, room: ROUND_OUTPUT }
    }

    /// The place of the operation in [`OPERATIONS`].
    pub fn operation(&self) -> usize {
        match self {
            Call::Format => 0,
            Call::Boot => 1,
            Call::Store { .. } => 2,
            Call::Retrieve { .. } => 3,
            Call::Erase { .. } => 4,
            Call::Files { .. } => 5,
            Call::FreeSpace => 6,
            Call::Run { .. } => 7,
            Call::Suspend { .. } => 8,
            Call::Resume { .. } => 9,
            Call::Kill { .. } => 10,
            Call::Share { .. } => 11,
            Call::List { .. } => 12,
            Call::Turn { .. } => 13,
            Call::Round { .. } => 14,
        }
    }

    /// The operation's name.
    pub fn name(&self) -> &'static str {
        OPERATIONS[self.operation()]
    }

    /// The output bytes lent; 0 where the function has no output.
    pub fn room(&self) -> usize {
        match *self {
            Call::Retrieve { room, .. }
            | Call::Files { room }
            | Call::List { room }
            | Call::Turn { room, .. }
            | Call::Round { room, .. } => room,
            _ => 0,
        }
    }

    /// Makes the call in the kernel. Returns its number; the buffers and the output are changed in place.
    #[inline]
    pub fn make(&self, disc: &mut [u8], area: &mut [u8], out: &mut [u8]) -> i32 {
        match self {
            Call::Format => crate::format(disc, area),
            Call::Boot => crate::boot(area),
            Call::Store { name, data } => crate::store(disc, name, data),
            Call::Retrieve { name, .. } => crate::retrieve(disc, name, out),
            Call::Erase { name } => crate::erase(disc, area, name),
            Call::Files { .. } => crate::files(disc, out),
            Call::FreeSpace => crate::free_space(disc),
            Call::Run { name } => crate::run(disc, area, name),
            Call::Suspend { id } => crate::suspend(disc, area, *id),
            Call::Resume { id } => crate::resume(disc, area, *id),
            Call::Kill { id } => crate::kill(disc, area, *id),
            Call::Share { id, share } => crate::share(disc, area, *id, *share),
            Call::List { .. } => crate::list(disc, area, out),
            Call::Turn { slot, clock, .. } => crate::turn(disc, area, *slot, *clock, out),
            Call::Round { clock, .. } => crate::round(disc, area, *clock, out),
        }
    }
}
