//! The buffers that a call works on, and the kernels that answer it.

use kernel::call::Call;
use second::layout::AREA_LEN;
use second::number;

/// The two buffers; a test of refusal 1 gives them other lengths.
#[derive(Clone, PartialEq, Eq)]
pub struct State {
    pub disc: Vec<u8>,
    pub area: Vec<u8>,
}

impl State {
    pub fn zero(disc_len: usize) -> State {
        State { disc: vec![0; disc_len], area: vec![0; AREA_LEN] }
    }
}

/// Something that answers calls: the number returned; the buffers and the output are changed in place.
pub trait Kernel {
    fn answer(&self, call: &Call, disc: &mut [u8], area: &mut [u8], output: &mut [u8]) -> i32;
}

/// The second implementation.
pub struct Second;

impl Kernel for Second {
    fn answer(&self, call: &Call, disc: &mut [u8], area: &mut [u8], output: &mut [u8]) -> i32 {
        number(match call {
            Call::Format => second::format(disc, area),
            Call::Boot => second::boot(area),
            Call::Store { name, data } => second::store(disc, name, data),
            Call::Retrieve { name, .. } => second::retrieve(disc, name, output),
            Call::Erase { name } => second::erase(disc, area, name),
            Call::Files { .. } => second::files(disc, output),
            Call::FreeSpace => second::free_space(disc),
            Call::Run { name } => second::run(disc, area, name),
            Call::Suspend { id } => second::suspend(disc, area, *id),
            Call::Resume { id } => second::resume(disc, area, *id),
            Call::Kill { id } => second::kill(disc, area, *id),
            Call::Share { id, share } => second::share(disc, area, *id, *share),
            Call::List { .. } => second::list(disc, area, output),
            Call::Turn { slot, clock, .. } => second::turn(disc, area, *slot, *clock, output),
            Call::Round { clock, .. } => second::round(disc, area, *clock, output),
        })
    }
}
