//! The first kernel through its C functions.

use harness::kernels::Kernel;
use kernel::call::Call;

/// The static library that this program is linked with.
pub struct Archive;

impl Kernel for Archive {
    fn answer(&self, call: &Call, disc: &mut [u8], area: &mut [u8], output: &mut [u8]) -> i32 {
        call.make(disc, area, output)
    }
}
