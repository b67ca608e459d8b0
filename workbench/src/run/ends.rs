//! What is said of a process that a turn ended by a fault.

use super::turns::Turn;
use crate::cause;
use crate::layout::name_text;
use kernel::words;

/// The sentence of a turn that ended its process by a fault. The number is the kernel's; the words are the workbench's,
/// and are left out where they would be of another fault.
pub fn fault_sentence(turn: &Turn) -> Option<String> {
    let fault = turn.left().fault();
    if !turn.ended() || fault == 0 {
        return None;
    }
    let (name, id) = (name_text(turn.found().name()), turn.found().id());
    match cause::of_turn(&turn.before.disc, &turn.before.area, turn.slot) {
        Some(cause) if cause.fault == fault => Some(cause::sentence(&name, id, &cause)),
        _ => {
            let words = words::fault(fault);
            Some(format!("{name} (ID {id}) ended by fault {fault} at offset {}: {words}", turn.found().pc()))
        }
    }
}
