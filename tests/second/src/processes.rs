//! The operations on processes. Document 01, "Operations and their refusals".

use crate::answer::{need, write_text, Answer, Refusal, DONE};
use crate::area::need_buffers;
use crate::directory;
use crate::layout::*;
use crate::records;

/// "Format zeroes the disc, then boots."; "format and boot try only 1."
pub fn format(disc: &mut [u8], area: &mut [u8]) -> Answer {
    need(is_disc_len(disc.len()) && area.len() == AREA_LEN, Refusal::WrongLength)?;
    disc.fill(0);
    boot(area)
}

/// "Boot zeroes the work area and sets next ID to 1."
pub fn boot(area: &mut [u8]) -> Answer {
    need(area.len() == AREA_LEN, Refusal::WrongLength)?;
    area.fill(0);
    set_word(area, NEXT_ID, 1);
    DONE
}

/// Run of document 01; the rest of it is [`start`], which FORK shares.
pub fn run(disc: &[u8], area: &mut [u8], name: &[u8]) -> Answer {
    need_buffers(disc, area)?;
    start(disc, area, name)
}

/// "12 no ended slot, 10, 13 next ID is 32768. Takes the lowest ended slot; state 'r', no loop, name, ID and code filled
/// in, all else of the record zero. Returns the ID."
pub fn start(disc: &[u8], area: &mut [u8], name: &[u8]) -> Answer {
    let record = records::all().find(|&record| !records::is_live(area, record)).ok_or(Refusal::NoEndedSlot)?;
    let file = directory::find(disc, name).ok_or(Refusal::NoSuchFile)?;
    let id = word(area, NEXT_ID);
    need(id < MAX_NEXT_ID, Refusal::NoNextId)?;
    area[record..record + RECORD_LEN].fill(0);
    area[record..record + NAME_LEN].copy_from_slice(directory::name(disc, file));
    area[record + STATE] = RUNNING;
    set_word(area, record + ID, id);
    set_word(area, record + CODE_START, directory::range(disc, file).start);
    set_word(area, record + CODE_LENGTH, directory::range(disc, file).len());
    set_word(area, record + LOOP_PC, NO_LOOP);
    set_word(area, NEXT_ID, id + 1);
    Ok(id as u32)
}

/// "Suspend": running becomes paused.
pub fn suspend(disc: &[u8], area: &mut [u8], id: u32) -> Answer {
    change_state(disc, area, id, PAUSED)
}

/// "Resume": paused becomes running.
pub fn resume(disc: &[u8], area: &mut [u8], id: u32) -> Answer {
    change_state(disc, area, id, RUNNING)
}

/// "14 no live process of that ID, 15 already in that state."
fn change_state(disc: &[u8], area: &mut [u8], id: u32, state: u8) -> Answer {
    need_buffers(disc, area)?;
    let record = records::of_id(area, id).ok_or(Refusal::NoSuchProcess)?;
    need(area[record + STATE] != state, Refusal::AlreadyInState)?;
    area[record + STATE] = state;
    DONE
}

/// "Kill: 14."
pub fn kill(disc: &[u8], area: &mut [u8], id: u32) -> Answer {
    need_buffers(disc, area)?;
    let record = records::of_id(area, id).ok_or(Refusal::NoSuchProcess)?;
    records::end(area, record, 0);
    DONE
}

/// Document 02, Q-9: "A new operation sets it by ID."; "22 a share outside 1 to 8, after 14."
pub fn share(disc: &[u8], area: &mut [u8], id: u32, share: u32) -> Answer {
    need_buffers(disc, area)?;
    let record = records::of_id(area, id).ok_or(Refusal::NoSuchProcess)?;
    need((1..=u32::from(MAX_SHARE)).contains(&share), Refusal::BadShare)?;
    area[record + SPARE] = share as u8;
    DONE
}

/// "ID, space, 'r' or 'p', space, name, newline per live process in slot order; returns the bytes written."
pub fn list(disc: &[u8], area: &[u8], output: &mut [u8]) -> Answer {
    need_buffers(disc, area)?;
    let mut text = Vec::new();
    for record in records::live(area) {
        let state = char::from(area[record + STATE]);
        text.extend_from_slice(format!("{} {} ", records::id(area, record), state).as_bytes());
        text.extend_from_slice(directory::trimmed(&area[record..record + NAME_LEN]));
        text.push(b'\n');
    }
    write_text(&text, output)
}
