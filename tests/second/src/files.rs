//! The operations on files. Document 01, "Operations and their refusals".

use crate::answer::{need, write_text, Answer, Refusal, DONE};
use crate::area::{need_buffers, need_disc};
use crate::directory;
use crate::layout::*;
use crate::records;
use crate::runs;

/// "5 bad name, 6 data length 0 or above 863, 8 ten files already, 7 name exists, 9 no free run long enough." Document
/// 02, Q-2: "*store* takes up to 863 or 3,935".
pub fn store(disc: &mut [u8], name: &[u8], data: &[u8]) -> Answer {
    need_disc(disc)?;
    need(directory::good_name(name), Refusal::BadName)?;
    need((1..=data_bytes(disc).len()).contains(&data.len()), Refusal::BadDataLength)?;
    need(directory::count(disc) < MAX_FILES, Refusal::TenFiles)?;
    need(directory::find(disc, name).is_none(), Refusal::NameExists)?;
    let start = directory::add(disc, name, data.len())?;
    disc[start..start + data.len()].copy_from_slice(data);
    DONE
}

/// "10 no such file, tried before 4. Returns the length, its bytes written."
pub fn retrieve(disc: &[u8], name: &[u8], output: &mut [u8]) -> Answer {
    need_disc(disc)?;
    let index = directory::find(disc, name).ok_or(Refusal::NoSuchFile)?;
    write_text(&disc[directory::range(disc, index)], output)
}

/// "10; 11 a live process runs it or has it open."
pub fn erase(disc: &mut [u8], area: &[u8], name: &[u8]) -> Answer {
    need_buffers(disc, area)?;
    let index = directory::find(disc, name).ok_or(Refusal::NoSuchFile)?;
    need(!in_use(disc, area, index), Refusal::FileInUse)?;
    directory::remove(disc, index);
    DONE
}

/// Whether a live process runs the file or has it open; files are disjoint, so the start tells them apart.
fn in_use(disc: &[u8], area: &[u8], index: usize) -> bool {
    let start = directory::range(disc, index).start;
    records::live(area).any(|record| {
        let open = word(area, record + FILE_LENGTH) > 0 && word(area, record + FILE_START) == start;
        open || word(area, record + CODE_START) == start
    })
}

/// "a line per file, name, space, length, newline; returns the bytes written."
pub fn files(disc: &[u8], output: &mut [u8]) -> Answer {
    need_disc(disc)?;
    let mut text = Vec::new();
    for index in 0..directory::count(disc) {
        text.extend_from_slice(directory::trimmed(directory::name(disc, index)));
        text.extend_from_slice(format!(" {}\n", directory::range(disc, index).len()).as_bytes());
    }
    write_text(&text, output)
}

/// "the longest free run, however many files there are."
pub fn free_space(disc: &[u8]) -> Answer {
    need_disc(disc)?;
    Ok(runs::longest_run(data_bytes(disc), directory::ranges(disc)) as u32)
}
