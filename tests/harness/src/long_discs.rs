//! What a call reached that a disc of 1,024 bytes does not have, or has otherwise. Document 02, Q-2: "*store* takes up
//! to 863 or 3,935".

use crate::comparison::Outcome;
use crate::coverage::opcode_at;
use crate::kernels::State;
use kernel::call::Call;
use second::instruction::{ENDLOOP, LOOP, OPEN, WRITE};
use second::layout::*;
use second::single::View;
use second::{directory, records};

/// The data bytes of a disc of 1,024 bytes, and of one of 4,096.
const SHORT_DATA: usize = SHORT_DISC - DATA_START;
const LONG_DATA: usize = LONG_DISC - DATA_START;

/// The situations of a call that both kernels answered alike; `answer` is 0 for done, n for refusal n.
pub fn situations(call: &Call, answer: u8, before: &State, after: &Outcome) -> Vec<&'static str> {
    let number = usize::try_from(after.number).unwrap_or(0);
    let tried = match (call, answer) {
        (Call::Format, 0) => vec![("format, bytes behind 1023 that were not 0", has_bytes_behind(&before.disc))],
        (Call::Store { data, .. }, 0) => of_stored(data.len(), &after.state.disc),
        (Call::Store { data, .. }, 6) => of_refused(data.len(), before.disc.len()),
        (Call::Retrieve { .. }, 0) => vec![("retrieve, more than 863 bytes", number > SHORT_DATA)],
        (Call::Files { .. }, 0) => vec![("files, a length of four digits", has_four_digits(&before.disc))],
        (Call::FreeSpace, 0) => {
            vec![("free space above 863", number > SHORT_DATA), ("free space 3,935", number == LONG_DATA)]
        }
        (Call::Turn { slot, .. }, 0) => of_turn(records::record(*slot as usize), before, &after.state),
        _ => Vec::new(),
    };
    holding(tried)
}

/// The situations of a process that is equal to its single process.
pub fn of_held(view: &View) -> Vec<&'static str> {
    let loop_above = view.loop_pc != NO_LOOP && view.loop_pc > SHORT_DATA;
    holding(vec![
        ("single process, PC above 863", view.pc > SHORT_DATA),
        ("single process, loop above 863", loop_above),
    ])
}

fn holding(tried: Vec<Tried>) -> Vec<&'static str> {
    tried.into_iter().filter(|(_, holds)| *holds).map(|(name, _)| name).collect()
}

fn has_bytes_behind(disc: &[u8]) -> bool {
    disc.iter().skip(SHORT_DISC).any(|&byte| byte != 0)
}

fn has_four_digits(disc: &[u8]) -> bool {
    directory::ranges(disc).any(|range| range.len() > 999)
}

/// A situation and whether it holds.
type Tried = (&'static str, bool);

/// Of a file that was stored: it is the directory's last.
fn of_stored(length: usize, disc: &[u8]) -> Vec<Tried> {
    let start = directory::ranges(disc).last().map_or(0, |range| range.start);
    vec![
        ("store, more than 863 bytes", length > SHORT_DATA),
        ("store, 3,935 bytes", length == LONG_DATA),
        ("store, a file that begins behind 1023", start >= SHORT_DISC),
    ]
}

fn of_refused(length: usize, disc_len: usize) -> Vec<Tried> {
    let long = disc_len == LONG_DISC;
    let between = (SHORT_DATA + 1..=LONG_DATA).contains(&length);
    vec![
        ("store, refused by 6 what a long disc takes", !long && between),
        ("store, 3,936 bytes refused by 6 on a long disc", long && length == LONG_DATA + 1),
    ]
}

fn of_turn(record: usize, before: &State, after: &State) -> Vec<Tried> {
    let field = |at: usize| word(&before.area, record + at);
    let left = |at: usize| word(&after.area, record + at);
    let at = |opcode: u8| opcode_at(before, record) == Some(opcode);
    let lives = after.area[record + STATE] != ENDED;
    let created = directory::count(&after.disc) > directory::count(&before.disc);
    vec![
        ("turn, PC above 863", field(PC) > SHORT_DATA),
        ("turn, a program that begins behind 1023", field(CODE_START) >= SHORT_DISC),
        ("LOOP above 863", at(LOOP) && left(LOOP_PC) > SHORT_DATA),
        ("ENDLOOP to above 863", at(ENDLOOP) && lives && left(PC) > SHORT_DATA),
        ("OPEN, a new file of more than 863 bytes", at(OPEN) && created && left(FILE_LENGTH) > SHORT_DATA),
        ("WRITE behind 1023", at(WRITE) && lives && field(FILE_START) + field(FILE_OFFSET) >= SHORT_DISC),
        ("file offset above 863", lives && left(FILE_OFFSET) > SHORT_DATA),
        ("turn, PC at 3,935", field(PC) == LONG_DATA),
        ("turn, loop at 3,935", field(LOOP_PC) == LONG_DATA),
        ("turn, file offset at 3,935", field(FILE_LENGTH) > 0 && field(FILE_OFFSET) == LONG_DATA),
    ]
}
