//! Where each field of the two buffers lies. Document 01, "The two buffers".

use std::ops::Range;

/// "Disc, 1,024 bytes." Document 02, Q-2: "The jib board has 4,096 bytes. Either length is now a disc".
pub const SHORT_DISC: usize = 1024;
pub const LONG_DISC: usize = 4096;

/// "Ten directory entries of 16 bytes from 0: name 12, start 2, length 2."; Q-2: "layout and ten files stay".
pub const MAX_FILES: usize = 10;
pub const ENTRY_LEN: usize = 16;
pub const NAME_LEN: usize = 12;
pub const ENTRY_START: usize = 12;
pub const ENTRY_LENGTH: usize = 14;

/// "Byte 160 is the file count, at most 10. Data lie at 161 to 1023"; Q-2: "data ending at 1023 or 4095".
pub const FILE_COUNT: usize = 160;
pub const DATA_START: usize = 161;

/// "Work area, 1,056 bytes. 0: variable memory, 256."
pub const AREA_LEN: usize = 1056;
pub const MEMORY_LEN: usize = 256;

/// "256: 25 variable entries of name 1, type 1, address 1, size 1, process ID 2."
pub const VARIABLES: usize = 256;
pub const MAX_VARIABLES: usize = 25;
pub const VARIABLE_LEN: usize = 6;
pub const VARIABLE_NAME: usize = 0;
pub const VARIABLE_TYPE: usize = 1;
pub const VARIABLE_ADDRESS: usize = 2;
pub const VARIABLE_SIZE: usize = 3;
pub const VARIABLE_ID: usize = 4;

/// "406: variable count. 407: next ID, 2. 409: seven zeros."
pub const VARIABLE_COUNT: usize = 406;
pub const NEXT_ID: usize = 407;
pub const ZEROS: usize = 409;
pub const ZEROS_LEN: usize = 7;
pub const MAX_NEXT_ID: usize = 32768;

/// "416: ten process records of 64 bytes".
pub const RECORDS: usize = 416;
pub const MAX_PROCESSES: usize = 10;
pub const RECORD_LEN: usize = 64;

/// "name 12, ID 2, state 1, fault 1, code start 2, code length 2, PC 2, loop 2, file start 2, file length 2,
/// file offset 2, SP 1, spare 1, stack 32." Document 02, Q-9: "The spare byte holds 1 to 8, with zero as one".
pub const ID: usize = 12;
pub const STATE: usize = 14;
pub const FAULT: usize = 15;
pub const CODE_START: usize = 16;
pub const CODE_LENGTH: usize = 18;
pub const PC: usize = 20;
pub const LOOP_PC: usize = 22;
pub const FILE_START: usize = 24;
pub const FILE_LENGTH: usize = 26;
pub const FILE_OFFSET: usize = 28;
pub const SP: usize = 30;
pub const SPARE: usize = 31;
pub const STACK: usize = 32;
pub const STACK_LEN: usize = 32;
pub const MAX_SHARE: u8 = 8;

/// "state 1 ('r' running, 'p' paused, 0 ended)", "loop 2 (hex FFFF: none)".
pub const RUNNING: u8 = b'r';
pub const PAUSED: u8 = b'p';
pub const ENDED: u8 = 0;
pub const NO_LOOP: usize = 0xFFFF;

/// "at least 32 output bytes"; Q-9: a round "needs 2,560 output bytes".
pub const TURN_OUTPUT: usize = 32;
pub const ROUND_OUTPUT: usize = 2560;

/// Whether a disc may have this length.
pub fn is_disc_len(length: usize) -> bool {
    length == SHORT_DISC || length == LONG_DISC
}

/// The data bytes of a disc, 863 or 3,935.
pub fn data_bytes(disc: &[u8]) -> Range<usize> {
    DATA_START..disc.len()
}

/// "Two-byte fields of both buffers are low byte first."
pub fn word(buffer: &[u8], at: usize) -> usize {
    usize::from(u16::from_le_bytes([buffer[at], buffer[at + 1]]))
}

/// Writes a two-byte field, low byte first.
pub fn set_word(buffer: &mut [u8], at: usize, value: usize) {
    buffer[at..at + 2].copy_from_slice(&(value as u16).to_le_bytes());
}
