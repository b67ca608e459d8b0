//! The sizes of include/arduinos.h that a call needs: what is lent, and what the kernel takes.

use std::ops::RangeInclusive;

/// A disc has one of these lengths (document 02, Q-2).
pub const SHORT_DISC: usize = 1024;
pub const LONG_DISC: usize = 4096;
pub const AREA_LEN: usize = 1056;

/// "A name is 1 to 11 bytes of 33 to 126".
pub const MAX_NAME: usize = 11;
pub const NAME_BYTES: RangeInclusive<u8> = 33..=126;
/// The longest file of a short disc and of a long one.
pub const MAX_DATA: usize = 863;
pub const LONG_MAX_DATA: usize = 3935;
pub const MAX_SHARE: u8 = 8;

/// How much output a turn, a round, *files* and *list* are lent.
pub const TURN_OUTPUT: usize = 32;
pub const ROUND_OUTPUT: usize = 2560;
pub const FILES_OUTPUT: usize = 170;
pub const LIST_OUTPUT: usize = 200;
