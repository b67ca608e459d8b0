//! What the tests of `cause` use.

pub mod bench;
pub mod guide;
pub mod label;
pub mod opcode;
pub mod routines;
pub mod stack;
pub mod state;
