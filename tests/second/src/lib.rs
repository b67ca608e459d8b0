//! The second implementation of document 01, with document 02's requests, written apart from the first one.
//!
//! It works on the two buffers as they lie: a function for each operation, no decoded kernel. The module
//! [`single`] is the single process of document 01; it shares only the arithmetic of document 01 and the printing.

#![forbid(unsafe_code)]

pub mod answer;
pub mod area;
pub mod directory;
pub mod fault;
pub mod files;
pub mod instruction;
pub mod layout;
pub mod number;
pub mod printing;
pub mod processes;
pub mod records;
pub mod runs;
pub mod scaling;
pub mod single;
pub mod stack;
pub mod turn;
pub mod variables;

pub use answer::{number, Answer, Refusal};
pub use files::{erase, files, free_space, retrieve, store};
pub use processes::{boot, format, kill, list, resume, run, share, suspend};
pub use turn::{round, turn};
