//! The workbench: a host program for those who write and service the routines of an ArduinOS box.
//!
//! Whatever runs, runs in the proved kernel (package `kernel`). What is written here reads bytes and explains them:
//! which clause of a good disc or work area is broken (`good`), which values lie on a stack (`value`), why a fault came
//! (`cause`). The tests hold these explanations against the kernel.

pub mod asm;
pub mod buffers;
pub mod cause;
pub mod checksum;
pub mod commands;
pub mod dis;
pub mod failure;
pub mod files;
pub mod good;
pub mod instruction;
pub mod layout;
pub mod literal;
pub mod picture;
pub mod readout;
pub mod record;
pub mod replay;
pub mod run;
pub mod value;
