//! Compares two kernels of document 01, call by call: number, disc, work area and output.
//!
//! The first kernel is anything that implements [`kernels::Kernel`]; the second is the package `second`.

#![forbid(unsafe_code)]

pub mod alone;
pub mod arguments;
pub mod cases;
pub mod comparison;
pub mod coverage;
pub mod damage;
pub mod gate;
pub mod instructions;
pub mod kernels;
pub mod long_discs;
pub mod operands;
pub mod programs;
pub mod random;
pub mod rounds;
pub mod scaling;
pub mod sequences;
pub mod sharers;
pub mod shares;
pub mod states;
pub mod tables;
pub mod tracking;
pub mod values;
pub mod vectors;
