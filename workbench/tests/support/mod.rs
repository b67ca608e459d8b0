//! Random good discs and work areas, and damage done to them.

pub mod damage;
pub mod state;
