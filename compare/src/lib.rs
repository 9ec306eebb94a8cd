//! An OpenRISC 1000 engine written from documents 01 and 02 and the sources 000
//! and 001 alone.
//!
//! Its worth is that it shares no line with the engine it is held against.
//! It is a plain interpreter: a table of masks and values, a struct for a
//! core, and the runs as the paper words them.

pub mod battery;
pub mod card;
pub mod cards;
pub mod cases;
pub mod check;
pub mod dump;
#[cfg(feature = "engine")]
pub mod engine;
pub mod exec;
pub mod guard;
pub mod image;
pub mod isa;
pub mod levels;
pub mod limits;
pub mod linked;
pub mod lists;
pub mod programs;
pub mod rng;
pub mod runs;
pub mod state;
pub mod vectors;
