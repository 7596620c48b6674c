//! A reference for the rules of document 01, with document 02's margins (§1) and
//! notes (§3).
//!
//! It is written to be read beside the papers, not to be fast. Time is the true
//! number of accepted ticks, as a `u128` that never rolls over; the 32-bit
//! clock appears only where a number is shown. Sums are written out term by
//! term.

pub mod block;
pub mod event;
pub mod programs;
pub mod random;
pub mod station;
pub mod table;
pub mod vectors;
pub mod vectors_plan;
pub mod vectors_run;
