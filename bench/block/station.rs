//! What the library and its peers have in common: the same calls, and the same answer to a tick.

use crate::work::{Offer, Table};

pub const DONE: u8 = 1;
pub const SOFT: u8 = 2;

/// The clock of a fresh station here: it rolls over after half a million ticks.
pub const FIRST_CLOCK: u32 = 4_294_467_296;

/// As in include/heechstjer.h.
#[repr(C)]
#[derive(Clone, Copy, Debug, Default, PartialEq)]
pub struct TickAnswer {
    pub clock: u32,
    pub ticket: u32,
    pub closed_ticket: u32,
    pub unknown: u16,
    pub not_ready: u16,
    pub refusal: u8,
    pub none_ran: u8,
    pub runner: u8,
    pub runner_row: u8,
    pub band: u8,
    pub closed: u8,
    pub closed_row: u8,
    pub closing: u8,
}

/// The answer to flags that nobody knows.
pub fn unknown_flags() -> TickAnswer {
    TickAnswer { refusal: 20, ..TickAnswer::default() }
}

/// Each tick goes through an extern "C" function that is neither inlined nor mangled, so that callgrind can name it.
pub trait Station: PartialEq {
    fn fresh(table: &Table) -> Self;
    fn tick(&mut self, set: u16, flags: u8) -> TickAnswer;
    /// Takes in an upload that the library accepts, and gives its ticket. Only the library asks whether there is room.
    fn accept(&mut self, offer: Offer) -> u32;
}
