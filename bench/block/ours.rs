//! The library: a block of 512 bytes, and the functions that C calls on it.

use crate::station::{Station, TickAnswer, FIRST_CLOCK};
use crate::work::{Offer, Table};

#[repr(C)]
struct PlanAnswer {
    from: usize,
    size: usize,
    refusal: u8,
    row: u8,
}

#[repr(C)]
struct OfferAnswer {
    ticket: u32,
    refusal: u8,
}

extern "C" {
    // crates/board: a slice as its pointer and length.
    fn heechstjer_plan(block: *mut u8, size: usize, table: *const u8, length: usize) -> PlanAnswer;
    fn heechstjer_tick(block: *mut u8, size: usize, set: u16, flags: u8) -> TickAnswer;
    fn heechstjer_offer(block: *mut u8, size: usize, budget: u16, deadline: u16) -> OfferAnswer;
}

#[derive(PartialEq)]
pub struct Block([u8; 512]);

impl Block {
    fn planned(file: &[u8]) -> Block {
        let mut block = [255; 512];
        let answer = unsafe { heechstjer_plan(block.as_mut_ptr(), 512, file.as_ptr(), file.len()) };
        let PlanAnswer { from, size, refusal, row } = answer;
        assert_eq!((from, size, refusal, row), (0, 0, 0, 0), "the table is refused");
        Block(block)
    }

    /// The ticket, if the offer is accepted.
    pub fn offer(&mut self, Offer { budget, deadline }: Offer) -> Option<u32> {
        let answer = unsafe { heechstjer_offer(self.0.as_mut_ptr(), 512, budget, deadline) };
        (answer.refusal == 0).then_some(answer.ticket)
    }
}

impl Station for Block {
    /// Planned; then the clock, bytes 4 to 7, is set on: nothing in a fresh block depends on it.
    fn fresh(table: &Table) -> Block {
        let mut block = Block::planned(&table.file());
        block.0[4..8].copy_from_slice(&FIRST_CLOCK.to_le_bytes());
        block
    }

    fn tick(&mut self, set: u16, flags: u8) -> TickAnswer {
        unsafe { heechstjer_tick(self.0.as_mut_ptr(), 512, set, flags) }
    }

    fn accept(&mut self, offer: Offer) -> u32 {
        self.offer(offer).expect("accepted before")
    }
}
