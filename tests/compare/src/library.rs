//! The library's four functions, as the C header gives them. They are asked of
//! `shim.c`, which runs as a process of its own beside each thread.

use crate::machine;
use std::cell::RefCell;
use std::io::{BufReader, Read, Write};
use std::process::{Child, ChildStdin, ChildStdout, Stdio};

/// The answer of planning; 0 where the header says 0.
#[derive(Clone, Copy, Debug, Default, PartialEq, Eq)]
pub struct PlanAnswer {
    pub refusal: u64,
    pub row: u64,
    pub from: u64,
    pub size: u64,
}

/// The answer of a tick. The kinds are the header's numbers.
#[derive(Clone, Copy, Debug, Default, PartialEq, Eq)]
pub struct TickAnswer {
    pub refusal: u64,
    /// Note 12 and note 14: release bits.
    pub unknown: u16,
    pub not_ready: u16,
    /// Note 13: 1 or 0.
    pub none_ran: u64,
    pub clock: u64,
    pub runner: u64,
    pub runner_row: u64,
    pub band: u64,
    pub ticket: u64,
    pub closed: u64,
    pub closed_row: u64,
    pub closed_ticket: u64,
    pub closing: u64,
}

impl TickAnswer {
    /// The rows of the call's set that were released, read off the answer: the bits
    /// that were set and not noted, where the tick was accepted.
    pub fn releases(&self, released: u16) -> u16 {
        if self.refusal != 0 {
            return 0;
        }
        released & !self.unknown & !self.not_ready
    }
}

/// The answer of an offer.
#[derive(Clone, Copy, Debug, Default, PartialEq, Eq)]
pub struct OfferAnswer {
    pub refusal: u64,
    pub ticket: u64,
}

/// The answer of reading the table back.
#[derive(Clone, Copy, Debug, Default, PartialEq, Eq)]
pub struct TableAnswer {
    pub refusal: u64,
    pub size: u64,
}

/// The kinds, as the header numbers them.
pub mod kind {
    pub const HARD: u64 = 1;
    pub const FIRM: u64 = 2;
    pub const SOFT: u64 = 3;
    pub const IDLE: u64 = 4;
    pub const UPPER: u64 = 1;
    pub const LOWER: u64 = 2;
    pub const DONE: u64 = 1;
    pub const SPENT: u64 = 2;
}

/// The flags of a tick.
pub mod flag {
    pub const DONE: u8 = 1;
    pub const SOFT: u8 = 2;
}

/// The functions, as the shim numbers them.
mod function {
    pub const PLAN: u64 = 0;
    pub const TICK: u64 = 1;
    pub const OFFER: u64 = 2;
    pub const TABLE: u64 = 3;
    pub const TICKS: u64 = 4;
}

/// The fields at the front of an answer.
const FIELDS: usize = 13;

/// The shim of a thread.
struct Shim {
    process: Child,
    to: Option<ChildStdin>,
    from: BufReader<ChildStdout>,
    /// Requests that are not yet written.
    requests: Vec<u8>,
}

thread_local! {
    static SHIM: RefCell<Shim> = RefCell::new(Shim::start());
}

impl Shim {
    fn start() -> Shim {
        let mut command = machine::program("c/shim");
        let piped = command.stdin(Stdio::piped()).stdout(Stdio::piped());
        let mut process = piped.spawn().expect("the shim is built");
        let to = process.stdin.take();
        let from = BufReader::new(process.stdout.take().unwrap());
        Shim { process, to, from, requests: Vec::new() }
    }

    fn ask(&mut self, function: u64, arguments: [u64; 2], block: &[u8], other: &[u8]) {
        let lengths = [block.len() as u64, other.len() as u64];
        for number in [function].iter().chain(&lengths).chain(&arguments) {
            self.requests.extend(number.to_le_bytes());
        }
        self.requests.extend_from_slice(block);
        self.requests.extend_from_slice(other);
    }

    fn read(&mut self, bytes: &mut [u8]) {
        if !self.requests.is_empty() {
            self.to.as_mut().unwrap().write_all(&self.requests).expect("the shim reads");
            self.requests.clear();
        }
        self.from.read_exact(bytes).expect("the shim answers");
    }

    fn number(&mut self) -> u64 {
        let mut bytes = [0; 8];
        self.read(&mut bytes);
        u64::from_le_bytes(bytes)
    }
}

impl Drop for Shim {
    /// The shim ends where its requests do.
    fn drop(&mut self) {
        drop(self.to.take());
        self.process.wait().expect("a process");
    }
}

/// A call that is asked for. Some may be asked for in one go, as many as a pipe
/// holds, before the answer of the first is taken; all are answered in turn.
#[must_use]
pub struct Asked<Answer> {
    block_bytes: usize,
    other_bytes: usize,
    answer: fn([u64; FIELDS]) -> Answer,
}

/// What there is after a call: its answer, and the bytes that were lent to it.
pub struct Answered<Answer> {
    pub answer: Answer,
    pub block: Vec<u8>,
    pub other: Vec<u8>,
}

impl<Answer> Asked<Answer> {
    fn ask(
        function: u64,
        arguments: [u64; 2],
        block: &[u8],
        other: &[u8],
        answer: fn([u64; FIELDS]) -> Answer,
    ) -> Asked<Answer> {
        SHIM.with_borrow_mut(|shim| shim.ask(function, arguments, block, other));
        Asked { block_bytes: block.len(), other_bytes: other.len(), answer }
    }

    pub fn answered(self) -> Answered<Answer> {
        SHIM.with_borrow_mut(|shim| {
            let fields = std::array::from_fn(|_| shim.number());
            let around_stands = shim.number() == 1;
            let (mut block, mut other) = (vec![0; self.block_bytes], vec![0; self.other_bytes]);
            shim.read(&mut block);
            shim.read(&mut other);
            assert!(around_stands, "a call wrote to bytes around those that were lent");
            Answered { answer: (self.answer)(fields), block, other }
        })
    }

    /// The answer; the block is left as the call left it.
    fn answer(self, block: &mut [u8]) -> Answer {
        let answered = self.answered();
        block.copy_from_slice(&answered.block);
        answered.answer
    }
}

pub fn ask_plan(block: &[u8], table: &[u8]) -> Asked<PlanAnswer> {
    Asked::ask(function::PLAN, [0, 0], block, table, |[refusal, row, from, size, ..]| PlanAnswer {
        refusal,
        row,
        from,
        size,
    })
}

pub fn ask_tick(block: &[u8], released: u16, flags: u8) -> Asked<TickAnswer> {
    let arguments = [released.into(), flags.into()];
    Asked::ask(
        function::TICK,
        arguments,
        block,
        &[],
        |[refusal, unknown, none_ran, not_ready, clock, runner, runner_row, band, ticket, closed, closed_row, closed_ticket, closing]| {
            TickAnswer {
                refusal,
                unknown: set(unknown),
                none_ran,
                not_ready: set(not_ready),
                clock,
                runner,
                runner_row,
                band,
                ticket,
                closed,
                closed_row,
                closed_ticket,
                closing,
            }
        },
    )
}

/// A field of 16 bits.
fn set(field: u64) -> u16 {
    field.try_into().expect("a set of 16 rows")
}

pub fn ask_offer(block: &[u8], budget: u16, deadline: u16) -> Asked<OfferAnswer> {
    let arguments = [budget.into(), deadline.into()];
    Asked::ask(function::OFFER, arguments, block, &[], |[refusal, ticket, ..]| OfferAnswer {
        refusal,
        ticket,
    })
}

pub fn ask_table(block: &[u8], out: &[u8]) -> Asked<TableAnswer> {
    Asked::ask(function::TABLE, [0, 0], block, out, |[refusal, size, ..]| TableAnswer {
        refusal,
        size,
    })
}

pub fn plan(block: &mut [u8], table: &[u8]) -> PlanAnswer {
    let answered = ask_plan(block, table).answered();
    assert!(answered.other == table, "planning wrote to the table");
    block.copy_from_slice(&answered.block);
    answered.answer
}

pub fn tick(block: &mut [u8], released: u16, flags: u8) -> TickAnswer {
    ask_tick(block, released, flags).answer(block)
}

pub fn offer(block: &mut [u8], budget: u16, deadline: u16) -> OfferAnswer {
    ask_offer(block, budget, deadline).answer(block)
}

/// Ticks that release nothing and have no flags, the first at this clock: how many
/// of so many were accepted in turn, each with a clock one more than the one before
/// and nothing noted.
pub fn ticks(block: &mut [u8], clock: u64, how_many: u64) -> u64 {
    let arguments = [clock, how_many];
    Asked::ask(function::TICKS, arguments, block, &[], |[accepted, ..]| accepted).answer(block)
}
