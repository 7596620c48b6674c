//! A plain Rust dispatcher: document 01's tick on rows kept as structs, changed in place, each step a scan of the rows.

use crate::station::{unknown_flags, Station, TickAnswer, DONE, FIRST_CLOCK, SOFT};
use crate::work::{self, Offer, Table};

#[derive(Clone, Copy, Default, PartialEq)]
pub struct Row {
    c: u16,
    t: u16,
    u: u16,
    rank: u8,
    pub rested: bool,
    release: u32,
    pub open: bool,
    run: u16,
}

#[derive(Clone, Copy, Default, PartialEq)]
struct Upload {
    ticket: u32,
    budget: u16,
    run: u16,
}

#[derive(Clone, Copy, PartialEq)]
pub enum Last {
    Row(usize),
    Upload,
    Nobody,
}

#[derive(Clone, Copy)]
enum Band {
    Upper,
    Lower,
}

#[derive(Clone, Copy)]
enum Runner {
    Hard(usize, Band),
    Firm(u32),
    Soft,
    Idle,
}

#[derive(Clone, Copy)]
enum Closing {
    Nothing,
    HardDone(usize),
    HardSpent(usize),
    FirmDone(u32),
    FirmSpent(u32),
}

#[derive(Clone, Copy)]
struct Answer {
    clock: u32,
    runner: Runner,
    closing: Closing,
    unknown: u16,
    none_ran: bool,
    not_ready: u16,
}

#[derive(PartialEq)]
pub struct Dispatcher {
    n: usize,
    pub rows: [Row; 16],
    uploads: [Upload; 8],
    queued: usize,
    next: u32,
    pub last: Last,
    clock: u32,
}

fn has(set: u16, i: usize) -> bool {
    set >> i & 1 == 1
}

/// The bits of a set from row n on, counted from 0.
fn above(set: u16, n: usize) -> u16 {
    set & (0xffff_u32 << n) as u16
}

impl Row {
    fn promoted(&self, clock: u32) -> bool {
        self.open && (self.rested || clock.wrapping_sub(self.release) >= self.u as u32)
    }
}

impl Dispatcher {
    #[inline(always)]
    fn step(&mut self, set: u16, done: bool, soft: bool) -> Answer {
        let none_ran = done && self.last == Last::Nobody;
        let closing = self.closing(done);
        self.close(closing);
        let unknown = above(set, self.n);
        let not_ready = self.not_ready(set);
        self.release(set & !not_ready);
        let runner = self.choose(soft);
        let clock = self.clock;
        self.run(runner);
        Answer { clock, runner, closing, unknown, none_ran, not_ready }
    }

    fn closing(&self, done: bool) -> Closing {
        match self.last {
            Last::Row(i) if done => Closing::HardDone(i),
            Last::Row(i) if self.rows[i].run >= self.rows[i].c => Closing::HardSpent(i),
            Last::Upload if done => Closing::FirmDone(self.uploads[0].ticket),
            Last::Upload if self.uploads[0].run >= self.uploads[0].budget => {
                Closing::FirmSpent(self.uploads[0].ticket)
            }
            _ => Closing::Nothing,
        }
    }

    fn close(&mut self, closing: Closing) {
        match closing {
            Closing::Nothing => {}
            Closing::HardDone(i) | Closing::HardSpent(i) => {
                self.rows[i].open = false;
                self.rows[i].run = 0;
            }
            Closing::FirmDone(_) | Closing::FirmSpent(_) => {
                self.uploads.copy_within(1.., 0);
                self.queued -= 1;
            }
        }
    }

    fn not_ready(&self, set: u16) -> u16 {
        let mut not_ready = 0;
        for (i, row) in self.rows[..self.n].iter().enumerate() {
            if has(set, i) && (!row.rested || row.open) {
                not_ready |= 1 << i;
            }
        }
        not_ready
    }

    fn release(&mut self, set: u16) {
        for (i, row) in self.rows[..self.n].iter_mut().enumerate() {
            if has(set, i) {
                row.open = true;
                row.run = 0;
                row.rested = false;
                row.release = self.clock;
            }
        }
    }

    fn choose(&self, soft: bool) -> Runner {
        for (i, row) in self.rows[..self.n].iter().enumerate() {
            if row.promoted(self.clock) {
                return Runner::Hard(i, Band::Upper);
            }
        }
        if self.queued > 0 {
            return Runner::Firm(self.uploads[0].ticket);
        }
        if soft {
            return Runner::Soft;
        }
        let mut best = None;
        let mut rank = u8::MAX;
        for (i, row) in self.rows[..self.n].iter().enumerate() {
            if row.open && row.rank < rank {
                best = Some(i);
                rank = row.rank;
            }
        }
        match best {
            Some(i) => Runner::Hard(i, Band::Lower),
            None => Runner::Idle,
        }
    }

    fn run(&mut self, runner: Runner) {
        self.last = match runner {
            Runner::Hard(i, _) => {
                self.rows[i].run += 1;
                Last::Row(i)
            }
            Runner::Firm(_) => {
                self.uploads[0].run += 1;
                Last::Upload
            }
            Runner::Soft | Runner::Idle => Last::Nobody,
        };
        self.clock = self.clock.wrapping_add(1);
        for row in &mut self.rows[..self.n] {
            if !row.rested && self.clock.wrapping_sub(row.release) >= row.t as u32 {
                row.rested = true;
            }
        }
    }
}

impl Station for Dispatcher {
    fn fresh(table: &Table) -> Dispatcher {
        let mut rows = [Row::default(); 16];
        for (row, planned) in rows.iter_mut().zip(table.rows()) {
            let work::Row { c, t, u, rank } = planned;
            *row = Row { c, t, u, rank, rested: true, ..Row::default() };
        }
        Dispatcher {
            n: table.rows().count(),
            rows,
            uploads: [Upload::default(); 8],
            queued: 0,
            next: 0,
            last: Last::Nobody,
            clock: FIRST_CLOCK,
        }
    }

    fn tick(&mut self, set: u16, flags: u8) -> TickAnswer {
        plain_tick(self, set, flags)
    }

    fn accept(&mut self, offer: Offer) -> u32 {
        let ticket = self.next;
        self.uploads[self.queued] = Upload { ticket, budget: offer.budget, run: 0 };
        self.queued += 1;
        self.next = self.next.wrapping_add(1);
        ticket
    }
}

#[no_mangle]
#[inline(never)]
extern "C" fn plain_tick(dispatcher: &mut Dispatcher, set: u16, flags: u8) -> TickAnswer {
    if flags > DONE | SOFT {
        return unknown_flags();
    }
    in_numbers(dispatcher.step(set, flags & DONE != 0, flags & SOFT != 0))
}

fn in_numbers(answer: Answer) -> TickAnswer {
    let mut a = TickAnswer {
        clock: answer.clock,
        unknown: answer.unknown,
        not_ready: answer.not_ready,
        none_ran: answer.none_ran as u8,
        ..TickAnswer::default()
    };
    match answer.runner {
        Runner::Hard(i, Band::Upper) => (a.runner, a.runner_row, a.band) = (1, number(i), 1),
        Runner::Hard(i, Band::Lower) => (a.runner, a.runner_row, a.band) = (1, number(i), 2),
        Runner::Firm(ticket) => (a.runner, a.ticket) = (2, ticket),
        Runner::Soft => a.runner = 3,
        Runner::Idle => a.runner = 4,
    }
    match answer.closing {
        Closing::Nothing => {}
        Closing::HardDone(i) => (a.closed, a.closed_row, a.closing) = (1, number(i), 1),
        Closing::HardSpent(i) => (a.closed, a.closed_row, a.closing) = (1, number(i), 2),
        Closing::FirmDone(ticket) => (a.closed, a.closed_ticket, a.closing) = (2, ticket, 1),
        Closing::FirmSpent(ticket) => (a.closed, a.closed_ticket, a.closing) = (2, ticket, 2),
    }
    a
}

/// Rows in answers count from 1.
fn number(row: usize) -> u8 {
    row as u8 + 1
}
