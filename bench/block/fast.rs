//! A plain Rust dispatcher written for speed: document 01's tick on arrays of sixteen, sets of rows as numbers, changed in
//! place. A tick branches only where it is refused or notes a bit, and has one loop over the rows, which rustc turns into vectors.
//!
//! A job has a place: a row's is its number from 0, an upload's 16 and its ticket modulo 8; NOBODY stands for no job.

use crate::station::{unknown_flags, Station, TickAnswer, DONE, FIRST_CLOCK, SOFT};
use crate::work::{Offer, Table};

const ROWS: usize = 16;
const UPLOADS: usize = 8;
const NOBODY: usize = ROWS + UPLOADS;
/// A power of two, so that a place modulo it is an index that needs no check.
const PLACES: usize = 32;

/// Who may run, as bits of a number in the order of the rule: the promoted rows from bit 0 on, the first upload, soft, the
/// open rows by their ranks, idle. The lowest bit is the choice.
const FIRM: u32 = 16;
const WANTS_SOFT: u32 = 17;
const RANKS: u32 = 18;
const IDLE: u32 = 34;
const CHOICES: usize = 35;

/// Who a choice is: its place, and the numbers that the answer gives.
#[derive(Clone, Copy, Default, PartialEq)]
struct Runner {
    place: u8,
    kind: u8,
    row: u8,
    band: u8,
}

/// The numbers that an answer gives of the job that closed at a place: its kind, and its row.
const CLOSED: [(u8, u8); PLACES] = {
    let mut closed = [(0, 0); PLACES];
    let mut place = 0;
    while place < NOBODY {
        closed[place] = if place < ROWS { (1, place as u8 + 1) } else { (2, 0) };
        place += 1;
    }
    closed
};

/// Every place has its entries, so that closing asks nothing of it: one without a row has no bit in `mark`, and owes 1.
/// Aligned, so that no vector crosses a line of the cache.
#[repr(align(64))]
#[derive(PartialEq)]
pub struct Dispatcher {
    known: u16,
    t: [u16; ROWS],
    /// T - U: a job is promoted while its row has no more ticks than that until it is rested.
    promoted_wait: [u16; ROWS],
    /// The bit of each row's rank.
    rank: [u16; ROWS],
    /// The bits of a row in `open`.
    mark: [u64; PLACES],
    c: [u16; PLACES],
    runners: [Runner; CHOICES],
    clock: u32,
    /// The queue: the tickets from `first` up to `next`.
    first: u32,
    next: u32,
    /// The rows with an open job: the row's bit, and from RANKS on that of its rank.
    open: u64,
    rested: u16,
    /// The place that ran last.
    last: usize,
    /// The ticks that a job still has; where no job is open, C.
    owed: [u16; PLACES],
    /// The ticks until each row is rested.
    wait: [u16; ROWS],
}

impl Dispatcher {
    /// Close, release what may be released, choose, run; the rest of the set is noted.
    #[inline(always)]
    fn step(&mut self, set: u16, flags: u8) -> TickAnswer {
        if flags > DONE | SOFT {
            return unknown_flags();
        }
        let (clock, first) = (self.clock, self.first);
        let done = flags & DONE != 0;
        let closed = self.closes(done);
        self.close(closed);
        let noted = set & !(self.rested & !self.open as u16);
        let due = self.release(if noted == 0 { set } else { without(set, noted) });
        let choice = self.choose(due, flags);
        let runner = self.run(choice);
        TickAnswer {
            clock,
            ticket: if choice == FIRM { self.first } else { 0 },
            closed_ticket: if is_upload(closed) { first } else { 0 },
            unknown: noted & !self.known,
            not_ready: noted & self.known,
            refusal: 0,
            none_ran: (done & (closed == NOBODY)) as u8,
            runner: runner.kind,
            runner_row: runner.row,
            band: runner.band,
            closed: CLOSED[closed].0,
            closed_row: CLOSED[closed].1,
            closing: (closed != NOBODY) as u8 * (2 - done as u8),
        }
    }

    /// The place of the job that closes, NOBODY if none does.
    fn closes(&self, done: bool) -> usize {
        let last = self.last % PLACES;
        if done | (self.owed[last] == 0) {
            last
        } else {
            NOBODY
        }
    }

    fn close(&mut self, place: usize) {
        self.open &= !self.mark[place];
        self.owed[place] = self.c[place];
        self.first = self.first.wrapping_add(is_upload(place) as u32);
    }

    /// The one loop: releases the rows of the set, which have no wait, since they are rested; gives the rows that are due, U or
    /// more ticks after their release; and lets the tick pass.
    fn release(&mut self, set: u16) -> u16 {
        let (mut due, mut rested, mut ranks) = (0, 0, 0);
        for i in 0..ROWS {
            let row = 1 << i;
            let released = all(set & row != 0);
            let wait = self.wait[i] | self.t[i] & released;
            let after = wait.saturating_sub(1);
            self.wait[i] = after;
            due |= row & all(wait <= self.promoted_wait[i]);
            rested |= row & all(after == 0);
            ranks |= self.rank[i] & released;
        }
        self.open |= set as u64 | (ranks as u64) << RANKS;
        self.rested = rested & self.known;
        due
    }

    fn choose(&self, due: u16, flags: u8) -> u32 {
        let hard = self.open & (due as u64 | 0xffff << RANKS);
        let firm = (self.first != self.next) as u64;
        let soft = (flags & SOFT != 0) as u64;
        (hard | firm << FIRM | soft << WANTS_SOFT | 1 << IDLE).trailing_zeros()
    }

    fn run(&mut self, choice: u32) -> Runner {
        let runner = self.runners[choice as usize];
        let upload = if choice == FIRM { self.first as usize % UPLOADS } else { 0 };
        let place = (runner.place as usize + upload) % PLACES;
        self.owed[place] -= (place != NOBODY) as u16;
        self.last = place;
        self.clock = self.clock.wrapping_add(1);
        runner
    }
}

/// Never inlined, so that there is a branch, which is mostly foretold: where no bit is noted the loop over the rows doesn't wait
/// for what closed.
#[cold]
#[inline(never)]
fn without(set: u16, noted: u16) -> u16 {
    set & !noted
}

/// Every bit, or none: with it the loop over the rows has no branch.
fn all(b: bool) -> u16 {
    0u16.wrapping_sub(b as u16)
}

fn is_upload(place: usize) -> bool {
    (ROWS..NOBODY).contains(&place)
}

impl Station for Dispatcher {
    fn fresh(table: &Table) -> Dispatcher {
        let mut d = Dispatcher {
            known: 0,
            t: [0; ROWS],
            promoted_wait: [0; ROWS],
            rank: [0; ROWS],
            mark: [0; PLACES],
            c: [1; PLACES],
            runners: [Runner::default(); CHOICES],
            clock: FIRST_CLOCK,
            first: 0,
            next: 0,
            open: 0,
            rested: 0,
            last: NOBODY,
            owed: [1; PLACES],
            wait: [0; ROWS],
        };
        for (i, row) in table.rows().enumerate() {
            let rank = RANKS as usize + row.rank as usize;
            d.known |= 1 << i;
            d.rested |= 1 << i;
            d.t[i] = row.t;
            d.promoted_wait[i] = row.t - row.u;
            d.rank[i] = 1 << row.rank;
            d.mark[i] = 1 << i | 1 << rank;
            d.c[i] = row.c;
            d.owed[i] = row.c;
            let upper = Runner { place: i as u8, kind: 1, row: i as u8 + 1, band: 1 };
            d.runners[i] = upper;
            d.runners[rank] = Runner { band: 2, ..upper };
        }
        let nobody = Runner { place: NOBODY as u8, ..Runner::default() };
        d.runners[FIRM as usize] = Runner { place: ROWS as u8, kind: 2, ..nobody };
        d.runners[WANTS_SOFT as usize] = Runner { kind: 3, ..nobody };
        d.runners[IDLE as usize] = Runner { kind: 4, ..nobody };
        d
    }

    fn tick(&mut self, set: u16, flags: u8) -> TickAnswer {
        fast_tick(self, set, flags)
    }

    fn accept(&mut self, offer: Offer) -> u32 {
        let ticket = self.next;
        self.owed[ROWS + ticket as usize % UPLOADS] = offer.budget;
        self.next = ticket.wrapping_add(1);
        ticket
    }
}

#[no_mangle]
#[inline(never)]
extern "C" fn fast_tick(dispatcher: &mut Dispatcher, set: u16, flags: u8) -> TickAnswer {
    dispatcher.step(set, flags)
}
