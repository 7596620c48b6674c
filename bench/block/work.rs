//! The workloads: tables, and events and offers by chance from a fixed seed. A workload is made while the library and both
//! peers run it, and every answer is compared.

use crate::ours::Block;
use crate::station::{Station, TickAnswer, DONE, SOFT};
use crate::{fast, plain};
use std::ops::Range;

/// Rows with D = T, rate-monotonic, ranks mixed.
#[derive(Clone, Copy)]
pub struct Table {
    n: u32,
    c: fn(u32) -> u32,
    t: fn(u32) -> u32,
}

const SHORT: Table = Table { n: 16, c: |i| 1 + i % 2, t: |i| 20 + 13 * i };
const LONG: Table = Table { n: 16, c: |i| 4 + i % 5, t: |i| 64 + 13 * i };

/// A planned row, as a peer is given it.
pub struct Row {
    pub c: u16,
    pub t: u16,
    pub u: u16,
    pub rank: u8,
}

impl Table {
    pub fn rows(&self) -> impl Iterator<Item = Row> + '_ {
        (0..self.n).map(|i| {
            let [c, t, r] = [(self.c)(i), (self.t)(i), self.bound(i)].map(|x| x as u16);
            Row { c, t, u: t - r, rank: self.rank(i) }
        })
    }

    /// The response bound, by the recurrence.
    fn bound(&self, i: u32) -> u32 {
        let mut r = (self.c)(i);
        loop {
            let next =
                (self.c)(i) + (0..i).map(|j| r.div_ceil((self.t)(j)) * (self.c)(j)).sum::<u32>();
            assert!(next <= (self.t)(i), "row {} has no bound", i + 1);
            if next == r {
                return r;
            }
            r = next;
        }
    }

    /// The table as its file.
    pub fn file(&self) -> Vec<u8> {
        let mut file = Vec::new();
        for i in 0..self.n {
            file.extend([1, 0, 7]);
            for x in [(self.c)(i), (self.t)(i), (self.t)(i)] {
                file.extend((x as u16).to_be_bytes());
            }
            file.push(self.rank(i));
        }
        file.extend([15, 0, 0]);
        file
    }

    /// 7 and n have no divisor in common.
    fn rank(&self, i: u32) -> u8 {
        ((i * 7 + 3) % self.n) as u8
    }
}

#[derive(Clone, Copy)]
pub struct Event {
    pub set: u16,
    pub flags: u8,
}

#[derive(Clone, Copy)]
pub struct Offer {
    pub budget: u16,
    pub deadline: u16,
}

/// Ticks from one accepted offer to the next; before the first of a workload there is no offer.
pub struct Stretch {
    pub offer: Option<Offer>,
    pub ticks: Range<usize>,
}

/// How a workload is made: soft in `soft` ticks of 8, offers of up to `budget` ticks, noise in one tick of `noise`.
pub struct Kind {
    pub name: &'static str,
    table: Table,
    soft: u64,
    budget: u64,
    noise: u64,
}

pub const KINDS: [Kind; 3] = [
    Kind { name: "light", table: SHORT, soft: 6, budget: 0, noise: 256 },
    Kind { name: "firm", table: SHORT, soft: 6, budget: 12, noise: 256 },
    Kind { name: "heavy", table: LONG, soft: 7, budget: 4, noise: 256 },
];

/// Only to be compared: a table that is not full, and so much noise that every note is met with every other.
pub const NOISY: Kind =
    Kind { name: "noisy", table: Table { n: 9, ..LONG }, soft: 5, budget: 4, noise: 2 };

/// The library and its peers, in the same state.
pub struct Three {
    pub ours: Block,
    pub plain: plain::Dispatcher,
    pub fast: fast::Dispatcher,
}

impl Three {
    fn fresh(table: &Table) -> Three {
        Three {
            ours: Station::fresh(table),
            plain: Station::fresh(table),
            fast: Station::fresh(table),
        }
    }

    /// Whether the library accepts; if so, the peers take the upload in, too.
    fn offer(&mut self, offer: Offer) -> bool {
        let Some(ticket) = self.ours.offer(offer) else {
            return false;
        };
        let tickets = [self.plain.accept(offer), self.fast.accept(offer)];
        assert_eq!([ticket; 2], tickets, "the tickets differ, ours left");
        true
    }

    fn tick(&mut self, Event { set, flags }: Event) -> [TickAnswer; 3] {
        [self.ours.tick(set, flags), self.plain.tick(set, flags), self.fast.tick(set, flags)]
    }
}

pub struct Work {
    pub table: Table,
    pub events: Vec<Event>,
    pub stretches: Vec<Stretch>,
    /// Of the ticks: upper, lower, firm, soft, idle, refused.
    pub ran: [usize; 6],
    /// Those that noted 12, 13 and 14, and all three.
    pub noted: [usize; 4],
    pub offers: usize,
    /// The states that it ends in.
    pub end: Three,
}

/// Makes a workload, and stops at the first answer that differs. An offer in one tick of 16.
pub fn compared(kind: &Kind, ticks: usize) -> Work {
    let mut three = Three::fresh(&kind.table);
    let mut seed = 12345;
    let mut events = Vec::with_capacity(ticks);
    let mut stretches = vec![Stretch { offer: None, ticks: 0..0 }];
    let mut ran = [0; 6];
    let mut noted = [0; 4];
    let mut offers = 0;
    for tick in 0..ticks {
        let flags = random(&mut seed);
        if kind.budget > 0 && flags >> 5 & 15 == 0 {
            let budget = 1 + (flags >> 9) % kind.budget;
            let deadline = budget + random(&mut seed) % 200;
            let offer = Offer { budget: budget as u16, deadline: deadline as u16 };
            offers += 1;
            if three.offer(offer) {
                stretches.push(Stretch { offer: Some(offer), ticks: tick..tick });
            }
        }
        let event = event(&three.plain, random(&mut seed), flags, kind);
        let [ours, plain, fast] = three.tick(event);
        assert_eq!([ours; 2], [plain, fast], "{}: tick {tick}, ours left", kind.name);
        ran[ran_as(ours)] += 1;
        for (ticks, met) in noted.iter_mut().zip(notes(ours)) {
            *ticks += met as usize;
        }
        events.push(event);
        stretches.last_mut().unwrap().ticks.end = events.len();
    }
    Work { table: kind.table, events, stretches, ran, noted, offers, end: three }
}

fn random(seed: &mut u64) -> u64 {
    *seed = seed.wrapping_mul(6364136223846793005).wrapping_add(1442695040888963407);
    *seed >> 33
}

/// Of the rows that may be released each by chance; done a quarter of the time after a job; soft in some ticks of 8; and where
/// there is noise any set and any flags at all, half of them refused.
fn event(station: &plain::Dispatcher, chance: u64, flags: u64, kind: &Kind) -> Event {
    if (chance >> 16) % kind.noise == 0 {
        return Event { set: chance as u16, flags: (flags & 7) as u8 };
    }
    let mut set = 0;
    for (i, row) in station.rows.iter().enumerate() {
        if row.rested && !row.open {
            set |= chance as u16 & 1 << i;
        }
    }
    let done = station.last != plain::Last::Nobody && flags & 3 == 0;
    let soft = flags >> 2 & 7 < kind.soft;
    Event { set, flags: done as u8 * DONE + soft as u8 * SOFT }
}

/// Whether it noted 12, 13, 14, and all three.
fn notes(answer: TickAnswer) -> [bool; 4] {
    let [unknown, none_ran, not_ready] =
        [answer.unknown != 0, answer.none_ran != 0, answer.not_ready != 0];
    [unknown, none_ran, not_ready, unknown && none_ran && not_ready]
}

fn ran_as(answer: TickAnswer) -> usize {
    match (answer.runner, answer.band) {
        (1, 1) => 0,
        (1, _) => 1,
        (2, _) => 2,
        (3, _) => 3,
        (4, _) => 4,
        _ => 5,
    }
}
