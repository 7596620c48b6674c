//! Callers of several manners, from kind to hostile. They read the reference's
//! station to aim.

use crate::library::flag;
use reference::block::BLOCK;
use reference::random::Random;
use reference::station::{row_bit, HardRow, Station};
use reference::table::MOST_ROWS;

/// When rows are released.
#[derive(Clone, Copy, Debug)]
enum Releases {
    /// Each as soon as it is rested.
    AtOnce,
    /// Now and then, one row more often than another.
    Random,
    /// All in the same tick, once the last is rested: the worst start.
    Together,
    /// All others in the tick in which an open job is promoted.
    AtPromotion,
}

/// A call on a block.
#[derive(Clone, Copy, Debug)]
pub enum Call {
    Tick {
        released: u16,
        flags: u8,
    },
    Offer {
        budget: u16,
        deadline: u16,
    },
    /// All four functions on so many bytes, which are not 512.
    WrongLength {
        bytes: usize,
        flags: u8,
    },
}

/// The longest wrong length.
pub const LONGEST: usize = BLOCK + 16;

pub struct Caller {
    random: Random,
    releases: Releases,
    /// Of a hundred calls, how many are offers.
    offers: u64,
    /// Of a hundred ticks, how many want soft work.
    soft: u64,
    /// Of a hundred ticks after a job ran, how many say done.
    done: u64,
    /// Of a hundred calls, how many ask for something that is refused.
    faults: u64,
    /// Of a hundred ticks, how many have noise on their lines, which is noted.
    noise: u64,
    /// The longest deadline offered, most of the time.
    longest: u64,
}

impl Caller {
    /// A caller of random manner.
    pub fn new(mut random: Random) -> Caller {
        let all = [Releases::AtOnce, Releases::Random, Releases::Together, Releases::AtPromotion];
        let releases = all[random.below(4) as usize];
        let mut one_of = |choices: [u64; 4]| choices[random.below(4) as usize];
        let offers = one_of([0, 5, 20, 50]);
        let soft = one_of([0, 30, 80, 100]);
        let done = one_of([0, 5, 20, 60]);
        let faults = one_of([0, 2, 5, 20]);
        let noise = one_of([0, 5, 40, 100]);
        let longest = one_of([6, 40, 300, 65535]);
        Caller { random, releases, offers, soft, done, faults, noise, longest }
    }

    fn percent(&mut self, of_hundred: u64) -> bool {
        self.random.below(100) < of_hundred
    }

    /// One call, or two where an offer is first made a tick too large.
    pub fn calls(&mut self, station: &Station) -> Vec<Call> {
        let fault = self.percent(self.faults);
        match (self.percent(self.offers), fault) {
            (false, false) => vec![self.tick(station)],
            (false, true) => vec![self.faulty_tick(station)],
            (true, false) => self.offers(station),
            (true, true) => vec![self.faulty_offer(station)],
        }
    }

    fn tick(&mut self, station: &Station) -> Call {
        let mut released = self.released(station);
        let mut flags = self.flags(station);
        if self.percent(self.noise) {
            released |= self.wrong_bits(station);
            if self.random.once_in(2) && !station.ran_job() {
                flags |= flag::DONE;
            }
        }
        Call::Tick { released, flags }
    }

    /// Bits of rows that are not rested or not there, few or many, or none. The
    /// releases that can be stay those of the caller's manner.
    fn wrong_bits(&mut self, station: &Station) -> u16 {
        let one_in = [2, 8, 32][self.random.below(3) as usize];
        let rested = |row: usize| {
            let hard = station.rows.get(row - 1);
            hard.is_some_and(|hard| hard.rested(station.time))
        };
        let wrong = (1..=MOST_ROWS).filter(|&row| !rested(row) && self.random.once_in(one_in));
        wrong.map(row_bit).sum()
    }

    fn flags(&mut self, station: &Station) -> u8 {
        let mut flags = 0;
        if station.ran_job() && self.percent(self.done) {
            flags += flag::DONE;
        }
        if self.percent(self.soft) {
            flags += flag::SOFT;
        }
        flags
    }

    /// Rows that are rested, by the caller's manner.
    fn released(&mut self, station: &Station) -> u16 {
        let rested: Vec<bool> = station.rows.iter().map(|hard| hard.rested(station.time)).collect();
        let mut released = 0;
        for index in 0..rested.len() {
            if rested[index] && self.wants(station, &rested, index) {
                released += row_bit(index + 1);
            }
        }
        released
    }

    fn wants(&mut self, station: &Station, rested: &[bool], index: usize) -> bool {
        match self.releases {
            Releases::AtOnce => true,
            Releases::Random => self.random.once_in(index as u64 + 2),
            Releases::Together => rested.iter().all(|&row| row),
            // Somebody has to begin: the lowest row, where no job is open.
            Releases::AtPromotion => {
                let nobody = station.rows.iter().all(|hard| hard.open.is_none());
                let lowest = rested.iter().rposition(|&row| row) == Some(index);
                promoted_now(station) || (nobody && lowest)
            }
        }
    }

    /// A tick that is refused, most of the time, whatever is released.
    fn faulty_tick(&mut self, station: &Station) -> Call {
        if self.random.once_in(4) {
            let flags = self.flags(station);
            return Call::WrongLength { bytes: self.wrong_length(), flags };
        }
        let released = self.released(station) | self.wrong_bits(station);
        Call::Tick { released, flags: self.random.below(256) as u8 }
    }

    fn wrong_length(&mut self) -> usize {
        let near = [0, BLOCK - 1, BLOCK + 1];
        match self.random.below(6) {
            index @ 0..=2 => near[index as usize],
            3 => BLOCK + 1 + self.random.below((LONGEST - BLOCK) as u64) as usize,
            _ => self.random.below(BLOCK as u64) as usize,
        }
    }

    /// At the very edge of the room, most of the time: one tick too much, then
    /// all there is.
    fn offers(&mut self, station: &Station) -> Vec<Call> {
        let deadline = self.deadline(station);
        if self.random.once_in(3) {
            let budget = self.random.between(1, u64::from(deadline)) as u16;
            return vec![Call::Offer { budget, deadline }];
        }
        let free = 0.max(station.room(deadline) - station.unrun_budgets()) as u16;
        let mut offers = Vec::new();
        if free < deadline {
            offers.push(Call::Offer { budget: free + 1, deadline });
        }
        if free > 0 {
            offers.push(Call::Offer { budget: free, deadline });
        }
        offers
    }

    /// A deadline, short or long, or one that ends where something else does.
    fn deadline(&mut self, station: &Station) -> u16 {
        let any = self.random.between(1, self.longest) as u16;
        let rows = station.rows.len() as u64;
        if rows == 0 || !self.random.once_in(3) {
            return any;
        }
        let hard = &station.rows[self.random.below(rows) as usize];
        let until = hard.until_rested(station.time) + hard.promotion;
        match self.random.below(5) {
            0 => hard.row.d,
            1 => hard.row.d - hard.row.m,
            2 => hard.row.t,
            3 => (until as u16).saturating_add(1),
            _ => (until as u16).saturating_add(hard.row.c).max(1),
        }
    }

    fn faulty_offer(&mut self, station: &Station) -> Call {
        let deadline = self.deadline(station);
        let (budget, deadline) = match self.random.below(4) {
            0 => (0, deadline),
            1 => (0, 0),
            2 => (deadline.saturating_add(1), deadline),
            _ => (65535, deadline),
        };
        Call::Offer { budget, deadline }
    }
}

/// Whether an open job is promoted in just this tick.
fn promoted_now(station: &Station) -> bool {
    let promotion = |hard: &HardRow| hard.open.as_ref().map(|job| job.release + hard.promotion);
    station.rows.iter().any(|hard| promotion(hard) == Some(station.time))
}
