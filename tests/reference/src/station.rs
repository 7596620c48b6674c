//! The station: the tick and the upload offer, in true time.

use crate::table::{Row, Table, MOST_ROWS};

/// Most firm jobs in the queue.
pub const MOST_FIRM: usize = 8;

/// Clocks and tickets are shown modulo 2^32.
pub const ROLL_OVER: u128 = 4_294_967_296;

/// An open hard job.
#[derive(Clone, Debug, PartialEq, Eq)]
pub struct HardJob {
    pub release: u128,
    pub run: u128,
}

/// A row of the station. The table's rows are counted from 1; the row at index
/// 0 of a list is row 1.
#[derive(Clone, Debug, PartialEq, Eq)]
pub struct HardRow {
    pub row: Row,
    /// U, the ticks from release to promotion.
    pub promotion: u128,
    pub last_release: Option<u128>,
    pub open: Option<HardJob>,
}

/// A queued firm job. `number` is the true number of earlier acceptances.
#[derive(Clone, Debug, PartialEq, Eq)]
pub struct FirmJob {
    pub number: u128,
    pub budget: u128,
    pub run: u128,
}

/// What ran in the last accepted tick.
#[derive(Clone, Copy, Debug, PartialEq, Eq)]
pub enum Last {
    /// There was no accepted tick.
    None,
    /// Soft work, or nothing.
    NoJob,
    /// The open job of this row, counted from 1.
    Hard(usize),
    /// The first firm job of the queue.
    Firm,
}

#[derive(Clone, Debug, PartialEq, Eq)]
pub struct Station {
    /// The true number of accepted ticks.
    pub time: u128,
    pub rows: Vec<HardRow>,
    /// The firm jobs, first accepted first.
    pub firm: Vec<FirmJob>,
    /// The true number of acceptances.
    pub acceptances: u128,
    pub last: Last,
}

#[derive(Clone, Copy, Debug, PartialEq, Eq)]
pub enum Band {
    Upper,
    Lower,
}

#[derive(Clone, Copy, Debug, PartialEq, Eq)]
pub enum Runner {
    /// The row, counted from 1, and its band.
    Hard(usize, Band),
    /// The ticket as shown.
    Firm(u128),
    Soft,
    Idle,
}

/// A job as a closing names it: a row counted from 1, or a ticket as shown.
#[derive(Clone, Copy, Debug, PartialEq, Eq)]
pub enum Job {
    Hard(usize),
    Firm(u128),
}

#[derive(Clone, Copy, Debug, PartialEq, Eq)]
pub enum Closing {
    None,
    Done(Job),
    Spent(Job),
}

/// What was wrong with a tick call: all of it is listed, and taken as clear.
#[derive(Clone, Copy, Debug, Default, PartialEq, Eq)]
pub struct Notes {
    /// 12: the release bits of rows above n.
    pub unknown: u16,
    /// 13: the done flag, and the last accepted tick ran no job or there was
    /// none.
    pub none_ran: bool,
    /// 14: the release bits of rows that aren't rested, or have a job still open
    /// after the closing.
    pub not_ready: u16,
}

/// The answer to a tick.
#[derive(Clone, Copy, Debug, PartialEq, Eq)]
pub struct Answer {
    /// The tick as the clock shows it.
    pub clock: u128,
    pub runner: Runner,
    pub closing: Closing,
    pub notes: Notes,
}

/// The release set of this row alone, counted from 1 (bit 0 is row 1).
pub fn row_bit(row: usize) -> u16 {
    2_u16.pow(row as u32 - 1)
}

/// Whether the release set holds this row, counted from 1.
pub fn releases_row(releases: u16, row: usize) -> bool {
    releases / row_bit(row) % 2 == 1
}

impl HardRow {
    /// Never released, or T or more ticks have passed since the last release.
    pub fn rested(&self, now: u128) -> bool {
        match self.last_release {
            None => true,
            Some(release) => now - release >= u128::from(self.row.t),
        }
    }

    /// Ticks until the row is rested, 0 if it is.
    pub fn until_rested(&self, now: u128) -> u128 {
        match self.last_release {
            None => 0,
            Some(release) => (release + u128::from(self.row.t)).saturating_sub(now),
        }
    }

    /// Whether there is an open job, and it is promoted at this tick.
    fn has_promoted_job(&self, now: u128) -> bool {
        match &self.open {
            None => false,
            Some(job) => now >= job.release + self.promotion,
        }
    }

    fn has_unpromoted_job(&self, now: u128) -> bool {
        self.open.is_some() && !self.has_promoted_job(now)
    }

    /// The open job's part of a window of `d` ticks from now:
    /// min(c, max(0, d - x)).
    fn open_claim(&self, now: u128, d: i128) -> i128 {
        let Some(job) = &self.open else {
            return 0;
        };
        let c = i128::from(self.row.c) - job.run as i128;
        let x = 0.max(job.release as i128 + self.promotion as i128 - now as i128);
        c.min(0.max(d - x))
    }

    /// The future jobs' part: the sum over k = 0, 1, 2, .. of
    /// min(C, max(0, d - (l + U + kT))).
    fn future_claim(&self, now: u128, d: i128) -> i128 {
        let c = i128::from(self.row.c);
        let l = self.until_rested(now) as i128;
        let u = self.promotion as i128;
        let t = i128::from(self.row.t);
        let mut sum = 0;
        let mut k = 0;
        // From the first k with l + U + kT at d or above, all terms are 0.
        while l + u + k * t < d {
            sum += c.min(0.max(d - (l + u + k * t)));
            k += 1;
        }
        sum
    }
}

impl Station {
    /// A fresh station: the clock at 0, nothing released, nothing queued.
    pub fn new(table: &Table) -> Station {
        let mut rows = Vec::new();
        for (row, bound) in table.rows.iter().zip(&table.bounds) {
            rows.push(HardRow {
                row: *row,
                promotion: bound.promotion,
                last_release: None,
                open: None,
            });
        }
        Station { time: 0, rows, firm: Vec::new(), acceptances: 0, last: Last::None }
    }

    /// The rows of the table in force.
    pub fn table_rows(&self) -> Vec<Row> {
        self.rows.iter().map(|hard| hard.row).collect()
    }

    /// The next tick as the clock shows it.
    pub fn clock(&self) -> u128 {
        self.time % ROLL_OVER
    }

    /// One tick call. What is noted counts as clear, and the tick is stepped.
    pub fn tick(&mut self, releases: u16, done: bool, soft: bool) -> Answer {
        let unknown = self.unknown_rows(releases);
        let none_ran = done && !self.ran_job();
        let closing = self.close(done && !none_ran);
        let not_ready = self.unready_rows(releases);
        let notes = Notes { unknown, none_ran, not_ready };
        self.release(releases, notes);
        let clock = self.clock();
        let runner = self.choose(soft);
        self.run(runner);
        Answer { clock, runner, closing, notes }
    }

    /// Whether the last accepted tick ran a hard or firm job.
    pub fn ran_job(&self) -> bool {
        match self.last {
            Last::None | Last::NoJob => false,
            Last::Hard(_) | Last::Firm => true,
        }
    }

    /// 12: the release bits of rows above n.
    fn unknown_rows(&self, releases: u16) -> u16 {
        let above_n = self.rows.len() + 1..=MOST_ROWS;
        above_n.filter(|&row| releases_row(releases, row)).map(row_bit).sum()
    }

    /// 14, asked after the closing: the release bits of rows that aren't rested or
    /// have an open job.
    fn unready_rows(&self, releases: u16) -> u16 {
        let unready = |row: usize| {
            let hard = &self.rows[row - 1];
            !hard.rested(self.time) || hard.open.is_some()
        };
        let numbers = 1..=self.rows.len();
        numbers.filter(|&row| releases_row(releases, row) && unready(row)).map(row_bit).sum()
    }

    /// Step 1: closes the job that ran in the last accepted tick, as done if
    /// the flag says so, else as spent if it has run its whole C or budget.
    fn close(&mut self, done: bool) -> Closing {
        let (job, fully_run) = match self.last {
            Last::None | Last::NoJob => return Closing::None,
            Last::Hard(row) => {
                let hard = &self.rows[row - 1];
                let open = hard.open.as_ref().expect("the last runner is open");
                (Job::Hard(row), open.run == u128::from(hard.row.c))
            }
            Last::Firm => {
                let first = &self.firm[0];
                (Job::Firm(first.number % ROLL_OVER), first.run == first.budget)
            }
        };
        if !done && !fully_run {
            return Closing::None;
        }
        match job {
            Job::Hard(row) => self.rows[row - 1].open = None,
            Job::Firm(_) => {
                self.firm.remove(0);
            }
        }
        if done {
            Closing::Done(job)
        } else {
            Closing::Spent(job)
        }
    }

    /// Step 2: each set bit that isn't noted opens a job of that row, released
    /// now, nothing run.
    fn release(&mut self, releases: u16, notes: Notes) {
        for row in 1..=self.rows.len() {
            if releases_row(releases, row) && !releases_row(notes.not_ready, row) {
                let hard = &mut self.rows[row - 1];
                hard.last_release = Some(self.time);
                hard.open = Some(HardJob { release: self.time, run: 0 });
            }
        }
    }

    /// Step 3: the first that exists of the five.
    fn choose(&self, soft: bool) -> Runner {
        let now = self.time;
        let numbers = 1..=self.rows.len();
        let promoted = numbers.clone().find(|&row| self.rows[row - 1].has_promoted_job(now));
        if let Some(row) = promoted {
            return Runner::Hard(row, Band::Upper);
        }
        if let Some(first) = self.firm.first() {
            return Runner::Firm(first.number % ROLL_OVER);
        }
        if soft {
            return Runner::Soft;
        }
        let unpromoted = numbers.filter(|&row| self.rows[row - 1].has_unpromoted_job(now));
        if let Some(row) = unpromoted.min_by_key(|&row| self.rows[row - 1].row.rank) {
            return Runner::Hard(row, Band::Lower);
        }
        Runner::Idle
    }

    /// Step 4: runs the choice for one tick and advances the clock by one.
    fn run(&mut self, runner: Runner) {
        self.last = match runner {
            Runner::Hard(row, _) => {
                self.rows[row - 1].open.as_mut().expect("the runner is open").run += 1;
                Last::Hard(row)
            }
            Runner::Firm(_) => {
                self.firm[0].run += 1;
                Last::Firm
            }
            Runner::Soft | Runner::Idle => Last::NoJob,
        };
        self.time += 1;
    }

    /// An upload offer: 15, 16, 17, 18, or the ticket as shown. A refused offer
    /// changes nothing.
    pub fn offer(&mut self, budget: u16, deadline: u16) -> Result<u128, u8> {
        if budget == 0 {
            return Err(15);
        }
        if deadline < budget {
            return Err(16);
        }
        if self.firm.len() == MOST_FIRM {
            return Err(17);
        }
        if self.room(deadline) < i128::from(budget) + self.unrun_budgets() {
            return Err(18);
        }
        let number = self.acceptances;
        self.firm.push(FirmJob { number, budget: u128::from(budget), run: 0 });
        self.acceptances += 1;
        Ok(number % ROLL_OVER)
    }

    /// Room: the window less the sums of every row. It may be below 0.
    pub fn room(&self, deadline: u16) -> i128 {
        let d = i128::from(deadline);
        let mut room = d;
        for hard in &self.rows {
            room -= hard.open_claim(self.time, d);
            room -= hard.future_claim(self.time, d);
        }
        room
    }

    /// The budgets still unrun of all queued firm jobs.
    pub fn unrun_budgets(&self) -> i128 {
        self.firm.iter().map(|job| job.budget as i128 - job.run as i128).sum()
    }

    /// As many ticks without release or flag, in one step. Only for a station
    /// with nothing open, where each of them is idle and closes nothing.
    pub fn sleep(&mut self, ticks: u128) {
        assert!(self.firm.is_empty() && self.rows.iter().all(|hard| hard.open.is_none()));
        if ticks > 0 {
            self.time += ticks;
            self.last = Last::NoJob;
        }
    }
}

#[cfg(test)]
mod tests {
    use super::*;
    use crate::table::{file_of_rows, read_table};

    /// A fresh station with rows of these (C, D, T, rank).
    fn station(numbers: &[(u16, u16, u16, u8)]) -> Station {
        let rows = numbers.iter().map(|&(c, d, t, rank)| Row { c, d, t, rank, m: 0 });
        of_rows(&rows.collect::<Vec<Row>>())
    }

    fn of_rows(rows: &[Row]) -> Station {
        Station::new(&read_table(&file_of_rows(rows)).unwrap())
    }

    fn table_a() -> Station {
        station(&[(2, 6, 8, 0), (5, 12, 12, 1)])
    }

    /// Table A after the first two ticks of the listing.
    fn at_clock_2() -> Station {
        let mut a = table_a();
        assert_eq!(a.tick(3, false, false).runner, Runner::Hard(1, Band::Lower));
        assert_eq!(a.tick(0, false, true).runner, Runner::Soft);
        assert_eq!(a.clock(), 2);
        a
    }

    /// A tick without release or flag.
    fn plain(station: &mut Station) -> Answer {
        station.tick(0, false, false)
    }

    const NOTHING: Notes = Notes { unknown: 0, none_ran: false, not_ready: 0 };

    /// An answer in which nothing is noted.
    fn answer(clock: u128, runner: Runner, closing: Closing) -> Answer {
        Answer { clock, runner, closing, notes: NOTHING }
    }

    // The station figures on offers.

    #[test]
    fn figure_offers_at_clock_2() {
        assert_eq!(at_clock_2().offer(2, 4), Ok(0));
        assert_eq!(at_clock_2().offer(3, 4), Err(18));
        assert_eq!(at_clock_2().offer(2, 3), Ok(0));
        assert_eq!(at_clock_2().offer(3, 5), Err(18));
    }

    #[test]
    fn figure_offers_on_the_empty_table() {
        let mut empty = station(&[]);
        assert_eq!(empty.offer(5, 5), Ok(0));
        assert_eq!(empty.offer(1, 5), Err(18));
        assert_eq!(empty.offer(1, 6), Ok(1));
    }

    #[test]
    fn figure_the_listing_step_by_step() {
        let mut a = at_clock_2();
        assert_eq!(a.offer(2, 4), Ok(0));
        let firm = Runner::Firm(0);
        assert_eq!(plain(&mut a), answer(2, firm, Closing::None));
        let notes = Notes { not_ready: 1, ..NOTHING };
        let noted = Answer { notes, ..answer(3, firm, Closing::None) };
        assert_eq!(a.tick(1, false, false), noted);
        let upper = |row| Runner::Hard(row, Band::Upper);
        assert_eq!(plain(&mut a), answer(4, upper(1), Closing::Spent(Job::Firm(0))));
        assert_eq!(plain(&mut a), answer(5, upper(2), Closing::Spent(Job::Hard(1))));
        let last = a.tick(0, true, false);
        assert_eq!(last, answer(6, Runner::Idle, Closing::Done(Job::Hard(2))));
    }

    // One test for each note of a tick, and for each refusal of an offer.

    #[test]
    fn note_12_lists_every_bit_above_n() {
        let mut a = table_a();
        assert_eq!(a.tick(0x8008, false, false).notes, Notes { unknown: 0x8008, ..NOTHING });
        assert_eq!(a.tick(0xfffc, false, false).notes, Notes { unknown: 0xfffc, ..NOTHING });
        assert_eq!(a.time, 2);
        let both = a.tick(0x8003, false, false);
        assert_eq!(both.notes, Notes { unknown: 0x8000, ..NOTHING });
        assert!(a.rows.iter().all(|hard| hard.last_release == Some(2)));
    }

    #[test]
    fn note_13_where_no_job_ran() {
        let noted = Notes { none_ran: true, ..NOTHING };
        let mut a = table_a();
        assert_eq!(a.tick(0, true, false).notes, noted);
        assert_eq!(a.tick(0, true, true).notes, noted);
        let after_soft = a.tick(1, true, false);
        assert_eq!((after_soft.notes, after_soft.closing), (noted, Closing::None));
        let after_a_job = a.tick(0, true, false);
        let closing = Closing::Done(Job::Hard(1));
        assert_eq!((after_a_job.notes, after_a_job.closing), (NOTHING, closing));
    }

    #[test]
    fn note_14_until_t_ticks_have_passed() {
        let mut a = table_a();
        assert_eq!(a.tick(3, false, false).notes, NOTHING);
        for time in 1..=12 {
            let not_ready = match time {
                8 => 2,
                12 => 1,
                _ => 3,
            };
            assert_eq!(a.tick(3, false, false).notes, Notes { not_ready, ..NOTHING });
            assert_eq!(a.time, time + 1);
        }
        let releases = [0, 1].map(|index: usize| a.rows[index].last_release);
        assert_eq!(releases, [Some(8), Some(12)]);
    }

    #[test]
    fn note_14_for_an_open_job_of_a_rested_row() {
        // No fresh station gets here: the job is open for a whole T.
        let mut late = table_a();
        late.tick(1, false, false);
        late.time = 8;
        assert!(late.rows[0].rested(late.time));
        let noted = Notes { not_ready: 1, ..NOTHING };
        assert_eq!(late.clone().tick(1, false, false).notes, noted);
        // What this very call closes is open no more.
        let done = late.clone().tick(1, true, false);
        assert_eq!((done.notes, done.closing), (NOTHING, Closing::Done(Job::Hard(1))));
        late.rows[0].open.as_mut().unwrap().run = 2;
        let spent = late.clone().tick(1, false, false);
        assert_eq!((spent.notes, spent.closing), (NOTHING, Closing::Spent(Job::Hard(1))));
        // A done flag that is noted closes nothing.
        late.last = Last::NoJob;
        let notes = late.tick(1, true, false).notes;
        assert_eq!(notes, Notes { none_ran: true, ..noted });
    }

    #[test]
    fn all_notes_at_once_and_a_release() {
        let mut a = table_a();
        a.tick(1, false, true);
        let answer = a.tick(0x8003, true, false);
        assert_eq!(answer.notes, Notes { unknown: 0x8000, none_ran: true, not_ready: 1 });
        assert_eq!((answer.clock, answer.closing), (1, Closing::None));
        let releases = [0, 1].map(|index: usize| a.rows[index].last_release);
        assert_eq!(releases, [Some(0), Some(1)]);
    }

    #[test]
    fn refusals_15_and_16() {
        let mut a = table_a();
        assert_eq!(a.offer(0, 0), Err(15));
        assert_eq!(a.offer(3, 2), Err(16));
        assert_eq!(a, table_a());
    }

    #[test]
    fn refusal_17_until_the_first_job_closes() {
        let mut empty = station(&[]);
        for ticket in 0..8 {
            assert_eq!(empty.offer(1, 100), Ok(ticket));
        }
        assert_eq!(empty.offer(0, 0), Err(15));
        assert_eq!(empty.offer(2, 1), Err(16));
        assert_eq!(empty.offer(100, 100), Err(17));
        // Fully run, the first job still holds its place until the next tick.
        plain(&mut empty);
        assert_eq!(empty.offer(1, 100), Err(17));
        assert_eq!(plain(&mut empty).closing, Closing::Spent(Job::Firm(0)));
        assert_eq!(empty.offer(1, 100), Ok(8));
    }

    #[test]
    fn refusal_18_with_room_below_0() {
        // Both rows have U = 0, so one tick's window holds two claims.
        let mut busy = station(&[(1, 1, 2, 0), (1, 2, 2, 1)]);
        assert_eq!(busy.room(1), -1);
        assert_eq!(busy.offer(1, 1), Err(18));
    }

    // The slips named in document 01.

    #[test]
    fn a_long_sleep_leaves_the_row_rested() {
        for slept in [ROLL_OVER - 2, ROLL_OVER - 1, ROLL_OVER, ROLL_OVER + 3, 5 * ROLL_OVER] {
            let mut a = table_a();
            a.tick(1, false, false);
            a.tick(0, true, false);
            a.sleep(slept);
            let answer = a.tick(1, false, false);
            assert_eq!(answer.clock, (slept + 2) % ROLL_OVER);
            assert_eq!(answer.runner, Runner::Hard(1, Band::Lower));
        }
    }

    #[test]
    fn the_clock_and_the_ticket_roll_over() {
        let mut a = table_a();
        a.sleep(ROLL_OVER - 1);
        a.acceptances = ROLL_OVER - 1;
        assert_eq!(a.offer(1, 1), Ok(ROLL_OVER - 1));
        assert_eq!(a.offer(1, 2), Ok(0));
        assert_eq!(plain(&mut a).clock, ROLL_OVER - 1);
        assert_eq!(plain(&mut a).clock, 0);
    }

    #[test]
    fn promoted_from_release_and_u_on() {
        let mut a = table_a();
        let mut runners = Vec::new();
        runners.push(a.tick(1, false, true).runner);
        for _ in 0..5 {
            runners.push(a.tick(0, false, true).runner);
        }
        let upper = Runner::Hard(1, Band::Upper);
        let soft = Runner::Soft;
        assert_eq!(runners, [soft, soft, soft, soft, upper, upper]);
    }

    /// Table A with margins 1 and 5: U 3 and 0.
    fn table_a_with_margins() -> Station {
        of_rows(&[
            Row { c: 2, d: 6, t: 8, rank: 0, m: 1 },
            Row { c: 5, d: 12, t: 12, rank: 1, m: 5 },
        ])
    }

    #[test]
    fn a_margin_promotes_earlier() {
        let mut a = table_a_with_margins();
        let mut answers = vec![a.tick(3, false, true)];
        for _ in 1..8 {
            answers.push(a.tick(0, false, true));
        }
        let row = |row| Runner::Hard(row, Band::Upper);
        let runners: Vec<Runner> = answers.iter().map(|answer| answer.runner).collect();
        let want = [row(2), row(2), row(2), row(1), row(1), row(2), row(2), Runner::Soft];
        assert_eq!(runners, want);
        // Row 1 has run when D - M = 5 ticks are stepped, row 2 when 7 are.
        let closings: Vec<Closing> = answers.iter().map(|answer| answer.closing).collect();
        let (first, second) = (Closing::Spent(Job::Hard(1)), Closing::Spent(Job::Hard(2)));
        let none = Closing::None;
        assert_eq!(closings, [none, none, none, none, none, first, none, second]);
    }

    #[test]
    fn a_margin_takes_room() {
        // Row 1 may claim two ticks from 3 on, row 2 five from 0 on.
        let (with, without) = (table_a_with_margins(), table_a());
        assert_eq!([3, 4, 5, 6].map(|d| with.room(d)), [0, -1, -2, -1]);
        assert_eq!([3, 4, 5, 6].map(|d| without.room(d)), [3, 4, 4, 3]);
    }

    #[test]
    fn the_lower_band_goes_by_rank_and_the_upper_by_row() {
        let mut two = station(&[(1, 9, 9, 1), (1, 9, 9, 0)]);
        assert_eq!(two.tick(3, false, false).runner, Runner::Hard(2, Band::Lower));
        let mut two = station(&[(1, 9, 9, 1), (1, 9, 9, 0)]);
        two.tick(3, false, true);
        while two.time < 8 {
            assert_eq!(
                two.tick(0, false, true).runner,
                if two.time == 8 { Runner::Hard(2, Band::Upper) } else { Runner::Soft }
            );
        }
        assert_eq!(two.tick(0, false, true).runner, Runner::Hard(1, Band::Upper));
    }

    #[test]
    fn done_on_the_last_tick_of_the_budget_is_done() {
        let mut empty = station(&[]);
        empty.offer(1, 1).unwrap();
        plain(&mut empty);
        let answer = empty.tick(0, true, false);
        assert_eq!(answer.closing, Closing::Done(Job::Firm(0)));
    }

    #[test]
    fn the_last_runner_is_remembered_across_offers() {
        let mut a = table_a();
        a.tick(1, false, false);
        assert_eq!(a.offer(1, 2), Ok(0));
        assert_eq!(a.offer(0, 2), Err(15));
        assert_eq!(a.tick(0, true, false).closing, Closing::Done(Job::Hard(1)));
    }

    #[test]
    fn a_row_of_period_one_is_released_every_tick() {
        let mut one = station(&[(1, 1, 1, 0)]);
        assert_eq!(one.tick(1, false, true).closing, Closing::None);
        for _ in 0..5 {
            let answer = one.tick(1, false, true);
            assert_eq!(answer.runner, Runner::Hard(1, Band::Upper));
            assert_eq!(answer.closing, Closing::Spent(Job::Hard(1)));
        }
        assert_eq!(one.room(65535), 0);
    }

    #[test]
    fn claims_of_open_and_future_jobs() {
        let mut a = at_clock_2();
        // Row 1: one tick left, promoted in 2; future at 6 + 4, 18, ..
        assert_eq!(a.rows[0].open_claim(2, 4), 1);
        assert_eq!(a.rows[0].future_claim(2, 10), 0);
        assert_eq!(a.rows[0].future_claim(2, 11), 1);
        assert_eq!(a.rows[0].future_claim(2, 19), 2 + 1);
        // Row 2: five ticks left, promoted in 3; future at 10 + 5, 27, ..
        assert_eq!(a.rows[1].open_claim(2, 3), 0);
        assert_eq!(a.rows[1].open_claim(2, 5), 2);
        assert_eq!(a.rows[1].open_claim(2, 50), 5);
        assert_eq!(a.rows[1].future_claim(2, 28), 5 + 1);
        // Closed, row 1 keeps its future claims only.
        a.rows[0].open = None;
        assert_eq!(a.rows[0].open_claim(2, 50), 0);
        assert_eq!(a.rows[0].until_rested(2), 6);
        assert_eq!(a.rows[0].until_rested(9), 0);
    }
}
