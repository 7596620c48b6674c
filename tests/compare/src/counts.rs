//! What a run tried.

use crate::library::TickAnswer;
use crate::watch::Seen;
use reference::station::Station;
use reference::table::{Row, Table};
use std::fmt;
use std::ops::AddAssign;

/// One more than the largest refusal number.
const REFUSALS: usize = 23;

/// The margins of tables that were planned.
#[derive(Clone, Copy, Debug, Default)]
pub struct Margins {
    /// Rows with a margin, and how many of those with the largest, D - R.
    pub rows: u64,
    pub largest: u64,
    /// Tables that have rows with a margin and rows without.
    pub mixed: u64,
}

/// Ticks with notes.
#[derive(Clone, Copy, Debug, Default)]
pub struct Noted {
    /// By what they noted: 12, 13, 14.
    pub unknown: u64,
    pub none_ran: u64,
    pub not_ready: u64,
    /// Those that noted all three, and those that released a row.
    pub all_three: u64,
    pub released: u64,
}

impl Noted {
    fn tick(&mut self, released: u16, answer: TickAnswer) {
        let noted = [answer.unknown != 0, answer.none_ran != 0, answer.not_ready != 0];
        let [unknown, none_ran, not_ready] = noted.map(u64::from);
        self.unknown += unknown;
        self.none_ran += none_ran;
        self.not_ready += not_ready;
        self.all_three += unknown * none_ran * not_ready;
        let any = noted.contains(&true);
        self.released += u64::from(any && answer.releases(released) != 0);
    }

    /// How often what came least was met.
    pub fn least(&self) -> u64 {
        let Noted { unknown, none_ran, not_ready, all_three, released } = *self;
        unknown.min(none_ran).min(not_ready).min(all_three).min(released)
    }
}

impl AddAssign for Noted {
    fn add_assign(&mut self, other: Noted) {
        self.unknown += other.unknown;
        self.none_ran += other.none_ran;
        self.not_ready += other.not_ready;
        self.all_three += other.all_three;
        self.released += other.released;
    }
}

#[derive(Clone, Copy, Debug, Default)]
pub struct Counts {
    /// Calls of the library, refused ones among them.
    pub calls: u64,
    /// Calls by the refusal they met; those at 0 were accepted.
    pub refused: [u64; REFUSALS],
    pub noted: Noted,
    /// Deadlines that passed while somebody counted.
    pub seen: Seen,
    /// Ticks and acceptances whose number rolled over to 0.
    pub clocks_rolled: u64,
    pub tickets_rolled: u64,
    /// Releases of rows that had slept so long that by the clock alone they
    /// would have been too early.
    pub slept: u64,
    pub margins: Margins,
    /// Blocks that were judged, how many of them were images, and how many of
    /// those held a margin.
    pub blocks: u64,
    pub images: u64,
    pub images_with_margin: u64,
    /// Runs of `plan` and `run`, and lines with a note that `run` printed.
    pub programs: u64,
    pub note_lines: u64,
}

impl Counts {
    /// Counts a call with the refusal it met, 0 for none.
    pub fn call(&mut self, refusal: u64) {
        self.calls += 1;
        self.refused[refusal as usize] += 1;
    }

    /// Counts a tick with this release set.
    pub fn tick(&mut self, released: u16, answer: TickAnswer) {
        self.call(answer.refusal);
        self.noted.tick(released, answer);
    }

    /// Counts a table that was planned and accepted.
    pub fn planned(&mut self, table: &Table) {
        for (row, bound) in table.rows.iter().zip(&table.bounds) {
            self.margins.rows += u64::from(has_margin(row));
            self.margins.largest += u64::from(has_margin(row) && bound.promotion == 0);
        }
        let mixed = table.rows.iter().any(has_margin) && !table.rows.iter().all(has_margin);
        self.margins.mixed += u64::from(mixed);
    }

    /// Counts a block that was judged: the station that it holds, none if it is no
    /// image.
    pub fn judged(&mut self, station: Option<&Station>) {
        self.blocks += 1;
        if let Some(station) = station {
            self.images += 1;
            self.images_with_margin += u64::from(station.table_rows().iter().any(has_margin));
        }
    }

    /// Whether calls met this refusal.
    pub fn met(&self, refusal: usize) -> bool {
        self.refused[refusal] > 0
    }
}

fn has_margin(row: &Row) -> bool {
    row.m > 0
}

impl AddAssign for Counts {
    fn add_assign(&mut self, other: Counts) {
        self.calls += other.calls;
        for (sum, more) in self.refused.iter_mut().zip(other.refused) {
            *sum += more;
        }
        self.noted += other.noted;
        self.seen += other.seen;
        self.margins.rows += other.margins.rows;
        self.margins.largest += other.margins.largest;
        self.margins.mixed += other.margins.mixed;
        self.clocks_rolled += other.clocks_rolled;
        self.tickets_rolled += other.tickets_rolled;
        self.slept += other.slept;
        self.blocks += other.blocks;
        self.images += other.images;
        self.images_with_margin += other.images_with_margin;
        self.programs += other.programs;
        self.note_lines += other.note_lines;
    }
}

impl fmt::Display for Counts {
    fn fmt(&self, f: &mut fmt::Formatter) -> fmt::Result {
        write!(f, "{} calls", self.calls)?;
        for (number, times) in self.refused.iter().enumerate().skip(1) {
            if *times > 0 {
                write!(f, ", {times} refused {number}")?;
            }
        }
        if self.noted.unknown + self.noted.none_ran + self.noted.not_ready > 0 {
            let Noted { unknown, none_ran, not_ready, all_three, released } = self.noted;
            write!(
                f,
                "; ticks that noted 12: {unknown}, 13: {none_ran}, 14: {not_ready}, all three: {all_three}; {released} with notes released a row"
            )?;
        }
        if self.seen.hard + self.seen.uploads > 0 {
            write!(
                f,
                "; deadlines passed: {} of hard jobs, {} of them less a margin ({} to the tick), {} of uploads",
                self.seen.hard,
                self.seen.less_margin,
                self.seen.less_margin_to_the_tick,
                self.seen.uploads
            )?;
        }
        if self.margins.rows > 0 {
            let Margins { rows, largest, mixed } = self.margins;
            write!(
                f,
                "; planned {rows} rows with a margin, {largest} with the largest; {mixed} tables with and without"
            )?;
        }
        if self.clocks_rolled + self.tickets_rolled + self.slept > 0 {
            let (clocks, tickets) = (self.clocks_rolled, self.tickets_rolled);
            write!(
                f,
                "; rolled over: {clocks} clocks, {tickets} tickets; {} long sleeps",
                self.slept
            )?;
        }
        if self.blocks > 0 {
            write!(
                f,
                "; {} blocks judged, {} of them images, {} of these with a margin",
                self.blocks, self.images, self.images_with_margin
            )?;
        }
        if self.programs > 0 {
            write!(f, "; {} runs of the programs, {} notes", self.programs, self.note_lines)?;
        }
        Ok(())
    }
}
