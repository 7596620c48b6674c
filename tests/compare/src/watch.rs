//! Demand 3, watched from outside: deadlines and ticks run, counted from the
//! calls made and the answers given, with no look at any state. A release is a
//! bit that was set and not noted; ticks with notes count as time.

use crate::library::{flag, kind, OfferAnswer, TickAnswer};
use reference::station::releases_row;
use reference::table::Row;
use std::ops::AddAssign;

/// A job that is owed ticks: a hard job since its release, or an upload since
/// its acceptance.
#[derive(Clone, Debug)]
struct Owed {
    /// C or the budget.
    work: u64,
    /// D less the margin, or the upload's deadline.
    deadline: u64,
    /// Ticks stepped since.
    stepped: u64,
    /// Answers since that named it.
    named: u64,
    /// Which of the ticks since was the last that named it, counted from 1.
    last_named: u64,
    done: bool,
    closed: bool,
}

/// An upload's ticket, with what it is owed.
struct Upload {
    ticket: u64,
    owed: Owed,
}

/// What was seen, so that a run can show that it tried something.
#[derive(Clone, Copy, Debug, Default)]
pub struct Seen {
    /// Deadlines of hard jobs that passed.
    pub hard: u64,
    /// Those of rows with a margin; and those met by the very last tick.
    pub less_margin: u64,
    pub less_margin_to_the_tick: u64,
    /// Deadlines of uploads that passed.
    pub uploads: u64,
}

/// Sees the calls and answers of one block.
pub struct Watch {
    rows: Vec<Row>,
    hard: Vec<Option<Owed>>,
    uploads: Vec<Upload>,
    pub seen: Seen,
}

impl Owed {
    fn new(work: u64, deadline: u64) -> Owed {
        Owed { work, deadline, stepped: 0, named: 0, last_named: 0, done: false, closed: false }
    }

    fn close(&mut self, done: bool) {
        assert!(!self.closed, "closed twice");
        assert!(done || self.named == self.work, "spent before its ticks are run");
        self.closed = true;
        self.done = done;
    }

    fn name(&mut self) {
        assert!(!self.closed, "runs after it closed");
        self.named += 1;
        self.last_named = self.stepped + 1;
        assert!(self.named <= self.work, "runs more than it may");
    }

    /// One more tick has been stepped; whether that was the deadline.
    fn step(&mut self) -> bool {
        self.stepped += 1;
        let due = self.stepped == self.deadline;
        assert!(!due || self.named == self.work || self.done, "late");
        due
    }

    /// Whether it ran its last tick of work just before its deadline.
    fn to_the_tick(&self) -> bool {
        self.named == self.work && self.last_named == self.deadline
    }

    fn over(&self) -> bool {
        self.closed && self.stepped >= self.deadline
    }
}

impl Seen {
    fn hard_deadline(&mut self, row: &Row, owed: &Owed) {
        self.hard += 1;
        if row.m > 0 {
            self.less_margin += 1;
            self.less_margin_to_the_tick += u64::from(owed.to_the_tick());
        }
    }
}

impl AddAssign for Seen {
    fn add_assign(&mut self, other: Seen) {
        self.hard += other.hard;
        self.less_margin += other.less_margin;
        self.less_margin_to_the_tick += other.less_margin_to_the_tick;
        self.uploads += other.uploads;
    }
}

impl Watch {
    /// From a block with this table on. What was released or accepted before is
    /// not watched.
    pub fn new(rows: &[Row]) -> Watch {
        let hard = rows.iter().map(|_| None).collect();
        Watch { rows: rows.to_vec(), hard, uploads: Vec::new(), seen: Seen::default() }
    }

    pub fn tick(&mut self, released: u16, flags: u8, answer: TickAnswer) {
        if answer.refusal != 0 {
            return;
        }
        let said_done = flags & flag::DONE != 0;
        let noted = answer.unknown | answer.not_ready;
        assert!(noted & !released == 0, "noted a bit that nobody set");
        assert!(answer.none_ran == 0 || said_done, "noted done, and nobody said so");
        self.closing(said_done && answer.none_ran == 0, answer);
        for (index, row) in self.rows.iter().enumerate() {
            if releases_row(answer.releases(released), index + 1) {
                let due = row.d - row.m;
                self.hard[index] = Some(Owed::new(u64::from(row.c), u64::from(due)));
            }
        }
        self.runner(answer);
        for (row, owed) in self.rows.iter().zip(&mut self.hard) {
            let Some(owed) = owed else { continue };
            if owed.step() {
                self.seen.hard_deadline(row, owed);
            }
        }
        for upload in &mut self.uploads {
            self.seen.uploads += u64::from(upload.owed.step());
        }
        self.uploads.retain(|upload| !upload.owed.over());
    }

    /// The job that closed, if any, was released or accepted in an earlier call.
    fn closing(&mut self, told_done: bool, answer: TickAnswer) {
        let done = answer.closing == kind::DONE;
        assert!(!done || told_done, "reported done, and nobody said so");
        let owed = match answer.closed {
            kind::HARD => self.hard[answer.closed_row as usize - 1].as_mut(),
            kind::FIRM => self.upload(answer.closed_ticket),
            _ => None,
        };
        if let Some(owed) = owed {
            owed.close(done);
        }
    }

    fn runner(&mut self, answer: TickAnswer) {
        let owed = match answer.runner {
            kind::HARD => self.hard[answer.runner_row as usize - 1].as_mut(),
            kind::FIRM => self.upload(answer.ticket),
            _ => None,
        };
        if let Some(owed) = owed {
            owed.name();
        }
    }

    /// The latest upload of this ticket that may still be named.
    fn upload(&mut self, ticket: u64) -> Option<&mut Owed> {
        let latest = self.uploads.iter_mut().rev().find(|upload| upload.ticket == ticket);
        latest.map(|upload| &mut upload.owed)
    }

    pub fn offer(&mut self, budget: u16, deadline: u16, answer: OfferAnswer) {
        if answer.refusal == 0 {
            let owed = Owed::new(u64::from(budget), u64::from(deadline));
            self.uploads.push(Upload { ticket: answer.ticket, owed });
        }
    }
}

#[cfg(test)]
mod tests {
    use super::*;

    /// Row 1 alone: C 2, D 3, T 5.
    fn watch() -> Watch {
        Watch::new(&[Row { c: 2, d: 3, t: 5, rank: 0, m: 0 }])
    }

    /// The same row with D 5, of which 2 are a margin.
    fn watch_with_margin() -> Watch {
        Watch::new(&[Row { c: 2, d: 5, t: 5, rank: 0, m: 2 }])
    }

    fn idle() -> TickAnswer {
        TickAnswer { runner: kind::IDLE, ..Default::default() }
    }

    fn hard() -> TickAnswer {
        TickAnswer { runner: kind::HARD, runner_row: 1, ..Default::default() }
    }

    fn firm(ticket: u64) -> TickAnswer {
        TickAnswer { runner: kind::FIRM, ticket, ..Default::default() }
    }

    fn closes_hard(answer: TickAnswer, closing: u64) -> TickAnswer {
        TickAnswer { closed: kind::HARD, closed_row: 1, closing, ..answer }
    }

    fn unknown(bits: u16, answer: TickAnswer) -> TickAnswer {
        TickAnswer { unknown: bits, ..answer }
    }

    fn not_ready(bits: u16, answer: TickAnswer) -> TickAnswer {
        TickAnswer { not_ready: bits, ..answer }
    }

    fn none_ran(answer: TickAnswer) -> TickAnswer {
        TickAnswer { none_ran: 1, ..answer }
    }

    fn took(ticket: u64) -> OfferAnswer {
        OfferAnswer { refusal: 0, ticket }
    }

    #[test]
    fn a_job_in_time() {
        let mut watch = watch();
        watch.tick(1, 0, idle());
        watch.tick(0, 0, hard());
        watch.tick(0, 0, hard());
        watch.tick(0, 0, closes_hard(idle(), kind::SPENT));
        assert_eq!(watch.seen.hard, 1);
    }

    #[test]
    fn a_job_done_before_its_ticks_are_run() {
        let mut watch = watch();
        watch.tick(1, 0, hard());
        watch.tick(0, 1, closes_hard(idle(), kind::DONE));
        watch.tick(0, 0, idle());
        assert_eq!(watch.seen.hard, 1);
    }

    #[test]
    fn a_job_in_time_less_its_margin() {
        let mut watch = watch_with_margin();
        watch.tick(1, 0, idle());
        watch.tick(0, 0, hard());
        watch.tick(0, 0, hard());
        let seen = watch.seen;
        assert_eq!((seen.hard, seen.less_margin, seen.less_margin_to_the_tick), (1, 1, 1));
    }

    #[test]
    fn a_job_with_a_tick_to_spare_before_its_margin() {
        let mut watch = watch_with_margin();
        watch.tick(1, 0, hard());
        watch.tick(0, 0, hard());
        watch.tick(0, 0, closes_hard(idle(), kind::SPENT));
        let seen = watch.seen;
        assert_eq!((seen.hard, seen.less_margin, seen.less_margin_to_the_tick), (1, 1, 0));
    }

    #[test]
    #[should_panic(expected = "late")]
    fn a_job_that_uses_its_margin() {
        let mut watch = watch_with_margin();
        watch.tick(1, 0, idle());
        watch.tick(0, 0, idle());
        watch.tick(0, 0, hard());
    }

    #[test]
    #[should_panic(expected = "late")]
    fn a_late_job() {
        let mut watch = watch();
        watch.tick(1, 0, idle());
        watch.tick(0, 0, idle());
        watch.tick(0, 0, hard());
    }

    #[test]
    #[should_panic(expected = "late")]
    fn a_job_done_too_late() {
        let mut watch = watch();
        watch.tick(1, 0, idle());
        watch.tick(0, 0, idle());
        watch.tick(0, 0, hard());
        watch.tick(0, 1, closes_hard(idle(), kind::DONE));
    }

    #[test]
    #[should_panic(expected = "runs more than it may")]
    fn a_job_run_too_often() {
        let mut watch = watch();
        watch.tick(1, 0, hard());
        watch.tick(0, 0, hard());
        watch.tick(0, 0, hard());
    }

    #[test]
    fn a_noted_release_is_owed_nothing() {
        let mut watch = watch();
        watch.tick(1, 0, not_ready(1, idle()));
        watch.tick(0, 0, idle());
        watch.tick(0, 0, idle());
        assert_eq!(watch.seen.hard, 0);
    }

    #[test]
    #[should_panic(expected = "late")]
    fn a_noted_release_puts_no_deadline_off() {
        let mut watch = watch();
        watch.tick(1, 0, hard());
        watch.tick(1, 0, not_ready(1, idle()));
        watch.tick(0, 0, idle());
    }

    #[test]
    #[should_panic(expected = "runs more than it may")]
    fn a_noted_release_is_no_leave_to_run_again() {
        let mut watch = watch();
        watch.tick(1, 0, hard());
        watch.tick(0, 0, hard());
        watch.tick(1, 0, not_ready(1, hard()));
    }

    #[test]
    fn a_release_beside_a_noted_one_is_owed() {
        let mut watch = watch();
        watch.tick(0x8001, 0, unknown(0x8000, hard()));
        watch.tick(0, 0, hard());
        watch.tick(0, 0, closes_hard(idle(), kind::SPENT));
        assert_eq!(watch.seen.hard, 1);
    }

    #[test]
    #[should_panic(expected = "late")]
    fn ticks_with_notes_are_time() {
        let mut watch = watch();
        watch.tick(1, 0, hard());
        watch.tick(0x8000, 0, unknown(0x8000, idle()));
        watch.tick(0, 1, none_ran(idle()));
    }

    #[test]
    #[should_panic(expected = "noted a bit that nobody set")]
    fn a_note_of_a_clear_bit() {
        watch().tick(0x8000, 0, unknown(0xc000, idle()));
    }

    #[test]
    #[should_panic(expected = "noted done, and nobody said so")]
    fn a_note_of_a_clear_flag() {
        watch().tick(0, 2, none_ran(idle()));
    }

    #[test]
    #[should_panic(expected = "reported done, and nobody said so")]
    fn a_job_done_by_a_flag_that_was_noted() {
        let mut watch = watch();
        watch.tick(1, 0, hard());
        watch.tick(0, 1, none_ran(closes_hard(idle(), kind::DONE)));
    }

    #[test]
    #[should_panic(expected = "reported done, and nobody said so")]
    fn a_job_done_without_the_flag() {
        let mut watch = watch();
        watch.tick(1, 0, hard());
        watch.tick(0, 2, closes_hard(idle(), kind::DONE));
    }

    #[test]
    #[should_panic(expected = "spent before")]
    fn a_job_spent_too_soon() {
        let mut watch = watch();
        watch.tick(1, 0, hard());
        watch.tick(0, 0, closes_hard(idle(), kind::SPENT));
    }

    #[test]
    #[should_panic(expected = "runs after it closed")]
    fn a_job_run_after_it_closed() {
        let mut watch = watch();
        watch.tick(1, 0, hard());
        watch.tick(0, 1, closes_hard(hard(), kind::DONE));
    }

    #[test]
    #[should_panic(expected = "closed twice")]
    fn a_job_closed_twice() {
        let mut watch = watch();
        watch.tick(1, 0, hard());
        watch.tick(0, 1, closes_hard(idle(), kind::DONE));
        watch.tick(0, 1, closes_hard(idle(), kind::DONE));
    }

    #[test]
    fn an_upload_in_time() {
        let mut watch = watch();
        watch.offer(2, 3, took(7));
        watch.tick(0, 0, firm(7));
        watch.tick(0, 0, idle());
        watch.tick(0, 0, firm(7));
        assert_eq!(watch.seen.uploads, 1);
    }

    #[test]
    #[should_panic(expected = "late")]
    fn a_late_upload() {
        let mut watch = watch();
        watch.offer(2, 3, took(7));
        watch.tick(0, 0, idle());
        watch.tick(0, 0, firm(7));
        watch.tick(0, 0, idle());
    }

    #[test]
    fn a_refused_tick_is_not_stepped() {
        let mut watch = watch();
        watch.offer(1, 1, took(0));
        watch.tick(0, 4, TickAnswer { refusal: 20, ..Default::default() });
        watch.tick(0, 0, firm(0));
        assert_eq!(watch.seen.uploads, 1);
    }
}
