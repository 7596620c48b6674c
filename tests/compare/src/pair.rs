//! A block and the station it must stand for, given the same calls.

use crate::caller::{Call, Caller};
use crate::counts::Counts;
use crate::library::{Asked, TableAnswer};
use crate::watch::Watch;
use crate::{expected, library};
use reference::block::{encode, BLOCK};
use reference::station::{row_bit, HardRow, Station, ROLL_OVER};
use reference::table::{file_of_rows, LONGEST_TABLE};
use std::fmt::Debug;

/// What an output holds before it is written.
const UNWRITTEN: u8 = 0xa5;

/// Asks for the table of a block, into an output of so many bytes.
pub fn ask_table_back(block: &[u8], bytes: usize) -> Asked<TableAnswer> {
    library::ask_table(block, &vec![UNWRITTEN; bytes])
}

/// The table of a block, which is only read; the refusal it met. The block stands
/// for the station, for none if it is no image.
pub fn table_back(asked: Asked<TableAnswer>, block: &[u8], station: Option<&Station>) -> u64 {
    let answered = asked.answered();
    let bytes = answered.other.len();
    let mut want = vec![UNWRITTEN; bytes];
    assert_eq!(
        answered.answer,
        expected::table(station, &mut want),
        "the table in {bytes} bytes of {block:02x?}"
    );
    assert!(answered.other == want, "{bytes} bytes after reading the table back of {block:02x?}");
    assert!(answered.block == block, "the block after reading back {block:02x?}");
    answered.answer.refusal
}

/// All four functions on the block, cut or drawn out to a wrong length: 11, but
/// for a tick's flags, which are looked at first. Nothing is written; the refusals.
pub fn on_wrong_length(block: &[u8; BLOCK], bytes: usize, flags: u8) -> [u64; 4] {
    let file = [0x0f, 0, 0];
    let mut lent = block.to_vec();
    lent.resize(bytes, 0);
    let plan = library::ask_plan(&lent, &file);
    let tick = library::ask_tick(&lent, 0, flags);
    let offer = library::ask_offer(&lent, 1, 9);
    let table = ask_table_back(&lent, LONGEST_TABLE);

    let plan = plan.answered();
    assert_eq!(plan.answer, expected::plan(&file, bytes).0, "planning on {bytes} bytes");
    let tick = tick.answered();
    assert_eq!(tick.answer, expected::tick(None, 0, flags), "a tick on {bytes} bytes");
    let offer = offer.answered();
    assert_eq!(offer.answer, expected::offer(None, 1, 9), "an offer on {bytes} bytes");
    for left in [plan.block, tick.block, offer.block] {
        assert!(left == lent, "{bytes} bytes were written to");
    }
    let table = table_back(table, &lent, None);
    [plan.answer.refusal, tick.answer.refusal, offer.answer.refusal, table]
}

/// After so many calls the table is read back.
const BETWEEN_TABLES: usize = 16;

pub struct Pair {
    pub station: Station,
    /// Calls made on it, to know when the table is due.
    made: usize,
    block: [u8; BLOCK],
    watch: Option<Watch>,
    pub counts: Counts,
}

impl Pair {
    /// Planned from a file that is accepted.
    pub fn planned(file: &[u8]) -> Pair {
        // Planning depends on nothing that the block held.
        let mut block = [0x5a; BLOCK];
        let answer = library::plan(&mut block, file);
        let (want, table) = expected::plan(file, BLOCK);
        assert_eq!(answer, want, "planning");
        let table = table.expect("an accepted table");
        let mut pair = Pair::new(Station::new(&table), block);
        pair.agree(&"planning");
        pair.counts.planned(&table);
        pair
    }

    /// From the image of a station, as `docs/block.md` lays it out.
    pub fn of_station(station: Station) -> Pair {
        let block = encode(&station);
        Pair::new(station, block)
    }

    fn new(station: Station, block: [u8; BLOCK]) -> Pair {
        Pair { station, made: 0, block, watch: None, counts: Counts::default() }
    }

    /// Watches demand 3 from here on. Only for what a fresh state leads to.
    pub fn watched(mut self) -> Pair {
        self.watch = Some(Watch::new(&self.station.table_rows()));
        self
    }

    /// What a caller of this manner does next.
    pub fn next(&mut self, caller: &mut Caller) {
        for call in caller.calls(&self.station) {
            self.call(call);
        }
    }

    pub fn call(&mut self, call: Call) {
        let before = self.block;
        let accepted = match call {
            Call::Tick { released, flags } => self.tick(released, flags),
            Call::Offer { budget, deadline } => self.offer(budget, deadline),
            Call::WrongLength { bytes, flags } => self.wrong_length(bytes, flags),
        };
        assert!(accepted || self.block == before, "{call:?} was refused and wrote");
        self.agree(&call);
        self.made += 1;
        if self.made.is_multiple_of(BETWEEN_TABLES) {
            self.table();
        }
    }

    /// A tick on both; whether it was accepted.
    fn tick(&mut self, released: u16, flags: u8) -> bool {
        let slept = self.slept();
        let answer = library::tick(&mut self.block, released, flags);
        let want = expected::tick(Some(&mut self.station), released, flags);
        assert_eq!(answer, want, "tick, released {released:#06x}, flags {flags}");
        self.counts.tick(released, answer);
        self.counts.slept += u64::from((slept & answer.releases(released)).count_ones());
        if answer.refusal == 0 {
            self.counts.clocks_rolled += u64::from(answer.clock == 0 && self.station.time > 1);
        }
        if let Some(watch) = &mut self.watch {
            watch.tick(released, flags, answer);
            self.counts.seen = watch.seen;
        }
        answer.refusal == 0
    }

    /// The rows that have slept for a round of the clock and less than T ticks more.
    fn slept(&self) -> u16 {
        let now = self.station.time;
        let slept = |hard: &HardRow| {
            let age = hard.last_release.map_or(0, |release| now - release);
            age >= ROLL_OVER && age % ROLL_OVER < u128::from(hard.row.t)
        };
        let rows = self.station.rows.iter().enumerate().filter(|(_, hard)| slept(hard));
        rows.map(|(index, _)| row_bit(index + 1)).sum()
    }

    /// An offer on both; whether it was accepted.
    fn offer(&mut self, budget: u16, deadline: u16) -> bool {
        let answer = library::offer(&mut self.block, budget, deadline);
        let want = expected::offer(Some(&mut self.station), budget, deadline);
        assert_eq!(answer, want, "offer, budget {budget}, deadline {deadline}");
        self.counts.call(answer.refusal);
        if answer.refusal == 0 {
            let rolled = answer.ticket == 0 && self.station.acceptances > 1;
            self.counts.tickets_rolled += u64::from(rolled);
        }
        if let Some(watch) = &mut self.watch {
            watch.offer(budget, deadline, answer);
        }
        answer.refusal == 0
    }

    /// The table read back, in turn into an output two bytes too short and up to
    /// one two bytes too long.
    fn table(&mut self) {
        let file_bytes = file_of_rows(&self.station.table_rows()).len();
        let bytes = file_bytes - 2 + self.made / BETWEEN_TABLES % 5;
        let asked = ask_table_back(&self.block, bytes);
        self.counts.call(table_back(asked, &self.block, Some(&self.station)));
    }

    fn wrong_length(&mut self, bytes: usize, flags: u8) -> bool {
        for refusal in on_wrong_length(&self.block, bytes, flags) {
            self.counts.call(refusal);
        }
        false
    }

    /// The block holds the station's image.
    fn agree(&self, call: &dyn Debug) {
        let image = encode(&self.station);
        assert!(self.block == image, "after {call:?} the block is not the image of the station");
    }
}
