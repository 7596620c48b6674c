//! The state block: `docs/block.md` read once more, as plainly as it stands
//! there, with the documents' conditions on an image (refusal 11).

use crate::station::{FirmJob, HardJob, HardRow, Last, Station, MOST_FIRM, ROLL_OVER};
use crate::table::{check_rows, Row, MOST_ROWS};

/// Bytes of a block.
pub const BLOCK: usize = 512;

// The offsets of `docs/block.md`, by the names that it gives them.
pub const N_AT: usize = 0;
pub const COUNT_AT: usize = 1;
pub const LAST_AT: usize = 2;
pub const FREE_AT: usize = 3;
pub const CLOCK_AT: usize = 4;
pub const NEXT_AT: usize = 8;
pub const OPEN_AT: usize = 12;
pub const RESTED_AT: usize = 14;
pub const C_AT: usize = 16;
pub const D_AT: usize = 48;
pub const T_AT: usize = 80;
pub const U_AT: usize = 112;
pub const RUN_AT: usize = 144;
pub const STAMP_AT: usize = 176;
pub const RANK_AT: usize = 240;
pub const BUDGET_AT: usize = 256;
pub const USED_AT: usize = 272;
pub const TICKET_AT: usize = 288;
pub const M_AT: usize = 320;
pub const RESERVED_AT: usize = 352;

const LAST_FIRM: u8 = 16;
const LAST_NOBODY: u8 = 17;

/// The station that a block holds, or nothing where the block is refused (11).
///
/// A block knows the clock, not the true time. The station is given a time that
/// shows this clock and leaves room for what came before.
pub fn decode(block: &[u8]) -> Option<Station> {
    if block.len() != BLOCK {
        return None;
    }
    let n = usize::from(block[N_AT]);
    let queued = usize::from(block[COUNT_AT]);
    if n > MOST_ROWS || queued > MOST_FIRM {
        return None;
    }
    let time = ROLL_OVER + number(block, CLOCK_AT, 4);
    let acceptances = ROLL_OVER + number(block, NEXT_AT, 4);
    let rows = (0..n).map(|index| hard_row(block, index, time)).collect();
    let first = acceptances - queued as u128;
    let firm = (0..queued).map(|index| firm_job(block, index, first + index as u128)).collect();
    let last = match block[LAST_AT] {
        LAST_NOBODY => Last::NoJob,
        LAST_FIRM => Last::Firm,
        row => Last::Hard(usize::from(row) + 1),
    };
    let station = Station { time, rows, firm, acceptances, last };
    // A state has one image. So a block with another byte anywhere is none: a
    // ticket out of turn, a mark or stamp that belongs to another age, a number
    // other than zero where it means nothing.
    (meets_conditions(&station) && encode(&station) == block).then_some(station)
}

/// Entry `index` of the arrays of rows.
fn hard_row(block: &[u8], index: usize, time: u128) -> HardRow {
    let entry = |offset: usize| number(block, offset + 2 * index, 2);
    let row = Row {
        c: entry(C_AT) as u16,
        d: entry(D_AT) as u16,
        t: entry(T_AT) as u16,
        rank: block[RANK_AT + index],
        m: entry(M_AT) as u16,
    };
    let stamp = number(block, STAMP_AT + 4 * index, 4);
    let rested = in_set(number(block, RESTED_AT, 2), index);
    let age = if rested { u128::from(row.t) } else { (time - stamp) % ROLL_OVER };
    let release = time - age;
    let open = in_set(number(block, OPEN_AT, 2), index);
    HardRow {
        row,
        promotion: entry(U_AT),
        last_release: Some(release),
        open: open.then(|| HardJob { release, run: entry(RUN_AT) }),
    }
}

/// Entry `index` of the queue; `accepted` is the number of its acceptance.
fn firm_job(block: &[u8], index: usize, accepted: u128) -> FirmJob {
    let entry = |offset: usize| number(block, offset + 2 * index, 2);
    FirmJob { number: accepted, budget: entry(BUDGET_AT), run: entry(USED_AT) }
}

/// The conditions of the documents on the state of an image.
pub fn meets_conditions(station: &Station) -> bool {
    let table = station.table_rows();
    if check_rows(&table).is_err() || table.len() > MOST_ROWS || station.firm.len() > MOST_FIRM {
        return false;
    }
    let promotions = station.rows.iter().all(promoted_soon_enough);
    let budgets = station.firm.iter().all(|job| job.budget >= 1);
    promotions && budgets && last_ran(station) && run_as_far_as_may_be(station)
}

/// U <= D - C - M. No U is that small where C and M together are above D.
fn promoted_soon_enough(hard: &HardRow) -> bool {
    let [c, d, m] = [hard.row.c, hard.row.d, hard.row.m].map(u128::from);
    hard.promotion + c + m <= d
}

/// The last runner, if a job, is open and run at least once.
fn last_ran(station: &Station) -> bool {
    match station.last {
        Last::None | Last::NoJob => true,
        Last::Firm => station.firm.first().is_some_and(|job| job.run >= 1),
        Last::Hard(row) => {
            let hard = station.rows.get(row - 1);
            hard.and_then(|hard| hard.open.as_ref()).is_some_and(|job| job.run >= 1)
        }
    }
}

/// No job has run more than its C or budget, and none but the last runner all
/// of it.
fn run_as_far_as_may_be(station: &Station) -> bool {
    let within = |run: u128, whole: u128, is_last: bool| run < whole || (run == whole && is_last);
    let hard = station.rows.iter().enumerate().all(|(index, hard)| {
        let is_last = station.last == Last::Hard(index + 1);
        hard.open.as_ref().is_none_or(|job| within(job.run, u128::from(hard.row.c), is_last))
    });
    let firm = station.firm.iter().enumerate().all(|(index, job)| {
        let is_last = station.last == Last::Firm && index == 0;
        within(job.run, job.budget, is_last)
    });
    hard && firm
}

/// The image of a station.
pub fn encode(station: &Station) -> [u8; BLOCK] {
    let mut block = [0; BLOCK];
    block[N_AT] = station.rows.len() as u8;
    block[COUNT_AT] = station.firm.len() as u8;
    block[LAST_AT] = match station.last {
        Last::None | Last::NoJob => LAST_NOBODY,
        Last::Firm => LAST_FIRM,
        Last::Hard(row) => (row - 1) as u8,
    };
    put(&mut block, CLOCK_AT, 4, station.time % ROLL_OVER);
    put(&mut block, NEXT_AT, 4, station.acceptances % ROLL_OVER);
    let (mut open, mut rested) = (0, 0);
    for (index, hard) in station.rows.iter().enumerate() {
        let two = 2 * index;
        put(&mut block, C_AT + two, 2, u128::from(hard.row.c));
        put(&mut block, D_AT + two, 2, u128::from(hard.row.d));
        put(&mut block, T_AT + two, 2, u128::from(hard.row.t));
        put(&mut block, U_AT + two, 2, hard.promotion);
        put(&mut block, M_AT + two, 2, u128::from(hard.row.m));
        block[RANK_AT + index] = hard.row.rank;
        if let Some(job) = &hard.open {
            open += bit(index);
            put(&mut block, RUN_AT + two, 2, job.run);
        }
        match hard.last_release {
            Some(release) if !hard.rested(station.time) => {
                put(&mut block, STAMP_AT + 4 * index, 4, release % ROLL_OVER);
            }
            _ => rested += bit(index),
        }
    }
    put(&mut block, OPEN_AT, 2, open);
    put(&mut block, RESTED_AT, 2, rested);
    for (index, job) in station.firm.iter().enumerate() {
        put(&mut block, BUDGET_AT + 2 * index, 2, job.budget);
        put(&mut block, USED_AT + 2 * index, 2, job.run);
        put(&mut block, TICKET_AT + 4 * index, 4, job.number % ROLL_OVER);
    }
    block
}

fn bit(index: usize) -> u128 {
    2_u128.pow(index as u32)
}

fn in_set(set: u128, index: usize) -> bool {
    set / bit(index) % 2 == 1
}

/// The little-endian number of `width` bytes at an offset.
fn number(block: &[u8], offset: usize, width: usize) -> u128 {
    block[offset..offset + width].iter().rev().fold(0, |sum, &byte| sum * 256 + u128::from(byte))
}

/// Puts a number there, little-endian. It has to fit.
fn put(block: &mut [u8], offset: usize, width: usize, number: u128) {
    let mut left = number;
    for byte in &mut block[offset..offset + width] {
        *byte = (left % 256) as u8;
        left /= 256;
    }
    assert!(left == 0, "{number} does not fit in {width} bytes");
}

#[cfg(test)]
mod tests {
    use super::*;
    use crate::table::{file_of_rows, read_table, write_table};

    /// Rows (2, 6, 8) and (5, 12, 12), the second with a margin of 1, two uploads
    /// queued; row 2 ran last.
    fn busy() -> Station {
        let rows =
            [Row { c: 2, d: 6, t: 8, rank: 1, m: 0 }, Row { c: 5, d: 12, t: 12, rank: 0, m: 1 }];
        let mut station = Station::new(&read_table(&file_of_rows(&rows)).unwrap());
        station.tick(3, false, false);
        station.offer(1, 9).unwrap();
        station.offer(1, 9).unwrap();
        station
    }

    fn damaged(offset: usize, byte: u8) -> Option<Station> {
        let mut block = encode(&busy());
        assert_ne!(block[offset], byte);
        block[offset] = byte;
        decode(&block)
    }

    #[test]
    fn the_image_is_the_documented_one() {
        let block = encode(&busy());
        assert_eq!(block[..4], [2, 2, 1, 0]);
        assert_eq!(block[4..8], [1, 0, 0, 0]);
        assert_eq!(block[8..12], [2, 0, 0, 0]);
        assert_eq!(block[12..16], [3, 0, 0, 0]);
        assert_eq!(block[16..20], [2, 0, 5, 0]);
        assert_eq!(block[144..148], [0, 0, 1, 0]);
        assert_eq!(block[288..296], [0, 0, 0, 0, 1, 0, 0, 0]);
        assert_eq!(block[112..116], [4, 0, 4, 0]);
        assert_eq!(block[320..324], [0, 0, 1, 0]);
        assert!(block[324..].iter().all(|&byte| byte == 0));
    }

    #[test]
    fn decoded_and_encoded_again_it_is_the_same() {
        let block = encode(&busy());
        let station = decode(&block).unwrap();
        assert_eq!(encode(&station), block);
        assert_eq!((station.clock(), station.rows.len(), station.firm.len()), (1, 2, 2));
    }

    #[test]
    fn a_wrong_length_is_no_image() {
        let block = encode(&busy());
        assert_eq!(decode(&block[..511]), None);
        assert_eq!(decode(&[&block[..], &[0]].concat()), None);
        assert_eq!(decode(&[]), None);
    }

    #[test]
    fn what_means_nothing_must_be_zero() {
        let past_the_table = [C_AT + 4, M_AT + 4, RESERVED_AT - 1, STAMP_AT + 8, TICKET_AT + 8];
        for offset in [FREE_AT, RESERVED_AT, 511].iter().chain(&past_the_table) {
            assert_eq!(damaged(*offset, 1), None, "byte {offset}");
        }
        assert_eq!(damaged(OPEN_AT, 7), None);
        assert_eq!(damaged(RESTED_AT + 1, 1), None);
    }

    #[test]
    fn each_condition_counts() {
        assert_eq!(damaged(N_AT, 17), None);
        assert_eq!(damaged(COUNT_AT, 9), None);
        assert_eq!(damaged(C_AT, 0), None);
        assert_eq!(damaged(D_AT, 1), None);
        assert_eq!(damaged(T_AT, 5), None);
        assert_eq!(damaged(RANK_AT, 0), None);
        assert_eq!(damaged(U_AT, 5), None);
        assert_eq!(damaged(U_AT + 2, 7), None);
        assert_eq!(damaged(M_AT, 1), None);
        assert_eq!(damaged(M_AT + 2, 4), None);
        assert_eq!(damaged(M_AT + 3, 255), None);
        assert_eq!(damaged(STAMP_AT, 2), None);
        assert_eq!(damaged(BUDGET_AT, 0), None);
        assert_eq!(damaged(TICKET_AT, 9), None);
        assert_eq!(damaged(NEXT_AT, 3), None);
        assert_eq!(damaged(LAST_AT, 0), None);
        assert_eq!(damaged(LAST_AT, LAST_FIRM), None);
        assert_eq!(damaged(LAST_AT, 2), None);
        assert_eq!(damaged(LAST_AT, 18), None);
        assert_eq!(damaged(RUN_AT, 2), None);
        assert_eq!(damaged(RUN_AT + 2, 6), None);
        assert_eq!(damaged(USED_AT, 1), None);
    }

    #[test]
    fn other_states_are_accepted() {
        assert!(damaged(U_AT, 3).is_some());
        assert!(damaged(U_AT + 2, 6).is_some());
        assert!(damaged(M_AT + 2, 0).is_some());
        assert!(damaged(M_AT + 2, 3).is_some());
        assert!(damaged(RUN_AT, 1).is_some());
        assert!(damaged(RUN_AT + 2, 5).is_some());
        assert!(damaged(BUDGET_AT, 9).is_some());
        assert!(damaged(LAST_AT, LAST_NOBODY).is_some());
        assert!(damaged(CLOCK_AT, 5).is_some());
    }

    #[test]
    fn an_image_may_hold_a_margin_that_planning_refuses() {
        let mut block = encode(&busy());
        // C + M = D leaves U = 0, but R is 7.
        block[U_AT + 2] = 0;
        block[M_AT + 2] = 7;
        let rows = decode(&block).unwrap().table_rows();
        assert_eq!(write_table(&rows, &mut [0; BLOCK]), Err(22));
        block[M_AT + 2] = 8;
        assert_eq!(decode(&block), None);
    }

    #[test]
    fn a_stamp_may_lie_before_the_rollover() {
        let mut station = busy();
        let sleep = ROLL_OVER - 1;
        station.time += sleep;
        for hard in &mut station.rows {
            hard.last_release = hard.last_release.map(|release| release + sleep);
            hard.open.as_mut().unwrap().release += sleep;
        }
        let block = encode(&station);
        assert_eq!(block[CLOCK_AT..CLOCK_AT + 4], [0; 4]);
        assert_eq!(block[STAMP_AT..STAMP_AT + 4], [0xff; 4]);
        assert_eq!(encode(&decode(&block).unwrap()), block);
    }
}
