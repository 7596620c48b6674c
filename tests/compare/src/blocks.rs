//! Damaged blocks: accepted exactly when the reference's decoder of
//! `docs/block.md` accepts them, and answered as what they then hold.

use crate::caller::Caller;
use crate::counts::Counts;
use crate::library::Asked;
use crate::pair::{ask_table_back, on_wrong_length, table_back, Pair};
use crate::rollover::made_late;
use crate::tables::{accepted, Kind};
use crate::{expected, library};
use reference::block::{decode, encode, BLOCK, M_AT, RESERVED_AT};
use reference::random::Random;
use reference::station::Station;
use reference::table::LONGEST_TABLE;
use std::fmt::Debug;

pub fn case(seed: u64) -> Counts {
    let mut random = Random::new(seed);
    let image = reached(&mut random, Kind::of_seed(seed));
    let other = reached(&mut random, Kind::of_seed(seed / 7));
    let mut judge = Judge { random, counts: Counts::default() };
    judge.block(&image);
    assert_eq!(judge.counts.images, 1, "what a fresh state leads to is an image");
    for bit in 0..8 * BLOCK {
        let mut block = image;
        block[bit / 8] ^= 1 << (bit % 8);
        judge.block(&block);
    }
    for _ in 0..400 {
        let block = judge.damaged(&image, &other);
        judge.block(&block);
    }
    judge.lengths(&image);
    judge.counts
}

/// The image of a state that a fresh one leads to, early or late.
fn reached(random: &mut Random, kind: Kind) -> [u8; BLOCK] {
    let mut pair = Pair::planned(&accepted(random, kind));
    let mut caller = Caller::new(Random::new(random.below(1 << 30)));
    for _ in 0..random.between(1, 150) {
        pair.next(&mut caller);
    }
    let late = random.once_in(2);
    encode(&if late { made_late(random, pair.station) } else { pair.station })
}

struct Judge {
    random: Random,
    counts: Counts,
}

impl Judge {
    /// Two ticks, an offer and the table of a block, each on a copy and all asked of
    /// the library in one go; then, now and then, some calls more.
    fn block(&mut self, block: &[u8; BLOCK]) {
        let station = decode(block);
        self.counts.judged(station.as_ref());
        let released = self.random.below(1 << 16) as u16 & self.random.below(1 << 16) as u16;
        let flags = self.random.below(5) as u8;
        let deadline = self.random.between(0, 40) as u16;
        let first = library::ask_tick(block, released, flags);
        let second = library::ask_tick(block, 0, 0);
        let offer = library::ask_offer(block, 1, deadline);
        let table = ask_table_back(block, LONGEST_TABLE);

        let mut after = station.clone();
        let want = expected::tick(after.as_mut(), released, flags);
        self.counts.tick(released, compare(first, want, block, after));
        let mut after = station.clone();
        let want = expected::tick(after.as_mut(), 0, 0);
        self.counts.tick(0, compare(second, want, block, after));
        let mut after = station.clone();
        let want = expected::offer(after.as_mut(), 1, deadline);
        self.counts.call(compare(offer, want, block, after).refusal);
        self.counts.call(table_back(table, block, station.as_ref()));

        if let Some(station) = station.filter(|_| self.random.once_in(20)) {
            let mut pair = Pair::of_station(station);
            let mut caller = Caller::new(Random::new(self.random.below(1 << 30)));
            for _ in 0..12 {
                pair.next(&mut caller);
            }
            self.counts += pair.counts;
        }
    }

    /// The image with a random damage.
    fn damaged(&mut self, image: &[u8; BLOCK], other: &[u8; BLOCK]) -> [u8; BLOCK] {
        let mut block = *image;
        let below = |random: &mut Random, limit: usize| random.below(limit as u64) as usize;
        let random = &mut self.random;
        match random.below(8) {
            // Two to four bits.
            0 => {
                for _ in 0..random.between(2, 4) {
                    block[below(random, BLOCK)] ^= 1 << random.below(8);
                }
            }
            // A byte that is not reserved.
            1 => block[below(random, RESERVED_AT)] = random.below(256) as u8,
            // A number next to the one that was there.
            2 => {
                let place = below(random, RESERVED_AT);
                block[place] = block[place].wrapping_add(1).wrapping_sub(2 * random.below(2) as u8);
            }
            // A part of another state.
            3 => {
                let from = below(random, BLOCK);
                let to = from + below(random, BLOCK - from + 1);
                block[from..to].copy_from_slice(&other[from..to]);
            }
            // Two bytes of this one exchanged.
            4 => block.swap(below(random, RESERVED_AT), below(random, RESERVED_AT)),
            // Another margin.
            5 => block = with_another_margin(random, image),
            // A byte of the margins, also of rows that are not there.
            6 => block[M_AT + below(random, RESERVED_AT - M_AT)] = random.below(256) as u8,
            // Nothing of it left.
            _ => block.iter_mut().for_each(|byte| *byte = random.below(256) as u8),
        }
        block
    }

    /// Blocks of every length up to one and a half, cut or drawn out.
    fn lengths(&mut self, image: &[u8; BLOCK]) {
        for length in (0..BLOCK + BLOCK / 2).filter(|&length| length != BLOCK) {
            for refusal in on_wrong_length(image, length, 0) {
                self.counts.call(refusal);
            }
        }
    }
}

/// The image with another margin in a row: the largest beside its U, one more or any
/// less. Half of the time U is lowered first, so that the margin can be larger than
/// planning allows.
fn with_another_margin(random: &mut Random, image: &[u8; BLOCK]) -> [u8; BLOCK] {
    let mut station = decode(image).expect("an image");
    let rows = station.rows.len() as u64;
    if rows > 0 {
        let hard = &mut station.rows[random.below(rows) as usize];
        if random.once_in(2) {
            hard.promotion = u128::from(random.between(0, hard.promotion as u64));
        }
        let largest = u64::from(hard.row.d - hard.row.c) - hard.promotion as u64;
        let m = match random.below(3) {
            0 => largest,
            1 => largest + 1,
            _ => random.between(0, largest),
        };
        hard.row.m = m as u16;
    }
    encode(&station)
}

/// The answer of a call on a copy of the block, which is the one wanted. It left the
/// image of the station after it, or, where there is none, the block as it was given.
fn compare<Answer: Debug + PartialEq>(
    asked: Asked<Answer>,
    want: Answer,
    block: &[u8; BLOCK],
    after: Option<Station>,
) -> Answer {
    let answered = asked.answered();
    assert_eq!(answered.answer, want, "a call on {block:02x?}");
    let left = after.map_or(*block, |station| encode(&station));
    assert!(answered.block == left, "after a call on {block:02x?}");
    answered.answer
}
