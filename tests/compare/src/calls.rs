//! Random calls from a fresh block on: every answer and every block compared,
//! demand 3 watched.

use crate::caller::Caller;
use crate::counts::Counts;
use crate::pair::Pair;
use crate::tables::{accepted, Kind};
use reference::random::Random;

pub fn case(seed: u64) -> Counts {
    let mut random = Random::new(seed);
    let kind = Kind::of_seed(seed);
    let mut pair = Pair::planned(&accepted(&mut random, kind)).watched();
    let how_many = how_many(&mut random, kind);
    let mut caller = Caller::new(random);
    for _ in 0..how_many {
        pair.next(&mut caller);
    }
    pair.counts
}

/// Long periods take long to come round: some runs are long enough for them.
fn how_many(random: &mut Random, kind: Kind) -> u64 {
    match kind {
        Kind::Largest if random.once_in(10) => 150_000,
        Kind::Mixed if random.once_in(10) => 20_000,
        _ => 800,
    }
}
