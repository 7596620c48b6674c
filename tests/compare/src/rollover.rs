//! The clock and the tickets across 2^32: the block of a late hour is made from
//! the documented layout, and goes on beside a station in true time.

use crate::caller::Caller;
use crate::counts::Counts;
use crate::pair::Pair;
use crate::tables::{accepted, Kind};
use reference::random::Random;
use reference::station::{Last, Station, ROLL_OVER};

pub fn case(seed: u64) -> Counts {
    let mut random = Random::new(seed);
    let kind = Kind::of_seed(seed);
    let mut pair = Pair::planned(&accepted(&mut random, kind));
    let mut caller = Caller::new(Random::new(random.below(1 << 30)));
    for _ in 0..random.between(0, 200) {
        pair.next(&mut caller);
    }
    let station = made_late(&mut random, pair.station);
    let mut pair = Pair::of_station(station).watched();
    for _ in 0..600 {
        pair.next(&mut caller);
    }
    pair.counts
}

/// The same station after a long life: it had slept for nearly 2^33 ticks before
/// all this, and nearly 2^33 uploads had come and gone. Most rows that are rested
/// have slept for a round of the clock, so that the clock alone would find them
/// too early.
pub fn made_late(random: &mut Random, mut station: Station) -> Station {
    let time = 2 * ROLL_OVER - u128::from(random.between(0, 300));
    let acceptances = 2 * ROLL_OVER - u128::from(random.between(0, 12));
    let slept = time - station.time;
    for hard in &mut station.rows {
        hard.last_release = hard.last_release.map(|release| release + slept);
        if let Some(job) = &mut hard.open {
            job.release += slept;
        } else if hard.rested(time) && !random.once_in(4) {
            let age = ROLL_OVER + u128::from(random.below(u64::from(hard.row.t) + 2));
            hard.last_release = Some(time - age);
        }
    }
    for job in &mut station.firm {
        job.number += acceptances - station.acceptances;
    }
    if station.last == Last::None {
        station.last = Last::NoJob;
    }
    Station { time, acceptances, ..station }
}
