//! Random tables that are accepted, of several kinds, with and without margins.

use reference::random::Random;
use reference::table::{file_of_rows, read_table, Row};
use reference::vectors::{random_accepted, with_margins};

#[derive(Clone, Copy, Debug, PartialEq, Eq)]
pub enum Kind {
    /// No row at all.
    Empty,
    /// Periods of 1 and 2, with no tick to spare.
    EveryTick,
    /// A few ticks now and then.
    Light,
    /// The last row's C as large as it may be.
    Full,
    /// Each period a multiple of the one before, and all ticks claimed.
    Harmonic,
    /// Deadlines and periods of 65535.
    Largest,
    /// Short and long periods together.
    Mixed,
}

const KINDS: [Kind; 7] = [
    Kind::Empty,
    Kind::EveryTick,
    Kind::Light,
    Kind::Full,
    Kind::Harmonic,
    Kind::Largest,
    Kind::Mixed,
];

impl Kind {
    /// The kinds in turn.
    pub fn of_seed(seed: u64) -> Kind {
        KINDS[(seed % KINDS.len() as u64) as usize]
    }
}

/// Which rows of a table have a margin.
#[derive(Clone, Copy, Debug)]
enum Margined {
    None,
    Some,
    /// All that have a tick to spare.
    All,
}

/// How large the margins of a table are.
#[derive(Clone, Copy, Debug)]
enum Size {
    One,
    Any,
    /// As large as may be, D - R.
    Largest,
}

/// The file of a table of this kind, with margins of some manner.
pub fn accepted(random: &mut Random, kind: Kind) -> Vec<u8> {
    let plain = without_margins(random, kind);
    let margined = [Margined::None, Margined::Some, Margined::All][random.below(3) as usize];
    let size = [Size::One, Size::Any, Size::Largest][random.below(3) as usize];
    let file = with_margins(&plain, |largest| margin(random, margined, size, largest));
    assert!(read_table(&file).is_ok(), "margins meant to be accepted: {file:02x?}");
    file
}

/// The margin of a row, where `largest` is the largest that it may have.
fn margin(random: &mut Random, margined: Margined, size: Size, largest: u64) -> u64 {
    let has_one = match margined {
        Margined::None => false,
        Margined::Some => random.once_in(2),
        Margined::All => true,
    };
    if !has_one || largest == 0 {
        return 0;
    }
    match size {
        Size::One => 1,
        Size::Any => random.between(1, largest),
        Size::Largest => largest,
    }
}

fn without_margins(random: &mut Random, kind: Kind) -> Vec<u8> {
    let rows = match kind {
        Kind::Empty => Vec::new(),
        Kind::EveryTick => every_tick(random),
        Kind::Light => return until_accepted(random, light),
        Kind::Full => return full(random),
        Kind::Harmonic => harmonic(random),
        Kind::Largest => largest(random),
        Kind::Mixed => return until_accepted(random, mixed),
    };
    let file = file_of_rows(&rows);
    assert!(read_table(&file).is_ok(), "a table meant to be accepted: {rows:?}");
    file
}

fn until_accepted(random: &mut Random, rows: fn(&mut Random) -> Vec<Row>) -> Vec<u8> {
    loop {
        let file = file_of_rows(&rows(random));
        if read_table(&file).is_ok() {
            return file;
        }
    }
}

/// Rows of these (C, D, T), with the ranks in a random order.
fn ranked(random: &mut Random, numbers: &[(u64, u64, u64)]) -> Vec<Row> {
    let mut left: Vec<u8> = (0..numbers.len() as u8).collect();
    let rows = numbers.iter().map(|&(c, d, t)| {
        let rank = left.remove(random.below(left.len() as u64) as usize);
        Row { c: c as u16, d: d as u16, t: t as u16, rank, m: 0 }
    });
    rows.collect()
}

fn every_tick(random: &mut Random) -> Vec<Row> {
    let choices: [&[(u64, u64, u64)]; 5] = [
        &[(1, 1, 1)],
        &[(1, 2, 2), (1, 2, 2)],
        &[(1, 1, 2), (1, 2, 2)],
        &[(2, 2, 2)],
        &[(1, 1, 2), (1, 4, 4), (1, 4, 4)],
    ];
    let choice = choices[random.below(choices.len() as u64) as usize];
    ranked(random, choice)
}

fn light(random: &mut Random) -> Vec<Row> {
    let n = random.between(1, 16);
    let mut numbers = Vec::new();
    for _ in 0..n {
        let c = random.between(1, 3);
        let t = random.between(10 * n, 60 * n);
        numbers.push((c, random.between(4 * n, t), t));
    }
    ranked(random, &numbers)
}

fn full(random: &mut Random) -> Vec<u8> {
    let n = random.between(1, 16);
    let longest = random.between(4, 40) * n;
    let mut file = random_accepted(random, n, longest);
    let mut rows = read_table(&file).unwrap().rows;
    loop {
        let last = rows.last_mut().unwrap();
        last.c += 1;
        let more = file_of_rows(&rows);
        if read_table(&more).is_err() {
            return file;
        }
        file = more;
    }
}

fn harmonic(random: &mut Random) -> Vec<Row> {
    let n = random.between(1, 10);
    let mut periods = vec![random.between(2, 6)];
    for index in 1..n as usize {
        periods.push(periods[index - 1] * random.between(1, 2));
    }
    let longest = periods[periods.len() - 1];
    // Ticks of the longest period that are still free; its last row takes all.
    let mut free = longest;
    let mut numbers = Vec::new();
    for (index, &t) in periods.iter().enumerate() {
        let each = longest / t;
        let whole = free / each;
        let last = index + 1 == periods.len();
        let c = if last { whole } else { random.between(1, 1.max(whole / 2)) };
        if c * each <= free && c > 0 {
            numbers.push((c, t, t));
            free -= c * each;
        }
    }
    ranked(random, &numbers)
}

fn largest(random: &mut Random) -> Vec<Row> {
    let most = 65535;
    if random.once_in(6) {
        return ranked(random, &[(most, most, most)]);
    }
    let mut numbers = Vec::new();
    let mut free = most;
    if random.once_in(2) {
        numbers.push((1, 2, 2));
        free = most / 2;
    }
    while numbers.len() < 16 && free > 0 && !random.once_in(8) {
        let c = if random.once_in(3) {
            random.between(1, 9.min(free))
        } else {
            random.between(1, free)
        };
        numbers.push((c, most, most));
        free -= c;
    }
    ranked(random, &numbers)
}

fn mixed(random: &mut Random) -> Vec<Row> {
    let n = random.between(2, 16);
    let mut numbers = Vec::new();
    for _ in 0..n {
        let longest = 2 << random.between(1, 14);
        let t = random.between(2, longest);
        let c = random.between(1, 1.max(t / n));
        numbers.push((c, random.between(c.max(t / 2), t), t));
    }
    numbers.sort_by_key(|&(_, d, _)| d);
    ranked(random, &numbers)
}

#[cfg(test)]
mod tests {
    use super::*;

    #[test]
    fn a_full_table_has_no_tick_to_spare() {
        let mut random = Random::new(1);
        for _ in 0..20 {
            let mut rows = read_table(&accepted(&mut random, Kind::Full)).unwrap().rows;
            rows.last_mut().unwrap().c += 1;
            assert!(read_table(&file_of_rows(&rows)).is_err());
        }
    }

    #[test]
    fn a_harmonic_table_claims_every_tick() {
        let mut random = Random::new(2);
        for _ in 0..50 {
            let rows = read_table(&accepted(&mut random, Kind::Harmonic)).unwrap().rows;
            let longest = u64::from(rows.last().unwrap().t);
            let claimed = rows.iter().map(|row| u64::from(row.c) * (longest / u64::from(row.t)));
            assert_eq!(claimed.sum::<u64>(), longest, "{rows:?}");
        }
    }
}
