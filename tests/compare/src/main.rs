//! `compare`: every suite over its fixed seeds, as the gate does.
//! `compare SUITE`: one of them.
//! `compare soak MINUTES [SEED]`: every suite over other seeds, until the time
//! is over.
//! `compare SUITE SEED`: one case again.
//! `compare sleep`: a row that sleeps 2^32 ticks, tick by tick.

use compare::counts::Counts;
use compare::library::{kind, tick, ticks};
use compare::{blocks, calls, programs, rollover};
use reference::block::encode;
use reference::station::Station;
use reference::table::read_table;
use reference::vectors::table;
use std::panic::catch_unwind;
use std::process::ExitCode;
use std::thread;
use std::time::{Duration, Instant, SystemTime, UNIX_EPOCH};

struct Suite {
    name: &'static str,
    case: fn(u64) -> Counts,
    /// The gate's cases: seeds from 0 up to here.
    cases: u64,
    /// Whether those tried enough.
    enough: fn(&Counts) -> bool,
}

static SUITES: [Suite; 4] = [
    Suite {
        name: "calls",
        case: calls::case,
        cases: 980,
        enough: |tried| {
            let every_refusal = [11].into_iter().chain(15..=20).all(|number| tried.met(number));
            let margins = tried.margins.rows.min(tried.margins.largest).min(tried.margins.mixed);
            tried.calls >= 1_000_000
                && every_refusal
                && tried.noted.least() >= 10_000
                && margins >= 100
                && tried.seen.hard >= 10_000
                && tried.seen.less_margin_to_the_tick >= 10_000
                && tried.seen.uploads >= 10_000
        },
    },
    Suite {
        name: "rollover",
        case: rollover::case,
        cases: 2100,
        enough: |tried| {
            let rolled = tried.clocks_rolled.min(tried.tickets_rolled).min(tried.slept);
            rolled >= 500
                && tried.noted.least() >= 10_000
                && tried.seen.hard >= 10_000
                && tried.seen.less_margin_to_the_tick >= 1_000
                && tried.seen.uploads >= 10_000
        },
    },
    Suite {
        name: "blocks",
        case: blocks::case,
        cases: 700,
        enough: |tried| {
            tried.blocks >= 1_000_000
                && tried.images >= 100_000
                && tried.images < tried.blocks / 2
                && tried.images_with_margin >= 10_000
                && tried.noted.least() >= 10_000
                && tried.met(10)
                && tried.met(22)
        },
    },
    Suite {
        name: "programs",
        case: programs::case,
        cases: 2800,
        enough: |tried| {
            let mut table_refusals = (1..=10).chain(21..=22);
            tried.programs >= 5_000
                && tried.note_lines >= 10_000
                && table_refusals.all(|number| tried.met(number))
                && tried.margins.largest.min(tried.margins.mixed) >= 100
        },
    },
];

fn main() -> ExitCode {
    let arguments: Vec<String> = std::env::args().skip(1).collect();
    let words: Vec<&str> = arguments.iter().map(String::as_str).collect();
    let passed = match words[..] {
        [] => SUITES.iter().all(gate),
        ["soak", minutes] => soak(minutes.parse().ok(), Some(seed_of_now())),
        ["soak", minutes, seed] => soak(minutes.parse().ok(), seed.parse().ok()),
        ["sleep"] => sleep(),
        [name] => suite(name).map_or_else(usage, gate),
        [name, seed] => again(name, seed.parse().ok()),
        _ => usage(),
    };
    ExitCode::from(u8::from(!passed))
}

fn usage() -> bool {
    eprintln!("compare [SUITE [SEED]] | compare soak MINUTES [SEED] | compare sleep");
    eprintln!("suites: {}", SUITES.each_ref().map(|suite| suite.name).join(", "));
    false
}

/// A case by its seed; where it fails, its seed is printed.
fn one(suite: &Suite, seed: u64) -> Option<Counts> {
    let outcome = catch_unwind(|| (suite.case)(seed));
    if outcome.is_err() {
        eprintln!(
            "{}: seed {seed} failed; again by: tests/compare.sh {} {seed}",
            suite.name, suite.name
        );
    }
    outcome.ok()
}

fn gate(suite: &Suite) -> bool {
    let started = Instant::now();
    let Some(tried) = all_cases(suite) else {
        return false;
    };
    let seconds = started.elapsed().as_secs_f64();
    println!("{}: {} cases, {tried} ({seconds:.0} s)", suite.name, suite.cases);
    let enough = (suite.enough)(&tried);
    if !enough {
        eprintln!("{}: all agree, but too little was tried", suite.name);
    }
    enough
}

/// Every case of the gate, the seeds dealt out to as many threads as there are
/// processors; none if one of them fails.
fn all_cases(suite: &Suite) -> Option<Counts> {
    let threads = thread::available_parallelism().map_or(1, |number| number.get());
    let dealt = |first: usize| (first as u64..suite.cases).step_by(threads);
    thread::scope(|scope| {
        let run = |first: usize| move || sum(dealt(first).map(|seed| one(suite, seed)));
        let running: Vec<_> = (0..threads).map(|first| scope.spawn(run(first))).collect();
        sum(running.into_iter().map(|thread| thread.join().expect("a case that fails is caught")))
    })
}

/// All of them added up; none if one is none, and then no later one is asked.
fn sum(mut counts: impl Iterator<Item = Option<Counts>>) -> Option<Counts> {
    counts.try_fold(Counts::default(), |mut sum, counts| {
        sum += counts?;
        Some(sum)
    })
}

fn seed_of_now() -> u64 {
    let since = SystemTime::now().duration_since(UNIX_EPOCH).expect("a clock after 1970");
    since.as_secs() << 20
}

fn soak(minutes: Option<u64>, seed: Option<u64>) -> bool {
    let (Some(minutes), Some(first)) = (minutes, seed) else {
        return usage();
    };
    println!("soak: {minutes} minutes, seeds from {first}");
    let until = Instant::now() + Duration::from_secs(60 * minutes);
    let mut tried = [Counts::default(); 4];
    let mut seed = first;
    while Instant::now() < until {
        for (suite, tried) in SUITES.iter().zip(&mut tried) {
            match one(suite, seed) {
                Some(counts) => *tried += counts,
                None => return false,
            }
        }
        seed += 1;
    }
    for (suite, tried) in SUITES.iter().zip(&tried) {
        println!("{}: {} cases, {tried}", suite.name, seed - first);
    }
    true
}

fn suite(name: &str) -> Option<&'static Suite> {
    SUITES.iter().find(|suite| suite.name == name)
}

fn again(name: &str, seed: Option<u64>) -> bool {
    let (Some(suite), Some(seed)) = (suite(name), seed) else {
        return usage();
    };
    match one(suite, seed) {
        Some(tried) => println!("{name}: seed {seed}, {tried}"),
        None => return false,
    }
    true
}

/// Row 1 is released at tick 0 and then not for 2^32 ticks, each of them called.
/// The clock then shows 0 again, as if no tick had passed.
fn sleep() -> bool {
    let file = table(&[(2, 6, 8, 0), (5, 12, 12, 1)]);
    let mut block = encode(&Station::new(&read_table(&file).unwrap()));
    let first = tick(&mut block, 1, 0);
    assert_eq!((first.refusal, first.clock, first.runner), (0, 0, kind::HARD));
    let sleeping = (1 << 32) - 1;
    assert_eq!(ticks(&mut block, 1, sleeping), sleeping, "ticks accepted, each at its clock");
    let rested = tick(&mut block, 1, 0);
    assert_eq!((rested.refusal, rested.clock, rested.runner), (0, 0, kind::HARD));
    println!("sleep: 2^32 ticks, and the row is rested");
    true
}
