//! The tick that C calls, on its block of 512 bytes, beside two plain Rust dispatchers: every answer compared, first with much
//! noise, then the three timed in one process. `block count WORKLOAD` only compares, for callgrind.

mod fast;
mod ours;
mod plain;
mod station;
mod work;

use station::Station;
use std::hint::black_box;
use std::time::{Duration, Instant};
use work::{compared, Work, KINDS, NOISY};

const TICKS: usize = 1_000_000;
const COUNTED_TICKS: usize = 100_000;
const RUNS: usize = 15;

fn main() {
    let words: Vec<String> = std::env::args().collect();
    if let [_, count, name] = &words[..] {
        assert_eq!(count, "count");
        let kind = KINDS.iter().find(|k| k.name == name).expect("light, firm or heavy");
        black_box(compared(kind, COUNTED_TICKS));
        return;
    }
    let noisy = compared(&NOISY, TICKS);
    assert!(noisy.noted.iter().all(|&ticks| ticks > 0), "a note is not met");
    print_work(NOISY.name, &noisy);
    for kind in &KINDS {
        let work = compared(kind, TICKS);
        print_work(kind.name, &work);
        print_times(black_box(&work));
    }
}

fn print_work(name: &str, work: &Work) {
    let percent = |ticks: usize| 100.0 * ticks as f64 / TICKS as f64;
    let [upper, lower, firm, soft, idle, refused] = work.ran.map(percent);
    println!(
        "{name:5}  {TICKS} answers equal: upper {upper:.1} %, lower {lower:.1}, firm {firm:.1}, soft {soft:.1}, idle {idle:.1}, refused {refused:.1}"
    );
    let [unknown, none_ran, not_ready, all] = work.noted.map(percent);
    println!("       noted 12: {unknown:.1} %, 13: {none_ran:.1}, 14: {not_ready:.1}, all three: {all:.1}");
    println!("       {} of {} offers accepted", work.stretches.len() - 1, work.offers);
}

/// The least time of each, run in turn, and what ours is of each peer's.
fn print_times(work: &Work) {
    let mut least = [Duration::MAX; 3];
    for _ in 0..RUNS {
        let times = [
            timed(work, &work.end.ours),
            timed(work, &work.end.plain),
            timed(work, &work.end.fast),
        ];
        for (least, time) in least.iter_mut().zip(times) {
            *least = time.min(*least);
        }
    }
    let [ours, plain, fast] = least.map(|time| time.as_secs_f64() * 1e9 / TICKS as f64);
    println!(
        "       ours {ours:.1} ns a tick; plain {plain:.1}, ratio {:.2}; fast {fast:.1}, ratio {:.2}",
        ours / plain,
        ours / fast
    );
}

/// The time of the ticks alone: the clock stands while an offer is made.
fn timed<S: Station>(work: &Work, end: &S) -> Duration {
    let mut station = S::fresh(&work.table);
    let mut time = Duration::ZERO;
    for stretch in &work.stretches {
        if let Some(offer) = stretch.offer {
            station.accept(offer);
        }
        let start = Instant::now();
        for &event in &work.events[stretch.ticks.clone()] {
            black_box(station.tick(event.set, event.flags));
        }
        time += start.elapsed();
    }
    assert!(station == *end, "ended in another state than before");
    time
}
