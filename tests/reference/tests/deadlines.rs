//! A check of the rules as they are read here: in random runs, with calls that
//! are noted among them, every hard job has its C by its deadline less its margin,
//! and every accepted firm job its budget by its own.

use reference::random::Random;
use reference::station::{releases_row, row_bit, Closing, Job, Notes, Runner, Station};
use reference::table::read_table;
use reference::vectors::{random_accepted, random_margins};

/// A firm job that was accepted, with the tick its budget must be run by.
struct Promise {
    number: u128,
    by: u128,
}

/// A release set with random rested rows, and now and then rows that are not, or
/// are not there.
fn random_releases(random: &mut Random, station: &Station) -> u16 {
    let noisy = random.once_in(4);
    let mut wanted = |row: usize| match station.rows.get(row - 1) {
        Some(hard) if hard.rested(station.time) => !random.once_in(3),
        _ => noisy && random.once_in(3),
    };
    (1..=16).filter(|&row| wanted(row)).map(row_bit).sum()
}

/// From a fresh station, a rested row has no open job. So a row is released
/// where its bit was set and it was rested; every other set bit is noted.
fn check_releases(before: &Station, after: &Station, releases: u16, notes: Notes) {
    for row in 1..=16 {
        let set = releases_row(releases, row);
        let known = row <= before.rows.len();
        let rested = known && before.rows[row - 1].rested(before.time);
        assert_eq!(releases_row(notes.unknown, row), set && !known);
        assert_eq!(releases_row(notes.not_ready, row), set && known && !rested);
        if known && set && rested {
            assert_eq!(after.rows[row - 1].last_release, Some(before.time));
        } else if known {
            assert_eq!(after.rows[row - 1].last_release, before.rows[row - 1].last_release);
        }
    }
}

fn check_hard(station: &Station) {
    for hard in &station.rows {
        if let Some(job) = &hard.open {
            let due = job.release + u128::from(hard.row.d - hard.row.m);
            let fully_run = job.run == u128::from(hard.row.c);
            assert!(station.time < due || fully_run, "a hard job is late");
        }
    }
}

fn check_firm(station: &Station, promises: &[Promise]) {
    for promise in promises {
        let Some(job) = station.firm.iter().find(|job| job.number == promise.number) else {
            continue;
        };
        assert!(station.time < promise.by || job.run == job.budget, "a firm job is late");
    }
}

#[test]
fn no_job_is_late() {
    let (mut hard_closed, mut with_margin, mut firm_closed, mut firm_ran) = (0, 0, 0, 0);
    let mut noted = 0;
    for seed in 0..300 {
        let mut random = Random::new(seed);
        let n = random.between(1, 6);
        let longest = random.between(4, 40);
        let mut file = random_accepted(&mut random, n, longest * n);
        if random.once_in(2) {
            file = random_margins(&mut random, &file);
        }
        let mut station = Station::new(&read_table(&file).unwrap());
        let mut promises = Vec::new();
        for _ in 0..500 {
            if random.once_in(4) {
                let budget = random.between(1, 6);
                let deadline = random.between(budget, 60);
                let number = station.acceptances;
                if station.offer(budget as u16, deadline as u16).is_ok() {
                    promises.push(Promise { number, by: station.time + u128::from(deadline) });
                }
            }
            let done = random.once_in(10);
            let releases = random_releases(&mut random, &station);
            let soft = random.once_in(2);
            let before = station.clone();
            let answer = station.tick(releases, done, soft);
            assert_eq!(station.time, before.time + 1);
            assert_eq!(answer.notes.none_ran, done && !before.ran_job());
            check_releases(&before, &station, releases, answer.notes);
            noted += u64::from(answer.notes != Notes::default());
            match answer.closing {
                Closing::Done(Job::Hard(row)) | Closing::Spent(Job::Hard(row)) => {
                    hard_closed += 1;
                    with_margin += u64::from(station.rows[row - 1].row.m > 0);
                }
                Closing::Done(Job::Firm(_)) | Closing::Spent(Job::Firm(_)) => firm_closed += 1,
                Closing::None => {}
            }
            if matches!(answer.runner, Runner::Firm(_)) {
                firm_ran += 1;
            }
            check_hard(&station);
            check_firm(&station, &promises);
        }
    }
    assert!(hard_closed > 1000 && with_margin > 1000 && firm_closed > 1000 && firm_ran > 1000);
    assert!(noted > 10_000);
}
