//! Equation (5) of document 004 beside the room test: the examples and counts that
//! `docs/room-test.md` gives. Each test names where on the page they stand.

use reference::random::Random;
use reference::station::{row_bit, FirmJob, HardJob, HardRow, Last, Runner, Station};
use reference::table::{file_of_rows, read_table, Row};
use reference::vectors::random_accepted;

/// A hard task as (5) sees it at a time t.
#[derive(Clone, Copy)]
struct Task {
    /// The next promotion, relative to t.
    u: i128,
    /// What the current invocation has still to run.
    c: i128,
    whole: i128,
    period: i128,
    jitter: i128,
    critical: i128,
}

/// Whether (5) stands as printed, or with a floor at 0 in its second term.
#[derive(Clone, Copy, PartialEq)]
enum Form {
    Printed,
    Floored,
}

/// I(t, y), the four terms of (5).
fn interference(task: Task, y: i128, form: Form) -> i128 {
    let left = y - task.u;
    let f = 0.max((left - task.whole + task.jitter).div_euclid(task.period));
    let promoted = if form == Form::Floored { 0.max(left) } else { left };
    let current = promoted.min(task.c - task.critical);
    let last = 0.max(left - (f + 1) * task.period + task.jitter).min(task.whole);
    task.critical + current + f * task.whole + last
}

/// A row as (5) sees it. A row without a job that has ticks left awaits its
/// release, and counts as current from there.
fn task(hard: &HardRow, now: u128) -> Task {
    let whole = i128::from(hard.row.c);
    let (u, c) = match &hard.open {
        Some(job) if job.run < u128::from(hard.row.c) => {
            (job.release as i128 + hard.promotion as i128 - now as i128, whole - job.run as i128)
        }
        _ => (hard.until_rested(now) as i128 + hard.promotion as i128, whole),
    };
    Task { u, c, whole, period: i128::from(hard.row.t), jitter: 0, critical: 0 }
}

/// y less what (5) counts, not stopped at 0.
fn left_over(station: &Station, y: u16, form: Form) -> i128 {
    let y = i128::from(y);
    let tasks = station.rows.iter().map(|hard| task(hard, station.time));
    y - tasks.map(|task| interference(task, y, form)).sum::<i128>()
}

/// Section 4.2 of document 004, the middle band in order of acceptance.
fn guaranteed(station: &Station, budget: u16, y: u16, form: Form) -> bool {
    0.max(left_over(station, y, form)) - i128::from(budget) - station.unrun_budgets() >= 0
}

/// Document 01's claims on the window: d less the room.
fn claims(station: &Station, d: u16) -> i128 {
    i128::from(d) - station.room(d)
}

fn station(numbers: &[(u16, u16, u16)]) -> Station {
    let ranked = numbers.iter().enumerate();
    let rows: Vec<Row> =
        ranked.map(|(index, &(c, d, t))| Row { c, d, t, rank: index as u8, m: 0 }).collect();
    Station::new(&read_table(&file_of_rows(&rows)).unwrap())
}

fn table_a() -> Station {
    station(&[(2, 6, 8), (5, 12, 12)])
}

/// So many ticks in which soft work wants to run, the first with these releases.
fn soft_ticks(station: &mut Station, releases: u16, how_many: u64) {
    for tick in 0..how_many {
        station.tick(if tick == 0 { releases } else { 0 }, false, true);
    }
}

/// Table A at clock 2 of the listing.
fn at_clock_2() -> Station {
    let mut a = table_a();
    a.tick(3, false, false);
    a.tick(0, false, true);
    a
}

/// Accepts an upload unasked.
fn force(station: &mut Station, budget: u16) -> u128 {
    let number = station.acceptances;
    station.firm.push(FirmJob { number, budget: u128::from(budget), run: 0 });
    station.acceptances += 1;
    number
}

/// The ticks that an upload has of its window, with every row released as early
/// as may be and every job run to its whole C.
fn ticks_had(mut station: Station, ticket: u128, window: u16) -> u16 {
    // The bits of rows that are not ready count as clear.
    let every_row = (1..=station.rows.len()).map(row_bit).sum();
    let mut had = 0;
    for _ in 0..window {
        let answer = station.tick(every_row, false, false);
        had += u16::from(answer.runner == Runner::Firm(ticket));
    }
    had
}

/// A station of one row with this age, held at T; nothing queued.
fn one_row(row: Row, promotion: u128, age: u16, run: Option<u128>) -> Station {
    let time = 1000;
    let release = time - u128::from(age);
    let open = run.map(|run| HardJob { release, run });
    let hard = HardRow { row, promotion, last_release: Some(release), open };
    Station { time, rows: vec![hard], firm: Vec::new(), acceptances: 0, last: Last::NoJob }
}

/// "Where they agree"; the counts: "What is tested".
#[test]
fn the_claims_of_a_row_agree_exactly_where_the_page_says() {
    let (mut with_job, mut without) = (0, 0);
    let small = (1..=7).flat_map(|t| (1..=t).map(move |d| (d, t)));
    let small = small.flat_map(|(d, t)| (1..=d).map(move |c| Row { c, d, t, rank: 0, m: 0 }));
    for row in small {
        for promotion in 0..=u128::from(row.d - row.c) {
            for window in 1..=25 {
                let d = i128::from(window);
                let same = |station: &Station, task: Task| {
                    interference(task, d, Form::Printed) == claims(station, window)
                };
                for age in 0..row.t {
                    for run in 0..=u128::from(row.c) {
                        let station = one_row(row, promotion, age, Some(run));
                        let u = promotion as i128 - i128::from(age);
                        let c = i128::from(row.c) - run as i128;
                        let task = Task { u, c, ..task(&station.rows[0], station.time) };
                        let agree = u <= d && (u >= 0 || c <= d);
                        assert_eq!(same(&station, task), agree, "{row:?} {age} {run} {window}");
                        with_job += 1;
                    }
                }
                for age in 0..=row.t {
                    let station = one_row(row, promotion, age, None);
                    let task = task(&station.rows[0], station.time);
                    assert_eq!(same(&station, task), task.u <= d, "{row:?} {age} {window}");
                    without += 1;
                }
            }
        }
    }
    assert_eq!((with_job, without), (99_750, 35_700));
}

/// "Where they agree"; the fresh table: "Where they differ", 3.
#[test]
fn where_they_agree_at_clock_2() {
    let a = at_clock_2();
    assert_eq!((a.room(19), left_over(&a, 19, Form::Printed)), (6, 6));
    let fresh = table_a();
    assert_eq!((fresh.room(13), left_over(&fresh, 13, Form::Printed)), (5, 5));
}

/// "Where they differ", 1.
#[test]
fn without_the_floor_an_upload_is_late() {
    let mut a = table_a();
    soft_ticks(&mut a, 1, 4);
    assert_eq!((a.room(3), left_over(&a, 3, Form::Printed)), (1, 3));
    assert!(guaranteed(&a, 2, 3, Form::Printed) && guaranteed(&a, 3, 3, Form::Printed));
    assert_eq!(a.clone().offer(2, 3), Err(18));
    assert!(!guaranteed(&a, 2, 3, Form::Floored));
    let ticket = force(&mut a, 2);
    assert_eq!(ticks_had(a, ticket, 3), 1);

    let slow = station(&[(1, 100, 100)]);
    assert_eq!(left_over(&slow, 5, Form::Printed), 99);
    assert!(guaranteed(&slow, 50, 5, Form::Printed));
    assert_eq!(slow.clone().offer(50, 5), Err(16));
}

/// "Where they differ", 2.
#[test]
fn a_job_promoted_before_the_window() {
    let mut one = station(&[(5, 12, 12)]);
    soft_ticks(&mut one, 1, 8);
    assert_eq!(one.rows[0].open.as_ref().unwrap().run, 1);
    assert_eq!((one.room(2), left_over(&one, 2, Form::Printed)), (0, -1));
    assert!(!guaranteed(&one, 1, 2, Form::Printed) && one.offer(1, 2).is_err());
}

/// "Where they differ", 4.
#[test]
fn a_total_below_0() {
    let full = station(&[(1, 1, 2), (1, 2, 2)]);
    assert_eq!(full.room(1), -1);
    assert!(!guaranteed(&full, 1, 1, Form::Printed) && full.clone().offer(1, 1).is_err());
}

/// "Where they differ", 5.
#[test]
fn the_order_of_uploads() {
    let mut empty = station(&[]);
    empty.offer(5, 5).unwrap();
    assert!(!guaranteed(&empty, 1, 5, Form::Printed) && empty.clone().offer(1, 5).is_err());
    assert!(guaranteed(&empty, 1, 6, Form::Printed) && empty.offer(1, 6).is_ok());
    let mut empty = station(&[]);
    empty.offer(5, 10).unwrap();
    assert_eq!(empty.offer(2, 3), Err(18));
}

/// "Where they differ", 6.
#[test]
fn the_printed_promotion_time_leaves_less_room() {
    let a = at_clock_2();
    let mut printed = a.clone();
    printed.rows[1].promotion = 3;
    assert_eq!((a.room(4), printed.room(4)), (2, 0));
    assert!(a.clone().offer(2, 4).is_ok() && printed.offer(2, 4).is_err());
}

/// "Where they differ", 7; the total of 11 with 3 for p: "The two formulas".
#[test]
fn figure_2_of_document_004() {
    let row = Task { u: 2, c: 3, whole: 4, period: 10, jitter: 2, critical: 1 };
    let plain = Task { jitter: 0, critical: 0, ..row };
    let printed = |task: Task, y: i128| interference(task, y, Form::Printed);
    assert_eq!(printed(row, 31), 12);
    assert_eq!(printed(Task { u: 3, ..row }, 31), 11);
    assert_eq!(printed(plain, 31), 11);
    assert_eq!(printed(Task { critical: 0, ..row }, 11), 4);
    assert_eq!(printed(Task { jitter: 0, ..row }, 2), 1);
    let numbers = Row { c: 4, d: 9, t: 10, rank: 0, m: 0 };
    let station = one_row(numbers, 3, 1, Some(1));
    assert_eq!([31, 11, 2].map(|d| claims(&station, d)), [11, 3, 0]);
}

/// "Where they differ", 8.
#[test]
fn an_open_job_in_a_rested_row() {
    let row = Row { c: 1, d: 4, t: 4, rank: 0, m: 0 };
    let mut late = one_row(row, 3, 6, Some(0));
    assert_eq!((late.room(3), left_over(&late, 3, Form::Printed)), (2, 1));
    assert!(!guaranteed(&late, 2, 3, Form::Printed) && late.offer(2, 3).is_ok());
    let held = one_row(row, 3, 4, Some(0));
    assert_eq!((held.room(3), left_over(&held, 3, Form::Printed)), (2, 2));
}

/// "What is tested", and what "What this means for a caller" says of any offer.
#[test]
fn random_offers_by_both() {
    let mut random = Random::new(5);
    let (mut offers, mut only_by_5, mut tried, mut late) = (0, 0, 0, 0);
    for _ in 0..300 {
        let n = random.between(1, 4);
        let mut station = Station::new(&read_table(&random_accepted(&mut random, n, 24)).unwrap());
        for _ in 0..60 {
            random_tick(&mut random, &mut station);
            if station.firm.len() == 8 {
                continue;
            }
            for d in 1..=30 {
                let printed = left_over(&station, d, Form::Printed);
                let floored = left_over(&station, d, Form::Floored);
                let room = station.room(d);
                for budget in 1..=d.min(12) {
                    let wants = i128::from(budget) + station.unrun_budgets();
                    assert_eq!(0.max(floored) >= wants, room >= wants, "with the floor, alike");
                    assert!(0.max(printed) >= wants || room < wants, "(5) refuses no more");
                    offers += 1;
                    if room < wants && printed >= wants {
                        only_by_5 += 1;
                        if random.once_in(20) {
                            let mut forced = station.clone();
                            let ticket = force(&mut forced, budget);
                            tried += 1;
                            late += u64::from(ticks_had(forced, ticket, d) < budget);
                        }
                    }
                }
            }
        }
    }
    println!(
        "{offers} offers, {only_by_5} accepted by (5) only; of {tried} tried {late} were late"
    );
    assert!(only_by_5 > 0 && late > 0);
}

/// Random releases of rested rows, and now and then an upload.
fn random_tick(random: &mut Random, station: &mut Station) {
    let mut releases = 0;
    for (index, hard) in station.rows.iter().enumerate() {
        if hard.rested(station.time) && !random.once_in(3) {
            releases += 2_u16.pow(index as u32);
        }
    }
    let done = station.ran_job() && random.once_in(5);
    station.tick(releases, done, random.once_in(2));
    if random.once_in(6) {
        let budget = random.between(1, 3);
        let _ = station.offer(budget as u16, (budget + random.below(20)) as u16);
    }
}
