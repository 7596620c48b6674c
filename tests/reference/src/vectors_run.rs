//! The vectors for `run`.

use crate::event::{offer_field, read_event, tick_field, Event, Found};
use crate::programs::{EVENTS_LIMIT, TABLE_LIMIT};
use crate::random::Random;
use crate::station::{row_bit, Last, Station};
use crate::table::read_table;
use crate::vectors::{
    empty_table, ended, join, light_rows, margin_rows, margin_table, random_accepted,
    random_margins, rows_only, table, table_a, table_a_with_margins, RunVector,
};

const DONE: u8 = 1;
const SOFT: u8 = 2;

/// All vectors for `run`.
pub fn all() -> Vec<RunVector> {
    let mut list = Vec::new();
    listing_and_figures(&mut list);
    files(&mut list);
    tables_refused(&mut list);
    events_refused(&mut list);
    ticks_noted(&mut list);
    offers_refused(&mut list);
    choices(&mut list);
    closings(&mut list);
    rooms(&mut list);
    margins(&mut list);
    loads(&mut list);
    randoms(&mut list);
    noises(&mut list);
    random_tables_with_margins(&mut list);
    lengths(&mut list);
    list
}

fn add(list: &mut Vec<RunVector>, name: &str, table: Vec<u8>, events: &[Vec<u8>]) {
    add_files(list, name, Some(table), Some(join(events)));
}

fn add_files(
    list: &mut Vec<RunVector>,
    name: &str,
    table: Option<Vec<u8>>,
    events: Option<Vec<u8>>,
) {
    list.push(RunVector { name: name.to_string(), table, events });
}

fn tick(releases: u16, flags: u8) -> Vec<u8> {
    tick_field(releases, flags)
}

fn offer(budget: u16, deadline: u16) -> Vec<u8> {
    offer_field(budget, deadline)
}

/// A tick without release or flag.
fn plain() -> Vec<u8> {
    tick(0, 0)
}

/// As many of the same event.
fn times(how_many: usize, event: Vec<u8>) -> Vec<u8> {
    event.repeat(how_many)
}

fn listing_and_figures(list: &mut Vec<RunVector>) {
    let start = join(&[tick(3, 0), tick(0, SOFT)]);
    let rest = join(&[plain(), tick(1, 0), plain(), plain(), tick(0, DONE)]);
    add(list, "listing", table_a(), &[start.clone(), offer(2, 4), rest]);
    for (b, d) in [(2, 4), (3, 4), (2, 3), (3, 5)] {
        let name = format!("figure-clock-2-offer-{b}-{d}");
        add(list, &name, table_a(), &[start.clone(), offer(b, d), times(20, plain())]);
    }
    let three = join(&[offer(5, 5), offer(1, 5), offer(1, 6)]);
    add(list, "figure-empty-table-three-offers", empty_table(), &[three, times(8, plain())]);
}

/// Files that are missing or empty.
fn files(list: &mut Vec<RunVector>) {
    let events = join(&[tick(1, 0), plain()]);
    add_files(list, "files-both-missing", None, None);
    add_files(list, "files-table-missing", None, Some(events));
    add_files(list, "files-events-missing", Some(table_a()), None);
    add_files(list, "files-bad-table-events-missing", Some(vec![0x0f]), None);
    add_files(list, "files-both-empty", Some(vec![]), Some(vec![]));
    add_files(list, "files-events-empty", Some(table_a()), Some(vec![]));
}

/// A refused table prints its line only, whatever the events.
fn tables_refused(list: &mut Vec<RunVector>) {
    let events = join(&[plain(), offer(1, 1), vec![0x77]]);
    let mut refused =
        |name: &str, table: Vec<u8>| add(list, name, table, std::slice::from_ref(&events));
    refused("table-refusal-01-header", table_a()[..22].to_vec());
    refused("table-refusal-01-value", table_a()[..17].to_vec());
    refused("table-refusal-02", vec![0x22, 0x00, 0x04, 0x00, 0x01, 0x00, 0x01]);
    refused("table-refusal-03", vec![0x0f, 0x00, 0x07]);
    refused("table-refusal-04", join(&[table_a(), vec![0x01, 0x02, 0x03]]));
    refused("table-refusal-05", table(&light_rows(17)));
    refused("table-refusal-06", table(&[(1, 9, 9, 0), (0, 9, 9, 1)]));
    refused("table-refusal-07", table(&[(9, 8, 9, 0)]));
    refused("table-refusal-08", table(&[(8, 10, 9, 0)]));
    refused("table-refusal-09-rank-n", table(&[(1, 9, 9, 2), (1, 9, 9, 0)]));
    refused("table-refusal-09-rank-used", table(&[(1, 9, 9, 0), (1, 9, 9, 0)]));
    refused("table-refusal-10", table(&[(3, 6, 6, 0), (2, 8, 8, 1), (3, 12, 12, 2)]));
    let first = rows_only(&[(2, 4, 4, 0)]);
    let second = |row| ended(&[first.clone(), margin_rows(&[row])]);
    refused("table-refusal-03-margin-row", vec![0x02, 0x00, 0x07]);
    refused("table-refusal-06-margin-row", second((0, 4, 4, 1, 1)));
    refused("table-refusal-10-margin-row", second((3, 4, 4, 1, 1)));
    refused("table-refusal-21", second((2, 4, 4, 1, 0)));
    refused("table-refusal-22", second((2, 4, 4, 1, 1)));
}

/// 1, 2, 3 and 20: after these the program stops, good events or not.
fn events_refused(list: &mut Vec<RunVector>) {
    let before = join(&[tick(3, 0), offer(1, 9)]);
    let after = join(&[plain(), offer(1, 9)]);
    let mut stops = |name: &str, event: &[u8]| {
        add(list, name, table_a(), &[before.clone(), event.to_vec(), after.clone()]);
    };
    stops("event-refusal-02-tag-23", &[0x23, 0x00, 0x03, 0x00, 0x00, 0x00]);
    stops("event-refusal-02-tag-00", &[0x00, 0x00, 0x00]);
    stops("event-refusal-02-row", &rows_only(&[(1, 1, 1, 0)]));
    stops("event-refusal-02-table-end", &[0x0f, 0x00, 0x00]);
    stops("event-refusal-02-before-03", &[0x20, 0x00, 0x09]);
    stops("event-refusal-03-tick-of-four", &[0x21, 0x00, 0x04, 0x00, 0x00, 0x00, 0x00]);
    stops("event-refusal-03-tick-of-two", &[0x21, 0x00, 0x02, 0x00, 0x00]);
    stops("event-refusal-03-tick-of-none", &[0x21, 0x00, 0x00]);
    stops("event-refusal-03-offer-of-three", &[0x22, 0x00, 0x03, 0x00, 0x01, 0x00]);
    stops("event-refusal-03-high-byte", &[0x22, 0x01, 0x04, 0x00, 0x01, 0x00, 0x09]);
    stops("event-refusal-20-bit-2", &tick(0, 0x04));
    stops("event-refusal-20-bit-7-with-done", &tick(0, 0x81));
    stops("event-refusal-20-all-bits", &tick(0, 0xff));
    stops("event-refusal-20-with-a-row-above-n", &tick(0x8000, 0x08));
    stops("event-refusal-20-with-a-row-not-rested", &tick(1, 0x10));

    let mut cut = |name: &str, event: &[u8]| {
        add(list, name, table_a(), &[before.clone(), event.to_vec()]);
    };
    cut("event-refusal-01-one-byte", &[0x21]);
    cut("event-refusal-01-one-byte-of-no-tag", &[0x77]);
    cut("event-refusal-01-two-bytes", &[0x22, 0x00]);
    cut("event-refusal-01-tick-without-value", &[0x21, 0x00, 0x03]);
    cut("event-refusal-01-tick-cut-by-one", &[0x21, 0x00, 0x03, 0x00, 0x01]);
    cut("event-refusal-01-offer-cut-by-one", &[0x22, 0x00, 0x04, 0x00, 0x01, 0x00]);
    cut("event-refusal-03-before-01", &[0x22, 0x00, 0x05, 0x00]);
    add(list, "event-refusal-02-first-of-all", empty_table(), &[vec![0xff, 0xff, 0xff], plain()]);
}

/// 12, 13 and 14: noted, and the tick is stepped.
fn ticks_noted(list: &mut Vec<RunVector>) {
    rows_above_n_noted(list);
    needless_done_noted(list);
    unready_rows_noted(list);
    several_noted(list);
}

fn rows_above_n_noted(list: &mut Vec<RunVector>) {
    let above_a = join(&(3..=16).map(|row| tick(row_bit(row), 0)).collect::<Vec<_>>());
    add(list, "tick-notes-12-every-bit-above-n", table_a(), &[above_a, plain()]);
    add(
        list,
        "tick-notes-12-beside-a-release",
        table_a(),
        &[tick(0x8001, 0), tick(0xfffc, SOFT), tick(0x8006, 0), times(7, plain())],
    );
    // Row 1 is rested, and the upload is run, by ticks that were noted.
    add(
        list,
        "tick-notes-12-time-goes-on",
        table_a(),
        &[offer(2, 4), tick(5, 0), times(7, tick(4, 0)), tick(5, 0), times(2, plain())],
    );
    let no_rows = [tick(1, 0), tick(0xffff, SOFT), offer(1, 1), tick(0x0100, 0), plain()];
    add(list, "tick-notes-12-empty-table", empty_table(), &no_rows);
    let fifteen = [tick(0xffff, 0), tick(0x8000, 0), plain()];
    add(list, "tick-notes-12-fifteen-rows", table(&light_rows(15)), &fifteen);
}

fn needless_done_noted(list: &mut Vec<RunVector>) {
    let mut on_a = |name: &str, events: &[Vec<u8>]| add(list, name, table_a(), events);
    on_a("tick-notes-13-no-tick-before", &[tick(3, DONE), tick(0, DONE), plain()]);
    on_a("tick-notes-13-after-soft", &[tick(3, SOFT), tick(0, DONE), tick(0, DONE), plain()]);
    on_a(
        "tick-notes-13-with-soft",
        &[tick(3, DONE | SOFT), tick(0, DONE | SOFT), plain(), tick(0, DONE | SOFT), plain()],
    );
    on_a("tick-notes-13-after-idle", &[plain(), tick(1, DONE), tick(0, DONE), plain()]);
    on_a("tick-notes-13-done-twice", &[tick(1, 0), tick(0, DONE), tick(0, DONE), plain()]);
    // The job is not closed by the flag that is noted, and runs to its end.
    on_a(
        "tick-notes-13-of-a-job-that-waits",
        &[tick(1, 0), tick(0, SOFT), tick(0, DONE), plain(), plain()],
    );
    on_a(
        "tick-notes-13-of-an-upload-that-closed",
        &[offer(2, 4), plain(), tick(0, DONE), tick(0, DONE), plain()],
    );
}

fn unready_rows_noted(list: &mut Vec<RunVector>) {
    let mut on_a = |name: &str, events: &[Vec<u8>]| add(list, name, table_a(), events);
    on_a("tick-notes-14-until-rested", &[times(26, tick(3, 0)), plain()]);
    on_a(
        "tick-notes-14-one-tick-early",
        &[tick(1, 0), times(6, plain()), tick(1, 0), tick(1, 0), times(3, plain())],
    );
    // Promotion is counted from the two good releases, at 0 and 8.
    on_a(
        "tick-notes-14-between-two-releases",
        &[
            tick(1, SOFT),
            times(2, tick(0, SOFT)),
            tick(1, SOFT),
            times(4, tick(0, SOFT)),
            tick(1, SOFT),
            times(6, tick(0, SOFT)),
        ],
    );
    on_a("tick-notes-14-beside-a-release", &[tick(1, SOFT), tick(3, 0), times(8, plain())]);
    // Closed by this very call, and yet not rested.
    on_a("tick-notes-14-of-a-row-that-closes", &[tick(1, 0), tick(1, DONE), tick(1, 0), plain()]);
    // Every T ticks this row closes and is released by one call: as spent, as
    // done, and as spent again.
    let full = table(&[(4, 4, 4, 0)]);
    let asks = |how_many| times(how_many, tick(1, 0));
    let closes = [asks(8), tick(1, DONE), asks(7), plain()];
    add(list, "tick-notes-14-until-this-call-closes", full, &closes);
    let sixteen = table(&light_rows(16));
    let high = [tick(0x8000, 0), tick(0x8000, 0), tick(0xffff, 0), tick(0xffff, 0), plain()];
    add(list, "tick-notes-14-sixteen-rows", sixteen, &high);
}

fn several_noted(list: &mut Vec<RunVector>) {
    let mut on_a = |name: &str, events: &[Vec<u8>]| add(list, name, table_a(), events);
    on_a("tick-notes-12-13-together", &[tick(4, DONE), plain()]);
    on_a("tick-notes-12-14-together", &[tick(3, 0), tick(7, 0), plain()]);
    on_a("tick-notes-13-14-together", &[tick(1, SOFT), tick(1, DONE), tick(0, DONE), plain()]);
    on_a(
        "tick-notes-12-13-14-together",
        &[tick(3, SOFT), tick(0xffff, DONE | SOFT), tick(0xffff, DONE), tick(0, DONE), plain()],
    );
    on_a(
        "tick-notes-12-13-14-beside-a-release",
        &[tick(1, SOFT), tick(0x8003, DONE), tick(0, DONE), times(9, plain())],
    );
    on_a(
        "tick-notes-12-13-14-in-turn-and-closings",
        &[tick(3, 0), tick(1, DONE), tick(0x10, DONE), tick(0, DONE), plain()],
    );
}

/// 15 to 18: after these the program goes on.
fn offers_refused(list: &mut Vec<RunVector>) {
    let mut on_empty = |name: &str, events: &[Vec<u8>]| add(list, name, empty_table(), events);
    on_empty(
        "offer-refusal-15",
        &[offer(0, 0), offer(0, 9), offer(0, 65535), offer(1, 1), plain()],
    );
    on_empty(
        "offer-refusal-16",
        &[offer(1, 0), offer(9, 8), offer(65535, 65534), offer(256, 255), offer(8, 8)],
    );
    let eight = times(8, offer(1, 50));
    on_empty("offer-refusal-17-ninth", &[eight.clone(), offer(1, 50), times(10, plain())]);
    on_empty(
        "offer-refusal-17-after-15-and-16",
        &[eight.clone(), offer(0, 50), offer(2, 1), offer(1, 1), plain()],
    );
    // The first job is fully run after one tick and closes in the next.
    on_empty(
        "offer-refusal-17-until-closed",
        &[
            eight.clone(),
            plain(),
            offer(1, 50),
            plain(),
            offer(1, 50),
            offer(1, 50),
            times(12, plain()),
        ],
    );
    on_empty(
        "offer-refusal-17-freed-by-done",
        &[
            times(8, offer(3, 50)),
            plain(),
            offer(3, 50),
            tick(0, DONE),
            offer(3, 50),
            times(30, plain()),
        ],
    );
    on_empty(
        "offer-refusal-18-budgets-queued",
        &[
            offer(3, 3),
            offer(3, 5),
            offer(3, 6),
            plain(),
            offer(1, 5),
            offer(1, 6),
            offer(1, 7),
            times(9, plain()),
        ],
    );
    on_empty(
        "offer-refusal-18-largest-budgets",
        &[offer(65535, 65535), offer(1, 65535), plain(), offer(1, 65535), offer(1, 65535), plain()],
    );
    let one = table(&[(1, 1, 1, 0)]);
    add(list, "offer-refusal-18-period-one", one, &[offer(1, 1), offer(1, 65535), plain()]);
    // Both rows have U = 0: the claims are above the window.
    let above = table(&[(1, 1, 2, 0), (1, 2, 2, 1)]);
    add(
        list,
        "offer-refusal-18-room-below-zero",
        above,
        &[offer(1, 1), offer(1, 65535), tick(3, 0), offer(1, 1), plain()],
    );
}

/// The order of the five choices, and the tick of promotion.
fn choices(list: &mut Vec<RunVector>) {
    // Row order 1, 2, 3 in the upper band; 3, 1, 2 in the lower.
    let three = table(&[(2, 20, 20, 1), (3, 25, 25, 2), (2, 30, 30, 0)]);
    add(list, "choice-lower-band-by-rank", three.clone(), &[tick(7, 0), times(9, plain())]);
    add(
        list,
        "choice-upper-band-by-row",
        three.clone(),
        &[tick(7, SOFT), times(29, tick(0, SOFT))],
    );
    add(
        list,
        "choice-soft-before-lower-band",
        three.clone(),
        &[tick(7, 0), tick(0, SOFT), plain(), tick(0, SOFT), times(8, plain())],
    );
    add(
        list,
        "choice-firm-before-soft",
        three.clone(),
        &[tick(7, SOFT), offer(2, 10), offer(1, 10), times(5, tick(0, SOFT)), times(8, plain())],
    );
    add(
        list,
        "choice-promoted-before-firm",
        three.clone(),
        &[tick(7, SOFT), offer(16, 20), offer(10, 40), times(40, tick(0, SOFT))],
    );
    add(
        list,
        "choice-promoted-at-release-and-u",
        table_a(),
        &[tick(1, SOFT), times(7, tick(0, SOFT))],
    );
    add(
        list,
        "choice-u-zero-is-promoted-at-once",
        table(&[(2, 4, 4, 0), (2, 4, 4, 1)]),
        &[tick(2, SOFT), tick(1, SOFT), times(6, tick(0, SOFT))],
    );
    add(
        list,
        "choice-released-late-by-rank",
        three,
        &[tick(2, 0), tick(1, 0), tick(4, 0), times(8, plain())],
    );
}

/// Done and spent, and what a closing leaves.
fn closings(list: &mut Vec<RunVector>) {
    let mut on_a = |name: &str, events: &[Vec<u8>]| add(list, name, table_a(), events);
    on_a("closing-hard-spent", &[tick(1, 0), plain(), plain(), plain()]);
    on_a("closing-hard-done-early", &[tick(2, 0), plain(), tick(0, DONE), plain()]);
    on_a("closing-hard-done-at-last-tick", &[tick(1, 0), plain(), tick(0, DONE), plain()]);
    on_a("closing-firm-done-early", &[offer(3, 4), plain(), tick(0, DONE), plain(), offer(1, 1)]);
    on_a(
        "closing-firm-done-at-last-tick",
        &[offer(2, 4), plain(), plain(), tick(0, DONE), plain()],
    );
    on_a("closing-firm-spent", &[offer(2, 4), plain(), plain(), plain(), plain()]);
    on_a("closing-after-an-offer", &[tick(1, 0), offer(2, 3), tick(0, DONE), times(3, plain())]);
    on_a(
        "closing-spent-after-an-offer",
        &[tick(1, 0), plain(), offer(1, 2), offer(0, 0), plain(), plain()],
    );
    on_a(
        "closing-and-next-firm-job",
        &[offer(1, 4), offer(2, 4), plain(), tick(2, DONE), plain(), plain()],
    );
    let one = table(&[(1, 1, 1, 0)]);
    add(
        list,
        "closing-and-release-in-one-call",
        one,
        &[
            tick(1, 0),
            tick(1, 0),
            tick(1, DONE),
            tick(0, DONE),
            tick(0, SOFT),
            tick(1, SOFT),
            plain(),
        ],
    );
    // The job runs up to its last tick before the row is rested.
    let full = table(&[(4, 4, 4, 0)]);
    let period = join(&[tick(1, 0), times(3, plain())]);
    add(list, "closing-and-release-of-a-full-row", full, &[times(3, period), plain()]);
}

/// Offers that look at open and future jobs.
fn rooms(list: &mut Vec<RunVector>) {
    // On the fresh station every window is asked for one tick too much, then
    // one window for all it has.
    let fresh = Maker::new(&table_a());
    let mut events = Vec::new();
    for d in 1..=60 {
        let most = fresh.largest_budget(d);
        if most < d {
            events.push(offer(most + 1, d));
        }
    }
    events.push(offer(fresh.largest_budget(30), 30));
    events.push(times(60, plain()));
    add(list, "room-of-future-jobs", table_a(), &events);
    let sixteen: Vec<_> = (0..16).map(|i| (1, 18 + i, 40 + i, 15 - i as u8)).collect();
    for (name, file) in [
        ("room-to-the-tick-table-a", table_a()),
        ("room-to-the-tick-three-rows", table(&[(1, 4, 5, 2), (2, 9, 9, 0), (3, 14, 20, 1)])),
        ("room-to-the-tick-sixteen-rows", table(&sixteen)),
    ] {
        let events = to_the_tick(&file, 150);
        add(list, name, file, &[events]);
    }
    add(
        list,
        "room-of-open-and-future-jobs",
        table_a(),
        &[
            tick(3, SOFT),
            offer(7, 16),
            offer(6, 16),
            offer(5, 16),
            times(7, tick(0, SOFT)),
            tick(1, SOFT),
            offer(2, 12),
            offer(1, 12),
            times(3, tick(0, SOFT)),
            tick(2, SOFT),
            offer(4, 30),
            times(40, plain()),
        ],
    );
    add(
        list,
        "room-of-a-closed-job-not-yet-rested",
        table_a(),
        &[tick(1, 0), tick(0, DONE), offer(10, 10), offer(9, 10), offer(1, 10), times(12, plain())],
    );
    add(
        list,
        "room-of-a-fully-run-open-job",
        table_a(),
        &[tick(1, 0), plain(), offer(5, 5), times(8, plain())],
    );
    add(
        list,
        "room-of-the-largest-window",
        table(&[(1, 2, 2, 0)]),
        &[
            offer(32768, 65535),
            offer(32768, 65534),
            offer(32767, 65534),
            offer(1, 65535),
            plain(),
            offer(1, 65535),
            offer(1, 65535),
            plain(),
        ],
    );
    let sixteen: Vec<_> = (0..16).map(|rank| (1, 65535, 65535, rank)).collect();
    add(
        list,
        "room-of-sixteen-long-rows",
        table(&sixteen),
        &[
            offer(65535, 65535),
            offer(65520, 65535),
            offer(65519, 65535),
            tick(0xffff, 0),
            offer(15, 65535),
            plain(),
        ],
    );
}

/// Margins: promotion comes earlier, and takes room.
fn margins(list: &mut Vec<RunVector>) {
    let a = table_a_with_margins();
    let soft = |how_many| times(how_many, tick(0, SOFT));
    add(list, "margin-promoted-earlier", a.clone(), &[tick(3, SOFT), soft(13)]);
    add(
        list,
        "margin-listing",
        a.clone(),
        &[
            tick(3, 0),
            tick(0, SOFT),
            offer(2, 4),
            plain(),
            tick(1, 0),
            plain(),
            plain(),
            tick(0, DONE),
        ],
    );
    // Three rows alike but for their margins: U 19, 10 and 0.
    let alike = ended(&[
        rows_only(&[(1, 20, 20, 0)]),
        margin_rows(&[(1, 20, 20, 1, 8), (1, 20, 20, 2, 17)]),
    ]);
    add(list, "margin-promoted-in-another-order", alike.clone(), &[tick(7, SOFT), soft(22)]);
    add(list, "margin-promoted-before-firm", alike, &[offer(9, 12), tick(7, SOFT), soft(22)]);
    // With the largest margin a row is promoted at its release.
    let largest = margin_table(&[(2, 6, 8, 0, 4), (5, 12, 12, 1, 5)]);
    let releases = [tick(3, SOFT), soft(7), tick(1, SOFT), soft(3), tick(2, SOFT), soft(8)];
    add(list, "margin-largest-promoted-at-once", largest.clone(), &releases);
    add(
        list,
        "margin-offers",
        a.clone(),
        &[offer(1, 3), offer(1, 8), offer(2, 8), tick(3, SOFT), offer(5, 12), soft(30)],
    );
    let fresh = Maker::new(&a);
    let too_much = (1..=60).map(|d| offer(fresh.largest_budget(d) + 1, d));
    let all_there_is = offer(fresh.largest_budget(30), 30);
    add(
        list,
        "margin-room-of-future-jobs",
        a.clone(),
        &[too_much.collect::<Vec<_>>().concat(), all_there_is, times(60, plain())],
    );
    for (name, file) in [
        ("margin-room-to-the-tick-table-a", a.clone()),
        (
            "margin-room-to-the-tick-both-tags",
            ended(&[
                margin_rows(&[(1, 4, 5, 2, 1), (2, 9, 9, 0, 2)]),
                rows_only(&[(3, 14, 20, 1)]),
            ]),
        ),
    ] {
        let events = to_the_tick(&file, 100);
        add(list, name, file, &[events]);
    }
    add(list, "margin-load-soft-always", a.clone(), &[eager(&a, 300, 0)]);
    add(list, "margin-load-largest", largest.clone(), &[eager(&largest, 300, 7)]);
}

/// Again and again: an offer of one tick too much, an offer of all there is, a
/// tick, and mostly a done flag in the next one.
fn to_the_tick(table: &[u8], how_often: u64) -> Vec<u8> {
    let mut random = Random::new(400);
    let mut maker = Maker::new(table);
    for _ in 0..how_often {
        let d = random.between(1, 90) as u16;
        let most = maker.largest_budget(d);
        if most < d {
            maker.event(offer(most + 1, d));
        }
        if most > 0 {
            maker.event(offer(most, d));
        }
        for _ in 0..2 {
            let soft = random.once_in(2);
            maker.random_tick(&mut random, soft);
        }
        if matches!(maker.station.last, Last::Firm) {
            maker.event(tick(0, DONE));
        }
    }
    maker.bytes
}

/// Long runs with the soft flag always set.
fn loads(list: &mut Vec<RunVector>) {
    let table_b = table(&[(1, 4, 5, 2), (2, 9, 9, 0), (3, 14, 20, 1)]);
    add(list, "load-soft-always", table_a(), &[eager(&table_a(), 400, 0)]);
    add(list, "load-soft-always-three-rows", table_b.clone(), &[eager(&table_b, 400, 0)]);
    add(list, "load-soft-always-with-offers", table_a(), &[eager(&table_a(), 400, 7)]);
    add(list, "load-soft-without-hard-work", table_a(), &[times(300, tick(0, SOFT))]);
    add(
        list,
        "load-full-table",
        table(&[(2, 4, 4, 1), (2, 4, 4, 0)]),
        &[times(50, join(&[tick(3, SOFT), times(3, tick(0, SOFT))]))],
    );
}

/// Ticks with the soft flag that release each row as soon as it is rested, and
/// an offer before every few of them (none if 0).
fn eager(table: &[u8], ticks: u64, offer_every: u64) -> Vec<u8> {
    let mut maker = Maker::new(table);
    for count in 1..=ticks {
        if offer_every > 0 && count % offer_every == 0 {
            maker.event(offer(1 + (count % 4) as u16, 12 + (count % 11) as u16));
        }
        let mut releases = 0;
        for row in 1..=maker.station.rows.len() {
            if maker.station.rows[row - 1].rested(maker.station.time) {
                releases += row_bit(row);
            }
        }
        maker.event(tick(releases, SOFT));
    }
    maker.bytes
}

/// A list of events, and the station they lead to: what the next event may be
/// is looked up there.
struct Maker {
    station: Station,
    bytes: Vec<u8>,
}

impl Maker {
    fn new(table: &[u8]) -> Maker {
        let table = read_table(table).expect("the table is good");
        Maker { station: Station::new(&table), bytes: Vec::new() }
    }

    /// Adds an event and gives it to the station, refused or not.
    fn event(&mut self, field: Vec<u8>) {
        match read_event(&field, 0) {
            Found::Event(Event::Tick { releases, done, soft }, _) => {
                self.station.tick(releases, done, soft);
            }
            Found::Event(Event::Offer { budget, deadline }, _) => {
                let _ = self.station.offer(budget, deadline);
            }
            _ => panic!("a made event is whole"),
        }
        self.bytes.extend(field);
    }

    /// A random tick: mostly one in which nothing is noted.
    fn random_tick(&mut self, random: &mut Random, soft: bool) {
        let mut releases = 0;
        for row in 1..=16 {
            let released = match self.station.rows.get(row - 1) {
                Some(hard) if hard.rested(self.station.time) => random.once_in(6),
                Some(_) => random.once_in(100),
                None => random.once_in(200),
            };
            if released {
                releases += row_bit(row);
            }
        }
        let done = random.once_in(if self.station.ran_job() { 5 } else { 50 });
        self.event(tick(releases, flags(done, soft)));
    }

    /// A tick on a noisy line: any bits, of rows that are not ready and not there
    /// too, and done whatever ran.
    fn noisy_tick(&mut self, random: &mut Random) {
        let any = |random: &mut Random| random.below(1 << 16) as u16;
        let releases = any(random) & any(random);
        let (done, soft) = (random.once_in(3), random.once_in(2));
        self.event(tick(releases, flags(done, soft)));
    }

    /// The largest budget with room in this window, 0 if none.
    fn largest_budget(&self, d: u16) -> u16 {
        (self.station.room(d) - self.station.unrun_budgets()).max(0) as u16
    }

    /// A random offer: budgets from 0, windows up to `longest`. Now and then it
    /// asks for one tick more than there is room for.
    fn random_offer(&mut self, random: &mut Random, longest: u64) {
        if random.once_in(4) {
            let d = random.between(1, longest) as u16;
            let most = self.largest_budget(d);
            if most < d {
                self.event(offer(most + 1, d));
                return;
            }
        }
        let budget = random.below(longest / 8 + 2);
        let deadline = random.between(budget.saturating_sub(1), longest);
        self.event(offer(budget as u16, deadline as u16));
    }

    /// As many ticks and offers, mixed. Soft work comes and goes in spells.
    fn mixed(&mut self, random: &mut Random, ticks: u64, offers: u64, longest: u64) {
        let (mut ticks, mut offers) = (ticks, offers);
        let mut spell = false;
        while ticks + offers > 0 {
            if random.once_in(20) {
                spell = !spell;
            }
            if random.below(ticks + offers) < offers {
                offers -= 1;
                self.random_offer(random, longest);
            } else {
                ticks -= 1;
                let soft = if random.once_in(5) { !spell } else { spell };
                self.random_tick(random, soft);
            }
        }
    }
}

fn flags(done: bool, soft: bool) -> u8 {
    u8::from(done) * DONE + u8::from(soft) * SOFT
}

/// Random tables on a noisy line, with an offer now and then.
fn noises(list: &mut Vec<RunVector>) {
    for seed in 1..=8 {
        let mut random = Random::new(600 + seed);
        let n = 2 * seed;
        let file = random_accepted(&mut random, n, 20 * n);
        let mut maker = Maker::new(&file);
        for _ in 0..200 {
            if random.once_in(10) {
                maker.random_offer(&mut random, 60);
            }
            maker.noisy_tick(&mut random);
        }
        add(list, &format!("random-noise-{seed}"), file, &[maker.bytes]);
    }
}

/// Random runs of random tables.
fn randoms(list: &mut Vec<RunVector>) {
    for seed in 1..=3 {
        let mut random = Random::new(100 + seed);
        let file = random_accepted(&mut random, 16, 600);
        let mut maker = Maker::new(&file);
        maker.mixed(&mut random, 700, 120, 150);
        add(list, &format!("random-sixteen-rows-{seed}"), file, &[maker.bytes]);
    }
    for seed in 1..=24 {
        let mut random = Random::new(200 + seed);
        let n = random.between(0, 8);
        let longest = [12, 40, 150][seed as usize % 3];
        let file = random_accepted(&mut random, n, longest * 1.max(n / 3));
        let mut maker = Maker::new(&file);
        maker.mixed(&mut random, 200, 40, 2 * longest);
        let mut events = maker.bytes;
        // The last ones end in a cut event.
        if seed > 20 {
            events.truncate(events.len() - 1 - random.below(5) as usize);
        }
        add(list, &format!("random-{seed:02}"), file, &[events]);
    }
}

/// Random runs of random tables with margins.
fn random_tables_with_margins(list: &mut Vec<RunVector>) {
    for seed in 1..=10 {
        let mut random = Random::new(500 + seed);
        let n = random.between(3, 8);
        let longest = [12, 40, 150][seed as usize % 3];
        let file = random_accepted(&mut random, n, longest * 1.max(n / 3));
        let file = random_margins(&mut random, &file);
        let mut maker = Maker::new(&file);
        maker.mixed(&mut random, 200, 40, 2 * longest);
        add(list, &format!("random-margins-{seed:02}"), file, &[maker.bytes]);
    }
}

/// Files at their limits and above.
fn lengths(list: &mut Vec<RunVector>) {
    let filled = |size: usize| {
        let mut bytes = table_a();
        bytes.resize(size, 0x00);
        bytes
    };
    let full = filled(TABLE_LIMIT);
    let over = filled(TABLE_LIMIT + 1);
    add(list, "length-table-256-gives-04", full.clone(), &[plain()]);
    add(list, "length-table-257-too-long", over.clone(), &[plain()]);
    add_files(list, "length-table-257-events-missing-too-long", Some(over), None);

    // 9,300 ticks of six bytes and 600 offers of seven are 60,000 bytes. The
    // last row rests for 5,000 ticks.
    let file = table(&[(2, 6, 8, 1), (5, 12, 12, 2), (3, 5000, 5000, 0)]);
    let mut maker = Maker::new(&file);
    maker.event(tick(4, 0));
    let mut random = Random::new(300);
    maker.mixed(&mut random, 4997, 300, 40);
    while maker.station.time < 4999 {
        maker.event(plain());
    }
    maker.event(tick(4, 0));
    maker.event(tick(4, 0));
    let left = EVENTS_LIMIT - maker.bytes.len() - 7 * 300;
    maker.mixed(&mut random, left as u64 / 6, 300, 40);
    let events = maker.bytes;
    assert_eq!(events.len(), EVENTS_LIMIT);
    add(list, "length-events-60000", file.clone(), std::slice::from_ref(&events));
    add(list, "length-events-60001-too-long", file, &[events.clone(), vec![0x21]]);

    // Of no use to look into: the length is decided first.
    let zeros = vec![0; EVENTS_LIMIT + 1];
    add_files(list, "length-events-60001-table-missing-too-long", None, Some(zeros));
    let last_cut = join(&[times(EVENTS_LIMIT / 6 - 1, tick(0, SOFT)), offer(1, 1)[..6].to_vec()]);
    add(list, "length-events-60000-last-cut", empty_table(), &[last_cut]);
    add(list, "length-events-60000-with-full-table", full, &[events]);
}
