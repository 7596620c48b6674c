//! The vectors for `plan`.

use crate::programs::TABLE_LIMIT;
use crate::random::Random;
use crate::table::{scan, RowField};
use crate::vectors::{
    empty_table, ended, join, light_rows, margin_rows, margin_table, random_accepted,
    random_margins, rows_only, table, table_a, table_a_with_margins, PlanVector,
};

/// All vectors for `plan`.
pub fn all() -> Vec<PlanVector> {
    let mut list = Vec::new();
    accepted(&mut list);
    bytes_of_the_file(&mut list);
    rows_of_the_table(&mut list);
    orders(&mut list);
    accepted_margins(&mut list);
    bytes_of_margin_rows(&mut list);
    margin_rows_of_the_table(&mut list);
    orders_with_margins(&mut list);
    lengths(&mut list);
    randoms(&mut list);
    random_tables_with_margins(&mut list);
    list
}

fn add(list: &mut Vec<PlanVector>, name: &str, stdin: Vec<u8>) {
    list.push(PlanVector { name: name.to_string(), stdin });
}

fn accepted(list: &mut Vec<PlanVector>) {
    add(list, "table-a", table_a());
    add(list, "empty-table", empty_table());
    add(list, "figure-two-rows", table(&[(3, 6, 6, 0), (2, 8, 8, 1)]));
    add(list, "figure-u-zero", table(&[(2, 4, 4, 0), (2, 4, 4, 1)]));
    add(list, "figure-period-one", table(&[(1, 1, 1, 0)]));
    add(list, "figure-largest-row", table(&[(65535, 65535, 65535, 0)]));
    add(list, "sixteen-rows", table(&light_rows(16)));
    add(list, "sixteen-rows-ranks-turned-round", table(&turned_round(light_rows(16))));
    let largest: Vec<_> = (0..16).map(|index| (4095, 65535, 65535, index)).collect();
    add(list, "sixteen-rows-of-largest-periods", table(&largest));
    add(list, "small-row-under-largest", table(&[(65534, 65534, 65535, 1), (1, 65535, 65535, 0)]));
    // 249 of 250 ticks are taken above: the iteration climbs slowly.
    add(list, "many-rounds-two-rows", table(&[(249, 250, 250, 1), (250, 65535, 65535, 0)]));
    add(list, "many-rounds-halves", table(&halves()));
    add(list, "many-rounds-refused-gives-10", table(&[(249, 250, 250, 1), (250, 62499, 65535, 0)]));
}

/// The same rows with the ranks in the opposite order.
fn turned_round(mut rows: Vec<(u16, u16, u16, u8)>) -> Vec<(u16, u16, u16, u8)> {
    let last = rows.len() as u8 - 1;
    for row in &mut rows {
        row.3 = last - row.3;
    }
    rows
}

/// Rows of one tick in 2, 4, 8, .. ticks, which leave one tick in 2^15 free,
/// and a row for that one.
fn halves() -> Vec<(u16, u16, u16, u8)> {
    let mut rows = Vec::new();
    for power in 1..=15 {
        let period = 2_u16.pow(power);
        rows.push((1, period, period, power as u8 - 1));
    }
    rows.push((1, 65535, 65535, 15));
    rows
}

/// Refusals 1 to 5, which look at the bytes only.
fn bytes_of_the_file(list: &mut Vec<PlanVector>) {
    let a = table_a();
    add(list, "empty-input-gives-01", vec![]);
    add(list, "refusal-01-one-byte", vec![0x0f]);
    add(list, "refusal-01-two-bytes", vec![0x0f, 0x00]);
    add(list, "refusal-01-no-end-field", a[..20].to_vec());
    add(list, "refusal-01-end-field-of-one-byte", a[..21].to_vec());
    add(list, "refusal-01-end-field-of-two-bytes", a[..22].to_vec());
    add(list, "refusal-01-value-cut-by-one", a[..19].to_vec());
    add(list, "refusal-01-value-cut-whole", a[..13].to_vec());
    add(list, "refusal-01-first-value-cut", a[..5].to_vec());
    add(list, "refusal-02-tag-00", vec![0x00, 0x00, 0x00]);
    add(
        list,
        "refusal-02-tag-ff",
        join(&[a[..10].to_vec(), vec![0xff, 0x00, 0x07], a[13..].to_vec()]),
    );
    add(list, "refusal-02-event-tag", vec![0x21, 0x00, 0x03, 0x00, 0x00, 0x00]);
    add(list, "refusal-02-in-place-of-the-end", join(&[a[..20].to_vec(), vec![0x0e, 0x00, 0x00]]));
    add(list, "refusal-03-row-of-six", join(&[vec![0x01, 0x00, 0x06], a[3..].to_vec()]));
    add(list, "refusal-03-row-of-eight", join(&[vec![0x01, 0x00, 0x08], a[3..].to_vec()]));
    add(list, "refusal-03-row-length-swapped", join(&[vec![0x01, 0x07, 0x00], a[3..].to_vec()]));
    add(list, "refusal-03-row-high-byte", join(&[vec![0x01, 0x01, 0x07], a[3..].to_vec()]));
    add(list, "refusal-03-row-of-none", join(&[vec![0x01, 0x00, 0x00], a[20..].to_vec()]));
    add(list, "refusal-03-end-of-one", join(&[a[..20].to_vec(), vec![0x0f, 0x00, 0x01, 0x00]]));
    add(list, "refusal-03-end-of-256", join(&[a[..20].to_vec(), vec![0x0f, 0x01, 0x00]]));
    add(list, "refusal-04-one-byte", join(&[a.clone(), vec![0x00]]));
    add(list, "refusal-04-second-end-field", join(&[a.clone(), empty_table()]));
    add(list, "refusal-04-row-after-the-end", join(&[a.clone(), rows_only(&[(1, 9, 9, 2)])]));
    add(list, "refusal-04-after-the-empty-table", join(&[empty_table(), vec![0x0f]]));
    add(list, "refusal-05-seventeen-rows", table(&light_rows(17)));
    add(list, "refusal-05-twenty-rows", table(&light_rows(20)));
}

/// Refusals 6 to 10, which look at the rows.
fn rows_of_the_table(list: &mut Vec<PlanVector>) {
    let first = (1, 9, 9, 0);
    add(list, "refusal-06-c-zero", table(&[(0, 5, 9, 0)]));
    add(list, "refusal-06-all-zero", table(&[first, (0, 0, 0, 1)]));
    add(list, "refusal-07-c-above-d", table(&[first, (6, 5, 9, 1)]));
    add(list, "refusal-07-largest-c", table(&[(65535, 65534, 65535, 0)]));
    add(list, "refusal-07-high-byte", table(&[(256, 255, 65535, 0)]));
    add(list, "refusal-08-d-above-t", table(&[first, (1, 10, 9, 1)]));
    add(list, "refusal-08-t-zero", table(&[(1, 1, 0, 0)]));
    add(list, "refusal-08-high-byte", table(&[(1, 256, 255, 0)]));
    add(list, "refusal-09-rank-n", table(&[(1, 9, 9, 1), (1, 9, 9, 2)]));
    add(list, "refusal-09-rank-n-of-one-row", table(&[(1, 9, 9, 1)]));
    add(list, "refusal-09-rank-255", table(&[(1, 9, 9, 255)]));
    add(list, "refusal-09-rank-used", table(&[(1, 9, 9, 1), (1, 9, 9, 1)]));
    add(list, "refusal-09-rank-used-not-by-neighbour", table(&[first, (1, 9, 9, 1), (1, 9, 9, 0)]));
    let mut sixteen = light_rows(16);
    sixteen[15].3 = 16;
    add(list, "refusal-09-rank-16-of-sixteen", table(&sixteen));
    sixteen[15].3 = 7;
    add(list, "refusal-09-rank-used-in-sixteen", table(&sixteen));
    add(list, "refusal-10-figure-third-row", table(&[(3, 6, 6, 0), (2, 8, 8, 1), (3, 12, 12, 2)]));
    add(list, "refusal-10-figure-second-row", table(&[(2, 4, 4, 0), (3, 4, 4, 1)]));
    add(list, "refusal-10-period-one-twice", table(&[(1, 1, 1, 0), (1, 1, 1, 1)]));
    add(list, "refusal-10-period-one-above", table(&[(1, 1, 1, 1), (1, 65535, 65535, 0)]));
    add(list, "refusal-10-period-one-below", table(&[(1, 65535, 65535, 1), (1, 1, 1, 0)]));
    let largest: Vec<_> = (0..16).map(|rank| (65535, 65535, 65535, rank)).collect();
    add(list, "refusal-10-largest-everywhere", table(&largest));
    add(list, "refusal-10-by-one-tick", table(&[(65535, 65535, 65535, 0), (1, 65535, 65535, 1)]));
}

/// Several faults at once: the order of the checks decides.
fn orders(list: &mut Vec<PlanVector>) {
    let good = rows_only(&light_rows(16));
    let with = |tail: &[u8]| join(&[good.clone(), tail.to_vec()]);
    add(list, "order-header-cut-before-tag-gives-01", vec![0x77, 0x00]);
    add(list, "order-tag-before-length-gives-02", vec![0x77, 0x00, 0x09]);
    add(list, "order-tag-before-value-cut-gives-02", vec![0x77, 0x00, 0x07]);
    add(list, "order-length-before-value-cut-gives-03", vec![0x01, 0x00, 0x08, 0x00]);
    add(list, "order-seventeenth-header-cut-gives-01", with(&[0x01, 0x00]));
    add(list, "order-seventeenth-tag-gives-02", with(&[0x04, 0x00, 0x07]));
    add(list, "order-seventeenth-length-gives-03", with(&[0x01, 0x00, 0x06]));
    add(list, "order-seventeenth-before-value-cut-gives-05", with(&[0x01, 0x00, 0x07, 0x00]));
    add(
        list,
        "order-later-field-before-row-fault-gives-02",
        join(&[rows_only(&[(0, 0, 0, 9)]), vec![0x04, 0x00, 0x00]]),
    );
    add(list, "order-later-cut-before-row-fault-gives-01", rows_only(&[(0, 0, 0, 9)]));
    add(
        list,
        "order-bytes-after-before-row-fault-gives-04",
        join(&[table(&[(0, 0, 0, 9)]), vec![0xee]]),
    );
    add(
        list,
        "order-bytes-after-before-passing-d-gives-04",
        join(&[table(&[(2, 4, 4, 0), (3, 4, 4, 1)]), vec![0x0f, 0x00]]),
    );
    add(list, "order-seventeenth-before-row-fault-gives-05", table(&[(0, 0, 0, 0); 17]));
    add(list, "order-c-zero-before-rank-gives-06", table(&[(0, 0, 0, 9)]));
    add(list, "order-c-zero-before-d-above-t-gives-06", table(&[(0, 9, 1, 9)]));
    add(list, "order-c-above-d-before-d-above-t-gives-07", table(&[(3, 2, 1, 9)]));
    add(list, "order-d-above-t-before-rank-gives-08", table(&[(1, 2, 1, 9)]));
    add(
        list,
        "order-first-row-rank-before-second-c-zero-gives-09",
        table(&[(1, 9, 9, 2), (0, 0, 0, 0)]),
    );
    add(list, "order-second-c-zero-before-its-rank-gives-06", table(&[(1, 9, 9, 0), (0, 9, 9, 0)]));
    add(
        list,
        "order-third-row-before-second-passing-d-gives-06",
        table(&[(2, 4, 4, 0), (3, 4, 4, 1), (0, 1, 1, 2)]),
    );
    add(
        list,
        "order-third-rank-before-second-passing-d-gives-09",
        table(&[(2, 4, 4, 0), (3, 4, 4, 1), (1, 1, 1, 1)]),
    );
    add(
        list,
        "order-second-passing-d-before-third-gives-10",
        table(&[(2, 4, 4, 0), (3, 4, 4, 1), (4, 4, 4, 2)]),
    );
    add(
        list,
        "order-largest-everywhere-rank-too-gives-09",
        join(&[vec![0x01, 0x00, 0x07], vec![0xff; 7], empty_table()]),
    );
}

/// Rows (C, D, T, rank, M) with M = 9, like the light rows.
fn light_margin_rows(how_many: u16) -> Vec<(u16, u16, u16, u8, u16)> {
    light_rows(how_many).iter().map(|&(c, d, t, rank)| (c, d, t, rank, 9)).collect()
}

/// Tables with margins.
fn accepted_margins(list: &mut Vec<PlanVector>) {
    add(list, "margin-table-a", table_a_with_margins());
    add(list, "margin-one", margin_table(&[(2, 6, 8, 0, 1)]));
    let first = rows_only(&[(2, 6, 8, 0)]);
    let just_fits = margin_rows(&[(5, 12, 12, 1, 5)]);
    add(list, "margin-just-fits", ended(&[first.clone(), just_fits]));
    add(list, "margin-just-fits-row-1", margin_table(&[(2, 6, 8, 0, 4)]));
    add(list, "margin-high-byte", margin_table(&[(1, 600, 600, 0, 256)]));
    add(list, "margin-largest", margin_table(&[(1, 65535, 65535, 0, 65534)]));
    let (with, without) = (margin_rows(&[(1, 20, 20, 1, 3)]), rows_only(&[(1, 30, 30, 2)]));
    add(list, "margin-both-tags", ended(&[first, with, without]));
    add(list, "margin-sixteen-rows", margin_table(&light_margin_rows(16)));
    let (odd, even) = (light_margin_rows(16), light_rows(16));
    let in_turn = (0..16).map(|index| match index % 2 {
        0 => rows_only(&even[index..=index]),
        _ => margin_rows(&odd[index..=index]),
    });
    add(list, "margin-sixteen-rows-in-turn", ended(&in_turn.collect::<Vec<_>>()));
    // The rounds and R are those without a margin.
    add(
        list,
        "margin-many-rounds",
        margin_table(&[(249, 250, 250, 1, 1), (250, 65535, 65535, 0, 3000)]),
    );
}

/// Refusals 1 to 5 with the tag of a margin.
fn bytes_of_margin_rows(list: &mut Vec<PlanVector>) {
    let a = table_a_with_margins();
    add(list, "refusal-01-margin-row-no-end-field", a[..12].to_vec());
    add(list, "refusal-01-margin-row-cut-by-one", a[..23].to_vec());
    add(list, "refusal-01-margin-row-cut-by-m", a[..22].to_vec());
    add(list, "refusal-01-margin-row-cut-whole", a[..15].to_vec());
    add(list, "refusal-01-margin-row-header-cut", a[..14].to_vec());
    add(list, "refusal-02-after-a-margin-row", join(&[a[..12].to_vec(), vec![0x04, 0x00, 0x09]]));
    let header = |tag, high, low| join(&[vec![tag, high, low], a[3..].to_vec()]);
    add(list, "refusal-03-margin-row-of-seven", header(0x02, 0x00, 0x07));
    add(list, "refusal-03-margin-row-of-eight", header(0x02, 0x00, 0x08));
    add(list, "refusal-03-margin-row-of-ten", header(0x02, 0x00, 0x0a));
    add(list, "refusal-03-margin-row-length-swapped", header(0x02, 0x09, 0x00));
    add(list, "refusal-03-margin-row-high-byte", header(0x02, 0x01, 0x09));
    add(list, "refusal-03-row-of-nine", header(0x01, 0x00, 0x09));
    let second = join(&[a[..12].to_vec(), vec![0x02, 0x00, 0x07], a[15..].to_vec()]);
    add(list, "refusal-03-second-margin-row", second);
    add(list, "refusal-04-after-margin-rows", join(&[a.clone(), vec![0x00]]));
    add(list, "refusal-05-seventeen-margin-rows", margin_table(&light_margin_rows(17)));
    let (with, without) = (light_margin_rows(17), light_rows(17));
    add(
        list,
        "refusal-05-seventeenth-with-a-margin",
        ended(&[rows_only(&without[..16]), margin_rows(&with[16..])]),
    );
    add(
        list,
        "refusal-05-seventeenth-without-a-margin",
        ended(&[margin_rows(&with[..16]), rows_only(&without[16..])]),
    );
}

/// Refusals 6 to 10, 21 and 22 with the tag of a margin.
fn margin_rows_of_the_table(list: &mut Vec<PlanVector>) {
    // A row without and one with a margin before the row that is refused.
    let third = |row| ended(&[rows_only(&[(1, 9, 9, 0)]), margin_rows(&[(1, 9, 9, 1, 7), row])]);
    let first = |row| margin_table(&[row]);
    add(list, "refusal-06-margin-row", first((0, 5, 9, 0, 1)));
    add(list, "refusal-06-third-of-both-lengths", third((0, 0, 0, 2, 1)));
    add(list, "refusal-07-margin-row", first((6, 5, 9, 0, 1)));
    add(list, "refusal-07-third-of-both-lengths", third((6, 5, 9, 2, 1)));
    add(list, "refusal-08-margin-row", first((1, 10, 9, 0, 1)));
    add(list, "refusal-08-third-of-both-lengths", third((1, 10, 9, 2, 1)));
    add(list, "refusal-09-margin-row", first((1, 9, 9, 1, 1)));
    add(list, "refusal-09-third-of-both-lengths", third((1, 9, 9, 1, 1)));
    add(list, "refusal-10-margin-row", margin_table(&[(2, 4, 4, 0, 1), (3, 4, 4, 1, 1)]));
    add(list, "refusal-10-third-of-both-lengths", third((8, 9, 9, 2, 1)));
    let plain = ended(&[margin_rows(&[(2, 4, 4, 0, 1)]), rows_only(&[(3, 4, 4, 1)])]);
    add(list, "refusal-10-row-after-a-margin-row", plain);
    add(list, "refusal-21-m-zero", first((1, 9, 9, 0, 0)));
    add(list, "refusal-21-third-of-both-lengths", third((1, 9, 9, 2, 0)));
    let sixteenth = join(&[
        rows_only(&light_rows(5)),
        margin_rows(&light_margin_rows(15)[5..]),
        margin_rows(&[(1, 100, 100, 15, 0)]),
    ]);
    add(list, "refusal-21-sixteenth-row", ended(&[sixteenth]));
    add(list, "refusal-22-by-one-tick", margin_table(&[(2, 6, 8, 0, 1), (5, 12, 12, 1, 6)]));
    add(list, "refusal-22-row-1-by-one-tick", first((2, 6, 8, 0, 5)));
    add(list, "refusal-22-m-of-d", first((1, 9, 9, 0, 9)));
    add(list, "refusal-22-high-byte", first((1, 256, 256, 0, 256)));
    add(list, "refusal-22-largest-m", first((1, 65535, 65535, 0, 65535)));
    add(list, "refusal-22-largest-everywhere", first((65535, 65535, 65535, 0, 65535)));
    add(list, "refusal-22-third-of-both-lengths", third((1, 9, 9, 2, 7)));
    // C and M would fit, but R is above C.
    add(
        list,
        "refusal-22-by-r-not-c",
        ended(&[rows_only(&[(2, 6, 8, 0)]), margin_rows(&[(1, 9, 9, 1, 7)])]),
    );
}

/// Several faults at once, one of them of a row with the tag of a margin.
fn orders_with_margins(list: &mut Vec<PlanVector>) {
    let (full, full_margins) = (rows_only(&light_rows(16)), margin_rows(&light_margin_rows(16)));
    let with = |tail: &[u8]| join(&[full.clone(), tail.to_vec()]);
    add(list, "order-margin-length-before-value-cut-gives-03", vec![0x02, 0x00, 0x08, 0x00]);
    add(list, "order-seventeenth-margin-header-cut-gives-01", with(&[0x02, 0x00]));
    add(list, "order-seventeenth-margin-length-gives-03", with(&[0x02, 0x00, 0x07]));
    add(list, "order-seventeenth-margin-before-value-cut-gives-05", with(&[0x02, 0x00, 0x09, 0]));
    add(
        list,
        "order-seventeenth-after-margins-before-value-cut-gives-05",
        join(&[full_margins, vec![0x01, 0x00, 0x07, 0x00]]),
    );
    let zero = margin_rows(&[(1, 9, 9, 0, 0)]);
    add(
        list,
        "order-seventeenth-before-m-zero-gives-05",
        ended(&[margin_rows(&[(1, 9, 9, 0, 0); 17])]),
    );
    add(
        list,
        "order-later-field-before-m-zero-gives-02",
        join(&[zero.clone(), vec![0x04, 0x00, 0x00]]),
    );
    add(list, "order-later-cut-before-m-zero-gives-01", zero.clone());
    add(list, "order-bytes-after-before-m-zero-gives-04", join(&[ended(&[zero]), vec![0x0f]]));
    add(
        list,
        "order-bytes-after-before-r-and-m-above-d-gives-04",
        join(&[margin_table(&[(1, 9, 9, 0, 9)]), vec![0x0f]]),
    );
    add(list, "order-c-zero-before-m-zero-gives-06", margin_table(&[(0, 0, 0, 9, 0)]));
    add(list, "order-c-above-d-before-m-zero-gives-07", margin_table(&[(3, 2, 1, 9, 0)]));
    add(list, "order-d-above-t-before-m-zero-gives-08", margin_table(&[(1, 2, 1, 9, 0)]));
    add(list, "order-rank-before-m-zero-gives-09", margin_table(&[(1, 9, 9, 1, 0)]));
    add(
        list,
        "order-second-rank-used-before-its-m-zero-gives-09",
        margin_table(&[(1, 9, 9, 1, 1), (1, 9, 9, 1, 0)]),
    );
    add(
        list,
        "order-m-zero-before-second-c-zero-gives-21",
        margin_table(&[(1, 9, 9, 0, 0), (0, 9, 9, 1, 1)]),
    );
    add(
        list,
        "order-m-zero-before-second-rank-gives-21",
        ended(&[margin_rows(&[(1, 9, 9, 0, 0)]), rows_only(&[(1, 9, 9, 0)])]),
    );
    add(
        list,
        "order-first-rank-before-second-m-zero-gives-09",
        ended(&[rows_only(&[(1, 9, 9, 2)]), margin_rows(&[(1, 9, 9, 0, 0)])]),
    );
    add(
        list,
        "order-third-m-zero-before-second-passing-d-gives-21",
        ended(&[rows_only(&[(2, 4, 4, 0), (3, 4, 4, 1)]), margin_rows(&[(1, 9, 9, 2, 0)])]),
    );
    add(
        list,
        "order-second-m-zero-before-first-r-and-m-above-d-gives-21",
        margin_table(&[(2, 4, 4, 0, 3), (1, 9, 9, 1, 0)]),
    );
    add(
        list,
        "order-second-c-zero-before-first-r-and-m-above-d-gives-06",
        margin_table(&[(2, 4, 4, 0, 3), (0, 9, 9, 1, 1)]),
    );
    add(
        list,
        "order-passing-d-before-r-and-m-above-d-gives-10",
        margin_table(&[(2, 4, 4, 0, 1), (3, 4, 4, 1, 65535)]),
    );
    add(
        list,
        "order-first-r-and-m-above-d-before-second-passing-d-gives-22",
        margin_table(&[(2, 4, 4, 0, 3), (3, 4, 4, 1, 1)]),
    );
    add(
        list,
        "order-second-passing-d-before-third-r-and-m-above-d-gives-10",
        ended(&[rows_only(&[(2, 4, 4, 0), (3, 4, 4, 1)]), margin_rows(&[(1, 9, 9, 2, 9)])]),
    );
}

/// Inputs of 256 bytes and above.
fn lengths(list: &mut Vec<PlanVector>) {
    let filled = |start: Vec<u8>, size: usize| {
        let mut bytes = start;
        bytes.resize(size, 0x0f);
        bytes
    };
    add(list, "length-256-gives-04", filled(table_a(), TABLE_LIMIT));
    add(list, "length-256-sixteen-rows-gives-04", filled(table(&light_rows(16)), TABLE_LIMIT));
    add(list, "length-256-rows-gives-05", filled(rows_only(&light_rows(25)), TABLE_LIMIT));
    add(list, "length-256-zeros-gives-02", vec![0; TABLE_LIMIT]);
    let margins = margin_table(&light_margin_rows(16));
    add(list, "length-256-sixteen-margin-rows-gives-04", filled(margins, TABLE_LIMIT));
    let too_many = margin_rows(&light_margin_rows(21));
    add(list, "length-256-margin-rows-gives-05", filled(too_many, TABLE_LIMIT));
    add(list, "length-257-too-long", filled(table_a(), TABLE_LIMIT + 1));
    add(list, "length-257-zeros-too-long", vec![0; TABLE_LIMIT + 1]);
    add(list, "length-5000-too-long", filled(table_a(), 5000));
}

/// Random tables, accepted and damaged.
fn randoms(list: &mut Vec<PlanVector>) {
    let mut random = Random::new(1);
    for count in 1..=16 {
        let longest = [20, 300, 4000, 65535][count as usize % 4];
        // Sixteen rows do not fit into periods of twenty ticks.
        let file =
            random_accepted(&mut random, count, longest * 1.max(count / 4).min(65535 / longest));
        add(list, &format!("random-accepted-{count:02}"), file);
    }
    let mut random = Random::new(2);
    for count in 1..=40 {
        let n = random.between(1, 16);
        let good = random_accepted(&mut random, n, 2000);
        let file = damaged(&mut random, good);
        add(list, &format!("random-damaged-{count:02}"), file);
    }
}

/// The file with one damage, which now and then leaves it good.
fn damaged(random: &mut Random, file: Vec<u8>) -> Vec<u8> {
    let mut bytes = file;
    let fields = scan(&bytes).expect("an accepted table");
    let rows = fields.len() as u64;
    let place = random.below(bytes.len() as u64) as usize;
    let row = fields[random.below(rows) as usize].from;
    match random.below(7) {
        // Any byte becomes any other.
        0 => bytes[place] = random.below(256) as u8,
        // A value byte of a row becomes any other.
        1 => bytes[row + random.between(3, 8) as usize] = random.below(256) as u8,
        // A rank becomes another that may stand in the table.
        2 => bytes[row + 9] = random.below(rows + 1) as u8,
        // The end is cut off.
        3 => bytes.truncate(place),
        // A byte too many.
        4 => bytes.insert(place, random.below(256) as u8),
        // A byte too few.
        5 => {
            bytes.remove(place);
        }
        // More work in a row: it may pass its deadline, or a lower one.
        _ => {
            bytes[row + 3] = bytes[row + 5];
            bytes[row + 4] = bytes[row + 6];
        }
    }
    bytes
}

/// Random tables with margins, accepted and damaged.
fn random_tables_with_margins(list: &mut Vec<PlanVector>) {
    let mut random = Random::new(3);
    for count in 1..=12 {
        let n = random.between(1, 16);
        let file = random_accepted(&mut random, n, [40, 900, 65535][count as usize % 3].max(8 * n));
        let file = random_margins(&mut random, &file);
        add(list, &format!("random-margins-accepted-{count:02}"), file);
    }
    for count in 1..=24 {
        let n = random.between(1, 16);
        let good = random_accepted(&mut random, n, 2000);
        let good = random_margins(&mut random, &good);
        let file = match count % 2 {
            0 => damaged(&mut random, good),
            _ => with_another_margin(&mut random, good),
        };
        add(list, &format!("random-margins-damaged-{count:02}"), file);
    }
}

/// The file with another M in a row that has a margin.
fn with_another_margin(random: &mut Random, file: Vec<u8>) -> Vec<u8> {
    let mut bytes = file;
    let fields = scan(&bytes).expect("an accepted table");
    let margins: Vec<&RowField> = fields.iter().filter(|field| field.row.m > 0).collect();
    if margins.is_empty() {
        return bytes;
    }
    let field = margins[random.below(margins.len() as u64) as usize];
    let m = match random.below(3) {
        0 => 0,
        1 => field.row.m + 1,
        _ => random.below(65536) as u16,
    };
    bytes[field.from + 10] = (m / 256) as u8;
    bytes[field.from + 11] = (m % 256) as u8;
    bytes
}
