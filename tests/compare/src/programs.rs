//! `plan` and `run` on random and damaged files, beside the text of the
//! reference. Planning through the C header is given the same tables.

use crate::caller::{Call, Caller};
use crate::counts::Counts;
use crate::machine::program;
use crate::tables::{accepted, Kind};
use crate::{expected, library};
use reference::block::{encode, BLOCK};
use reference::event::{offer_field, tick_field};
use reference::programs;
use reference::random::Random;
use reference::station::Station;
use reference::table::{
    bound, check_rows, end_field, margin_row_field, read_table, row_field, rows_of, scan, Row,
};
use std::fs;
use std::io::Write;
use std::process::Stdio;

pub fn case(seed: u64) -> Counts {
    let mut random = Random::new(seed);
    let good = accepted(&mut random, Kind::of_seed(seed));
    let events = events(&mut random, &good);
    let table = match random.below(4) {
        0 => with_wrong_rows(&mut random, good),
        1 => damaged(&mut random, good),
        _ => good,
    };
    let events = if random.once_in(4) { damaged(&mut random, events) } else { events };

    let mut counts = Counts::default();
    assert_eq!(plan(&table), programs::plan(&table), "plan on {table:02x?}");
    planned(&mut counts, &table);
    let (table, events) = (kept(&mut random, table), kept(&mut random, events));
    let bytes = |file: &Option<Vec<u8>>| file.clone().unwrap_or_default();
    let want = programs::run(&bytes(&table), &bytes(&events));
    assert_eq!(run(seed, &table, &events), want, "run on {table:02x?}, {events:02x?}");
    counts.programs += 2;
    counts.note_lines += want.lines().filter(|line| line.starts_with("note ")).count() as u64;
    counts
}

/// A file that is there, most of the time.
fn kept(random: &mut Random, file: Vec<u8>) -> Option<Vec<u8>> {
    (!random.once_in(40)).then_some(file)
}

/// What `plan` prints.
fn plan(table: &[u8]) -> String {
    let mut command = program("bin/plan");
    let mut child =
        command.stdin(Stdio::piped()).stdout(Stdio::piped()).spawn().expect("plan is built");
    // A table that is too long need not be read to its end.
    let _ = child.stdin.take().unwrap().write_all(table);
    let output = child.wait_with_output().unwrap();
    assert!(output.status.success(), "plan ended with {}", output.status);
    String::from_utf8(output.stdout).expect("plan prints text")
}

/// What `run` prints in a folder with these files; no two cases share a folder.
fn run(seed: u64, table: &Option<Vec<u8>>, events: &Option<Vec<u8>>) -> String {
    let name = format!("heechstjer-compare-{}-{seed}", std::process::id());
    let folder = std::env::temp_dir().join(name);
    fs::create_dir_all(&folder).unwrap();
    for (name, file) in [("table.bin", table), ("events.bin", events)] {
        if let Some(bytes) = file {
            fs::write(folder.join(name), bytes).unwrap();
        }
    }
    let output = program("bin/run").current_dir(&folder).output().expect("run is built");
    fs::remove_dir_all(&folder).unwrap();
    assert!(output.status.success(), "run ended with {}", output.status);
    String::from_utf8(output.stdout).expect("run prints text")
}

/// Planning through the header.
fn planned(counts: &mut Counts, table: &[u8]) {
    let before = [0x3c; BLOCK];
    let mut block = before;
    let answer = library::plan(&mut block, table);
    let (want, accepted) = expected::plan(table, BLOCK);
    assert_eq!(answer, want, "planning {table:02x?}");
    let after = accepted.as_ref().map_or(before, |table| encode(&Station::new(table)));
    assert!(block == after, "the block after planning {table:02x?}");
    counts.call(answer.refusal);
    if let Some(accepted) = accepted {
        counts.planned(&accepted);
    }
}

/// The events of a caller of some manner, on a table that is accepted.
fn events(random: &mut Random, table: &[u8]) -> Vec<u8> {
    let mut station = Station::new(&read_table(table).expect("an accepted table"));
    let mut caller = Caller::new(Random::new(random.below(1 << 30)));
    let mut bytes = Vec::new();
    let how_many = if random.once_in(100) { 9_900 } else { random.between(0, 150) };
    for _ in 0..how_many {
        for call in caller.calls(&station) {
            match call {
                // An unknown flag ends the run, so most of them are left out.
                Call::Tick { flags, .. } if flags > 3 && !random.once_in(50) => {}
                Call::Tick { released, flags } => {
                    expected::tick(Some(&mut station), released, flags);
                    bytes.extend(tick_field(released, flags));
                }
                Call::Offer { budget, deadline } => {
                    expected::offer(Some(&mut station), budget, deadline);
                    bytes.extend(offer_field(budget, deadline));
                }
                // Events have no block.
                Call::WrongLength { .. } => {}
            }
        }
    }
    bytes
}

/// The table with a fault in a row, now and then with one in another row, and now
/// and then with the tag of a margin and none in the first. It may still be a good
/// one.
fn with_wrong_rows(random: &mut Random, table: Vec<u8>) -> Vec<u8> {
    let mut rows = rows_of(&scan(&table).expect("an accepted table"));
    if rows.is_empty() {
        return table;
    }
    let place = random.below(rows.len() as u64) as usize;
    put_fault(random, &mut rows, place);
    if random.once_in(2) {
        let other = random.below(rows.len() as u64) as usize;
        put_fault(random, &mut rows, other);
    }
    let mut fields: Vec<Vec<u8>> = rows.iter().map(row_field).collect();
    if random.once_in(3) {
        fields[place] = margin_row_field(&Row { m: 0, ..rows[place] });
    }
    [fields.concat(), end_field()].concat()
}

/// Puts another number in a row, or adds some rows too many.
fn put_fault(random: &mut Random, rows: &mut Vec<Row>, place: usize) {
    let fitting = largest_margin(rows, place);
    let row = &mut rows[place];
    let width = random.between(1, 16);
    let any = random.below(1 << width) as u16;
    match random.below(9) {
        0 => row.c = 0,
        1 => row.c = any,
        2 => row.d = any,
        3 => row.t = any,
        4 => row.rank = random.below(17) as u8,
        // Less time for the same work.
        5 => row.d = row.c,
        6 => row.m = any,
        // One tick more than fits.
        7 => row.m = fitting + 1,
        _ => {
            let again = *row;
            rows.resize(rows.len() + random.between(1, 16) as usize, again);
        }
    }
}

/// The largest margin that fits in a row, D - R; 0 where another number is wrong.
fn largest_margin(rows: &[Row], place: usize) -> u16 {
    let plain: Vec<Row> = rows.iter().map(|row| Row { m: 0, ..*row }).collect();
    if check_rows(&plain).is_err() {
        return 0;
    }
    bound(&plain, place).map_or(0, |found| found.promotion as u16)
}

/// The file with some of its bytes changed, lost or made up.
fn damaged(random: &mut Random, mut file: Vec<u8>) -> Vec<u8> {
    let place = random.below(file.len() as u64 + 1) as usize;
    match random.below(9) {
        0 if place < file.len() => file[place] ^= 1 << random.below(8),
        1 if place < file.len() => file[place] = random.below(256) as u8,
        2 if place < file.len() => drop(file.remove(place)),
        0..=3 => file.insert(place, random.below(256) as u8),
        4 => file.truncate(place),
        5 => file.extend((0..random.between(1, 12)).map(|_| random.below(256) as u8)),
        6 => file = (0..random.below(300)).map(|_| random.below(256) as u8).collect(),
        // Some bytes twice.
        7 => {
            let part = file[place..].iter().take(10).copied().collect::<Vec<u8>>();
            file.splice(place..place, part);
        }
        // Longer and longer.
        _ => file = file.repeat(random.between(2, 20) as usize),
    }
    file
}
