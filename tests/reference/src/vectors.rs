//! Writing the test vectors, and what both sets are built with.

use crate::programs;
use crate::random::Random;
use crate::table::{end_field, file_of_rows, margin_row_field, read_table, Row};
use crate::{vectors_plan, vectors_run};
use std::fs;
use std::io;
use std::path::Path;

/// A vector for `plan`: its name and standard input.
pub struct PlanVector {
    pub name: String,
    pub stdin: Vec<u8>,
}

/// A vector for `run`: its name and the two files, where they are there.
pub struct RunVector {
    pub name: String,
    pub table: Option<Vec<u8>>,
    pub events: Option<Vec<u8>>,
}

impl PlanVector {
    /// What `plan` has to print.
    pub fn want(&self) -> String {
        programs::plan(&self.stdin)
    }
}

impl RunVector {
    /// What `run` has to print.
    pub fn want(&self) -> String {
        let bytes = |file: &Option<Vec<u8>>| file.clone().unwrap_or_default();
        programs::run(&bytes(&self.table), &bytes(&self.events))
    }
}

/// Writes DIR/NAME/stdin and DIR/NAME/want for each vector for `plan`.
pub fn write_plan(folder: &Path) -> io::Result<()> {
    for vector in vectors_plan::all() {
        let place = folder.join(&vector.name);
        fs::create_dir_all(&place)?;
        fs::write(place.join("stdin"), &vector.stdin)?;
        fs::write(place.join("want"), vector.want())?;
    }
    Ok(())
}

/// Writes DIR/NAME/table.bin, DIR/NAME/events.bin and DIR/NAME/want for each
/// vector for `run`.
pub fn write_run(folder: &Path) -> io::Result<()> {
    for vector in vectors_run::all() {
        let place = folder.join(&vector.name);
        fs::create_dir_all(&place)?;
        if let Some(table) = &vector.table {
            fs::write(place.join("table.bin"), table)?;
        }
        if let Some(events) = &vector.events {
            fs::write(place.join("events.bin"), events)?;
        }
        fs::write(place.join("want"), vector.want())?;
    }
    Ok(())
}

/// The file of a table with rows (C, D, T, rank), good or not.
pub fn table(rows: &[(u16, u16, u16, u8)]) -> Vec<u8> {
    let rows: Vec<Row> = rows.iter().map(|&(c, d, t, rank)| Row { c, d, t, rank, m: 0 }).collect();
    file_of_rows(&rows)
}

/// The same without the end field.
pub fn rows_only(rows: &[(u16, u16, u16, u8)]) -> Vec<u8> {
    let mut bytes = table(rows);
    bytes.truncate(bytes.len() - 3);
    bytes
}

/// Rows (C, D, T, rank, M) with the tag of a margin, M = 0 too.
pub fn margin_rows(rows: &[(u16, u16, u16, u8, u16)]) -> Vec<u8> {
    let rows = rows.iter().map(|&(c, d, t, rank, m)| Row { c, d, t, rank, m });
    rows.flat_map(|row| margin_row_field(&row)).collect()
}

/// The same with the end field.
pub fn margin_table(rows: &[(u16, u16, u16, u8, u16)]) -> Vec<u8> {
    ended(&[margin_rows(rows)])
}

/// The file of a table whose row fields are these.
pub fn ended(fields: &[Vec<u8>]) -> Vec<u8> {
    join(&[join(fields), end_field()])
}

/// Table A of document 01 with margins 1 and 5, which leave U 3 and 0.
pub fn table_a_with_margins() -> Vec<u8> {
    margin_table(&[(2, 6, 8, 0, 1), (5, 12, 12, 1, 5)])
}

/// Table A of document 01.
pub fn table_a() -> Vec<u8> {
    table(&[(2, 6, 8, 0), (5, 12, 12, 1)])
}

/// The empty table.
pub fn empty_table() -> Vec<u8> {
    table(&[])
}

/// Rows of C = 1, D = T = 100 + row, ranked in row order.
pub fn light_rows(how_many: u16) -> Vec<(u16, u16, u16, u8)> {
    (0..how_many).map(|index| (1, 100 + index, 100 + index, index as u8)).collect()
}

/// The parts one after another.
pub fn join(parts: &[Vec<u8>]) -> Vec<u8> {
    parts.concat()
}

/// The numbers 0 to n - 1 in a random order.
fn shuffled(random: &mut Random, n: u64) -> Vec<u8> {
    let mut left: Vec<u8> = (0..n as u8).collect();
    let mut order = Vec::new();
    while !left.is_empty() {
        let pick = random.below(left.len() as u64) as usize;
        order.push(left.remove(pick));
    }
    order
}

/// Random rows that pass 6 to 9, with n rows and periods of at most `longest`.
fn random_rows(random: &mut Random, n: u64, longest: u64) -> Vec<Row> {
    let ranks = shuffled(random, n);
    let mut rows = Vec::new();
    for rank in ranks {
        let t = random.between(1, longest);
        // About a full load over all rows, so that some tables pass and some
        // do not.
        let c = random.between(1, 1.max(2 * t / (n + 1)).min(t));
        let d = random.between(c, t);
        rows.push(Row { c: c as u16, d: d as u16, t: t as u16, rank, m: 0 });
    }
    // Shorter deadlines first, most times: other orders seldom pass.
    if !random.once_in(4) {
        rows.sort_by_key(|row| row.d);
    }
    rows
}

/// The file of a random table that is accepted.
pub fn random_accepted(random: &mut Random, n: u64, longest: u64) -> Vec<u8> {
    loop {
        let file = file_of_rows(&random_rows(random, n, longest));
        if read_table(&file).is_ok() {
            return file;
        }
    }
}

/// An accepted table with other margins: of each row what `choose` makes of the
/// largest that it may have, D - R.
pub fn with_margins(file: &[u8], mut choose: impl FnMut(u64) -> u64) -> Vec<u8> {
    let table = read_table(file).expect("an accepted table");
    let rows = table.rows.iter().zip(&table.bounds).map(|(row, bound)| {
        let largest = u128::from(row.d) - bound.response;
        Row { m: choose(largest as u64) as u16, ..*row }
    });
    file_of_rows(&rows.collect::<Vec<Row>>())
}

/// An accepted table with random margins, none and the largest among them.
pub fn random_margins(random: &mut Random, file: &[u8]) -> Vec<u8> {
    with_margins(file, |largest| match random.below(4) {
        0 => 0,
        1 => largest,
        2 => largest.min(1),
        _ => random.between(0, largest),
    })
}
