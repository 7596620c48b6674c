//! `reference plan`: reads standard input and prints what `plan` prints.
//! `reference run DIR`: reads DIR/table.bin and DIR/events.bin and prints what
//! `run` prints.
//! `reference vectors plan DIR` and `reference vectors run DIR`: write the test
//! vectors into DIR.

use reference::{programs, vectors};
use std::fs::File;
use std::io::{self, Read, Write};
use std::path::Path;
use std::process::ExitCode;

fn main() -> ExitCode {
    let arguments: Vec<String> = std::env::args().skip(1).collect();
    let words: Vec<&str> = arguments.iter().map(String::as_str).collect();
    let outcome = match words[..] {
        ["plan"] => plan(),
        ["run", folder] => run(Path::new(folder)),
        ["vectors", "plan", folder] => vectors::write_plan(Path::new(folder)),
        ["vectors", "run", folder] => vectors::write_run(Path::new(folder)),
        _ => {
            eprintln!("reference plan | run DIR | vectors plan DIR | vectors run DIR");
            return ExitCode::from(2);
        }
    };
    match outcome {
        Ok(()) => ExitCode::SUCCESS,
        Err(error) => {
            eprintln!("reference: {error}");
            ExitCode::FAILURE
        }
    }
}

fn plan() -> io::Result<()> {
    let file = at_most(io::stdin(), programs::TABLE_LIMIT + 1)?;
    io::stdout().write_all(programs::plan(&file).as_bytes())
}

fn run(folder: &Path) -> io::Result<()> {
    let table = file_or_empty(&folder.join("table.bin"), programs::TABLE_LIMIT + 1)?;
    let events = file_or_empty(&folder.join("events.bin"), programs::EVENTS_LIMIT + 1)?;
    io::stdout().write_all(programs::run(&table, &events).as_bytes())
}

/// The first bytes, up to `limit` of them: one more than allowed is enough to
/// see that a file is too long.
fn at_most(source: impl Read, limit: usize) -> io::Result<Vec<u8>> {
    let mut bytes = Vec::new();
    source.take(limit as u64).read_to_end(&mut bytes)?;
    Ok(bytes)
}

/// A file that can't be opened counts as empty.
fn file_or_empty(path: &Path, limit: usize) -> io::Result<Vec<u8>> {
    match File::open(path) {
        Ok(file) => at_most(file, limit),
        Err(_) => Ok(Vec::new()),
    }
}
