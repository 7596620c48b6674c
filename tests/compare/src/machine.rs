//! The programs of this repository, which are compiled for x86-64.

use std::path::Path;
use std::process::Command;

/// What stands in front of them, as `tests/machine.sh` says it; nothing on x86-64.
const EMULATOR: &str = "EMULATOR";

/// A program under `target/`.
pub fn program(name: &str) -> Command {
    let path = Path::new(env!("CARGO_MANIFEST_DIR")).join("../../target").join(name);
    let emulator = std::env::var(EMULATOR).unwrap_or_default();
    let mut words = emulator.split_whitespace();
    match words.next() {
        None => Command::new(path),
        Some(first) => {
            let mut command = Command::new(first);
            command.args(words).arg(path);
            command
        }
    }
}
