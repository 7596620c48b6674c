//! The vectors: their names keep what they say, the files on disk are the ones
//! the reference makes, and the set leaves no refusal and no note out.

use reference::vectors::{write_plan, write_run};
use reference::{vectors_plan, vectors_run};
use std::collections::{BTreeMap, BTreeSet};
use std::fs;
use std::path::{Path, PathBuf};

/// The two digits after this word in the name, if it is there.
fn number_after(name: &str, word: &str) -> Option<u8> {
    let (_, rest) = name.split_once(word)?;
    rest.get(..2)?.parse().ok()
}

/// The numbers after `notes-` in the name.
fn promised_notes(name: &str) -> BTreeSet<u8> {
    let words = name.split_once("notes-").map_or("", |(_, rest)| rest).split('-');
    words.map_while(|word| word.parse().ok()).collect()
}

/// The numbers of the lines that start with this word.
fn numbers(text: &str, word: &str) -> BTreeSet<u8> {
    let lines = text.lines().filter_map(|line| line.strip_prefix(word));
    lines.map(|rest| rest.split(' ').nth(1).unwrap().parse().unwrap()).collect()
}

fn refusals(text: &str) -> BTreeSet<u8> {
    numbers(text, "refused")
}

fn notes(text: &str) -> BTreeSet<u8> {
    numbers(text, "note")
}

/// A name with a number in it promises that this refusal is printed, or these
/// notes and no other; one that ends in `too-long`, that nothing but `too long`
/// is.
fn keeps_its_promise(name: &str, want: &str) {
    for word in ["refusal-", "gives-"] {
        if let Some(number) = number_after(name, word) {
            assert!(refusals(want).contains(&number), "{name}: {want}");
        }
    }
    let promised = promised_notes(name);
    assert!(promised.is_empty() || promised == notes(want), "{name}: {want}");
    assert_eq!(name.ends_with("too-long"), want == "too long\n", "{name}: {want}");
}

#[test]
fn plan_vectors_keep_their_promise() {
    let mut printed = BTreeSet::new();
    let mut names = BTreeSet::new();
    for vector in vectors_plan::all() {
        let want = vector.want();
        keeps_its_promise(&vector.name, &want);
        printed.extend(refusals(&want));
        assert!(names.insert(vector.name.clone()), "{} is there twice", vector.name);
    }
    assert_eq!(printed, (1..=10).chain(21..=22).collect());
}

#[test]
fn run_vectors_keep_their_promise() {
    let mut printed = BTreeSet::new();
    let mut noted = BTreeSet::new();
    let mut names = BTreeSet::new();
    for vector in vectors_run::all() {
        let want = vector.want();
        keeps_its_promise(&vector.name, &want);
        printed.extend(refusals(&want));
        noted.extend(notes(&want));
        assert!(names.insert(vector.name.clone()), "{} is there twice", vector.name);
    }
    assert_eq!(printed, (1..=10).chain(15..=18).chain(20..=22).collect());
    assert_eq!(noted, (12..=14).collect());
}

/// Every file below a folder, by its path from there.
fn files_below(folder: &Path) -> BTreeMap<PathBuf, Vec<u8>> {
    let mut files = BTreeMap::new();
    for entry in fs::read_dir(folder).expect("the folder is there") {
        let place = entry.unwrap().path();
        for entry in fs::read_dir(&place).expect("a vector is a folder") {
            let path = entry.unwrap().path();
            let name = path.strip_prefix(folder).unwrap().to_path_buf();
            files.insert(name, fs::read(&path).unwrap());
        }
    }
    files
}

#[test]
fn the_files_on_disk_are_the_ones_made_here() {
    let kept = Path::new(env!("CARGO_MANIFEST_DIR")).join("../vectors");
    let made = Path::new(env!("CARGO_TARGET_TMPDIR")).join("vectors-made");
    let _ = fs::remove_dir_all(&made);
    write_plan(&made.join("plan")).unwrap();
    write_run(&made.join("run")).unwrap();
    for set in ["plan", "run"] {
        let kept = files_below(&kept.join(set));
        let made = files_below(&made.join(set));
        assert!(kept.keys().eq(made.keys()), "other files in {set}");
        for (name, bytes) in &made {
            assert!(&kept[name] == bytes, "{} differs", name.display());
        }
    }
}
