//! Holds the maps of the Rust crate slotmap to rows of calls with their results, as the port's programs hold its maps.
//!
//! - `rows [--left-out] FILE ..` holds each kind of map to the rows of the files that are for it. The first difference of
//!   a row is printed, and the status is then 1. Lines that the crate can't be asked are counted, and with `--left-out`
//!   printed.
//! - `rows --fill FILE` prints the file with the crate's results.

mod hold;
mod lists;
mod number;
mod primary;
mod secondary;
#[cfg(feature = "lists")]
mod slots;
mod walks;
mod words;

use hold::{Begin, Held, fill, kinds};
use std::fs::read_to_string;
use std::process::ExitCode;

/// The kinds of map. A run of commands, a map of plain numbers and a map with another hasher answer as the map does.
const KINDS: [(&str, Begin); 16] = [
    ("basic", primary::begin_basic),
    ("run-basic", primary::begin_basic),
    ("detaching-basic", primary::begin_basic),
    ("dense", primary::begin_dense),
    ("run-dense", primary::begin_dense),
    ("detaching-dense", primary::begin_dense),
    ("hop", primary::begin_hop),
    ("run-hop", primary::begin_hop),
    ("secondary", secondary::begin_secondary),
    ("run_secondary", secondary::begin_secondary),
    ("plain_secondary", secondary::begin_secondary),
    ("sparse", secondary::begin_sparse),
    ("run_sparse", secondary::begin_sparse),
    ("plain_sparse", secondary::begin_sparse),
    ("random", secondary::begin_sparse),
    ("constant", secondary::begin_sparse),
];

fn begin(kind: &str) -> Option<Begin> {
    KINDS.iter().find(|it| it.0 == kind).map(|it| it.1)
}

fn hold_files(files: &[&str], list_left_out: bool) -> Result<bool, String> {
    let mut is_well = true;
    for file in files {
        let text = read_to_string(file).map_err(|error| format!("{file}: {error}"))?;
        for kind in kinds(&text) {
            match begin(kind) {
                Some(begin) => is_well &= Held::new(file, kind, list_left_out).hold(&text, begin),
                None => println!("{file}: {kind}: left out, since the Rust crate has no such maps"),
            }
        }
    }
    Ok(is_well)
}

fn fill_file(file: &str) -> Result<bool, String> {
    let text = read_to_string(file).map_err(|error| format!("{file}: {error}"))?;
    print!("{}", fill(&text, begin).map_err(|error| format!("{file}: {error}"))?);
    Ok(true)
}

fn main() -> ExitCode {
    // A refused `reattach` panics, and is told as a result.
    std::panic::set_hook(Box::new(|_| ()));
    let words: Vec<String> = std::env::args().skip(1).collect();
    let words: Vec<&str> = words.iter().map(String::as_str).collect();
    let done = match words[..] {
        ["--fill", file] => fill_file(file),
        ["--left-out", ref files @ ..] if !files.is_empty() => hold_files(files, true),
        [] | ["--fill" | "--left-out", ..] => {
            Err("usage: rows [--left-out] FILE .. | rows --fill FILE".to_string())
        }
        ref files => hold_files(files, false),
    };
    match done {
        Ok(true) => ExitCode::SUCCESS,
        Ok(false) => ExitCode::from(1),
        Err(error) => {
            eprintln!("rows: {error}");
            ExitCode::from(2)
        }
    }
}
