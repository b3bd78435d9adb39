//! `programs NAME ARGS ..`: the project's programs, erased.
//!
//! Their sources are generated, in `src/programs`. What they print is compared with what the proved programs print, by
//! `tests/programs.rs`. With `--cfg without_slotrun` the program slotrun is left out, for compilers before Rust 1.65.

#![allow(unexpected_cfgs)]

#[macro_use]
#[allow(unused_imports, dead_code)] // What the programs use of it changes with their sources.
#[path = "../rt.rs"]
mod rt;

#[allow(warnings)]
#[path = "../programs"]
mod programs {
    pub mod joined_rows;
    pub mod primary_rows;
    pub mod secondary_rows;
    pub mod slotmap_rows;
    #[cfg(not(without_slotrun))]
    pub mod slotmap_script;
    #[cfg(not(without_slotrun))]
    pub mod slotrun;
}

use std::process::ExitCode;

/// The status of a name that names no program. No program has it.
const NO_PROGRAM: u8 = 64;

fn main() -> ExitCode {
    let name = std::env::args_os().nth(1).unwrap_or_default();
    let main = match name.to_str() {
        Some("joined_rows") => programs::joined_rows::main,
        Some("primary_rows") => programs::primary_rows::main,
        Some("secondary_rows") => programs::secondary_rows::main,
        #[cfg(not(without_slotrun))]
        Some("slotrun") => programs::slotrun::main,
        _ => {
            eprintln!("programs NAME ARGS ..: no program has the name {name:?}");
            return ExitCode::from(NO_PROGRAM);
        }
    };
    main(rt::HostRuntime)
}
