//! Scripts as the library `slotmap_script` runs them, erased, on streams and maps of the tests: readers and writers that fail, the order
//! of faults, and replies that no small script produces.

#![allow(unexpected_cfgs)]

#[macro_use]
#[allow(unused_imports, unused_macros, dead_code)] // The programs use more of it.
#[path = "../src/rt.rs"]
mod rt;

#[allow(warnings)]
#[path = "../src/programs"]
mod programs {
    pub mod slotmap_script;
}

#[path = "streams/faults.rs"]
mod faults;
#[path = "streams/refusals.rs"]
mod refusals;

/// The words that a program was started with.
fn words(texts: &[&str]) -> Vec<rt::String> {
    texts.iter().map(|text| rt::String(text.to_string())).collect()
}
