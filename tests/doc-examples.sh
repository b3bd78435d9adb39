#!/usr/bin/env bash
# tests/doc-examples.sh [TEXT ..]
#
# Runs the examples of the doc comments: each block in crates/*/src that starts with only three backquotes. Runs each row of
# the table "From Rust's slotmap" in CALLING.md too. Prints each example that fails, with its file:line and its item, each
# public call that has no example, and how many passed. The public calls are those of the types, traits and functions that
# crates/slotmap, the five structures, slotmap_links and slotmap_bounded export.
# It runs the whole programs of README.md, FIRST_PROOF.md and STRUCTURES.md, too: blocks with a `main`. The comment after a
# `println!` says what it prints there.
# Where a TEXT is named, only examples are run whose file:line and item have one of the TEXTs in them, as
# `tests/doc-examples.sh slotmap_hop`. The status is 0 where each public call has an example and each passed, else 1.
#
# An example is the body of a function that is given `rt` and returns Result<(), Fail>. It comes after the common head
# of its crate, which doc_examples.py has. The examples are the tests of one crate, which is written to a copy of this
# repository and run there by `rt try --test`. Nothing is proved. It takes three minutes of one processor.
exec python3 "$(dirname "$0")/doc_examples.py" "$@"
