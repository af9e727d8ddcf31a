//! Document 01, with the requests of document 02 that have landed, in plain Rust: every rule by quantifiers over places, without
//! automata, and written from that text alone. It is what the proved code is compared with, so nothing in it is taken from there.

pub mod columns;
pub mod finder;
pub mod findrules;
pub mod ledger;
pub mod memory;
pub mod templates;
pub mod watcher;

#[cfg(test)]
mod examples;
