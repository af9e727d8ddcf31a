//! Tests of the proved calls and of the program findrules against an independent implementation of document 01.

pub mod calls;
pub mod capi;
pub mod gen;
pub mod lent;
pub mod memories;
pub mod oracle;
pub mod plain;
pub mod plain_watcher;
pub mod play;
pub mod program;
pub mod rng;
pub mod samples;
pub mod watching;
