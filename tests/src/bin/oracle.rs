//! Findrules as the independent implementation computes it: standard input to standard output. The outputs in samples/ are its.

use std::io::{Read, Write};

fn main() {
    let mut input = Vec::new();
    std::io::stdin().read_to_end(&mut input).expect("standard input can be read");
    let output = budgieleaf_tests::oracle::findrules::output(&input);
    std::io::stdout().write_all(&output).expect("standard output can be written");
}
