//! The samples: inputs as `samples::all` makes them, outputs as the independent implementation and the program give them.

use budgieleaf_tests::oracle::findrules::output;
use budgieleaf_tests::program::{compare, root};
use budgieleaf_tests::samples::all;
use std::collections::BTreeSet;
use std::fs::{read, read_dir};
use std::path::PathBuf;
use std::process::{Command, Stdio};

fn stored(name: &str, ending: &str) -> (PathBuf, Vec<u8>) {
    let path = root().join("samples").join(format!("{name}.{ending}"));
    let bytes = read(&path).unwrap_or_else(|e| panic!("{}: {e}", path.display()));
    (path, bytes)
}

#[test]
fn inputs_and_outputs_are_as_stored() {
    for (name, input) in all() {
        assert!(stored(name, "txt").1 == input, "{name}.txt");
        assert!(stored(name, "out").1 == output(&input), "{name}.out");
    }
}

#[test]
fn no_other_input_or_output_is_there() {
    let files = read_dir(root().join("samples")).unwrap().map(|f| f.unwrap().file_name().into_string().unwrap());
    let found: BTreeSet<String> = files.filter(|f| f.ends_with(".txt") || f.ends_with(".out")).collect();
    let known: BTreeSet<String> = all().iter().flat_map(|(name, _)| [format!("{name}.txt"), format!("{name}.out")]).collect();
    assert_eq!(found, known);
}

#[test]
fn each_refusal_that_the_program_can_reach_has_a_sample() {
    let outputs = all().into_iter().map(|(_, input)| output(&input));
    let refused: BTreeSet<String> = outputs.filter(|o| o.len() == 9).map(|o| String::from_utf8_lossy(&o[..2]).trim().to_string()).collect();
    let reachable: BTreeSet<String> = [2, 3, 4, 5, 6, 7, 8, 10, 11, 12, 15].map(|n: i32| n.to_string()).into();
    assert_eq!(refused, reachable);
}

/// A jam is cleared in 39 of the 40 traces that have one, and that is listed; a check follows in half of the traces that are sorted, and that is not.
/// By the threshold alone both are.
#[test]
fn what_seldom_applies_is_listed_and_what_is_often_broken_is_not() {
    let (seldom, often) = ("14  5  6   39   40", "14  2  4  120  240");
    let there = |input: &[u8]| {
        let printed = String::from_utf8(output(input)).unwrap();
        [seldom, often].map(|row| printed.lines().any(|line| line == row))
    };
    let input = stored("seldom", "txt").1;
    assert!(input.starts_with(b"  7  50 950\n"));
    assert_eq!(there(&input), [true, false]);
    assert_eq!(there(&[b"  7  50   0\n", &input[12..]].concat()), [true, true]);
}

#[test]
fn the_program_gives_the_outputs() {
    for (name, input) in all() {
        compare(name, &input, 1 << 20, &stored(name, "out").1);
    }
}

#[test]
fn the_script_runs_the_program_on_a_file_and_on_standard_input() {
    let (path, _) = stored("season", "txt");
    let script = || Command::new(root().join("findrules"));
    let on_file = script().arg(&path).output().unwrap();
    let on_input = script().stdin(Stdio::from(std::fs::File::open(&path).unwrap())).output().unwrap();
    for out in [on_file, on_input] {
        assert!(out.status.success() && out.stdout == stored("season", "out").1, "{out:?}");
    }
    let absent = script().arg(root().join("samples/absent")).output().unwrap();
    assert!(!absent.status.success() && absent.stdout.is_empty());
}
