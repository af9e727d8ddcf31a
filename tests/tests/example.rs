//! samples/example.c and samples/watch.c are compiled against the header, linked with the archive and run.

use budgieleaf_tests::calls::{FindAnswer, Settings};
use budgieleaf_tests::oracle::finder::find;
use budgieleaf_tests::oracle::ledger::refusal;
use budgieleaf_tests::oracle::watcher::{state, Watched};
use budgieleaf_tests::program::root;
use std::path::Path;
use std::process::Command;

/// What samples/NAME.c prints, which is what samples/NAME.expected has.
fn printed(name: &str) -> String {
    let program = Path::new(env!("CARGO_TARGET_TMPDIR")).join(name);
    let compiled = Command::new("gcc")
        .args(["-std=c99", "-Wall", "-Wextra", "-Wpedantic", "-Werror", "-I"])
        .arg(root().join("include"))
        .arg(root().join(format!("samples/{name}.c")))
        .arg(root().join("target/staticlib/libcapi.a"))
        .arg("-o")
        .arg(&program)
        .output()
        .expect("gcc runs");
    assert!(compiled.status.success(), "{}", String::from_utf8_lossy(&compiled.stderr));
    let ran = Command::new(&program).output().unwrap();
    assert!(ran.status.success() && ran.stderr.is_empty());
    let printed = String::from_utf8(ran.stdout).unwrap();
    assert_eq!(printed, std::fs::read_to_string(root().join(format!("samples/{name}.expected"))).unwrap());
    printed
}

#[test]
fn the_c_example_compiles_and_prints_what_it_should() {
    let printed = printed("example");
    let found = find(3, &[vec![0, 1, 2], vec![0, 1, 1, 2], vec![0, 2], vec![0, 1, 2]], Settings::by(900));
    let FindAnswer { listed, replayed, traces, events_read } = found.answer();
    let mut expected = format!("find: {listed} rules, {replayed} replayed, {traces} traces, {events_read} events read\n");
    for [template, a, b, fulfilled, activated] in found.list {
        expected += &format!("{template:>2} {a:>2} {b:>2} {fulfilled:>4} {activated:>4}\n");
    }
    assert!(printed.ends_with(&expected), "{printed}{expected}");
    assert!(printed.contains("add: refusal 6, detail 2\n") && printed.contains("find: refusal 10, detail"));
}

#[test]
fn the_c_program_that_watches_compiles_and_prints_what_it_should() {
    let rules = [[7, 0, 0], [14, 0, 1], [17, 1, 2], [1, 3, 3], [16, 4, 1], [8, 3, 3], [23, 3, 0]];
    let mut ledger = Watched::start(5, rules.as_flattened()).unwrap();
    let told = |ledger: &Watched| -> String {
        ledger.constraints.iter().map(|&c| format!(" {}", state(ledger.n, c, &ledger.taken))).collect::<String>() + "\n"
    };
    let mut expected = format!("start: 7 rules over 5 activities\nbefore the first step:{}", told(&ledger));
    for activity in [0, 1, 2, 4, 9, 1, 2, 3, 0] {
        expected += &match ledger.step(activity) {
            Ok(()) => format!("step {activity}:{}", told(&ledger)),
            Err(r) => {
                assert_eq!(r, refusal(6, 0));
                format!("step {activity}: refusal 6, ignored\n")
            }
        };
    }
    expected += "stop after 8 steps: rule 7 (template 23, a 3, b 0) can no longer hold\n";
    assert_eq!(printed("watch"), expected);
}
