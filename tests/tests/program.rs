//! The built program findrules on random logs, whole and damaged, against the independent implementation, byte for byte.

use budgieleaf_tests::calls::Settings;
use budgieleaf_tests::gen;
use budgieleaf_tests::oracle::columns::written;
use budgieleaf_tests::oracle::findrules::output;
use budgieleaf_tests::program::{compare, path, root, run};
use budgieleaf_tests::rng::{cases, Rng};
use std::fs::{File, OpenOptions};
use std::process::Command;

/// Runs one input and says what it was answered: 0, or the refusal's number.
fn check(name: &str, rng: &mut Rng, input: &[u8]) -> usize {
    let expected = output(input);
    let piece = rng.pick(&[1 << 20, 1 << 20, 4096, 10, 7]);
    compare(name, input, if input.len() > 5000 { 1 << 20 } else { piece }, &expected);
    match expected.len() {
        9 => String::from_utf8_lossy(&expected[..2]).trim().parse().unwrap(),
        _ => 0,
    }
}

fn some_log(rng: &mut Rng, n: u32) -> Vec<u8> {
    let longest = rng.pick(&[1, 3, 8, 20]);
    let count = rng.within(0, 12);
    let traces = gen::traces(rng, n, count, longest);
    gen::log(rng, &traces)
}

/// Random inputs made by a function of the case's number; each of these answers must come.
fn random(name: &str, seed: u64, default: usize, answers: &[usize], make: impl Fn(&mut Rng, usize) -> Vec<u8>) {
    let mut rng = Rng::new(seed);
    let mut tally = [0; 16];
    for case in 0..cases(default) {
        let input = make(&mut rng, case);
        tally[check(&format!("{name}-{case}"), &mut rng, &input)] += 1;
    }
    println!("{name}: {} cases, answers {tally:?}", cases(default));
    for &answer in answers {
        assert!(tally[answer] > 0, "{name}: answer {answer} never came: {tally:?}");
    }
}

#[test]
fn whole_logs() {
    random("whole", 1, 1500, &[0, 11], |rng, _| {
        let n = gen::activities(rng);
        [gen::settings_line(n, gen::settings(rng)), some_log(rng, n)].concat()
    });
}

#[test]
fn logs_with_one_damage() {
    random("one-damage", 2, 1600, &[0, 4, 5, 6], |rng, case| {
        let n = gen::activities(rng);
        let mut log = some_log(rng, n);
        gen::damage_log(rng, case % gen::LOG_DAMAGES, n, &mut log);
        [gen::settings_line(n, gen::settings(rng)), log].concat()
    });
}

#[test]
fn logs_with_several_damages() {
    random("several-damages", 3, 1000, &[0, 4, 5, 6], |rng, _| {
        let n = gen::activities(rng);
        let mut log = some_log(rng, n);
        for _ in 0..rng.within(2, 4) {
            let kind = rng.below(gen::LOG_DAMAGES);
            gen::damage_log(rng, kind, n, &mut log);
        }
        [gen::settings_line(n, gen::settings(rng)), log].concat()
    });
}

#[test]
fn damaged_settings() {
    random("settings", 4, 1350, &[0, 2, 3, 4, 15], |rng, case| {
        let n = gen::activities(rng);
        let mut settings = gen::settings_line(n, gen::settings(rng));
        gen::damage_settings(rng, case % gen::SETTINGS_DAMAGES, &mut settings);
        if rng.chance(25) && settings.len() >= 12 {
            let kind = rng.below(7);
            gen::damage_settings(rng, kind, &mut settings);
        }
        let mut log = some_log(rng, n);
        if rng.chance(40) {
            let kind = rng.below(gen::LOG_DAMAGES);
            gen::damage_log(rng, kind, n, &mut log);
        }
        [settings, log].concat()
    });
}

/// Several faults on one line, with 7 or 8 among them where the line is a trace's 4097th or starts the 4096th trace, and
/// sometimes one on another line.
#[test]
fn faults_that_compete() {
    random("competing", 12, 120, &[0, 4, 5, 6, 7, 8], |rng, case| {
        let n = rng.pick(&[1u32, 2, 7, 32]);
        let mut lines: Vec<(u32, u32)> = match case % 3 {
            0 => (0..rng.within(1, 20)).map(|k| (10 + k as u32 / 3, rng.below(n as usize) as u32)).collect(),
            1 => (0..4096).map(|_| (10, rng.below(n as usize) as u32)).collect(),
            _ => (0..4095).map(|k| (10 + k, rng.below(n as usize) as u32)).collect(),
        };
        let before = lines.last().unwrap().0;
        let number = match (rng.chance(40), case % 3) {
            (true, _) => before - rng.pick(&[1, 9]),
            (false, 2) => before + 1,
            _ => before,
        };
        lines.push((number, if rng.chance(40) { n + rng.below(3) as u32 } else { 0 }));
        let at = lines.len() - 1;
        lines.extend((0..rng.below(3)).map(|k| (before + k as u32, 0)));
        let mut log: Vec<u8> = lines.iter().flat_map(|&(number, step)| written(number, step)).collect();
        if rng.chance(30) {
            log[10 * at + rng.below(10)] = rng.pick(b"x\n ");
        }
        if rng.chance(20) {
            let kind = rng.below(gen::LOG_DAMAGES);
            gen::damage_log(rng, kind, n, &mut log);
        }
        [gen::settings_line(n, gen::settings(rng)), log].concat()
    });
}

#[test]
fn input_cut_anywhere() {
    let mut rng = Rng::new(5);
    let whole = b"  3 500 500\n     1  0\n     1  2\n     4  1\n999999  0\n";
    for len in 0..=whole.len() {
        check(&format!("cut-{len}"), &mut rng, &whole[..len]);
    }
}

#[test]
fn arbitrary_bytes() {
    random("arbitrary", 6, 400, &[4], |rng, _| {
        let len = rng.pick(&[5, 12, 22, 40, 300]);
        let letters = rng.pick(&[&b" 0123456789\n"[..], b" 12\n", b"\0\xff \n19"]);
        (0..rng.below(len + 1)).map(|_| if rng.chance(95) { rng.pick(letters) } else { rng.byte() }).collect()
    });
}

/// One trace of this length, then perhaps another trace, then perhaps damage.
#[test]
fn traces_about_4096_long() {
    random("long-traces", 7, 10, &[0, 7], |rng, case| {
        let n = rng.within(1, 6) as u32;
        let len = [4096, 4097, 4095, 4096, 4097, 6000, 4096, 4096, 4097, 6552][case % 10];
        let first: Vec<u8> = (0..len).map(|_| rng.below(n as usize) as u8).collect();
        let second: Vec<u8> = (0..if len < 4200 { 2000 } else { 0 }).map(|_| rng.below(n as usize) as u8).collect();
        let mut log = gen::log(rng, &[first, second]);
        if case % 10 == 7 {
            // A fault beyond the 4096th line.
            log[10 * 5000] = b'x';
        }
        [gen::settings_line(n, gen::settings(rng)), log].concat()
    });
}

#[test]
fn traces_about_4095_in_number() {
    random("many-traces", 8, 10, &[0, 8], |rng, case| {
        let n = rng.pick(&[1u32, 2, 5]);
        let count = [4095, 4096, 4094, 4095, 5000][case % 5];
        let traces: Vec<Vec<u8>> =
            (0..count).map(|_| (0..rng.pick(&[1, 1, 1, 2])).map(|_| rng.below(n as usize) as u8).collect()).collect();
        let mut log = gen::log(rng, &traces);
        log.truncate(65520);
        [gen::settings_line(n, gen::settings(rng)), log].concat()
    });
}

#[test]
fn input_about_65536_bytes_long() {
    random("long-input", 9, 12, &[0, 4, 12], |rng, case| {
        let n = rng.within(2, 9) as u32;
        let traces = gen::traces(rng, n, 2500, 20);
        let mut input = [gen::settings_line(n, gen::settings(rng)), gen::log(rng, &traces)].concat();
        while input.len() < 66000 {
            input.extend(b"999999  0\n");
        }
        input.truncate([65532, 65536, 65537, 65535, 65522, 65533, 65538, 66000][case % 8]);
        input
    });
    let mut rng = Rng::new(10);
    for len in [65537, 65538, 131072, 1 << 20] {
        check(&format!("too-long-{len}"), &mut rng, &vec![b'\n'; len]);
    }
}

/// Few traces over many activities and a low threshold: more than 6400 constraints are listed, or nearly as many.
#[test]
fn lists_about_6400_long() {
    random("long-lists", 11, 16, &[0, 10], |rng, _| {
        let n = rng.within(24, 32) as u32;
        let mut order: Vec<u8> = (0..n as u8).collect();
        let traces: Vec<Vec<u8>> = (0..rng.within(2, 6))
            .map(|_| {
                rng.shuffle(&mut order);
                order[..rng.within(n as usize / 2, n as usize)].to_vec()
            })
            .collect();
        [
            gen::settings_line(n, Settings { threshold: rng.pick(&[1, 1, 166, 200, 300]), confidence: rng.pick(&[0, 0, 1, 250]) }),
            gen::log(rng, &traces),
        ]
        .concat()
    });
}

#[test]
fn rows_of_document_01() {
    let said = |input: &[u8]| {
        compare("row", input, 1 << 20, &output(input));
        String::from_utf8(run(input, 1 << 20)).unwrap()
    };
    let sample = said(b"  21000   0\n     1  0\n");
    assert_eq!(sample.lines().next(), Some("    15    18     1        18"));
    assert_eq!(sample.lines().count(), 16);
    let two = said(b"  21000   0\n     1  0\n     1  1\n     2  0\n     2  0\n     2  1\n");
    assert_eq!(two.lines().next(), Some("    18    44     2       220"));
    assert_eq!(two.lines().count(), 19);
    assert!(said(b" 321000   0\n     1 31\n").starts_with("   "));
    assert_eq!(said(b" 331000   0\n     1 31\n"), " 2     0\n");
    let long = |len| said(&[b"  110001000\n".to_vec(), b"     1  0\n".repeat(len)].concat());
    assert!(long(4096).ends_with(
        "     1     32768\n 1  0       1    1\n 2  0       1    1\n 3  0       1    1\n 7  0       1    1\n 8  0       1    1\n"
    ));
    assert_eq!(long(4097), " 7  4097\n");
}

/// A folder can be opened but not read, and /dev/full takes nothing: either ends the program with an error and no answer.
#[test]
fn a_failed_read_or_write_is_told() {
    let read = Command::new(path()).stdin(File::open(root()).unwrap()).output().unwrap();
    let input = File::open(root().join("samples/sample.txt")).unwrap();
    let full = OpenOptions::new().write(true).open("/dev/full").unwrap();
    let written = Command::new(path()).stdin(input).stdout(full).output().unwrap();
    assert!(read.stdout.is_empty());
    for ended in [read, written] {
        assert_eq!(ended.status.code(), Some(1));
        assert!(String::from_utf8(ended.stderr).unwrap().starts_with("Error: "));
    }
}
