//! `find` and the watcher's steps through the archive beside a plain Rust finder and a plain watcher: the same logs and lists, one
//! process.
//!
//!     cargo run --release --bin bench                   times and their ratios
//!     cargo run --release --bin bench -- watcher        those of the watcher alone
//!     cargo run --release --bin bench -- instructions   instructions for each event read and for each constraint watched, counted
//!                                                       by valgrind (of the watcher alone: -- watcher instructions)

use budgieleaf_tests::calls::{Calls, FindAnswer, Settings};
use budgieleaf_tests::capi::{watch_start, watch_step, Archive, Bytes};
use budgieleaf_tests::lent::{Memory, Record, MOST_WATCHED};
use budgieleaf_tests::memories::right_words;
use budgieleaf_tests::oracle::finder::{constraints, room_for_all, Constraint, NUMBERS};
use budgieleaf_tests::oracle::watcher::numbers;
use budgieleaf_tests::plain::{by_library, by_words, Automaton};
use budgieleaf_tests::plain_watcher::{step_lent, Table, Watcher};
use budgieleaf_tests::rng::Rng;
use std::hint::black_box;
use std::process::Command;

struct Log {
    name: &'static str,
    memory: Memory,
    threshold: u32,
    /// Whether the list has room for all constraints; otherwise just for those that are listed, and a find passes twice.
    roomy: bool,
}

impl Log {
    fn short_list(mut self) -> Log {
        self.roomy = false;
        self
    }

    fn events(&self) -> usize {
        self.memory.events.get().len()
    }

    fn list(&self, automaton: &Automaton) -> Vec<u16> {
        let all = vec![0; room_for_all(self.memory.record.activities)];
        if self.roomy {
            return all;
        }
        let listed = bench_find(1, automaton, self, &mut all.clone()).unwrap().listed;
        all[..NUMBERS * listed as usize].to_vec()
    }
}

/// A log of so many traces of one length. Activities come in a rough order, so that constraints of all kinds are met or nearly so.
fn log(name: &'static str, activities: u32, traces: usize, length: usize, threshold: u32) -> Log {
    log_of(name, activities, activities, traces, length, threshold)
}

/// The same, where only so many of the declared activities occur.
fn log_of(name: &'static str, activities: u32, occurring: u32, traces: usize, length: usize, threshold: u32) -> Log {
    let mut rng = Rng::new(activities as u64 + traces as u64);
    let n = occurring as usize;
    let (mut events, mut ends) = (Vec::new(), Vec::new());
    for _ in 0..traces {
        let phase = rng.below(n);
        events.extend((0..length).map(|i| ((i + phase + rng.below(3)) % n) as u8));
        ends.push(events.len() as u32);
    }
    let words = right_words(&events, &ends);
    let memory = Memory::of(Record { activities, traces: traces as u32 }, events, ends, words);
    Log { name, memory, threshold, roomy: true }
}

/// Each trace is over so many of the activities, its own: most constraints are asked of few traces.
fn log_over(name: &'static str, activities: u32, own: usize, traces: usize, length: usize, threshold: u32) -> Log {
    let mut rng = Rng::new(activities as u64 + traces as u64);
    let (mut events, mut ends) = (Vec::new(), Vec::new());
    for _ in 0..traces {
        let mut occurring: Vec<u8> = Vec::new();
        while occurring.len() < own {
            let x = rng.below(activities as usize) as u8;
            if !occurring.contains(&x) {
                occurring.push(x);
            }
        }
        events.extend((0..length).map(|i| occurring[(i + rng.below(3)) % own]));
        ends.push(events.len() as u32);
    }
    let words = right_words(&events, &ends);
    let memory = Memory::of(Record { activities, traces: traces as u32 }, events, ends, words);
    Log { name, memory, threshold, roomy: true }
}

fn logs(n: u32) -> Vec<Log> {
    vec![
        log("few long", n, 4, 4096, 1),
        log_of("few long, half occur", n, n / 2, 4, 4096, 500),
        log_of("few long, two occur", n, 2, 4, 4096, 500),
        log("many short", n, 4095, 4, 1),
        log("many short, pruned", n, 4095, 4, 900),
        log("many of one event", n, 4095, 1, 1),
        log("middling", n, 200, 40, 500),
        log("middling, short list", n, 200, 40, 500).short_list(),
        log("small", n, 10, 8, 900),
        log("one event", n, 1, 1, 1000),
    ]
}

/// Smaller ones, since callgrind takes some fifty times as long.
fn counted_logs() -> Vec<Log> {
    vec![
        log("few long", 5, 4, 4096, 1),
        log("many short", 5, 4095, 4, 1),
        log("many short, pruned", 5, 4095, 4, 900),
        log("middling", 16, 50, 40, 500),
        log("middling, short list", 16, 50, 40, 500).short_list(),
        log("few long", 32, 1, 400, 1),
        log("one event", 5, 1, 1, 1000),
        log_over("few of many", 32, 4, 50, 40, 1),
    ]
}

/// The archive, the plain finder that counts support as the archive does, and the one that lets the library search.
const FINDERS: [&str; 3] = ["archive", "plain", "library"];

/// One find by the finder of this number; the list is not cleared before.
#[no_mangle]
#[inline(never)]
fn bench_find(which: usize, automaton: &Automaton, log: &Log, list: &mut [u16]) -> Option<FindAnswer> {
    let Log { memory, threshold, .. } = black_box(log);
    let settings = Settings::by(*threshold);
    match which {
        0 => Archive.find(memory, settings, list).ok(),
        1 => by_words(automaton, memory, settings, list).ok(),
        _ => by_library(automaton, memory, settings, list).ok(),
    }
}

#[repr(C)]
struct Timespec {
    seconds: i64,
    nanoseconds: i64,
}

extern "C" {
    fn clock_gettime(clock: i32, time: *mut Timespec) -> i32;
}

/// This thread's processor time, in seconds: other programs on the machine are not counted.
fn now() -> f64 {
    const THREAD_CPUTIME: i32 = 3;
    let mut t = Timespec { seconds: 0, nanoseconds: 0 };
    let said = unsafe { clock_gettime(THREAD_CPUTIME, &mut t) };
    assert_eq!(said, 0);
    t.seconds as f64 + t.nanoseconds as f64 * 1e-9
}

/// The best time of a find by each finder over several rounds, each finder taking its turn in every round. A turn is as many finds
/// as take a few milliseconds.
fn times(automaton: &Automaton, log: &Log) -> ([f64; 3], FindAnswer) {
    let mut best = [f64::MAX; 3];
    let mut lists = [0; 3].map(|_| log.list(automaton));
    let mut said = [None; 3];
    let start = now();
    bench_find(2, automaton, log, &mut lists[2]);
    let finds = (0.003 / (now() - start)).clamp(1.0, 3000.0) as usize;
    let mut rounds = 0;
    while rounds < 5 || (rounds < 100 && now() - start < 0.5) {
        for which in 0..3 {
            let before = now();
            for _ in 0..finds {
                said[which] = bench_find(which, automaton, log, &mut lists[which]);
            }
            best[which] = best[which].min((now() - before) / finds as f64);
        }
        rounds += 1;
    }
    assert!(said[0].is_some() && said[0] == said[1] && said[1] == said[2] && lists[0] == lists[1] && lists[1] == lists[2]);
    (best, said[0].unwrap())
}

/// What a step by shifting cannot go below: the nanoseconds of a shift that waits for the one before it, its number at hand.
fn shift_alone() -> f64 {
    let numbers: [u64; 64] = std::array::from_fn(|k| 0x0807_0605_0403_0201 ^ k as u64);
    let rounds = 20_000;
    let mut best = f64::MAX;
    for _ in 0..20 {
        let mut state = 0;
        let before = now();
        for _ in 0..rounds {
            for number in black_box(&numbers) {
                state = number >> (state % 64);
            }
        }
        best = best.min(now() - before);
        black_box(state);
    }
    best * 1e9 / (rounds * numbers.len()) as f64
}

/// How often all logs are gone over: what disturbs the machine for seconds then meets one of the goes, and not all rounds of a log.
const GOES: usize = 3;

fn print_times() {
    let automaton = Automaton::new();
    let mut logs: Vec<Log> = [5, 16, 32].into_iter().flat_map(logs).collect();
    logs.push(log_over("few of many", 32, 4, 200, 40, 1));
    let mut best = vec![([f64::MAX; 3], None); logs.len()];
    for _ in 0..GOES {
        for (log, (least, answer)) in logs.iter().zip(&mut best) {
            let (t, said) = times(&automaton, log);
            *least = std::array::from_fn(|which| least[which].min(t[which]));
            *answer = Some(said);
        }
    }
    println!(
        "{:<20} {:>3} {:>6} {:>6} {:>9} {:>8} {:>12} {:>12} {:>12} {:>10} {:>10} {:>10} {:>10} {:>12}",
        "log",
        "N",
        "traces",
        "events",
        "threshold",
        "replayed",
        "read",
        "of replayed",
        "of all",
        "archive ms",
        "plain",
        "library",
        "to plain",
        "to library"
    );
    let mut worst = [0f64; 2];
    let mut long = Vec::new();
    for (log, (t, answer)) in logs.iter().zip(best) {
        let FindAnswer { replayed, events_read, .. } = answer.unwrap();
        let all = room_for_all(log.memory.record.activities) / NUMBERS;
        let ratios = [t[0] / t[1], t[0] / t[2]];
        println!(
            "{:<20} {:>3} {:>6} {:>6} {:>9} {:>8} {:>12} {:>12} {:>12} {:>10.4} {:>10.4} {:>10.4} {:>10.2} {:>12.2}",
            log.name,
            log.memory.record.activities,
            log.memory.record.traces,
            log.events(),
            log.threshold,
            replayed,
            events_read,
            replayed as usize * log.events(),
            all * log.events(),
            t[0] * 1e3,
            t[1] * 1e3,
            t[2] * 1e3,
            ratios[0],
            ratios[1]
        );
        worst = [worst[0].max(ratios[0]), worst[1].max(ratios[1])];
        if log.name == "few long" {
            long.push(format!("{:.2}", t[0] * 1e9 / (replayed as f64 * log.events() as f64)));
        }
    }
    println!("worst: {:.2} to the plain finder, {:.2} to the one with the library's search", worst[0], worst[1]);
    println!("nanoseconds an event replayed, few long: {} by the archive; a shift alone: {:.2}", long.join(", "), shift_alone());
}

/// Runs this program with these words under callgrind, in a process of its own, and gives the instructions of one function alone.
fn instructions(function: &str, words: &[&str]) -> u64 {
    let out = Command::new("valgrind")
        .args(["--tool=callgrind", "--callgrind-out-file=/dev/null", &format!("--toggle-collect={function}")])
        .arg(std::env::current_exe().unwrap())
        .args(words)
        .output()
        .expect("valgrind runs");
    let said = String::from_utf8_lossy(&out.stderr).to_string();
    let line = said.lines().find(|l| l.contains("Collected")).unwrap_or_else(|| panic!("{said}"));
    line.rsplit(' ').next().unwrap().parse().unwrap()
}

fn print_instructions() {
    let automaton = Automaton::new();
    println!("Instructions for each event read by a replay, with all else that the find does.");
    println!(
        "{:<20} {:>3} {:>6} {:>6} {:>9} {:>15} {:>8} {:>8} {:>9} {:>10} {:>12}",
        "log", "N", "traces", "events", "threshold", "events read", "archive", "plain", "library", "to plain", "to library"
    );
    for (at, log) in counted_logs().iter().enumerate() {
        let mut list = log.list(&automaton);
        let said = bench_find(2, &automaton, log, &mut list).unwrap();
        let passes = if log.roomy { 1 } else { 2 };
        let read = passes * said.events_read;
        let each = [0, 1, 2].map(|which| {
            let words = ["one", &which.to_string(), &at.to_string(), &list.len().to_string()];
            instructions("bench_find", &words) as f64 / read as f64
        });
        println!(
            "{:<20} {:>3} {:>6} {:>6} {:>9} {:>15} {:>8.1} {:>8.1} {:>9.1} {:>10.2} {:>12.2}",
            log.name,
            log.memory.record.activities,
            log.memory.record.traces,
            log.events(),
            log.threshold,
            read,
            each[0],
            each[1],
            each[2],
            each[0] / each[1],
            each[0] / each[2]
        );
    }
}

/// Constraints to be watched, and the activities of a run.
struct List {
    name: &'static str,
    n: u32,
    constraints: Vec<u16>,
    activities: Vec<u32>,
}

impl List {
    fn count(&self) -> usize {
        self.constraints.len() / 3
    }
}

/// So many of these constraints, in any order, beginning again where there are fewer.
fn list_of(name: &'static str, n: u32, among: impl Fn(&Constraint) -> bool, count: usize) -> List {
    let mut rng = Rng::new(n as u64 + count as u64);
    let mut all: Vec<Constraint> = constraints(n).into_iter().filter(among).collect();
    rng.shuffle(&mut all);
    let chosen: Vec<Constraint> = all.into_iter().cycle().take(count).collect();
    // In a rough order, as in the logs.
    let activities = (0..4096).map(|k| ((k / 8 + rng.below(3)) % n as usize) as u32).collect();
    List { name, n, constraints: numbers(&chosen), activities }
}

fn lists() -> Vec<List> {
    let any = |_: &Constraint| true;
    vec![
        list_of("all templates", 5, any, MOST_WATCHED),
        list_of("all templates", 12, any, MOST_WATCHED),
        list_of("all templates", 32, any, MOST_WATCHED),
        list_of("Existence(1) alone", 32, |c| c.template == 1, MOST_WATCHED),
        list_of("Response alone", 32, |c| c.template == 14, MOST_WATCHED),
        list_of("Chain Succession alone", 32, |c| c.template == 22, MOST_WATCHED),
        list_of("sixteen", 5, any, 16),
        list_of("one", 5, any, 1),
    ]
}

/// The archive's watcher, the plain one with memory of its own, and the plain one with what the archive's is lent.
struct Watchers<'a> {
    list: &'a List,
    table: &'a Table,
    plain: Watcher<'a>,
    watcher: [[u32; 3]; 2],
    states: [Bytes; 2],
    told: [Bytes; 3],
}

impl<'a> Watchers<'a> {
    fn start(table: &'a Table, list: &'a List) -> Watchers<'a> {
        let (mut watcher, mut states, mut told) = ([0; 3], [0; MOST_WATCHED], [[0; MOST_WATCHED]; 2]);
        let said = watch_start(list.n, &mut watcher, &list.constraints, &mut states, &mut told[0]);
        let plain = Watcher::start(table, list.n, &list.constraints, &mut told[1]).expect("the list is right");
        assert!(said == 0 && told[0] == told[1]);
        Watchers { list, table, plain, watcher: [watcher; 2], states: [states, [0; MOST_WATCHED]], told: [told[0]; 3] }
    }

    /// All three tell the same.
    fn agree(&self) -> bool {
        self.told[0] == self.told[1] && self.told[1] == self.told[2]
    }
}

/// These steps by the watcher of this number.
#[no_mangle]
#[inline(never)]
fn bench_steps(which: usize, watchers: &mut Watchers, activities: &[u32]) {
    let Watchers { list, table, plain, watcher, states, told } = black_box(watchers);
    let steps = activities.iter();
    let taken = match which {
        0 => steps.filter(|&&x| watch_step(&mut watcher[0], &list.constraints, &mut states[0], &mut told[0], x) == 0).count(),
        1 => steps.filter(|&&x| plain.step(x, &mut told[1]).is_ok()).count(),
        _ => steps.filter(|&&x| step_lent(table, &mut watcher[1], &list.constraints, &mut states[1], &mut told[2], x).is_ok()).count(),
    };
    assert_eq!(taken, activities.len());
}

/// The best time of a step by each watcher over several rounds, each taking its turn in every round. A turn is a run of 4096 steps.
fn step_times(table: &Table, list: &List) -> [f64; 3] {
    let mut watchers = Watchers::start(table, list);
    for x in &list.activities {
        (0..3).for_each(|which| bench_steps(which, &mut watchers, std::slice::from_ref(x)));
        assert!(watchers.agree(), "{}", list.name);
    }
    let mut best = [f64::MAX; 3];
    let start = now();
    let mut rounds = 0;
    while rounds < 20 || (rounds < 300 && now() - start < 0.5) {
        let mut watchers = Watchers::start(table, list);
        for (which, best) in best.iter_mut().enumerate() {
            let before = now();
            bench_steps(which, &mut watchers, &list.activities);
            *best = best.min((now() - before) / list.activities.len() as f64);
        }
        assert!(watchers.agree(), "{}", list.name);
        rounds += 1;
    }
    best
}

fn print_head(what: &str) {
    println!("{what} of a watcher's step for each constraint, with all else that the step does.");
    println!(
        "{:<22} {:>3} {:>11} {:>10} {:>10} {:>10} {:>10} {:>10}",
        "list", "N", "constraints", "archive", "plain", "lent", "to plain", "to lent"
    );
}

/// A row of the watcher's tables, with what a step takes for each constraint.
fn print_row(list: &List, each: [f64; 3]) {
    println!(
        "{:<22} {:>3} {:>11} {:>10.2} {:>10.2} {:>10.2} {:>10.2} {:>10.2}",
        list.name,
        list.n,
        list.count(),
        each[0],
        each[1],
        each[2],
        each[0] / each[1],
        each[0] / each[2]
    );
}

fn print_step_times() {
    let lists = lists();
    let tables: Vec<Table> = lists.iter().map(|list| Table::new(list.n)).collect();
    let mut best = vec![[f64::MAX; 3]; lists.len()];
    for _ in 0..GOES {
        for ((list, table), least) in lists.iter().zip(&tables).zip(&mut best) {
            let t = step_times(table, list);
            *least = std::array::from_fn(|which| least[which].min(t[which]));
        }
    }
    print_head("Nanoseconds");
    let mut worst = [0f64; 2];
    for (list, t) in lists.iter().zip(best) {
        print_row(list, t.map(|t| t * 1e9 / list.count() as f64));
        worst = [worst[0].max(t[0] / t[1]), worst[1].max(t[0] / t[2])];
    }
    println!("worst: {:.2} to the plain watcher, {:.2} to the one with what is lent", worst[0], worst[1]);
}

fn print_step_instructions() {
    print_head("Instructions");
    for (at, list) in lists().iter().enumerate() {
        let all = (list.count() * list.activities.len()) as f64;
        print_row(list, [0, 1, 2].map(|which| instructions("bench_steps", &["run", &which.to_string(), &at.to_string()]) as f64 / all));
    }
}

fn main() {
    let words: Vec<String> = std::env::args().skip(1).collect();
    let number = |k: usize| words[k].parse::<usize>().unwrap();
    let words: Vec<&str> = words.iter().map(String::as_str).collect();
    match words[..] {
        [] => {
            print_times();
            println!();
            print_step_times();
        }
        ["watcher"] => print_step_times(),
        ["instructions"] => {
            print_instructions();
            println!();
            print_step_instructions();
        }
        ["watcher", "instructions"] => print_step_instructions(),
        // What runs under valgrind.
        ["one", ..] => {
            let (which, at) = (number(1), number(2));
            let said = bench_find(which, &Automaton::new(), &counted_logs()[at], &mut vec![0; number(3)]);
            println!("{} {said:?}", FINDERS[which]);
        }
        ["run", ..] => {
            let list = &lists()[number(2)];
            let table = Table::new(list.n);
            bench_steps(number(1), &mut Watchers::start(&table, list), &list.activities);
        }
        _ => panic!("{words:?}: give nothing, or the words watcher, instructions or both"),
    }
}
