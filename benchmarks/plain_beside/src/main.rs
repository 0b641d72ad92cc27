//! The plain client on the work of `benchmarks/beside`, by the same words as the product's program: `steps FILE SETUP HELD`,
//! `read FILE`, `write FILE`. And `lines WORKLOAD SIZE STEPS`, which writes one of the plain client's workloads as script lines.

use baseline::bench;
use baseline::core::{Core, Limits, Outcome, Report, Step, Write};
use baseline::key::Path;
use baseline::query::{Bound, Index, Limit, Query};
use baseline::tree::{Leaf, Tree};
use serde_json::{Map, Value};
use std::{env, fs, process};

/// How often a text is read or written.
const TIMES: usize = 5;

fn number(word: &Value) -> u64 {
    word.as_u64().expect("a number")
}

fn path(word: &Value) -> Path {
    Path::parse(word.as_str().expect("a text")).expect("a path")
}

fn tree(word: &Value) -> Tree {
    Tree::from_value(word).expect("a tree")
}

fn entries(value: &Map<String, Value>) -> Vec<(Path, Tree)> {
    value.iter().map(|(at, value)| (Path::parse(at).expect("a path"), tree(value))).collect()
}

fn query(at: &Value, calls: &[Value]) -> Query {
    let mut draft = Query::at(path(at));
    let key = |word: &Value| Some(Leaf::Text(word.as_str().expect("a text").into()));
    for call in calls {
        match call[0].as_str() {
            Some("limitToFirst") => draft.limit(Limit::First(number(&call[1]) as u32)),
            Some("limitToLast") => draft.limit(Limit::Last(number(&call[1]) as u32)),
            Some("orderByKey") => draft.order(Index::Key),
            Some("startAt") => draft.bound(Bound::StartAt, key(&call[1]), None),
            Some("endAt") => draft.bound(Bound::EndAt, key(&call[1]), None),
            _ => panic!("a call that no workload has: {call}"),
        }
        .expect("one call of each kind");
    }
    draft.done()
}

/// The step of a line. A workload has these kinds alone.
fn step(line: &str) -> Step {
    let value: Value = serde_json::from_str(line).expect("JSON");
    let words = value.as_array().expect("a list");
    let (name, words) = words.split_first().expect("a word");
    match (name.as_str().expect("a name"), words) {
        ("connected", []) => Step::Connected,
        ("listen", [seat, at, calls]) => Step::Listen {
            seat: number(seat),
            query: query(at, calls.as_array().expect("calls")),
        },
        ("unlisten", [seat, listener]) => Step::Unlisten { seat: number(seat), listener: number(listener) },
        ("set", [seat, at, value]) => Step::Write {
            seat: number(seat),
            write: Write::Put { path: path(at), tree: tree(value) },
        },
        ("update", [seat, Value::Object(value)]) => Step::Write {
            seat: number(seat),
            write: Write::Merge { entries: entries(value) },
        },
        ("merge", [tag, Value::Object(value)]) => Step::DataMerge { tag: number(tag), entries: entries(value) },
        ("data", [tag, at, value]) => Step::Data { tag: number(tag), path: path(at), tree: tree(value) },
        ("ok", [id]) => Step::Accepted { id: number(id) },
        _ => panic!("a line that no workload has: {line}"),
    }
}

fn apply(core: &mut Core, step: Step) -> Report {
    let report = core.apply(step).expect("workloads aren't refused");
    assert!(report.outcome == Outcome::Done, "workloads aren't stale");
    while core.take_outgoing().is_some() {}
    report
}

/// This thread's own nanoseconds: what other programs on the machine take isn't counted.
fn nanoseconds() -> u64 {
    #[repr(C)]
    struct Timespec {
        seconds: i64,
        nanoseconds: i64,
    }
    extern "C" {
        fn clock_gettime(clock: i32, time: *mut Timespec) -> i32;
    }
    const THREAD_CPU: i32 = 3;
    let mut time = Timespec { seconds: 0, nanoseconds: 0 };
    // SAFETY: the call fills the one struct that it is given, which has the C layout of a 64-bit Linux.
    let status = unsafe { clock_gettime(THREAD_CPU, &mut time) };
    assert!(status == 0, "no thread clock");
    time.seconds as u64 * 1_000_000_000 + time.nanoseconds as u64
}

fn time_steps(text: &str, setup: usize, is_held: bool) {
    let mut first: Vec<Step> = text.lines().map(step).collect();
    let timed = first.split_off(setup.min(first.len()));
    let count = timed.len();
    let mut core = Core::new(Limits::full());
    for step in first {
        apply(&mut core, step);
    }
    let mut notes = 0;
    let mut held = None;
    let begin = nanoseconds();
    for step in timed {
        let report = apply(&mut core, step);
        notes += report.notes.len();
        if is_held {
            held = Some(report);
        }
    }
    let took = nanoseconds() - begin;
    drop(held);
    println!("{count} {notes} {took}");
}

fn time_read(text: &str) {
    let begin = nanoseconds();
    let mut levels = 0;
    for _ in 0..TIMES {
        levels += 1 + Tree::read(text).expect("a tree").depth();
    }
    println!("{TIMES} {levels} {}", nanoseconds() - begin);
}

fn time_write(text: &str) {
    let tree = Tree::read(text).expect("a tree");
    let begin = nanoseconds();
    let mut bytes = 0;
    for _ in 0..TIMES {
        bytes += tree.text().len();
    }
    println!("{TIMES} {bytes} {}", nanoseconds() - begin);
}

fn main() {
    let words: Vec<String> = env::args().skip(1).collect();
    let words: Vec<&str> = words.iter().map(String::as_str).collect();
    let text = |file: &str| fs::read_to_string(file).expect("a file of text");
    let number = |word: &str| word.parse().expect("a number");
    match words.as_slice() {
        ["lines", workload, size, steps] => {
            let _ = bench::generate(workload, number(size), Some(number(steps)));
        }
        ["steps", file, setup, held] => time_steps(&text(file), number(setup), *held == "1"),
        ["read", file] => time_read(&text(file)),
        ["write", file] => time_write(&text(file)),
        _ => process::exit(2),
    }
}
