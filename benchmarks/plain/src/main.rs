//! The work of `rt_bench` in plain Rust: nested maps whose nodes are shared.
mod json;
mod linked;
mod select;

use std::collections::BTreeMap;
use std::sync::Arc;
use std::time::Instant;

const ROUNDS: u32 = 5;
const PUTS: u32 = 100_000;
const COPIES: u32 = 100_000;
const SHARED_PUTS: usize = 1000;

#[derive(Clone, Debug, PartialEq)]
pub enum Tree {
    Null,
    Truth(bool),
    Number(i64),
    Text(String),
    Object(Arc<BTreeMap<String, Tree>>),
}

impl Tree {
    fn get(&self, path: &[String]) -> Option<&Tree> {
        let Some((key, rest)) = path.split_first() else {
            return Some(self);
        };
        match self {
            Tree::Object(children) => children.get(key)?.get(rest),
            _ => None,
        }
    }

    // Puts a tree that is not null.
    fn put(&mut self, path: &[String], tree: Tree) {
        let Some((key, rest)) = path.split_first() else {
            *self = tree;
            return;
        };
        if !matches!(self, Tree::Object(_)) {
            *self = Tree::Object(Arc::new(BTreeMap::new()));
        }
        if let Tree::Object(children) = self {
            let children = Arc::make_mut(children);
            match children.get_mut(key) {
                Some(child) => child.put(rest, tree),
                None => {
                    let mut child = Tree::Null;
                    child.put(rest, tree);
                    children.insert(key.clone(), child);
                }
            }
        }
    }

    fn levels(&self) -> usize {
        match self {
            Tree::Null => 0,
            Tree::Object(children) => 1 + children.values().map(Tree::levels).max().unwrap_or(0),
            _ => 1,
        }
    }
}

pub fn is_key(text: &str) -> bool {
    let refused = |b: u8| b < 32 || b == 127 || matches!(b, b'.' | b'$' | b'#' | b'[' | b']' | b'/');
    !text.is_empty() && text.len() <= 768 && !text.bytes().any(refused)
}

fn parse(text: &str) -> Result<Vec<String>, &'static str> {
    let mut keys = Vec::new();
    for piece in text.split('/').filter(|piece| !piece.is_empty()) {
        if keys.len() == 32 {
            return Err("too deep");
        }
        if !is_key(piece) {
            return Err("bad key");
        }
        keys.push(piece.to_string());
    }
    Ok(keys)
}

fn paths(count: u32) -> Vec<Vec<String>> {
    let mut paths = Vec::new();
    let mut state: u32 = 1;
    for _ in 0..count {
        state = state.wrapping_mul(1664525).wrapping_add(1013904223);
        let place = state / 256;
        let text = format!("/room{}/seat{}/item{}", place % 37, place / 37 % 61, place / 2257 % 59);
        paths.push(parse(&text).unwrap());
    }
    paths
}

// The JSON of 200 objects of 299 leaves, numbers between `open` and `close`: 60,001 values.
fn json_text(open: &str, close: &str) -> String {
    let mut text = String::from("{");
    for room in 0..200 {
        text.push_str(if room == 0 { "" } else { "," });
        text.push_str(&format!("\"room{room}\":{{"));
        for seat in 0..299 {
            text.push_str(if seat == 0 { "" } else { "," });
            text.push_str(&format!("\"seat{seat}\":{open}{}{close}", room * 299 + seat));
        }
        text.push('}');
    }
    text.push('}');
    text
}

pub fn report(name: &str, start: Instant) {
    eprintln!("time {name} {}", start.elapsed().as_micros());
}

fn round() {
    let start = Instant::now();
    let paths = paths(PUTS);
    report("parse", start);
    let mut tree = Tree::Null;
    let start = Instant::now();
    for (value, path) in paths.iter().enumerate() {
        tree.put(path, Tree::Number(value as i64));
    }
    report("put", start);
    let start = Instant::now();
    let found = paths.iter().filter(|path| !matches!(tree.get(path), None | Some(Tree::Object(_)))).count();
    report("get", start);
    let start = Instant::now();
    let mut copies = 0;
    for _ in 0..COPIES {
        let copy = std::hint::black_box(tree.clone());
        if copy != Tree::Null {
            copies += 1;
        }
    }
    report("copy", start);
    let start = Instant::now();
    for path in paths.iter().take(SHARED_PUTS) {
        let _before = tree.clone();
        tree.put(path, Tree::Truth(true));
    }
    report("put_shared", start);
    println!("found {found} copies {copies} levels {}", tree.levels());
    let text = json_text("", "");
    let start = Instant::now();
    let tree = json::read(&text).unwrap();
    report("read", start);
    println!("bytes {} levels {}", text.len(), tree.levels());
    let start = Instant::now();
    let mut written = String::new();
    json::write(&tree, &mut written);
    report("text", start);
    println!("written {}", written.len());
}

// A text of 10 MB, whose leaves are texts of some 150 bytes.
fn large_text() -> String {
    json_text("\"It is a truth universally acknowledged, that a single man in possession of a good fortune, must be in want of a wife. However little known. ", "\"")
}

fn read_large(text: &str) {
    let start = Instant::now();
    let tree = json::read(text).unwrap();
    report("read_large", start);
    println!("levels {}", tree.levels());
}

fn main() {
    for _ in 0..ROUNDS {
        round();
    }
    let numbers = select::children(false);
    let objects = select::children(true);
    for _ in 0..ROUNDS {
        select::queries(&numbers, &objects);
    }
    let paths = paths(PUTS);
    for _ in 0..ROUNDS {
        linked::stores(&paths);
        linked::wide("wide_1000", linked::wide_paths(1000));
        linked::wide("wide_10000", linked::wide_paths(10000));
        linked::wide("wide_100000", linked::wide_paths(100_000));
        linked::wide("rising_10000", linked::rising_paths(10000));
    }
    let text = large_text();
    println!("bytes {}", text.len());
    for _ in 0..ROUNDS {
        read_large(&text);
        println!("object true");
    }
}
