//! A tree whose children stand in the order of keys, by nested maps: the same work as `rt_store`'s, in plain Rust.
use crate::report;
use crate::select::key_cmp;
use std::cmp::Ordering;
use std::collections::BTreeMap;
use std::time::Instant;

#[derive(Clone, PartialEq, Eq)]
pub struct Key(String);

impl Ord for Key {
    fn cmp(&self, other: &Key) -> Ordering {
        key_cmp(&self.0, &other.0)
    }
}

impl PartialOrd for Key {
    fn partial_cmp(&self, other: &Key) -> Option<Ordering> {
        Some(self.cmp(other))
    }
}

#[derive(Clone)]
enum Node {
    Null,
    Number(i64),
    Object(BTreeMap<Key, Node>),
}

impl Node {
    fn is_null(&self) -> bool {
        matches!(self, Node::Null)
    }

    fn get(&self, path: &[Key]) -> Option<&Node> {
        let Some((key, rest)) = path.split_first() else {
            return Some(self);
        };
        match self {
            Node::Object(children) => children.get(key)?.get(rest),
            _ => None,
        }
    }

    fn set(&mut self, path: &[Key], number: i64) {
        let Some((key, rest)) = path.split_first() else {
            *self = Node::Number(number);
            return;
        };
        if !matches!(self, Node::Object(_)) {
            *self = Node::Object(BTreeMap::new());
        }
        if let Node::Object(children) = self {
            match children.get_mut(key) {
                Some(child) => child.set(rest, number),
                None => {
                    let mut child = Node::Null;
                    child.set(rest, number);
                    children.insert(key.clone(), child);
                }
            }
        }
    }

    fn clear(&mut self, path: &[Key]) {
        let Some((key, rest)) = path.split_first() else {
            *self = Node::Null;
            return;
        };
        let Node::Object(children) = self else {
            return;
        };
        if let Some(child) = children.get_mut(key) {
            child.clear(rest);
            if child.is_null() {
                children.remove(key);
            }
        }
        if children.is_empty() {
            *self = Node::Null;
        }
    }

    fn first_child(&self) -> Option<(&Key, &Node)> {
        match self {
            Node::Object(children) => children.first_key_value(),
            _ => None,
        }
    }
}

pub type Paths = Vec<Vec<Key>>;

fn set_all(tree: &mut Node, paths: &Paths) {
    for (value, path) in paths.iter().enumerate() {
        tree.set(path, value as i64);
    }
}

fn has_all(tree: &Node, paths: &Paths) -> usize {
    paths.iter().filter(|path| tree.get(path).is_some()).count()
}

pub fn stores(texts: &[Vec<String>]) {
    let paths: Paths = texts.iter().map(|path| path.iter().cloned().map(Key).collect()).collect();
    let mut tree = Node::Null;
    let start = Instant::now();
    set_all(&mut tree, &paths);
    report("store_set", start);
    let start = Instant::now();
    let found = paths.iter().filter(|path| matches!(tree.get(path).cloned(), Some(Node::Number(number)) if number >= 0)).count();
    report("store_get", start);
    let start = Instant::now();
    let standing = has_all(&tree, &paths);
    report("store_has", start);
    let start = Instant::now();
    for path in &paths {
        tree.clear(path);
    }
    report("store_clear", start);
    println!("store found {found} standing {standing} null {}", tree.is_null());
}

fn below_row(key: String) -> Vec<Key> {
    vec![Key("row".to_string()), Key(key)]
}

/// Children of one object in scattered order: of every other one the key is a whole number.
pub fn wide_paths(count: u32) -> Paths {
    let mut paths = Paths::new();
    let mut state: u32 = 7;
    for _ in 0..count {
        state = state.wrapping_mul(1664525).wrapping_add(1013904223);
        let place = state / 256;
        let kind = if place % 2 == 0 { "" } else { "item" };
        paths.push(below_row(format!("{kind}{place}")));
    }
    paths
}

/// Children of one object in the order of keys, as push ids come.
pub fn rising_paths(count: u32) -> Paths {
    (0..count).map(|place| below_row(format!("item{}", place + 100_000))).collect()
}

/// Siblings that are set one by one.
pub fn wide(name: &str, paths: Paths) {
    let mut tree = Node::Null;
    let start = Instant::now();
    set_all(&mut tree, &paths);
    report(name, start);
    let first = tree.first_child().and_then(|row| row.1.first_child());
    println!("{name} standing {} from {}", has_all(&tree, &paths), first.map_or("", |first| &first.0.0));
}
