//! What queries of many children show: the same work as `rt_query`'s, in plain Rust.
use crate::report;
use std::cmp::Ordering;
use std::collections::BTreeMap;
use std::sync::Arc;
use std::time::Instant;

const CHILDREN: u32 = 100_000;

/// A tree whose keys are shared too, as a row has its own.
#[derive(Clone)]
pub enum Node {
    Number(i64),
    Object(Arc<BTreeMap<Arc<str>, Node>>),
}

pub struct Row {
    key: Arc<str>,
    _value: Node,
}

#[derive(Clone, Copy)]
pub enum Order {
    Key,
    Child,
    Value,
}

#[derive(Clone, Copy, PartialEq, Eq, PartialOrd, Ord)]
enum Rank {
    Null,
    Number(i64),
    Object,
}

struct Child<'a> {
    rank: Rank,
    key: &'a Arc<str>,
    node: &'a Node,
}

fn own_rank(node: &Node) -> Rank {
    match node {
        Node::Number(number) => Rank::Number(*number),
        Node::Object(_) => Rank::Object,
    }
}

fn rank(order: Order, node: &Node) -> Rank {
    match (order, node) {
        (Order::Key, _) => Rank::Null,
        (Order::Value, node) => own_rank(node),
        (Order::Child, Node::Object(children)) => children.get("v").map_or(Rank::Null, own_rank),
        (Order::Child, Node::Number(_)) => Rank::Null,
    }
}

fn integer_of(key: &str) -> Option<i32> {
    if key.starts_with('+') { None } else { key.parse().ok() }
}

pub fn key_cmp(a: &str, b: &str) -> Ordering {
    match (integer_of(a), integer_of(b)) {
        (Some(m), Some(n)) => m.cmp(&n).then_with(|| a.len().cmp(&b.len())).then_with(|| a.cmp(b)),
        (Some(_), None) => Ordering::Less,
        (None, Some(_)) => Ordering::Greater,
        (None, None) => a.cmp(b),
    }
}

fn select(children: &BTreeMap<Arc<str>, Node>, order: Order, limit: Option<usize>) -> Vec<Row> {
    let mut found = Vec::with_capacity(children.len());
    found.extend(children.iter().map(|(key, node)| Child { rank: rank(order, node), key, node }));
    found.sort_unstable_by(|a, b| a.rank.cmp(&b.rank).then_with(|| key_cmp(a.key, b.key)));
    found.truncate(limit.unwrap_or(usize::MAX));
    found.iter().map(|child| Row { key: child.key.clone(), _value: child.node.clone() }).collect()
}

/// Children in scattered order, each a number; below `v`, where that is asked for.
pub fn children(below: bool) -> BTreeMap<Arc<str>, Node> {
    let mut children = BTreeMap::new();
    let mut state: u32 = 7;
    for _ in 0..CHILDREN {
        state = state.wrapping_mul(1664525).wrapping_add(1013904223);
        let place = state / 256;
        let key = if place % 2 == 0 { format!("{place}") } else { format!("item{place}") };
        let number = Node::Number(i64::from(place % 50021));
        let node = if below { Node::Object(Arc::new(BTreeMap::from([("v".into(), number)]))) } else { number };
        children.insert(key.into(), node);
    }
    children
}

fn timed(name: &str, children: &BTreeMap<Arc<str>, Node>, order: Order, limit: Option<usize>) {
    let start = Instant::now();
    let rows = std::hint::black_box(select(children, order, limit));
    report(name, start);
    println!("{name} shows {} from {} to {}", rows.len(), rows[0].key, rows[rows.len() - 1].key);
}

pub fn queries(numbers: &BTreeMap<Arc<str>, Node>, objects: &BTreeMap<Arc<str>, Node>) {
    timed("select_key", objects, Order::Key, None);
    timed("select_child", objects, Order::Child, None);
    timed("select_value", numbers, Order::Value, None);
    timed("select_first", objects, Order::Child, Some(100));
}
