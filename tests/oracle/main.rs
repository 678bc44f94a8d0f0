//! The oracle: src/explain.rs of egg 0.11.0, run on document 01's lines of hexadecimal. Built by `rustc -O tests/oracle/main.rs`;
//! docs/ORACLE.md says how it was made. explain.rs is egg's text, egg.rs has a substitute for each item that it takes from elsewhere,
//! explain/seam.rs is the way in, and this file reads lines and prints answers.
//!
//! With the word `union` as argument the forest is built by egg's own `union`, which turns trees round, instead of from the connections
//! as they are given. What is joined, and by what, is the same then, and so must be every answer. With the word `operators` a node
//! matches another of the same operator, whatever their child counts. With the word `alternate` a rule between two nodes that are
//! joined already is handed to egg's `alternate_rewrite`, and with the word `thread` egg has a thread's usual stack of 2 MiB.
//!
//! Tables are believed: nothing is judged. A query prints `distance D` and each flat term on a line of its own (with a word `far=N`
//! the distance alone where it is above N, since the flat proof may then be too large to hold); an offered proof prints `passes`, `fails`
//! (a step is found to be none) or `panics: WHY`; a query on which egg panics prints `panics: WHY` too.
//!
//! An empty line begins another input: what was read is forgotten, and an empty line is printed. So many inputs take one process.
#![allow(dead_code, unexpected_cfgs)]

mod egg;
mod explain;

pub use egg::*;
use explain::{Explain, Explanation, FlatTerm, Justification};
use std::io::Read;
use std::panic::{catch_unwind, AssertUnwindSafe};

#[derive(Default)]
struct Tables {
    nodes: Vec<Node>,
    rules: Vec<Rewrite<Node, ()>>,
    connections: Vec<(Id, Id, Justification, bool)>,
}

/// The bytes of one frame, read from the front.
struct Frame {
    bytes: Vec<u8>,
    at: usize,
}

impl Frame {
    fn byte(&mut self) -> u8 {
        self.at += 1;
        self.bytes[self.at - 1]
    }
    fn number(&mut self) -> u16 {
        u16::from(self.byte()) << 8 | u16::from(self.byte())
    }
    fn id(&mut self) -> Id {
        Id::from(usize::from(self.number()))
    }
    fn ends(&self) -> bool {
        self.at == self.bytes.len()
    }
}

fn operator(n: u16) -> Symbol {
    Symbol('o', n)
}

fn node(frame: &mut Frame) -> Node {
    let op = operator(frame.number());
    let children = (0..frame.byte()).map(|_| frame.id()).collect();
    Node { op, children }
}

/// Items stand parents first in a frame, children first in an egg pattern. Gives the place of the pattern that was read.
fn pattern(frame: &mut Frame, nodes: &mut Vec<ENodeOrVar<Node>>) -> Id {
    if frame.byte() == 0 {
        nodes.push(ENodeOrVar::Var(Var(frame.byte())));
    } else {
        let op = operator(frame.number());
        let count = frame.byte();
        let children = (0..count).map(|_| pattern(frame, nodes)).collect();
        nodes.push(ENodeOrVar::ENode(Node { op, children }));
    }
    Id::from(nodes.len() - 1)
}

fn side(frame: &mut Frame) -> Pattern<Node> {
    let mut nodes = vec![];
    pattern(frame, &mut nodes);
    Pattern {
        ast: RecExpr { nodes },
    }
}

fn rule(frame: &mut Frame) -> Rewrite<Node, ()> {
    let name = Symbol('r', frame.number());
    let (searcher, applier) = (side(frame), side(frame));
    Rewrite {
        name,
        searcher,
        applier,
        analysis: std::marker::PhantomData,
    }
}

fn connection(frame: &mut Frame) -> (Id, Id, Justification, bool) {
    let (current, next, kind) = (frame.id(), frame.id(), frame.byte());
    let (rule, forward) = (Symbol('r', frame.number()), frame.byte() == 1);
    if kind == 0 {
        // a congruence has no direction: egg's `union` says forward
        (current, next, Justification::Congruence, true)
    } else {
        (current, next, Justification::Rule(rule), forward)
    }
}

/// One node of an offered proof, and how many children it says it has. A node's own children play no part in a flat term, but their
/// number does: `matches` compares it.
fn offered_node(frame: &mut Frame) -> (FlatTerm<Node>, usize) {
    let (op, count, mark, rule) = (
        operator(frame.number()),
        usize::from(frame.byte()),
        frame.byte(),
        frame.number(),
    );
    let children = vec![Id::from(0); count];
    let mut term = FlatTerm::new(Node { op, children }, vec![]);
    match mark {
        0 => assert!(rule == 0, "an unmarked node with a rule"),
        1 => term.forward_rule = Some(Symbol('r', rule)),
        2 => term.backward_rule = Some(Symbol('r', rule)),
        _ => panic!("no mark"),
    }
    (term, count)
}

/// One term of an offered proof, read without recursion: a deep term is egg's to recurse on.
fn offered_term(frame: &mut Frame) -> FlatTerm<Node> {
    let mut open = vec![offered_node(frame)];
    loop {
        let (term, count) = open.last().unwrap();
        if term.children.len() < *count {
            open.push(offered_node(frame));
            continue;
        }
        let (term, _) = open.pop().unwrap();
        match open.last_mut() {
            Some((parent, _)) => parent.children.push(term),
            None => return term,
        }
    }
}

/// What egg said, or the first line of why it panicked.
fn caught<T>(f: impl FnOnce() -> T) -> Result<T, String> {
    catch_unwind(AssertUnwindSafe(f)).map_err(|why| {
        let text = match (why.downcast_ref::<String>(), why.downcast_ref::<&str>()) {
            (Some(s), _) => s.clone(),
            (_, Some(s)) => s.to_string(),
            _ => String::new(),
        };
        text.lines().next().unwrap_or("").chars().take(72).collect()
    })
}

fn asked_for(word: &str) -> bool {
    std::env::args().any(|w| w == word)
}

/// The distance above which no flat proof is printed.
fn far() -> Option<num_bigint::BigUint> {
    let word = std::env::args().find_map(|w| w.strip_prefix("far=").map(String::from))?;
    Some(num_bigint::BigUint::small(word.parse().expect("a number")))
}

fn forest_of(tables: &Tables) -> Explain<Node> {
    let (by_union, alternate) = (asked_for("union"), asked_for("alternate"));
    let mut forest = Explain::base();
    // the class of each node, for the nodes that are joined already
    let mut class: Vec<usize> = (0..tables.nodes.len()).collect();
    for node in &tables.nodes {
        forest.plant(node.clone());
    }
    for (current, next, why, forward) in tables.connections.iter().cloned() {
        let (old, new) = (class[usize::from(current)], class[usize::from(next)]);
        class.iter_mut().filter(|c| **c == old).for_each(|c| *c = new);
        match (by_union, forward) {
            (_, true) if alternate && old == new => forest.alternate_rewrite(current, next, why),
            (_, false) if alternate && old == new => forest.alternate_rewrite(next, current, why),
            (false, _) => forest.connect(current, next, why, forward),
            (true, true) => forest.union(current, next, why),
            (true, false) => forest.union(next, current, why),
        }
    }
    forest
}

fn answer(tables: &Tables, left: Id, right: Id) -> String {
    let mut forest = forest_of(tables);
    let distance = match caught(|| forest.distance(&tables.nodes, left, right)) {
        Ok(distance) => distance,
        Err(why) => return format!("panics: {}\n", why),
    };
    let mut out = format!("distance {}\n", distance);
    if far().is_some_and(|far| distance > far) {
        return out;
    }
    let text = |terms: &[FlatTerm<Node>]| {
        terms
            .iter()
            .map(|t| t.to_string() + "\n")
            .collect::<String>()
    };
    match caught(|| {
        (
            forest.flat(&tables.nodes, left, right),
            forest.flat_unoptimized(&tables.nodes, left, right),
        )
    }) {
        Ok((terms, plain)) => {
            // with shortening off the two ways to a path must agree, if the memo has nothing but what `union` puts there
            assert!(
                asked_for("alternate") || text(&terms) == text(&plain),
                "get_path and get_path_unoptimized differ"
            );
            out += &text(&terms)
        }
        Err(why) => out += &format!("panics: {}\n", why),
    }
    out
}

fn verdict(tables: &Tables, words: Vec<u8>) -> String {
    let mut frame = Frame {
        bytes: words,
        at: 0,
    };
    let mut terms = vec![];
    while !frame.ends() {
        match caught(|| offered_term(&mut frame)) {
            Ok(term) => terms.push(term),
            Err(_) => return "no terms\n".to_string(),
        }
    }
    match caught(|| Explanation::offered(terms).check_proof(&tables.rules)) {
        Ok(()) => "passes\n".to_string(),
        Err(why) if why.starts_with("assertion failed: self.check_rewrite_at") => {
            "fails\n".to_string()
        }
        Err(why) => format!("panics: {}\n", why),
    }
}

fn run(input: &str) -> String {
    let (mut tables, mut words, mut out) = (Tables::default(), vec![], String::new());
    for line in input.lines() {
        if line.is_empty() {
            tables = Tables::default();
            words.clear();
            out.push('\n');
            continue;
        }
        let pairs = line
            .as_bytes()
            .chunks(2)
            .map(|p| std::str::from_utf8(p).unwrap());
        let bytes = pairs.map(|p| u8::from_str_radix(p, 16).unwrap()).collect();
        let mut frame = Frame { bytes, at: 0 };
        match frame.byte() {
            1 => tables.nodes.push(node(&mut frame)),
            2 => tables.rules.push(rule(&mut frame)),
            3 => tables.connections.push(connection(&mut frame)),
            4 => {
                let (left, right) = (frame.id(), frame.id());
                out += &answer(&tables, left, right)
            }
            5 => words.extend_from_slice(&frame.bytes[1..]),
            6 => out += &verdict(&tables, std::mem::take(&mut words)),
            kind => panic!("no frame of kind {}", kind),
        }
        // frames of tables and queries are read to their end
        assert!(
            frame.bytes[0] > 4 || frame.ends(),
            "a frame of wrong length"
        );
    }
    out
}

fn main() {
    OPERATORS_ALONE.store(asked_for("operators"), std::sync::atomic::Ordering::Relaxed);
    let mut input = String::new();
    std::io::stdin().read_to_string(&mut input).unwrap();
    // egg recurses over terms and nodes
    let stack = if asked_for("thread") { 1 << 21 } else { 1 << 29 };
    let work = std::thread::Builder::new()
        .stack_size(stack)
        .spawn(move || {
            let loud = std::panic::take_hook();
            std::panic::set_hook(Box::new(|_| ()));
            let out = catch_unwind(|| run(&input));
            std::panic::set_hook(loud);
            out
        });
    match work.unwrap().join().unwrap() {
        Ok(out) => print!("{}", out),
        Err(_) => {
            eprintln!("oracle: the input is not to be read");
            std::process::exit(1)
        }
    }
}
