//! Random tables, built by egg itself: distances and flat proofs are egg's, and the strict checker takes the proofs back.
use crate::explain::{Explain, Justification};
use crate::{Id, Node, Symbol, UnionFind};
use erbighenti::egg::{self, pair, tables, Connection, Explained, Misfit};
use erbighenti::{Node as Number, Operator, Pattern, Refusal, Rule, TableBuilder};

const SEED: u64 = 41;
const TABLES: usize = 400;
const PAIRS: usize = 14;

/// A generator of numbers, splitmix64: the same tables each time.
struct Random(u64);

impl Random {
    fn below(&mut self, limit: usize) -> usize {
        self.0 = self.0.wrapping_add(0x9e37_79b9_7f4a_7c15);
        let mut z = self.0;
        z = (z ^ (z >> 30)).wrapping_mul(0xbf58_476d_1ce4_e5b9);
        z = (z ^ (z >> 27)).wrapping_mul(0x94d0_49bb_1331_11eb);
        ((z ^ (z >> 31)) % limit as u64) as usize
    }

    fn shuffle<T>(&mut self, items: &mut [T]) {
        for at in (1..items.len()).rev() {
            items.swap(at, self.below(at + 1));
        }
    }
}

/// egg's nodes and what its `Explain` keeps of them.
struct Kept<'a> {
    nodes: &'a [Node],
    parents: Vec<(Id, Id, Justification, bool)>,
}

impl Explained for Kept<'_> {
    fn nodes(&self) -> usize {
        self.nodes.len()
    }
    fn operator(&self, node: usize) -> usize {
        usize::from(self.nodes[node].op.1)
    }
    fn children(&self, node: usize) -> impl Iterator<Item = usize> {
        self.nodes[node].children.iter().map(|child| usize::from(*child))
    }
    fn parent_connection(&self, node: usize) -> Connection {
        let (current, next, why, is_rewrite_forward) = &self.parents[node];
        let justification = match why {
            Justification::Rule(name) => egg::Justification::Rule(usize::from(name.1)),
            Justification::Congruence => egg::Justification::Congruence,
        };
        Connection { current: usize::from(*current), next: usize::from(*next), justification, is_rewrite_forward: *is_rewrite_forward }
    }
}

/// A table in egg's hands, and which nodes its rules joined: rule number k is the k-th of them, from the first node to the second.
struct Made {
    nodes: Vec<Node>,
    explain: Explain<Node>,
    classes: UnionFind,
    ruled: Vec<(usize, usize)>,
}

impl Made {
    /// Few operators and small counts, so that many nodes can be congruent; leaves first.
    fn nodes(random: &mut Random) -> Vec<Node> {
        let (count, leaves) = (4 + random.below(13), 2 + random.below(3));
        let mut nodes: Vec<Node> = vec![];
        for number in 0..count {
            let children = if number < leaves { 0 } else { [0, 1, 1, 2, 2, 2, 3][random.below(7)] };
            let children = (0..children).map(|_| Id::from(random.below(number))).collect();
            nodes.push(Node { op: Symbol('o', 1 + random.below(3) as u16), children });
        }
        nodes
    }

    /// Nodes that nothing joins yet.
    fn of(nodes: Vec<Node>) -> Made {
        let mut made = Made { explain: Explain::base(), classes: UnionFind::default(), ruled: vec![], nodes };
        for node in &made.nodes {
            made.explain.plant(node.clone());
            made.classes.make_set();
        }
        made
    }

    /// Joins nodes at random, by rules and wherever it can by congruence. `turning`: by egg's own `union`, which turns trees round;
    /// else by connections as they are given, forward and backward, where current has no parent yet.
    fn random(random: &mut Random, turning: bool) -> Made {
        let mut made = Made::of(Made::nodes(random));
        let count = made.nodes.len();
        let mut wanted: Vec<(usize, usize, bool)> = (0..count).flat_map(|a| (0..count).map(move |b| (a, b, false))).collect();
        wanted.extend((0..count).map(|_| (random.below(count), random.below(count), true)));
        // a congruence that has no support yet may have it in the next round
        for _ in 0..3 {
            random.shuffle(&mut wanted);
            for (a, b, by_rule) in &wanted {
                made.join(random, turning, *a, *b, *by_rule);
            }
        }
        made
    }

    fn joined(&self, a: usize, b: usize) -> bool {
        self.classes.find(Id::from(a)) == self.classes.find(Id::from(b))
    }

    fn congruent(&self, a: usize, b: usize) -> bool {
        let (left, right) = (&self.nodes[a], &self.nodes[b]);
        let pairs = || left.children.iter().zip(&right.children);
        left.op == right.op && left.children.len() == right.children.len() && pairs().all(|(x, y)| self.joined((*x).into(), (*y).into()))
    }

    fn join(&mut self, random: &mut Random, turning: bool, a: usize, b: usize, by_rule: bool) {
        let parents = self.explain.parent_connections();
        let has_parent = parents[a].1 != Id::from(a);
        if self.joined(a, b) || !(by_rule || self.congruent(a, b)) || (!turning && has_parent) {
            return;
        }
        let why = if by_rule { Justification::Rule(Symbol('r', self.ruled.len() as u16)) } else { Justification::Congruence };
        let forward = turning || !by_rule || random.below(2) == 0;
        if by_rule {
            self.ruled.push(if forward { (a, b) } else { (b, a) });
        }
        match turning {
            true => self.explain.union(Id::from(a), Id::from(b), why),
            false => self.explain.connect(Id::from(a), Id::from(b), why, forward),
        }
        self.classes.union(Id::from(a), Id::from(b));
    }

    /// egg's distance.
    fn distance(&mut self, left: Id, right: Id) -> String {
        self.explain.distance(&self.nodes, left, right).to_string()
    }

    /// egg's flat proof, a term a line.
    fn flat(&mut self, left: Id, right: Id) -> String {
        self.explain.flat(&self.nodes, left, right).iter().map(|term| format!("{term}\n")).collect()
    }

    fn kept(&self) -> Kept<'_> {
        Kept { nodes: &self.nodes, parents: self.explain.parent_connections() }
    }

    fn tables(&self) -> TableBuilder {
        tables(&self.kept()).expect("tables that fit")
    }

    /// A node's term as a pattern without variables.
    fn pattern(&self, node: usize) -> Pattern {
        let children: Vec<Pattern> = self.nodes[node].children.iter().map(|child| self.pattern((*child).into())).collect();
        Pattern::operator(Operator(self.nodes[node].op.1), &children)
    }

    /// Lists every rule that joined two nodes. Whether all could be listed: a side of over 64 items has no place.
    fn list_rules(&self, tables: &mut TableBuilder) -> bool {
        let mut rules = self.ruled.iter().enumerate();
        rules.all(|(number, (a, b))| tables.rule(Rule(number as u16), &self.pattern(*a), &self.pattern(*b)).is_ok())
    }
}

#[derive(Debug, Default)]
struct Counted {
    proofs: usize,
    steps: usize,
    longest: usize,
    not_joined: usize,
    accepted: usize,
    smaller: usize,
}

fn compare(made: &mut Made, random: &mut Random, counted: &mut Counted) {
    let mut tables = made.tables();
    let listed = made.list_rules(&mut tables);
    let count = made.nodes.len();
    for _ in 0..PAIRS {
        let (left, right) = (random.below(count), random.below(count));
        let answer = tables.explain(Number(left as u16), Number(right as u16));
        // the part that this query needs gives the same
        let part = pair(&made.kept(), left, right).expect("a part that fits");
        assert_eq!(part.explain(), answer);
        assert!(part.nodes.len() <= count);
        counted.smaller += usize::from(part.nodes.len() < count);
        if !made.joined(left, right) {
            // row 10 of docs/DIFFERENCES.md: egg panics on such a pair
            assert_eq!(answer, Err(Refusal::NotJoined));
            counted.not_joined += 1;
            continue;
        }
        let (left, right) = (Id::from(left), Id::from(right));
        let proof = answer.expect("a proof");
        assert_eq!(proof.distance().to_string(), made.distance(left, right));
        assert_eq!(proof.text(), made.flat(left, right));
        counted.proofs += 1;
        counted.steps += proof.distance();
        counted.longest = counted.longest.max(proof.distance());
        if listed {
            assert_eq!(proof.check(tables.tables()), Ok(proof.distance() + 1));
            counted.accepted += 1;
        }
    }
}

#[test]
fn proofs_are_eggs() {
    let (mut random, mut counted) = (Random(SEED), Counted::default());
    for number in 0..TABLES {
        let mut made = Made::random(&mut random, number % 2 == 0);
        compare(&mut made, &mut random, &mut counted);
    }
    println!("note: {TABLES} tables, {counted:?}");
    assert!(counted.proofs > 5 * TABLES && counted.accepted > 4 * TABLES && counted.not_joined > TABLES, "{counted:?}");
    assert!(counted.smaller > TABLES, "{counted:?}");
    assert!(counted.steps > counted.proofs && counted.longest >= 8, "{counted:?}");
}

/// g(x, x) over a rule pair, so many levels, and the pair of the highest.
fn tower(levels: usize) -> (Made, Id, Id) {
    let leaf = |operator| Node { op: Symbol('o', operator), children: vec![] };
    let mut nodes = vec![leaf(1), leaf(2)];
    for below in 0..2 * levels {
        nodes.push(Node { op: Symbol('o', 3), children: vec![Id::from(below); 2] });
    }
    let mut made = Made::of(nodes);
    for level in 0..=levels {
        made.join(&mut Random(SEED), true, 2 * level, 2 * level + 1, level == 0);
    }
    (made, Id::from(2 * levels), Id::from(2 * levels + 1))
}

/// Row 12 of docs/DIFFERENCES.md: egg has no limits.
#[test]
fn towers_are_eggs_up_to_the_limit() {
    let number = |id: Id| Number(usize::from(id) as u16);
    let (mut made, left, right) = tower(7);
    let proof = made.tables().explain(number(left), number(right)).expect("a proof");
    assert_eq!((proof.distance(), proof.words().len()), (128, 131_580));
    assert_eq!(proof.text(), made.flat(left, right));
    let (mut made, left, right) = tower(14);
    assert_eq!(made.distance(left, right), "16384");
    assert_eq!(made.tables().explain(number(left), number(right)), Err(Refusal::TooFar));
}

/// More nodes than tables may have, and few of them needed.
#[test]
fn a_pair_of_a_large_graph() {
    let (mut random, levels) = (Random(SEED), 4);
    // the tower's nodes stand apart, every 300th, and what is between them are leaves in one class, the tower's among them
    let place = |number: usize| 300 * number;
    let mut nodes = vec![Node { op: Symbol('o', 9), children: vec![] }; place(2 * levels + 2)];
    for (number, node) in tower(levels).0.nodes.into_iter().enumerate() {
        let children = node.children.iter().map(|child| Id::from(place(usize::from(*child)))).collect();
        nodes[place(number)] = Node { op: node.op, children };
    }
    let mut made = Made::of(nodes);
    for level in 0..=levels {
        made.join(&mut random, true, place(2 * level), place(2 * level + 1), level == 0);
    }
    for leaf in (0..made.nodes.len()).filter(|leaf| leaf % 300 != 0) {
        made.join(&mut random, true, leaf, leaf / 300 * 300, true);
    }
    assert_eq!(tables(&made.kept()), Err(Misfit::Nodes(3000)));
    let (left, right) = (place(2 * levels), place(2 * levels + 1));
    let part = pair(&made.kept(), left, right).expect("a part that fits");
    assert_eq!(part.nodes, (0..2 * levels + 2).map(place).collect::<Vec<_>>());
    let proof = part.explain().expect("a proof");
    assert_eq!(proof.distance(), 1 << levels);
    assert_eq!(proof.text(), made.flat(Id::from(left), Id::from(right)));
}
