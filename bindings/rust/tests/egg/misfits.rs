//! What does not fit into tables is said, and which order the connections come in.
use erbighenti::egg::{pair, tables, Connection, Explained, Justification, Misfit};
use erbighenti::layout::NODES;
use erbighenti::{Node, Refusal};

/// Nodes as operator and children, and connections; a node without one is a root.
#[derive(Clone, Default)]
struct Plain {
    nodes: Vec<(usize, Vec<usize>)>,
    connections: Vec<Connection>,
}

impl Explained for Plain {
    fn nodes(&self) -> usize {
        self.nodes.len()
    }
    fn operator(&self, node: usize) -> usize {
        self.nodes[node].0
    }
    fn children(&self, node: usize) -> impl Iterator<Item = usize> {
        self.nodes[node].1.iter().copied()
    }
    fn parent_connection(&self, node: usize) -> Connection {
        let root = Connection { current: node, next: node, justification: Justification::Congruence, is_rewrite_forward: false };
        self.connections.get(node).copied().unwrap_or(root)
    }
}

fn by(current: usize, next: usize, justification: Justification) -> Connection {
    Connection { current, next, justification, is_rewrite_forward: true }
}

fn rule(current: usize, next: usize) -> Connection {
    by(current, next, Justification::Rule(7))
}

fn congruent(current: usize, next: usize) -> Connection {
    by(current, next, Justification::Congruence)
}

fn leaves(count: usize) -> Plain {
    Plain { nodes: vec![(1, vec![]); count], connections: vec![] }
}

fn misfit(plain: Plain) -> Misfit {
    let found = tables(&plain).expect_err("a misfit");
    assert!(!found.to_string().is_empty());
    found
}

#[test]
fn what_does_not_fit_is_named() {
    assert_eq!(misfit(leaves(NODES + 1)), Misfit::Nodes(NODES + 1));
    assert!(tables(&leaves(NODES)).is_ok());
    let with = |operator, children| Plain { nodes: vec![(1, vec![]), (operator, children)], connections: vec![] };
    assert_eq!(misfit(with(65536, vec![])), Misfit::Operator { node: 1, number: 65536 });
    assert!(tables(&with(65535, vec![0; 8])).is_ok());
    assert_eq!(misfit(with(1, vec![0; 9])), Misfit::Children { node: 1, count: 9 });
    assert_eq!(misfit(with(1, vec![0, 1])), Misfit::ChildNotBelow { node: 1, child: 1 });
    let joined = |connections| Plain { connections, ..leaves(3) };
    assert_eq!(misfit(joined(vec![by(0, 1, Justification::Rule(65536))])), Misfit::Rule { node: 0, number: 65536 });
    assert!(tables(&joined(vec![by(0, 1, Justification::Rule(65535))])).is_ok());
    assert_eq!(misfit(joined(vec![rule(1, 2)])), Misfit::Ends { node: 0 });
    assert_eq!(misfit(joined(vec![rule(0, 3)])), Misfit::Ends { node: 0 });
    assert_eq!(misfit(joined(vec![rule(0, 1), rule(1, 2), rule(2, 0)])), Misfit::Circle { node: 2 });
    assert_eq!(misfit(joined(vec![rule(0, 1), congruent(1, 0)])), Misfit::Circle { node: 1 });
}

/// Row 16 of docs/DIFFERENCES.md: a congruence that stands on itself. egg never ends on it.
#[test]
fn a_congruence_without_support_is_named() {
    let nodes = vec![(1, vec![]), (3, vec![0]), (3, vec![1])];
    let plain = Plain { nodes: nodes.clone(), connections: vec![rule(0, 2), congruent(1, 2), congruent(2, 2)] };
    assert_eq!(misfit(plain), Misfit::Unsupported { node: 1 });
    // other operators, other counts
    let plain = Plain { nodes: vec![(1, vec![]), (2, vec![])], connections: vec![congruent(0, 1)] };
    assert_eq!(misfit(plain), Misfit::Unsupported { node: 0 });
    let plain = Plain { nodes: vec![(1, vec![]), (3, vec![0]), (3, vec![0, 0])], connections: vec![congruent(0, 0), congruent(1, 2)] };
    assert_eq!(misfit(plain), Misfit::Unsupported { node: 1 });
}

/// Node 4's congruence needs node 6's, which comes later by number: the order is that of support.
#[test]
fn connections_come_in_the_order_of_their_support() {
    let nodes = vec![(1, vec![]), (2, vec![]), (3, vec![0]), (3, vec![1]), (4, vec![2]), (4, vec![3]), (5, vec![0]), (5, vec![1])];
    // 2 and 3 could be joined by congruence too, but are by rules, over 6 and 7
    let connections = vec![rule(0, 1), congruent(1, 1), rule(2, 6), rule(3, 7), congruent(4, 5), congruent(5, 5), congruent(6, 7)];
    let made = tables(&Plain { nodes, connections }).expect("tables");
    assert_eq!(made.tables().judge(), Ok(()));
    let currents: Vec<u16> = made.tables().connections.chunks(5).map(|words| words[0]).collect();
    assert_eq!(currents, [0, 2, 3, 6, 4]);
    let proof = made.explain(Node(4), Node(5)).expect("a proof");
    let expected = "(o4 (o3 o1))\n(o4 (Rewrite=> r7 (o5 o1)))\n(o4 (o5 (Rewrite=> r7 o2)))\n(o4 (Rewrite<= r7 (o3 o2)))\n";
    assert_eq!(proof.text(), expected);
    assert_eq!(made.explain(Node(0), Node(8)), Err(Refusal::NoSuchNode));
}

/// What does not fit into the part that a query needs is named by egg's numbers, and what is elsewhere is not asked for.
#[test]
fn a_part_names_eggs_numbers() {
    let unfit = || Plain {
        nodes: vec![(1, vec![]), (1, vec![0; 9]), (1, vec![]), (65536, vec![]), (3, vec![2]), (3, vec![2])],
        connections: vec![],
    };
    let asked = |plain: &Plain, left, right| pair(plain, left, right).map(|part| part.explain().map(|proof| proof.text()));
    assert_eq!(asked(&unfit(), 0, 0), Ok(Ok("o1\n".to_string())));
    assert_eq!(asked(&unfit(), 0, 2), Ok(Err(Refusal::NotJoined)));
    assert_eq!(asked(&unfit(), 6, 0), Err(Misfit::NoSuchNode { node: 6 }));
    assert_eq!(asked(&unfit(), 0, 1), Err(Misfit::Children { node: 1, count: 9 }));
    assert_eq!(asked(&unfit(), 2, 3), Err(Misfit::Operator { node: 3, number: 65536 }));
    let joined = |last: Connection| {
        let roots = (0..4).map(|node| congruent(node, node));
        Plain { connections: roots.chain([last]).collect(), ..unfit() }
    };
    assert_eq!(asked(&joined(congruent(4, 5)), 4, 5), Ok(Ok("(o3 o1)\n".to_string())));
    assert_eq!(asked(&joined(congruent(4, 2)), 4, 2), Err(Misfit::Unsupported { node: 4 }));
    assert_eq!(asked(&joined(by(4, 2, Justification::Rule(65536))), 4, 2), Err(Misfit::Rule { node: 4, number: 65536 }));
    assert_eq!(asked(&joined(rule(4, 6)), 4, 2), Err(Misfit::Ends { node: 4 }));
    let circle = Plain { connections: vec![rule(0, 1), rule(1, 2), rule(2, 0)], ..leaves(3) };
    assert_eq!(asked(&circle, 1, 1), Err(Misfit::Circle { node: 1 }));
    let above = Plain { nodes: vec![(1, vec![1]), (1, vec![])], connections: vec![] };
    assert_eq!(asked(&above, 0, 1), Err(Misfit::ChildNotBelow { node: 0, child: 1 }));
}
