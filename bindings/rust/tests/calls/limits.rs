//! Document 01's limits and its runs to compare, through the typed layer.
use erbighenti::layout::{DISTANCE, NODES, RULES, TERMS, WORDS};
use erbighenti::{distance, query, Direction::Forward, Justification, Node, Operator, Pattern, Refusal, Rule, TableBuilder};

const SEVEN: Justification = Justification::Rule(Rule(7), Forward);

fn leaf(operator: u16) -> Pattern {
    Pattern::operator(Operator(operator), &[])
}

/// g(x, x) over a rule pair, and the two nodes of the highest level.
fn tower(levels: usize) -> (TableBuilder, Node, Node) {
    let mut made = TableBuilder::new();
    let mut pair = [made.node(Operator(1), &[]).unwrap(), made.node(Operator(2), &[]).unwrap()];
    made.rule(Rule(7), &leaf(1), &leaf(2)).unwrap();
    made.connect(pair[0], pair[1], SEVEN);
    for _ in 0..levels {
        pair = pair.map(|below| made.node(Operator(3), &[below, below]).unwrap());
        made.connect(pair[0], pair[1], Justification::Congruence);
    }
    (made, pair[0], pair[1])
}

/// Leaves in one chain, under two nodes whose children are all the first and all the last of them.
fn chain(leaves: u16, children: usize) -> (TableBuilder, Node, Node) {
    let mut made = TableBuilder::new();
    let all: Vec<Node> = (0..leaves).map(|at| made.node(Operator(10 + at % 2), &[]).unwrap()).collect();
    made.rule(Rule(7), &leaf(10), &leaf(11)).unwrap();
    made.rule(Rule(8), &leaf(11), &leaf(10)).unwrap();
    for (at, pair) in all.windows(2).enumerate() {
        made.connect(pair[0], pair[1], Justification::Rule(Rule(7 + at as u16 % 2), Forward));
    }
    let [old, new] = [all[0], all[all.len() - 1]].map(|end| made.node(Operator(3), &vec![end; children]).unwrap());
    made.connect(old, new, Justification::Congruence);
    (made, old, new)
}

#[test]
fn towers() {
    for (levels, words) in [(5, 8316), (6, 33020), (7, 131_580)] {
        let (made, old, new) = tower(levels);
        let proof = made.explain(old, new).unwrap();
        assert_eq!((proof.distance(), proof.words().len()), (1 << levels, words));
        assert_eq!(proof.check(made.tables()), Ok(proof.distance() + 1));
        assert_eq!(query(made.tables(), old, new, &mut vec![0xdead; words]).map(|written| written.words.len()), Ok(words));
        let mut area = vec![0xdead; words - 1];
        assert_eq!(query(made.tables(), old, new, &mut area), Err(Refusal::NoRoom));
        assert!(area.iter().all(|word| *word == 0), "a refused query leaves its area all zero");
    }
    let (made, old, new) = tower(14);
    assert_eq!(query(made.tables(), old, new, &mut []), Err(Refusal::TooFar));
    assert_eq!(made.explain(old, new), Err(Refusal::TooFar));
    for levels in [12, 13] {
        let (made, old, new) = tower(levels);
        assert_eq!(distance(made.tables(), old, new), Ok(1 << levels));
        assert_eq!(made.explain(old, new), Err(Refusal::NoRoom));
    }
    let (made, old, new) = tower(9);
    assert_eq!(distance(made.tables(), old, new), Ok(512));
    assert_eq!(made.explain(old, new), Err(Refusal::NoRoom), "it needs more words than a proof may have");
}

#[test]
fn chains() {
    for (leaves, children, words) in [(1366, 3, 65536), (1025, 4, 81940), (1551, 4, 124_020), (2046, 8, 588_996)] {
        let (made, old, new) = chain(leaves, children);
        let proof = made.explain(old, new).unwrap();
        let terms = (usize::from(leaves) - 1) * children + 1;
        assert_eq!((proof.distance(), proof.words().len(), proof.terms().count()), (terms - 1, words, terms));
        assert_eq!(proof.check(made.tables()), Ok(terms));
    }
}

#[test]
fn numbers_in_words() {
    assert_eq!(TERMS, DISTANCE + 1, "what is written is never too long to be checked");
    let grouped = |number: usize| match (number / 1_000_000, number / 1000 % 1000, number % 1000) {
        (0, thousands, rest) => format!("{thousands},{rest:03}"),
        (millions, thousands, rest) => format!("{millions},{thousands:03},{rest:03}"),
    };
    assert_eq!(Refusal::TooFar.words(), format!("distance above {}", grouped(DISTANCE)));
    assert_eq!(Refusal::TooLong.words(), format!("over {} words, or over {} terms", grouped(WORDS), grouped(TERMS)));
}

#[test]
fn the_checkers_limits() {
    let (made, ..) = chain(2, 1);
    let swing: Vec<u16> = [10, 0, 0, 0].into_iter().chain([11, 0, 1, 7, 10, 0, 1, 8].repeat(TERMS / 2)).collect();
    let rejected = |words: &[u16]| erbighenti::check(made.tables(), words).map_err(|rejection| (rejection.refusal, rejection.place));
    assert_eq!(rejected(&swing[..4 * TERMS]), Ok(TERMS));
    assert_eq!(rejected(&swing), Err((Refusal::TooLong, 0)));
    let deep: Vec<u16> = [3, 1, 0, 0].repeat(WORDS / 4 - 1).into_iter().chain([1, 0, 0, 0, 1]).collect();
    assert_eq!(rejected(&deep[..WORDS]), Ok(1));
    assert_eq!(rejected(&deep), Err((Refusal::TooLong, 0)));
}

#[test]
fn full_tables() {
    let mut made = TableBuilder::new();
    for number in 0..NODES {
        assert_eq!(made.node(Operator(1), &[]), Ok(Node(number as u16)));
    }
    let whole = made.clone();
    assert_eq!(made.node(Operator(1), &[]), Err(Refusal::TableFull));
    assert_eq!(made.node(Operator(1), &[Node(0); 9]), Err(Refusal::Field), "the lowest number first");
    assert_eq!(made, whole, "a refused entry adds nothing");
    for number in 0..=RULES {
        assert_eq!(made.tables().judge(), Ok(()), "{number} rules");
        made.rule(Rule(number as u16), &leaf(1), &leaf(2)).unwrap();
    }
    assert_eq!(made.tables().judge(), Err(Refusal::TableFull));
}
