//! The typed layer: refusals, flat terms, texts.
use erbighenti::flat::TEXT_BYTES;
use erbighenti::{
    term_text, Direction, Item, Justification, Node, Operator, Pattern, Proof, Refusal, Rejection, Rule, TableBuilder, Tables, Term, Terms,
};
use std::collections::BTreeSet;

const PROOF: [u16; 16] = [3, 1, 0, 0, 1, 0, 0, 0, 3, 1, 0, 0, 2, 0, 1, 7];

#[test]
fn refusals_have_their_numbers() {
    // all from 1 to 19 but 18, which is nobody's
    assert_eq!(Refusal::ALL.map(Refusal::number).to_vec(), (1..=17).chain([19]).collect::<Vec<u16>>());
    for refusal in Refusal::ALL {
        assert_eq!(Refusal::of_number(refusal.number()), Some(refusal));
        assert_eq!(refusal.to_string(), format!("refused by {}: {}", refusal.number(), refusal.words()));
    }
    assert_eq!(Refusal::ALL.map(Refusal::words).into_iter().collect::<BTreeSet<_>>().len(), Refusal::ALL.len());
    assert_eq!([0, 18, 20].map(Refusal::of_number), [None; 3]);
}

#[test]
fn tables_are_judged_as_document_01_says() {
    let leaf = |operator| Pattern::operator(Operator(operator), &[]);
    let paper = || {
        let mut made = TableBuilder::new();
        let leaves = [1, 2].map(|operator| made.node(Operator(operator), &[]).unwrap());
        let above = leaves.map(|below| made.node(Operator(3), &[below]).unwrap());
        (made, leaves, above)
    };
    let seven = Justification::Rule(Rule(7), Direction::Forward);
    assert_eq!(Tables::default().judge(), Ok(()));
    let (made, leaves, above) = paper();
    let judged = |change: &dyn Fn(&mut TableBuilder)| {
        let mut other = made.clone();
        change(&mut other);
        other.tables().judge().map_err(Refusal::number)
    };
    assert_eq!(judged(&|_| ()), Ok(()));
    assert_eq!(judged(&|t| assert!(t.node(Operator(1), &[Node(4)]).is_ok())), Err(4));
    assert_eq!(judged(&|t| t.rule(Rule(7), &leaf(1), &Pattern::variable(0)).unwrap()), Err(5));
    assert_eq!(judged(&|t| t.rule(Rule(7), &Pattern::variable(16), &leaf(1)).unwrap()), Err(2));
    assert_eq!(judged(&|t| t.rule(Rule(7), &Pattern::variable(15), &leaf(1)).unwrap()), Ok(()));
    assert_eq!(judged(&|t| t.rule(Rule(7), &Pattern::of_items(vec![]), &leaf(1)).unwrap()), Err(2));
    assert_eq!(judged(&|t| t.rule(Rule(7), &Pattern::operator(Operator(1), &vec![leaf(1); 9]), &leaf(1)).unwrap()), Err(2));
    assert_eq!(judged(&|t| t.connect(leaves[0], leaves[0], seven)), Err(6));
    assert_eq!(judged(&|t| t.connect(above[0], above[1], Justification::Congruence)), Err(7));
    // 64 items have their slots, and 65 have none
    let items = |count: usize| {
        Pattern::of_items([Item::Operator(Operator(3), 1)].repeat(count - 1).into_iter().chain([Item::Variable(0)]).collect())
    };
    let mut other = made.clone();
    assert_eq!(other.rule(Rule(1), &items(64), &items(64)), Ok(()));
    assert_eq!(other.tables().judge(), Ok(()));
    let before = other.clone();
    assert_eq!(other.rule(Rule(2), &items(65), &items(1)), Err(Refusal::Field));
    assert_eq!(other.rule(Rule(2), &items(1), &items(65)), Err(Refusal::Field));
    assert_eq!(other, before);
}

#[test]
fn flat_terms_are_walked() {
    let terms: Vec<Term> = Terms::of(&PROOF).unwrap().collect();
    assert_eq!(terms.iter().map(|term| term.text()).collect::<Vec<_>>(), ["(o3 o1)", "(o3 (Rewrite=> r7 o2))"]);
    assert_eq!((terms[0].root().operator, terms[0].root().count, terms[0].root().mark), (Operator(3), 1, None));
    assert_eq!(terms[0].marked().count(), 0);
    let marked: Vec<String> = terms[1].marked().map(|term| term.to_string()).collect();
    assert_eq!(marked, ["(Rewrite=> r7 o2)"]);
    assert_eq!(terms[1].children().map(|child| child.root().mark).collect::<Vec<_>>(), [Some((Direction::Forward, Rule(7)))]);
    let again: Vec<u16> = terms.iter().flat_map(|term| term.nodes().flat_map(|node| node.words())).collect();
    assert_eq!(again, PROOF);
}

#[test]
fn words_that_are_no_terms_are_refused() {
    assert_eq!(Terms::of(&[]).map(Iterator::count), Err(Refusal::NoWords));
    for cut in 1..PROOF.len() {
        let whole = cut == 8;
        assert_eq!(Terms::of(&PROOF[..cut]).map(Iterator::count), if whole { Ok(1) } else { Err(Refusal::NoTerms) }, "{cut} words");
        assert_eq!(Proof::offered(PROOF[..cut].to_vec()).is_ok(), whole);
    }
    for wrong in [[1, 0, 3, 0], [1, 0, 0, 7]] {
        assert_eq!(Terms::of(&wrong).map(Iterator::count), Err(Refusal::NoTerms), "{wrong:?}");
    }
    // a node and as many children as it says
    let broad = |count: u16| [vec![1, count, 0, 0], [2, 0, 0, 0].repeat(usize::from(count))].concat();
    assert_eq!(Terms::of(&broad(8)).map(Iterator::count), Ok(1));
    assert_eq!(Terms::of(&broad(9)).map(Iterator::count), Err(Refusal::NoTerms));
    assert_eq!(Proof::offered(PROOF.to_vec()).unwrap().text(), "(o3 o1)\n(o3 (Rewrite=> r7 o2))\n");
}

/// Two marks in one term are refused, and so is none; the same rewriting in two steps is accepted.
#[test]
fn a_later_term_has_one_mark() {
    let leaf = |operator| Pattern::operator(Operator(operator), &[]);
    let mut made = TableBuilder::new();
    made.rule(Rule(7), &leaf(1), &leaf(2)).unwrap();
    let over = |left: [u16; 4], right: [u16; 4]| [[5, 2, 0, 0], left, right].concat();
    let (old, new, marked) = ([1, 0, 0, 0], [2, 0, 0, 0], [2, 0, 1, 7]);
    let checked = |terms: &[Vec<u16>]| Proof::offered(terms.concat()).unwrap().check(made.tables());
    let refused = Err(Rejection { refusal: Refusal::Marks, place: 1 });
    assert_eq!(checked(&[over(old, old), over(marked, marked)]), refused);
    assert_eq!(checked(&[over(old, old), over(old, old)]), refused);
    assert_eq!(checked(&[over(old, old), over(marked, old), over(new, marked)]), Ok(3));
    assert_eq!(refused.unwrap_err().to_string(), "rejected 15 term 1: a later term does not have exactly one mark");
}

/// The longest text that nodes can have fits into the room that `Term::text` takes.
#[test]
fn the_longest_text_fits() {
    let words: Vec<u16> = [u16::MAX, 1, 1, u16::MAX].repeat(99).into_iter().chain([u16::MAX, 0, 2, u16::MAX]).collect();
    let (term, behind) = Term::first(&words).unwrap();
    assert!(behind.is_empty());
    let text = term.text();
    assert!(text.len() <= 100 * TEXT_BYTES && text.len() > 99 * TEXT_BYTES, "{}", text.len());
    let mut room = vec![b'Z'; text.len() - 1];
    assert_eq!(term_text(&words, &mut room), Err(Refusal::NoRoom));
    assert!(room.iter().all(|byte| *byte == 0), "a refused text leaves its room all zero");
}
