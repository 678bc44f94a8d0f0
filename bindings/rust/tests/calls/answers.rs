//! Every answer, word for word and byte for byte.
use crate::asked::{cases, Asked, Call, Cases};
use erbighenti::{Direction, Item, Justification, Node, Operator, Pattern, Refusal, Rule, TableBuilder, Terms};

fn faults(cases: &Cases) -> Vec<String> {
    let fault = |one: &Asked| {
        let (area, room) = one.lengths();
        one.fault(cases.runs[one.over].tables(), &mut vec![0; area], &mut vec![0; room])
    };
    cases.asked.iter().filter_map(fault).collect()
}

#[test]
fn valid_damaged_and_random_tables() {
    let cases = cases(31, 500);
    let wrong = faults(&cases);
    assert!(wrong.is_empty(), "{} of {}, the first: {}", wrong.len(), cases.asked.len(), wrong[0]);
}

/// Rubbish before, zeros after: whatever the refusal, nothing of what was lent keeps what it held, and nothing was written.
#[test]
fn refused_calls_leave_zeros() {
    let cases = cases(31, 500);
    let mut refused = 0;
    for one in cases.asked.iter().filter(|one| one.right.number != 0 && matches!(one.call, Call::Query(..) | Call::Text(_))) {
        let (mut area, mut room) = (vec![0xdead; one.lengths().0], vec![b'Z'; one.lengths().1]);
        let number = one.ask(cases.runs[one.over].tables(), &mut area, &mut room).number;
        assert_eq!(number, one.right.number);
        assert!(area.iter().all(|word| *word == 0) && room.iter().all(|byte| *byte == 0), "{one:?}");
        refused += usize::from(!area.is_empty() || !room.is_empty());
    }
    assert!(refused > 1000, "only {refused} of them");
}

/// The iterator over flat terms judges words as the library does: one term, or a refusal by 12 or 13.
#[test]
fn terms_are_what_has_a_text() {
    for one in cases(31, 500).asked.iter().filter(|one| matches!(one.call, Call::Text(_))) {
        let terms = Terms::of(one.words()).map(Iterator::count).map_err(Refusal::number);
        match one.right.number {
            0 | 11 => assert_eq!(terms, Ok(1), "{one:?}"),
            13 => assert!(terms == Err(13) || terms > Ok(1), "{one:?}"),
            number => assert_eq!(terms, Err(number), "{one:?}"),
        }
    }
}

/// Or the tests above test too little.
#[test]
fn every_refusal_comes_up() {
    let counted = cases(31, 500).counted();
    let wanted: [(&str, &[u16]); 4] = [
        ("query", &[0, 2, 4, 5, 6, 7, 8, 9, 11]),
        ("distance", &[0, 2, 4, 5, 6, 7, 8, 9]),
        ("check", &[0, 2, 4, 5, 6, 7, 12, 13, 14, 15, 16, 17]),
        ("text", &[0, 11, 12, 13]),
    ];
    for (name, numbers) in wanted {
        for number in numbers {
            assert!(counted.contains_key(&(name, *number)), "{name} is never answered by {number}: {counted:?}");
        }
    }
    assert!(
        counted.keys().all(|(_, number)| *number == 0 || Refusal::of_number(*number).is_some()),
        "a number that is no refusal: {counted:?}"
    );
}

/// A comparison that cannot fail would be none: a wrong answer, a wrong word and a word left behind are each seen.
#[test]
fn a_wrong_answer_is_seen() {
    let mut cases = cases(32, 3);
    let number = |cases: &mut Cases, at: usize| cases.asked[at].right.number += 1;
    for at in 0..4 {
        number(&mut cases, at);
    }
    assert_eq!(faults(&cases).len(), 4);
    let written = cases.asked.iter_mut().skip(4).find(|one| !one.right.words.is_empty()).expect("a written proof");
    written.right.words[0] ^= 1;
    assert_eq!(faults(&cases).len(), 5);
}

/// The entries of a table, as the script prints them.
fn entries(text: &str) -> Vec<Vec<&str>> {
    text.split(',').map(|entry| entry.split_whitespace().collect()).filter(|entry: &Vec<&str>| !entry.is_empty()).collect()
}

fn number(word: &str) -> u16 {
    word.parse().expect("a number")
}

fn side(words: &[&str]) -> Pattern {
    let (mut items, mut at) = (vec![], 0);
    while at < words.len() {
        let variable = words[at] == "0";
        items.push(match variable {
            true => Item::Variable(number(words[at + 1])),
            false => Item::Operator(Operator(number(words[at + 1])), number(words[at + 2])),
        });
        at += if variable { 2 } else { 3 };
    }
    Pattern::of_items(items)
}

fn built(text: &str) -> TableBuilder {
    let mut made = TableBuilder::new();
    let parts: Vec<Vec<Vec<&str>>> = text.split(';').map(entries).collect();
    for (at, node) in parts[0].iter().enumerate() {
        let children: Vec<Node> = node[1..].iter().map(|word| Node(number(word))).collect();
        assert_eq!(made.node(Operator(number(node[0])), &children), Ok(Node(at as u16)));
    }
    for rule in &parts[1] {
        let middle = rule.iter().position(|word| *word == ">").expect("two sides");
        made.rule(Rule(number(rule[0])), &side(&rule[2..middle]), &side(&rule[middle + 1..])).expect("items that fit");
    }
    for connection in &parts[2] {
        let [current, next, kind, rule, forward] = connection.iter().map(|word| number(word)).collect::<Vec<_>>().try_into().expect("five");
        let direction = if forward == 1 { Direction::Forward } else { Direction::Backward };
        let why = if kind == 1 { Justification::Rule(Rule(rule), direction) } else { Justification::Congruence };
        made.connect(Node(current), Node(next), why);
    }
    made
}

#[test]
fn entries_are_laid_out_as_the_reference_does() {
    let cases = cases(33, 200);
    let mut held = 0;
    for run in &cases.runs {
        if let Some(text) = &run.entries {
            assert_eq!(built(text).tables(), run.tables(), "{text}");
            held += 1;
        }
    }
    assert!(held > 200, "only {held} tables");
}
