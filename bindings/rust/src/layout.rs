//! How entries of the three tables lie in words. `crates/model/specs/Tables.antt` defines it; these functions lay one entry out.
use crate::numbers::{Direction, Item, Justification, Node, Operator, Rule};
use crate::refusal::Refusal;

/// A node has at most so many children.
pub const CHILDREN: usize = 8;
/// A pattern has at most so many items.
pub const ITEMS: usize = 64;
/// There are at most so many nodes.
pub const NODES: usize = 2048;
/// There are at most so many rules.
pub const RULES: usize = 256;
/// A rule has at most so many variables, numbered from 0.
pub const VARIABLES: usize = 16;
/// A distance is at most this.
pub const DISTANCE: usize = 16383;
/// A checked proof has at most so many terms.
pub const TERMS: usize = 16384;
/// A proof has at most so many words, so that no larger area is of use.
pub const WORDS: usize = 1_048_576;

/// The words of a node: operator, count, and a slot for each of eight children.
pub const NODE_WORDS: usize = 2 + CHILDREN;
/// The words of a rule: number, left items, right items, and 64 slots of three words for each side.
pub const RULE_WORDS: usize = 3 + 2 * SIDE_WORDS;
/// The words of a connection: current, next, kind, rule, forward.
pub const CONNECTION_WORDS: usize = 5;
/// The words of one node of a term: operator, count, mark, rule.
pub const TERM_NODE_WORDS: usize = 4;

const ITEM_WORDS: usize = 3;
const SIDE_WORDS: usize = ITEM_WORDS * ITEMS;

/// Lays a node out. Over eight children have no slots and are refused by 2; whether each child is below its node the library judges.
pub fn node_words(operator: Operator, children: &[Node]) -> Result<[u16; NODE_WORDS], Refusal> {
    let mut words = [0; NODE_WORDS];
    let slots = words[2..].get_mut(..children.len()).ok_or(Refusal::Field)?;
    for (slot, child) in slots.iter_mut().zip(children) {
        *slot = child.0;
    }
    words[0] = operator.0;
    words[1] = children.len() as u16;
    Ok(words)
}

/// Lays a rule out. Over 64 items a side have no slots and are refused by 2; the rest of it the library judges.
pub fn rule_words(number: Rule, left: &[Item], right: &[Item]) -> Result<[u16; RULE_WORDS], Refusal> {
    let mut words = [0; RULE_WORDS];
    let (head, slots) = words.split_at_mut(3);
    let (left_slots, right_slots) = slots.split_at_mut(SIDE_WORDS);
    put_side(left, left_slots)?;
    put_side(right, right_slots)?;
    head.copy_from_slice(&[number.0, left.len() as u16, right.len() as u16]);
    Ok(words)
}

fn put_side(items: &[Item], slots: &mut [u16]) -> Result<(), Refusal> {
    let slots = slots.get_mut(..items.len() * ITEM_WORDS).ok_or(Refusal::Field)?;
    for (slot, item) in slots.chunks_exact_mut(ITEM_WORDS).zip(items) {
        slot.copy_from_slice(&match *item {
            Item::Variable(variable) => [0, variable, 0],
            Item::Operator(operator, count) => [1, operator.0, count],
        });
    }
    Ok(())
}

/// Lays a connection out. The library judges it, by the older ones.
pub fn connection_words(current: Node, next: Node, why: Justification) -> [u16; CONNECTION_WORDS] {
    let [kind, rule, forward] = match why {
        Justification::Congruence => [0, 0, 0],
        Justification::Rule(rule, direction) => [1, rule.0, u16::from(direction == Direction::Forward)],
    };
    [current.0, next.0, kind, rule, forward]
}
