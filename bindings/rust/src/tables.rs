//! Tables that grow: entries in, words out.
use crate::calls::{query, Tables};
use crate::layout::{connection_words, node_words, rule_words, NODES, NODE_WORDS, WORDS};
use crate::numbers::{Item, Justification, Node, Operator, Rule};
use crate::proof::Proof;
use crate::refusal::Refusal;
use alloc::vec;
use alloc::vec::Vec;

/// One side of a rule: a pattern as its items.
#[derive(Clone, Debug, PartialEq, Eq, PartialOrd, Ord, Hash)]
pub struct Pattern(Vec<Item>);

impl Pattern {
    /// A variable, 0 to 15.
    pub fn variable(number: u16) -> Pattern {
        Pattern(vec![Item::Variable(number)])
    }

    /// An operator over patterns for its children.
    pub fn operator(operator: Operator, children: &[Pattern]) -> Pattern {
        // a count that 16 bits cannot say is above 8 all the same, and refused with the rule
        let count = u16::try_from(children.len()).unwrap_or(u16::MAX);
        let below = children.iter().flat_map(|child| child.0.iter().copied());
        Pattern(core::iter::once(Item::Operator(operator, count)).chain(below).collect())
    }

    /// A pattern of any items; whether they are one the library judges.
    pub fn of_items(items: Vec<Item>) -> Pattern {
        Pattern(items)
    }

    /// Its items, parents before their children.
    pub fn items(&self) -> &[Item] {
        &self.0
    }
}

/// Tables that are built entry by entry. An entry that has no place in the words is refused and adds nothing; all else the library judges,
/// in every call: [`TableBuilder::tables`] and then [`Tables::judge`] say at once whether they are good.
#[derive(Clone, Debug, Default, PartialEq, Eq, Hash)]
pub struct TableBuilder {
    nodes: Vec<u16>,
    rules: Vec<u16>,
    connections: Vec<u16>,
}

impl TableBuilder {
    /// Empty tables.
    pub fn new() -> TableBuilder {
        TableBuilder::default()
    }

    /// One more node, and its number. Refused by 2 with over eight children, and by 3 as node 2,049.
    pub fn node(&mut self, operator: Operator, children: &[Node]) -> Result<Node, Refusal> {
        let words = node_words(operator, children)?;
        let number = self.nodes.len() / NODE_WORDS;
        if number >= NODES {
            return Err(Refusal::TableFull);
        }
        self.nodes.extend_from_slice(&words);
        Ok(Node(number as u16))
    }

    /// One more listed rule. Refused by 2 where a side has over 64 items.
    pub fn rule(&mut self, number: Rule, left: &Pattern, right: &Pattern) -> Result<(), Refusal> {
        self.rules.extend_from_slice(&rule_words(number, left.items(), right.items())?);
        Ok(())
    }

    /// One more connection, younger than those before it.
    pub fn connect(&mut self, current: Node, next: Node, why: Justification) {
        self.connections.extend_from_slice(&connection_words(current, next, why));
    }

    /// The tables as words, for the four calls.
    pub fn tables(&self) -> Tables<'_> {
        Tables { nodes: &self.nodes, rules: &self.rules, connections: &self.connections }
    }

    /// A query into an area that grows until the proof fits: refused by 11 only where the proof needs more words than any may have.
    pub fn explain(&self, left: Node, right: Node) -> Result<Proof, Refusal> {
        let mut area = vec![0; WORDS >> 10];
        loop {
            match query(self.tables(), left, right, &mut area).map(|written| (written.distance, written.words.len())) {
                Ok((distance, written)) => {
                    area.truncate(written);
                    return Ok(Proof::written(distance, area));
                }
                Err(Refusal::NoRoom) if area.len() < WORDS => {
                    // refused, the area is all zero, and nothing of it is wanted
                    let length = area.len() << 5;
                    area.resize(length.min(WORDS), 0);
                }
                Err(refusal) => return Err(refusal),
            }
        }
    }
}
