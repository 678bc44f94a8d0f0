//! The three kinds of numbers, which must never be exchanged, and what a connection says.
use core::fmt;

/// An operator's number, 0 to 65,535. Printed `o3`.
#[derive(Clone, Copy, Debug, PartialEq, Eq, PartialOrd, Ord, Hash)]
pub struct Operator(pub u16);

/// A node's number: nodes count from 0, in the order of their table.
#[derive(Clone, Copy, Debug, PartialEq, Eq, PartialOrd, Ord, Hash)]
pub struct Node(pub u16);

/// A rule's number, 0 to 65,535. Printed `r7`.
#[derive(Clone, Copy, Debug, PartialEq, Eq, PartialOrd, Ord, Hash)]
pub struct Rule(pub u16);

/// Which way a rule is used: from its left side to its right side, or back.
#[derive(Clone, Copy, Debug, PartialEq, Eq, PartialOrd, Ord, Hash)]
pub enum Direction {
    /// From left to right, spelled `Rewrite=>` in a text.
    Forward,
    /// From right to left, spelled `Rewrite<=` in a text.
    Backward,
}

/// Why a connection joins its two nodes.
#[derive(Clone, Copy, Debug, PartialEq, Eq, PartialOrd, Ord, Hash)]
pub enum Justification {
    /// A rule makes the term of the next node from that of the current one. It need not be listed: the checker alone asks for that.
    Rule(Rule, Direction),
    /// Both have the same operator, and each pair of children is equal or joined by older connections.
    Congruence,
}

/// One item of a pattern. A pattern is read item by item, children inside parents.
#[derive(Clone, Copy, Debug, PartialEq, Eq, PartialOrd, Ord, Hash)]
pub enum Item {
    /// A variable, 0 to 15.
    Variable(u16),
    /// An operator and how many children it has, 0 to 8. As many patterns follow.
    Operator(Operator, u16),
}

impl fmt::Display for Operator {
    fn fmt(&self, f: &mut fmt::Formatter<'_>) -> fmt::Result {
        write!(f, "o{}", self.0)
    }
}

impl fmt::Display for Rule {
    fn fmt(&self, f: &mut fmt::Formatter<'_>) -> fmt::Result {
        write!(f, "r{}", self.0)
    }
}
