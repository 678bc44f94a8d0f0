//! From egg 0.11.0: tables from what its `Explain` keeps.
//!
//! egg keeps, for each node, a `parent_connection` (`current`, `next`, `justification`, `is_rewrite_forward`), and beside them the nodes
//! themselves by their ids. Both are private there, so that egg's side has to hand them out: [`Explained`] is what is asked for, and
//! [`tables`] makes the tables. egg keeps no ages. [`tables`] puts the connections into an order in which each congruence stands behind its
//! support, and says so where there is none. Which of these orders it is changes no answer: paths, distances and flat proofs are those of
//! the parent connections alone. [`pair`] does the same with the part of a graph that one query needs, for graphs of over 2,048 nodes.
//!
//! ```
//! use erbighenti::egg::{tables, Connection, Explained, Justification};
//! use erbighenti::Node;
//!
//! /// o1, o2 and o3 over each of them; rule 7 made o2 from o1.
//! struct Small;
//!
//! impl Explained for Small {
//!     fn nodes(&self) -> usize {
//!         4
//!     }
//!     fn operator(&self, node: usize) -> usize {
//!         [1, 2, 3, 3][node]
//!     }
//!     fn children(&self, node: usize) -> impl Iterator<Item = usize> {
//!         [None, None, Some(0), Some(1)][node].into_iter()
//!     }
//!     fn parent_connection(&self, node: usize) -> Connection {
//!         let (next, justification) = [(1, Justification::Rule(7)), (1, Justification::Congruence), (3, Justification::Congruence),
//!             (3, Justification::Congruence)][node];
//!         Connection { current: node, next, justification, is_rewrite_forward: true }
//!     }
//! }
//!
//! let proof = tables(&Small).unwrap().explain(Node(2), Node(3)).unwrap();
//! assert_eq!(proof.text(), "(o3 o1)\n(o3 (Rewrite=> r7 o2))\n");
//! ```
mod part;

pub use part::{pair, Pair};

use crate::layout::{CHILDREN, NODES};
use crate::numbers::{Direction, Justification as Why, Node, Operator, Rule};
use crate::tables::TableBuilder;
use alloc::vec::Vec;
use core::fmt;

/// egg's `Justification`, with a number for the rule's name.
#[derive(Clone, Copy, Debug, PartialEq, Eq, Hash)]
pub enum Justification {
    /// By the rule of this number.
    Rule(usize),
    /// By congruence.
    Congruence,
}

/// egg's `Connection`, with numbers for ids.
#[derive(Clone, Copy, Debug, PartialEq, Eq, Hash)]
pub struct Connection {
    /// The node whose connection it is.
    pub current: usize,
    /// The node that it leads to; at the root of a class the node itself.
    pub next: usize,
    /// Why the two are equal.
    pub justification: Justification,
    /// Whether the rule leads from current to next. A congruence has no direction, whatever is said here.
    pub is_rewrite_forward: bool,
}

/// What is asked of egg. Nodes are counted from 0, as egg's ids are. Operators and rules have names there: who implements this numbers
/// them, each name by one number below 65,536.
pub trait Explained {
    /// How many nodes there are.
    fn nodes(&self) -> usize;
    /// The number of a node's operator.
    fn operator(&self, node: usize) -> usize;
    /// A node's children.
    fn children(&self, node: usize) -> impl Iterator<Item = usize>;
    /// A node's `parent_connection`.
    fn parent_connection(&self, node: usize) -> Connection;
}

/// What of egg's does not fit into tables.
#[derive(Clone, Copy, Debug, PartialEq, Eq, Hash)]
pub enum Misfit {
    /// There are so many nodes, over 2,048.
    Nodes(usize),
    /// A query names this node, which is not there.
    NoSuchNode {
        /// The node.
        node: usize,
    },
    /// This node's operator has a number above 65,535.
    Operator {
        /// The node.
        node: usize,
        /// Its operator's number.
        number: usize,
    },
    /// This node has over eight children.
    Children {
        /// The node.
        node: usize,
        /// How many children it has.
        count: usize,
    },
    /// This node has a child that is not below it.
    ChildNotBelow {
        /// The node.
        node: usize,
        /// The child.
        child: usize,
    },
    /// The parent connection of this node starts or ends at none of the nodes that it should.
    Ends {
        /// The node.
        node: usize,
    },
    /// This node's parent connection names a rule with a number above 65,535.
    Rule {
        /// The node.
        node: usize,
        /// The rule's number.
        number: usize,
    },
    /// The parent connections lead from this node back to it.
    Circle {
        /// The node.
        node: usize,
    },
    /// This node's parent connection is a congruence that no other connections support, in whatever order they are taken.
    Unsupported {
        /// The node.
        node: usize,
    },
}

impl fmt::Display for Misfit {
    fn fmt(&self, f: &mut fmt::Formatter<'_>) -> fmt::Result {
        match *self {
            Misfit::Nodes(count) => write!(f, "{count} nodes, and tables have at most {NODES}"),
            Misfit::NoSuchNode { node } => write!(f, "there is no node {node}"),
            Misfit::Operator { node, number } => write!(f, "node {node} has operator {number}, and the highest is {}", u16::MAX),
            Misfit::Children { node, count } => write!(f, "node {node} has {count} children, and a node has at most {CHILDREN}"),
            Misfit::ChildNotBelow { node, child } => write!(f, "node {node} has child {child}, which is not below it"),
            Misfit::Ends { node } => write!(f, "the parent connection of node {node} is not its own, or leads to no node"),
            Misfit::Rule { node, number } => write!(f, "node {node} is connected by rule {number}, and the highest is {}", u16::MAX),
            Misfit::Circle { node } => write!(f, "the parent connections lead from node {node} back to it"),
            Misfit::Unsupported { node } => write!(f, "node {node} is connected by a congruence without support"),
        }
    }
}

impl core::error::Error for Misfit {}

/// The tables of what egg keeps: its nodes, no rules, and its parent connections in an order that can be their age. The rules that a
/// checker is to know are listed then, by [`TableBuilder::rule`].
pub fn tables(explained: &impl Explained) -> Result<TableBuilder, Misfit> {
    let mut made = TableBuilder::new();
    let children = put_nodes(explained, &mut made)?;
    let mut classes = Classes((0..children.len()).collect());
    let mut congruences = Vec::new();
    for node in 0..children.len() {
        let connection = explained.parent_connection(node);
        let next = connection.next;
        if connection.current != node || next >= children.len() {
            return Err(Misfit::Ends { node });
        }
        match connection.justification {
            _ if next == node => {}
            Justification::Congruence => congruences.push((node, next)),
            Justification::Rule(number) => {
                let rule = Rule(u16::try_from(number).map_err(|_| Misfit::Rule { node, number })?);
                let direction = if connection.is_rewrite_forward { Direction::Forward } else { Direction::Backward };
                classes.join(node, next)?;
                made.connect(number_of(node), number_of(next), Why::Rule(rule, direction));
            }
        }
    }
    // Rules need no support, so they are the oldest. Then come the congruences whose children are joined by now, until none is left: what
    // is joined only grows, so that this finds an order if there is one.
    while let Some(&(node, _)) = congruences.first() {
        let before = congruences.len();
        let mut waiting = Vec::new();
        for (current, next) in congruences {
            let (left, right) = (&children[current], &children[next]);
            let pairs = || left.iter().zip(right);
            let alike = explained.operator(current) == explained.operator(next) && left.len() == right.len();
            if alike && pairs().all(|(&a, &b)| classes.of(a) == classes.of(b)) {
                classes.join(current, next)?;
                made.connect(number_of(current), number_of(next), Why::Congruence);
            } else {
                waiting.push((current, next));
            }
        }
        if waiting.len() == before {
            return Err(Misfit::Unsupported { node });
        }
        congruences = waiting;
    }
    Ok(made)
}

/// Puts the nodes into the table, and gives the children of each.
fn put_nodes(explained: &impl Explained, made: &mut TableBuilder) -> Result<Vec<Vec<usize>>, Misfit> {
    let count = explained.nodes();
    if count > NODES {
        return Err(Misfit::Nodes(count));
    }
    let mut all = Vec::with_capacity(count);
    for node in 0..count {
        let number = explained.operator(node);
        let operator = Operator(u16::try_from(number).map_err(|_| Misfit::Operator { node, number })?);
        let children: Vec<usize> = explained.children(node).collect();
        if let Some(&child) = children.iter().find(|child| **child >= node) {
            return Err(Misfit::ChildNotBelow { node, child });
        }
        let numbers: Vec<Node> = children.iter().copied().map(number_of).collect();
        made.node(operator, &numbers).map_err(|_| Misfit::Children { node, count: numbers.len() })?;
        all.push(children);
    }
    Ok(all)
}

/// A node's number in the table: there are at most 2,048.
fn number_of(node: usize) -> Node {
    Node(node as u16)
}

/// Which nodes are joined: each leads on to another of its class, but one.
struct Classes(Vec<usize>);

impl Classes {
    fn of(&mut self, mut node: usize) -> usize {
        while self.0[node] != node {
            self.0[node] = self.0[self.0[node]];
            node = self.0[node];
        }
        node
    }

    fn join(&mut self, current: usize, next: usize) -> Result<(), Misfit> {
        let (a, b) = (self.of(current), self.of(next));
        if a == b {
            return Err(Misfit::Circle { node: current });
        }
        self.0[a] = b;
        Ok(())
    }
}
