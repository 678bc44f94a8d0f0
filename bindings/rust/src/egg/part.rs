//! The part of a large graph that one query needs.
use super::{tables, Connection, Explained, Justification, Misfit};
use crate::numbers::Node;
use crate::proof::Proof;
use crate::refusal::Refusal;
use crate::tables::TableBuilder;
use alloc::collections::{BTreeMap, BTreeSet};
use alloc::vec;
use alloc::vec::Vec;

/// Tables for one query: the nodes on the paths that its proof walks, what is below them, and the connections of these paths. egg's graphs
/// often have more nodes than tables may have, and a proof needs few of them.
#[derive(Clone, Debug, PartialEq, Eq)]
pub struct Pair {
    /// The tables.
    pub tables: TableBuilder,
    /// The left node's number in them.
    pub left: Node,
    /// The right node's number in them.
    pub right: Node,
    /// egg's number of each node of the tables, rising.
    pub nodes: Vec<usize>,
}

impl Pair {
    /// The query: [`TableBuilder::explain`].
    pub fn explain(&self) -> Result<Proof, Refusal> {
        self.tables.explain(self.left, self.right)
    }
}

/// The tables that a query for this pair needs; the proof is the one that [`tables`] would give for the whole graph. Limits are asked of
/// these nodes alone.
pub fn pair(explained: &impl Explained, left: usize, right: usize) -> Result<Pair, Misfit> {
    let count = explained.nodes();
    if let Some(&node) = [left, right].iter().find(|node| **node >= count) {
        return Err(Misfit::NoSuchNode { node });
    }
    let mut part = Part { whole: explained, nodes: Vec::new(), numbers: BTreeMap::new(), walked: BTreeSet::new() };
    let found = part.walk(left, right)?;
    part.nodes = found.into_iter().collect();
    part.numbers = part.nodes.iter().enumerate().map(|(number, node)| (*node, number)).collect();
    let number = |node| Node(part.numbers[&node] as u16);
    // the numbers are looked at once the tables are made, so that they are known to be below 2,048
    let made = tables(&part).map_err(|misfit| misfit.among(&part.nodes))?;
    Ok(Pair { left: number(left), right: number(right), tables: made, nodes: part.nodes })
}

impl Misfit {
    /// The same misfit, its node under egg's number.
    fn among(self, nodes: &[usize]) -> Misfit {
        match self {
            Misfit::Nodes(_) => self,
            Misfit::NoSuchNode { node } => Misfit::NoSuchNode { node: nodes[node] },
            Misfit::Operator { node, number } => Misfit::Operator { node: nodes[node], number },
            Misfit::Children { node, count } => Misfit::Children { node: nodes[node], count },
            Misfit::ChildNotBelow { node, child } => Misfit::ChildNotBelow { node: nodes[node], child: nodes[child] },
            Misfit::Ends { node } => Misfit::Ends { node: nodes[node] },
            Misfit::Rule { node, number } => Misfit::Rule { node: nodes[node], number },
            Misfit::Circle { node } => Misfit::Circle { node: nodes[node] },
            Misfit::Unsupported { node } => Misfit::Unsupported { node: nodes[node] },
        }
    }
}

/// Some of the nodes, under numbers of their own in the same order, and some of their connections.
struct Part<'a, E> {
    whole: &'a E,
    nodes: Vec<usize>,
    numbers: BTreeMap<usize, usize>,
    /// the nodes whose parent connections are on a path
    walked: BTreeSet<usize>,
}

impl<E: Explained> Part<'_, E> {
    /// From a node up to its root.
    fn climb(&self, node: usize) -> Result<Vec<usize>, Misfit> {
        let mut chain = vec![node];
        let mut at = node;
        loop {
            let connection = self.whole.parent_connection(at);
            if connection.current != at || connection.next >= self.whole.nodes() {
                return Err(Misfit::Ends { node: at });
            }
            if connection.next == at {
                return Ok(chain);
            }
            if chain.len() == self.whole.nodes() {
                return Err(Misfit::Circle { node });
            }
            at = connection.next;
            chain.push(at);
        }
    }

    /// Walks the pair's path, and the paths of the children of each congruence on it: the nodes that are needed, and in `walked` whose
    /// connections. A pair that nothing joins has no path, and its two nodes are needed all the same.
    fn walk(&mut self, left: usize, right: usize) -> Result<BTreeSet<usize>, Misfit> {
        let (mut found, mut seen) = (BTreeSet::new(), BTreeSet::new());
        let mut pending = vec![(left, right)];
        while let Some((a, b)) = pending.pop() {
            if !seen.insert((a, b)) {
                continue;
            }
            self.need(a, &mut found)?;
            self.need(b, &mut found)?;
            let (up, down) = (self.climb(a)?, self.climb(b)?);
            let above: BTreeSet<usize> = down.iter().copied().collect();
            let Some(&meeting) = up.iter().find(|node| above.contains(node)) else { continue };
            for chain in [up, down] {
                for current in chain.into_iter().take_while(|node| *node != meeting) {
                    let connection = self.whole.parent_connection(current);
                    self.need(connection.next, &mut found)?;
                    self.need(current, &mut found)?;
                    self.walked.insert(current);
                    if connection.justification == Justification::Congruence {
                        pending.extend(self.whole.children(current).zip(self.whole.children(connection.next)));
                    }
                }
            }
        }
        Ok(found)
    }

    /// A node, and all that is below it.
    fn need(&self, node: usize, found: &mut BTreeSet<usize>) -> Result<(), Misfit> {
        let mut pending = vec![node];
        while let Some(node) = pending.pop() {
            if found.insert(node) {
                let below = pending.len();
                pending.extend(self.whole.children(node));
                if let Some(&child) = pending[below..].iter().find(|child| **child >= node) {
                    return Err(Misfit::ChildNotBelow { node, child });
                }
            }
        }
        Ok(())
    }
}

impl<E: Explained> Explained for Part<'_, E> {
    fn nodes(&self) -> usize {
        self.nodes.len()
    }

    fn operator(&self, node: usize) -> usize {
        self.whole.operator(self.nodes[node])
    }

    fn children(&self, node: usize) -> impl Iterator<Item = usize> {
        self.whole.children(self.nodes[node]).map(|child| self.numbers[&child])
    }

    fn parent_connection(&self, node: usize) -> Connection {
        let whole = self.whole.parent_connection(self.nodes[node]);
        let next = if self.walked.contains(&self.nodes[node]) { self.numbers[&whole.next] } else { node };
        Connection { current: node, next, ..whole }
    }
}
