//! The oracle's own way into explain.rs, whose fields and functions are private: building a forest from connections as they are given,
//! asking for a distance and a flat proof, and having an offered proof checked. A child module, so that egg's text stays as it is.
use super::*;

impl<L: Language> Explain<L> {
    /// An empty forest, with shortening off.
    pub fn base() -> Self {
        Explain {
            optimize_explanation_lengths: false,
            ..Explain::new()
        }
    }

    /// A node that is its own class: egg's `add`.
    pub fn plant(&mut self, node: L) {
        let id = Id::from(self.explainfind.len());
        self.add(node, id);
    }

    /// A connection as document 01 gives it: egg's `union`, but current is not made the leader of its class first, and the direction
    /// is the given one. (In egg a parent connection that is not forward comes from `make_leader` turning it round.)
    pub fn connect(&mut self, current: Id, next: Id, justification: Justification, forward: bool) {
        if let Justification::Rule(_) = justification {
            self.shortest_explanation_memo
                .insert((current, next), (BigUint::one(), next));
            self.shortest_explanation_memo
                .insert((next, current), (BigUint::one(), current));
        }
        let connection = Connection {
            justification: justification.clone(),
            is_rewrite_forward: forward,
            next,
            current,
        };
        let other = Connection {
            justification,
            is_rewrite_forward: !forward,
            next: current,
            current: next,
        };
        self.explainfind[usize::from(current)]
            .neighbors
            .push(connection.clone());
        self.explainfind[usize::from(next)].neighbors.push(other);
        self.explainfind[usize::from(current)].parent_connection = connection;
    }

    /// egg's `distance_between`, with the memo that `calculate_shortest_explanations` starts from. Its table of common ancestors is
    /// left empty: egg then asks `common_ancestor`.
    pub fn distance(&mut self, nodes: &[L], left: Id, right: Id) -> BigUint {
        let count = self.explainfind.len();
        let mut explain = self.with_nodes(nodes);
        let mut memo = DistanceMemo {
            parent_distance: (0..count).map(|i| (Id::from(i), BigUint::zero())).collect(),
            common_ancestor: Default::default(),
            tree_depth: explain.calculate_tree_depths(),
        };
        explain.distance_between(left, right, &mut memo)
    }

    /// egg's `explain_equivalence`, flattened.
    pub fn flat(&mut self, nodes: &[L], left: Id, right: Id) -> FlatExplanation<L> {
        let mut explain = self.with_nodes(nodes);
        let (mut unionfind, classes) = (UnionFind::default(), Default::default());
        let mut found = explain.explain_equivalence::<()>(left, right, &mut unionfind, &classes);
        found.make_flat_explanation().clone()
    }

    /// The same by `get_path_unoptimized` alone.
    pub fn flat_unoptimized(&mut self, nodes: &[L], left: Id, right: Id) -> FlatExplanation<L> {
        let explain = self.with_nodes(nodes);
        let (mut cache, mut node_cache) = (Default::default(), Default::default());
        Explanation::new(explain.explain_enodes(left, right, &mut cache, &mut node_cache, true))
            .make_flat_explanation()
            .clone()
    }
}

impl<L: Language> Explanation<L> {
    /// An explanation that is handed in flat.
    pub fn offered(terms: FlatExplanation<L>) -> Self {
        Explanation {
            explanation_trees: vec![],
            flat_explanation: Some(terms),
        }
    }
}
