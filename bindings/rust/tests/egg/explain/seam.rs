//! Stands where explain.rs looks for its child module: the oracle's own way in, and beside it one that hands out what `Explain` keeps,
//! which is private to explain.rs.
use super::*;

#[path = "../../../../../tests/oracle/explain/seam.rs"]
#[rustfmt::skip]
mod oracle;

impl<L: Language> Explain<L> {
    /// Each node's parent connection: current, next, justification, and whether it is forward.
    pub fn parent_connections(&self) -> Vec<(Id, Id, Justification, bool)> {
        let parents = self.explainfind.iter().map(|node| &node.parent_connection);
        parents.map(|c| (c.current, c.next, c.justification.clone(), c.is_rewrite_forward)).collect()
    }
}
