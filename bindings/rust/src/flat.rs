//! Flat terms: four words a node, parents before their children, terms behind each other.
use crate::layout::{CHILDREN, TERM_NODE_WORDS};
use crate::numbers::{Direction, Operator, Rule};
use crate::refusal::Refusal;

/// So many bytes of room for each node of a term hold its text, whatever its numbers: `(Rewrite=> r65535 (o65535 ` and two closing ones.
pub const TEXT_BYTES: usize = 28;

/// One node of a flat term.
#[derive(Clone, Copy, Debug, PartialEq, Eq, Hash)]
pub struct TermNode {
    /// Its operator.
    pub operator: Operator,
    /// How many children follow.
    pub count: usize,
    /// The mark: this subterm was made by a rule, used in this direction.
    pub mark: Option<(Direction, Rule)>,
}

impl TermNode {
    /// A node's four words, if they are one (13).
    fn of(words: &[u16]) -> Option<TermNode> {
        let &[operator, count, mark, rule] = words else { return None };
        let mark = match mark {
            0 if rule == 0 => None,
            1 => Some((Direction::Forward, Rule(rule))),
            2 => Some((Direction::Backward, Rule(rule))),
            _ => return None,
        };
        let count = usize::from(count);
        (count <= CHILDREN).then_some(TermNode { operator: Operator(operator), count, mark })
    }

    /// The node's four words.
    pub fn words(self) -> [u16; TERM_NODE_WORDS] {
        let (mark, rule) = match self.mark {
            None => (0, 0),
            Some((Direction::Forward, rule)) => (1, rule.0),
            Some((Direction::Backward, rule)) => (2, rule.0),
        };
        [self.operator.0, self.count as u16, mark, rule]
    }
}

/// One whole flat term, borrowed.
#[derive(Clone, Copy, Debug, PartialEq, Eq, Hash)]
pub struct Term<'a> {
    words: &'a [u16],
}

impl<'a> Term<'a> {
    /// The first term of some words, and the words behind it. Refused by 12 where there are none and by 13 where no whole term stands there.
    pub fn first(words: &'a [u16]) -> Result<(Term<'a>, &'a [u16]), Refusal> {
        if words.is_empty() {
            return Err(Refusal::NoWords);
        }
        let (mut pending, mut end) = (1, 0);
        while pending > 0 {
            let node = words.get(end..end + TERM_NODE_WORDS).and_then(TermNode::of).ok_or(Refusal::NoTerms)?;
            pending = pending - 1 + node.count;
            end += TERM_NODE_WORDS;
        }
        let (term, behind) = words.split_at(end);
        Ok((Term { words: term }, behind))
    }

    /// Its words.
    pub fn words(self) -> &'a [u16] {
        self.words
    }

    /// Its nodes, parents before their children.
    pub fn nodes(self) -> impl Iterator<Item = TermNode> + 'a {
        self.words.chunks_exact(TERM_NODE_WORDS).filter_map(TermNode::of)
    }

    /// Its root.
    pub fn root(self) -> TermNode {
        self.nodes().next().expect("a whole term has a root")
    }

    /// The root's children.
    pub fn children(self) -> Terms<'a> {
        Terms { words: &self.words[TERM_NODE_WORDS..] }
    }

    /// Its marked subterms, from left to right. A later term of an accepted proof has one: what the step to it changed.
    pub fn marked(self) -> impl Iterator<Item = Term<'a>> {
        let places = (0..self.words.len()).step_by(TERM_NODE_WORDS);
        places.filter(move |at| self.words[at + 2] != 0).filter_map(move |at| Some(Term::first(&self.words[at..]).ok()?.0))
    }
}

/// The terms of some words, one behind the other.
#[derive(Clone, Debug)]
pub struct Terms<'a> {
    words: &'a [u16],
}

impl<'a> Terms<'a> {
    /// The terms of words that were read or received. Refused by 12 and 13, before the first term is handed out.
    pub fn of(words: &'a [u16]) -> Result<Terms<'a>, Refusal> {
        let (_, mut behind) = Term::first(words)?;
        while !behind.is_empty() {
            behind = Term::first(behind)?.1;
        }
        Ok(Terms { words })
    }

    /// The terms of words that are whole terms already.
    pub(crate) fn written(words: &'a [u16]) -> Terms<'a> {
        Terms { words }
    }
}

impl<'a> Iterator for Terms<'a> {
    type Item = Term<'a>;
    fn next(&mut self) -> Option<Term<'a>> {
        let (term, behind) = Term::first(self.words).ok()?;
        self.words = behind;
        Some(term)
    }
}
