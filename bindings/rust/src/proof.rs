//! A flat proof that owns its words, and its text.
use crate::calls::{check, term_text, Tables};
use crate::flat::{Term, Terms, TEXT_BYTES};
use crate::layout::TERM_NODE_WORDS;
use crate::refusal::{Refusal, Rejection};
use alloc::string::String;
use alloc::vec;
use alloc::vec::Vec;
use core::fmt;

/// A flat proof: terms, each made from the one before by what it marks.
#[derive(Clone, Debug, PartialEq, Eq, Hash)]
pub struct Proof {
    distance: usize,
    words: Vec<u16>,
}

impl Proof {
    pub(crate) fn written(distance: usize, words: Vec<u16>) -> Proof {
        Proof { distance, words }
    }

    /// A proof that was offered as words, whole terms: refused by 12 and 13. Whether it is one the strict checker says.
    pub fn offered(words: Vec<u16>) -> Result<Proof, Refusal> {
        let distance = Terms::of(&words)?.count() - 1;
        Ok(Proof { distance, words })
    }

    /// How many steps it has: one less than terms.
    pub fn distance(&self) -> usize {
        self.distance
    }

    /// Its words.
    pub fn words(&self) -> &[u16] {
        &self.words
    }

    /// Its terms.
    pub fn terms(&self) -> Terms<'_> {
        Terms::written(&self.words)
    }

    /// The strict checker on it: the count of terms, if it is accepted over these tables.
    pub fn check(&self, tables: Tables<'_>) -> Result<usize, Rejection> {
        check(tables, &self.words)
    }

    /// Its text, each term on a line of its own, as document 01 prints it.
    pub fn text(&self) -> String {
        self.terms().map(|term| term.text() + "\n").collect()
    }
}

/// Its text: [`Proof::text`].
impl fmt::Display for Proof {
    fn fmt(&self, f: &mut fmt::Formatter<'_>) -> fmt::Result {
        f.write_str(&self.text())
    }
}

impl Term<'_> {
    /// The text of the term: `(o3 (Rewrite=> r7 o2))`.
    pub fn text(self) -> String {
        let mut room = vec![0; self.words().len() / TERM_NODE_WORDS * TEXT_BYTES];
        String::from(term_text(self.words(), &mut room).expect("a whole term, in a room for any of its size"))
    }
}

/// Its text.
impl fmt::Display for Term<'_> {
    fn fmt(&self, f: &mut fmt::Formatter<'_>) -> fmt::Result {
        f.write_str(&self.text())
    }
}
