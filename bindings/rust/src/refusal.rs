//! Document 01's numbers: why a call was refused.
use core::fmt;

/// Why a call was refused: document 01's numbers 1 to 17 and 19. The library gives the lowest that holds, in document 01's order. 18 is
/// nobody's number: a mark inside a marked subterm, which it once stood for, is a second mark, and so 15.
#[derive(Clone, Copy, Debug, PartialEq, Eq, PartialOrd, Ord, Hash)]
#[repr(u16)]
#[non_exhaustive]
pub enum Refusal {
    /// 1, of the program alone: a line is not lower-case hexadecimal pairs, is empty, too long, or lacks its line feed.
    Line = 1,
    /// 2: an entry is cut short, a pattern is not whole or has over 64 items, or a field is outside its set.
    Field = 2,
    /// 3: node 2,049 or rule 257.
    TableFull = 3,
    /// 4: a child is not below its node.
    ChildNotBelow = 4,
    /// 5: a rule number was listed before, or a right variable is absent on the left.
    RuleRepeatedOrUnbound = 5,
    /// 6: a connection's node is not there, its ends are equal or joined already, or current has a parent.
    Connection = 6,
    /// 7: a congruence without support.
    Unsupported = 7,
    /// 8: a queried node is not in the table.
    NoSuchNode = 8,
    /// 9: no chain of connections joins the pair.
    NotJoined = 9,
    /// 10: the distance is above 16,383.
    TooFar = 10,
    /// 11: the area or the room is too small, or over 1,048,576 words are needed.
    NoRoom = 11,
    /// 12: a proof or a term of no words.
    NoWords = 12,
    /// 13: the words are no whole number of terms, or for a text not one term.
    NoTerms = 13,
    /// 14: the first term is marked.
    FirstMarked = 14,
    /// 15: a later term does not have exactly one mark.
    Marks = 15,
    /// 16: a mark names a rule that is not listed.
    UnlistedRule = 16,
    /// 17: a step is none: something changed away from the mark, or the rule does not make this change.
    NoStep = 17,
    /// 19: over 1,048,576 words, or over 16,384 terms.
    TooLong = 19,
}

use Refusal::*;

impl Refusal {
    /// All of them, by number.
    pub const ALL: [Refusal; 18] = [
        Line,
        Field,
        TableFull,
        ChildNotBelow,
        RuleRepeatedOrUnbound,
        Connection,
        Unsupported,
        NoSuchNode,
        NotJoined,
        TooFar,
        NoRoom,
        NoWords,
        NoTerms,
        FirstMarked,
        Marks,
        UnlistedRule,
        NoStep,
        TooLong,
    ];

    /// Document 01's number.
    pub const fn number(self) -> u16 {
        self as u16
    }

    /// The refusal of a number, if there is one: 0 is success, and 18 nobody's.
    pub fn of_number(number: u16) -> Option<Refusal> {
        Refusal::ALL.into_iter().find(|refusal| refusal.number() == number)
    }

    /// What document 01 says of the number.
    pub const fn words(self) -> &'static str {
        match self {
            Line => "line isn't lower-case hex pairs, is empty, exceeds 8,192 digits or lacks its line feed",
            Field => "unknown kind, kind out of order, wrong length, pattern side over 64 items, field outside its set",
            TableFull => "node 2,049 or rule 257",
            ChildNotBelow => "child not below its node",
            RuleRepeatedOrUnbound => "rule number listed before, or right variable absent on the left",
            Connection => "connection: number not in the node table, ends equal, current has a parent, or ends joined already",
            Unsupported => "congruence without support",
            NoSuchNode => "query number not in the node table",
            NotJoined => "no chain of connections joins the pair",
            TooFar => "distance above 16,383",
            NoRoom => "needed words exceed the area, or 1,048,576, or the bytes of a text its room",
            NoWords => "proof of no words",
            NoTerms => "words are no whole number of terms, count above 8, mark above 2, unmarked node with a rule",
            FirstMarked => "first term marked",
            Marks => "a later term does not have exactly one mark",
            UnlistedRule => "a mark names an unlisted rule",
            NoStep => "a step fails: something changed away from its mark, or its rule does not make the change at it",
            TooLong => "over 1,048,576 words, or over 16,384 terms",
        }
    }
}

/// The number, and what document 01 says of it.
impl fmt::Display for Refusal {
    fn fmt(&self, f: &mut fmt::Formatter<'_>) -> fmt::Result {
        write!(f, "refused by {}: {}", self.number(), self.words())
    }
}

impl core::error::Error for Refusal {}

/// Why the strict checker did not accept a proof, and at which of its terms.
#[derive(Clone, Copy, Debug, PartialEq, Eq, Hash)]
pub struct Rejection {
    /// Why.
    pub refusal: Refusal,
    /// The term's place, from 0. It is 0 too where no one term is at fault: for tables (2 to 7), 12, 13 and 19.
    pub place: usize,
}

impl fmt::Display for Rejection {
    fn fmt(&self, f: &mut fmt::Formatter<'_>) -> fmt::Result {
        write!(f, "rejected {} term {}: {}", self.refusal.number(), self.place, self.refusal.words())
    }
}

impl core::error::Error for Rejection {}
