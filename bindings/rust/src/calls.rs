//! The four calls, safe. What they promise is proved of the library; that the declarations below are the library's is a matter of reading:
//! include/erbighenti.h has them for C.
use crate::flat::Terms;
use crate::numbers::Node;
use crate::refusal::{Refusal, Rejection};

// the library takes lengths of 64 bits
const _: () = assert!(usize::BITS == 64);

#[allow(unsafe_code)]
mod library {
    extern "C" {
        pub fn erbighenti_check(
            nodes: *const u16,
            nodes_len: usize,
            rules: *const u16,
            rules_len: usize,
            connections: *const u16,
            connections_len: usize,
            words: *const u16,
            words_len: usize,
            value: *mut u64,
        ) -> u16;
        pub fn erbighenti_distance(
            nodes: *const u16,
            nodes_len: usize,
            rules: *const u16,
            rules_len: usize,
            connections: *const u16,
            connections_len: usize,
            left: u16,
            right: u16,
            value: *mut u64,
        ) -> u16;
        pub fn erbighenti_query(
            nodes: *const u16,
            nodes_len: usize,
            rules: *const u16,
            rules_len: usize,
            connections: *const u16,
            connections_len: usize,
            left: u16,
            right: u16,
            area: *mut u16,
            area_len: usize,
            distance: *mut u64,
            written: *mut u64,
        ) -> u16;
        pub fn erbighenti_term_text(words: *const u16, words_len: usize, room: *mut u8, room_len: usize, written: *mut u64) -> u16;
    }
}

/// Tables handed in whole, as words: an entry behind the other, laid out as [`crate::layout`] does it. They may hold anything: every call
/// judges them before all else, nodes, then rules, then connections, and the first bad entry decides (2 to 7).
#[derive(Clone, Copy, Debug, Default, PartialEq, Eq, Hash)]
pub struct Tables<'a> {
    /// The nodes, in the order of their numbers.
    pub nodes: &'a [u16],
    /// The listed rules, in any order.
    pub rules: &'a [u16],
    /// The connections, the oldest first: their order is their age.
    pub connections: &'a [u16],
}

/// What a query wrote.
#[derive(Clone, Copy, Debug, PartialEq, Eq, Hash)]
pub struct Written<'a> {
    /// How many steps lead from the left node to the right one: the proof has one term more.
    pub distance: usize,
    /// The proof's words, the front of the area. What is behind them is zero.
    pub words: &'a [u16],
}

impl<'a> Written<'a> {
    /// The proof's terms, the left node's first.
    pub fn terms(&self) -> Terms<'a> {
        Terms::written(self.words)
    }
}

/// The library gives 0 and document 01's numbers, which is proved; a number that is none would be another library.
fn said(number: u16) -> Result<(), Refusal> {
    match number {
        0 => Ok(()),
        _ => Err(Refusal::of_number(number).expect("a number of document 01")),
    }
}

/// A query: how does the left node become the right one? The flat proof is written into the area.
///
/// Refused by 2 to 11, where the area is left all zero, whatever it held. A proof takes at most [`crate::layout::WORDS`] words.
#[allow(unsafe_code)]
pub fn query<'a>(tables: Tables<'_>, left: Node, right: Node, area: &'a mut [u16]) -> Result<Written<'a>, Refusal> {
    let (mut distance, mut written) = (0, 0);
    let Tables { nodes, rules, connections } = tables;
    // SAFETY: each pointer is a slice's, so not null, aligned, and good for its length; the area and the two numbers are borrowed for
    // writing, so that they overlap nothing. The library keeps no pointer and has no state.
    let number = unsafe {
        library::erbighenti_query(
            nodes.as_ptr(),
            nodes.len(),
            rules.as_ptr(),
            rules.len(),
            connections.as_ptr(),
            connections.len(),
            left.0,
            right.0,
            area.as_mut_ptr(),
            area.len(),
            &mut distance,
            &mut written,
        )
    };
    said(number)?;
    Ok(Written { distance: distance as usize, words: &area[..written as usize] })
}

/// The strict checker: the count of terms of an accepted proof. Each term behind the first is a step, with one mark: an instance of a listed
/// rule at the marked place, and nothing else changed.
///
/// Refused by 2 to 7 for the tables, 12 to 17 and 19 for the proof, with the term's place.
#[allow(unsafe_code)]
pub fn check(tables: Tables<'_>, words: &[u16]) -> Result<usize, Rejection> {
    let mut value = 0;
    let Tables { nodes, rules, connections } = tables;
    // SAFETY: as in `query`.
    let number = unsafe {
        library::erbighenti_check(
            nodes.as_ptr(),
            nodes.len(),
            rules.as_ptr(),
            rules.len(),
            connections.as_ptr(),
            connections.len(),
            words.as_ptr(),
            words.len(),
            &mut value,
        )
    };
    match said(number) {
        Ok(()) => Ok(value as usize),
        Err(refusal) => Err(Rejection { refusal, place: value as usize }),
    }
}

/// The distance of two nodes: how many steps a query's proof would have. Refused by 2 to 10.
#[allow(unsafe_code)]
pub fn distance(tables: Tables<'_>, left: Node, right: Node) -> Result<usize, Refusal> {
    let mut value = 0;
    let Tables { nodes, rules, connections } = tables;
    // SAFETY: as in `query`.
    let number = unsafe {
        library::erbighenti_distance(
            nodes.as_ptr(),
            nodes.len(),
            rules.as_ptr(),
            rules.len(),
            connections.as_ptr(),
            connections.len(),
            left.0,
            right.0,
            &mut value,
        )
    };
    said(number)?;
    Ok(value as usize)
}

/// The text of one term, written into the room. Refused by 12, 13 and 11, where the room is left all zero; it is zero behind a text too.
///
/// [`crate::flat::TEXT_BYTES`] bytes for each node of the term are always enough.
#[allow(unsafe_code)]
pub fn term_text<'r>(words: &[u16], room: &'r mut [u8]) -> Result<&'r str, Refusal> {
    let mut written = 0;
    // SAFETY: as in `query`.
    let number = unsafe { library::erbighenti_term_text(words.as_ptr(), words.len(), room.as_mut_ptr(), room.len(), &mut written) };
    said(number)?;
    Ok(core::str::from_utf8(&room[..written as usize]).expect("a text has ASCII bytes alone"))
}

impl Tables<'_> {
    /// Whether the tables are good: 2 to 7 where they are not. Every call judges them by itself; this asks for nothing else.
    pub fn judge(self) -> Result<(), Refusal> {
        match distance(self, Node(0), Node(0)) {
            // node 0 is at distance 0 from itself, but where there are no nodes: good tables all the same
            Ok(_) | Err(Refusal::NoSuchNode) => Ok(()),
            Err(refusal) => Err(refusal),
        }
    }
}
