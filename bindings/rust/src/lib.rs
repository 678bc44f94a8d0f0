#![doc = include_str!("../README.md")]
#![no_std]
#![deny(unsafe_code, missing_docs)]

#[cfg(feature = "alloc")]
extern crate alloc;

pub mod flat;
pub mod layout;

mod calls;
mod numbers;
mod refusal;

#[cfg(feature = "alloc")]
pub mod egg;
#[cfg(feature = "alloc")]
mod proof;
#[cfg(feature = "alloc")]
mod tables;

pub use calls::{check, distance, query, term_text, Tables, Written};
pub use flat::{Term, TermNode, Terms};
pub use numbers::{Direction, Item, Justification, Node, Operator, Rule};
pub use refusal::{Refusal, Rejection};

#[cfg(feature = "alloc")]
pub use proof::Proof;
#[cfg(feature = "alloc")]
pub use tables::{Pattern, TableBuilder};
