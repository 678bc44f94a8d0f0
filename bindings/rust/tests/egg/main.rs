//! From egg: its own `Explain`, the text that the oracle runs, in; the library's proofs out, equal to egg's. tests/oracle has that text with
//! a substitute for what it takes from elsewhere; `explain.rs` here is a link to it, so that its child module can be ours.
#![allow(dead_code, unexpected_cfgs, hidden_glob_reexports)]

// explain.rs takes these from crates of their own; the substitutes are parts of this one
extern crate self as num_bigint;
extern crate self as num_traits;
extern crate self as symbolic_expressions;

#[path = "../../../../tests/oracle/egg.rs"]
#[rustfmt::skip]
mod egg;
#[rustfmt::skip]
mod explain;

mod misfits;
mod proofs;

pub use egg::num_bigint::BigUint;
pub use egg::num_traits::identities;
pub use egg::symbolic_expressions::Sexp;
pub use egg::*;
