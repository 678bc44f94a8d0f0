//! The four calls from Rust, held to tests/reference.py: valid, damaged and random tables, a million calls in one process, memory between
//! pages that nobody may touch, eight threads at once, and document 01's limits through the typed layer.
mod answers;
mod asked;
mod guarded;
mod limits;
mod million;
mod threads;
mod typed;
