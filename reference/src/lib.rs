//! A second implementation of scripts, in plain Rust, written from docs/ alone. It shares no code with the crates and proves
//! nothing: it is there to be compared with.

pub mod generator;
pub mod script;
