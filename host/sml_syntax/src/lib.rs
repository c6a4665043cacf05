//! Stands in for the original's `sml_syntax`. Made from document 01's rules and
//! from the uses in the given source, not from the original.

pub mod ast;
pub mod kind;
