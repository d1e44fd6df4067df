//! The sources in crates/ as text: which crates there are, and their code without what the prover alone reads.
pub mod code;
pub mod kit;
pub mod tree;
