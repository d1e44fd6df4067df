//! A model of document 01 in ordinary Rust, written from the document alone. It makes the output
//! that the programs of the gate must write, so that the proved code is held by something beside
//! its own definitions.
//!
//! Beside the model: `load` and `rainbow` drive a library; `rattle`, `mutants`, `package` and `docs`
//! read the tree as text, and the model uses none of them.
pub mod chain;
pub mod docs;
pub mod dots;
pub mod hard;
pub mod history;
pub mod index;
pub mod load;
pub mod machine;
pub mod memories;
pub mod mending;
pub mod monitor;
pub mod mutants;
pub mod package;
pub mod rainbow;
pub mod rattle;
pub mod sample;
pub mod screen;
pub mod scripts;
pub mod trial;
pub mod tube_sample;
pub mod viewers;
pub mod watchdog;
pub mod why;

/// "Numbers of refusal", with those of document 02: they are 1 to this.
pub const REFUSALS: usize = 10;

/// A number of refusal or the accepted value.
pub type Answer<T> = Result<T, u8>;

/// The number that the library gives for an answer.
pub fn refusal<T>(answer: &Answer<T>) -> u8 {
    match answer {
        Ok(_) => 0,
        Err(number) => *number,
    }
}
