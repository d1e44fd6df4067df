//! What `make docs` asks of the documents beside what they name: the counts, the length of a line, the links; and of the
//! archive for C, that it exports what the library promises.
pub mod counts;
pub mod exports;
pub mod lines;
