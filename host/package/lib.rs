//! The DEC Rainbow 100's screen, memories and ports: what a Rainbow shows and keeps, without its processors.
//!
//! This package is made from sources that are proved in Rattle, by taking away what the prover alone reads. So every
//! call here ends, on all input, and what it answers and leaves is what its definition says; what no proof covers is
//! the compiler that makes a program of it.
//!
//! A caller keeps the memories and lends them to each call. The machine goes in by value and comes back, and so do the
//! viewers. A call that is refused says why, by a [`lent::Refusal`], and changes nothing.
//!
//! ```
//! use rainbow::{lent, lent::Refusal, machine::Machine, marks, memories, mending, picture};
//!
//! # fn main() -> Result<(), Refusal> {
//! let mut shared = vec![0; lent::SHARED_BYTES];
//! let mut screen = [0xFF; lent::SCREEN_BYTES];
//! let mut attribute = [0; lent::ATTRIBUTE_BYTES];
//! let mut picture = [0; lent::PICTURE_BYTES];
//! let machine = Machine::power_up();
//!
//! let drawing = picture::draw(machine, &screen, &attribute, &mut picture)?;
//! assert_eq!(drawing.reads, 75);
//! assert_eq!(drawing.wild, Some(0)); // the link of row 0 has its top four bits set
//!
//! let marks = mending::store_with_picture(
//!     machine, &mut shared, &mut screen, &mut attribute, &mut picture, 0xEE000, b'H',
//! )?;
//! assert!(marks::is_marked(marks, 0)); // row 0 has a cell now
//! assert_eq!(picture[4], b'H');
//!
//! let nowhere = memories::read_8088(machine, &shared, &screen, &attribute, 0xF0000);
//! assert_eq!(nowhere, Err(Refusal::Address));
//! # Ok(())
//! # }
//! ```
//!
//! | Call | What it does |
//! |---|---|
//! | [`machine::Machine::power_up`], [`vertical_tick`](machine::Machine::vertical_tick), [`watchdog_tick`](machine::Machine::watchdog_tick) | the machine at power-up; a vertical tick; a tick of the watchdog's clock, which may begin or end a reset of the 8088 |
//! | [`columns`](machine::Machine::columns), [`scroll_latch`](machine::Machine::scroll_latch), [`z80_runs`](machine::Machine::z80_runs), [`blanked`](machine::Machine::blanked), [`graphics`](machine::Machine::graphics) | what the machine is set to |
//! | [`ports::write_port`] | writes a code to a port, as the 8088 does |
//! | [`memories::read_8088`], [`memories::store_8088`] | the 8088 reads; it stores, with no picture |
//! | [`memories::read_z80`], [`memories::store_z80`] | the Z80 reads and stores, while it runs |
//! | [`shadow::read_shadow`], [`shadow::write_shadow`] | the NVM's shadow, by place, as the 8088 reads and writes it |
//! | [`picture::draw`] | draws the picture afresh; how many bytes it read, and the first row whose link is wild |
//! | [`mending::store_with_picture`], [`marks::is_marked`] | the 8088 stores, and the picture is mended; which rows changed |
//! | [`index::index_readers`], [`index::store_with_index`] | works out, for each place, the first row that reads it; the same store, which takes the first row from that index and keeps it |
//! | [`viewers::Viewers::start`], [`ask`](viewers::Viewers::ask) | eight viewers, for each of whom marks wait; a viewer is handed its own |
//! | [`viewers::store_for_viewers`], [`viewers::store_with_index_for_viewers`], [`viewers::draw_for_viewers`] | the same stores, which add their marks to those of all viewers; the same drawing, which sets all rows for all |
//! | [`glyphs::part`] | the sixteen bytes of a code in the glyph table |
//! | [`scan_line::draw`], [`scan_line::dots_of_line`] | the dots of a scan line |
//! | [`whole_screen::list_lines`] | the row and the scan of each of the 240 lines that show, as the scroll latch says |
//! | [`explaining::explain`], [`explaining::Explained`] | why a cell shows what it shows; the same as numbers |
//! | [`listing::list_rows`] | the row lister's text, and what the drawing answers |
//! | [`sentences::say`] | why a cell shows what it shows, in two sentences |
//!
//! While the 8088 is in reset its calls are refused by 8. Draw the picture, and work the index out, afresh after each
//! change of the column setting. [`chain`] and [`records`] have the constants of a picture; the other functions that are
//! public are parts of these calls, and are as safe to call.
#![no_std]
#![cfg_attr(not(rainbow_c), forbid(unsafe_code))]
#![cfg_attr(rainbow_c, deny(unsafe_code))]
// A Rust that is older than 1.93 warns that it will have the functions of `arrays` of itself.
#![allow(unstable_name_collisions)]

#[cfg(not(target_pointer_width = "64"))]
compile_error!("the proofs of this library are of targets whose usize has 64 bits");

// MODULES
