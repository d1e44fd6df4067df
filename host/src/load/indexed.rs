//! The index of a run, document 02, ticket 8, and what is demanded of the library alone, whatever the model says: a
//! kept index "equals the one worked out from memory afresh", and "With a true index the store's answer is the same as
//! without one".
use super::aim::entry_at;
use super::call::{Buffer, Call, Step};
use super::library::Library;
use crate::chain::{PLACES, ROWS};
use crate::index::INDEX;
use crate::rainbow::Seen;

#[derive(Clone, Default)]
pub struct Indexed {
    /// The index has been worked out, and nothing has been done since that leaves it behind.
    pub kept: bool,
    pub counts: Counts,
}

/// How many stores were made with a true index whose entry named a row, and named none, the same with an index that may
/// be untrue, and how often a kept index was compared with a fresh one and a store with one that had no index.
#[derive(Clone, Copy, Default)]
pub struct Counts([u64; 6]);

const FRESH: usize = 4;
const WITHOUT: usize = 5;

impl Counts {
    pub fn add(&mut self, other: &Self) {
        let counts = self.0.iter_mut().zip(other.0);
        counts.for_each(|(sum, count)| *sum += count);
    }

    pub fn counts(&self) -> [u64; 6] {
        self.0
    }
}

/// What is known ahead of a call: of a store with an index, what the index says of the byte, and what the same store
/// does without an index, if the index is true.
pub struct Before {
    entry: Option<u8>,
    without: Option<(Library, Seen)>,
}

impl Indexed {
    pub fn before(&self, step: &Step, library: &Library) -> Result<Before, String> {
        let Some((address, byte)) = step.call.stores_with_index() else {
            return Ok(Before {
                entry: None,
                without: None,
            });
        };
        let without = match step.call {
            Call::StoreWithIndex { .. } => Call::StoreWithPicture { address, byte },
            _ => Call::StoreForViewers { address, byte },
        };
        let mut copy = (self.kept && step.whole()).then(|| library.clone());
        let seen = copy.as_mut().map(|copy| copy.call(&without.into()));
        Ok(Before {
            entry: entry_at(address).map(|entry| library.content(Buffer::Index)[entry]),
            without: copy.zip(seen.transpose()?),
        })
    }

    /// A call was made. `moved` says whether it changed the column setting.
    pub fn after(
        &mut self,
        step: &Step,
        seen: &Seen,
        library: &Library,
        before: Before,
        moved: bool,
    ) -> Result<(), String> {
        let accepted = seen.refusal == 0;
        if accepted && step.call.stores_with_index().is_some() {
            let none = before.entry.is_none_or(|entry| usize::from(entry) >= ROWS);
            self.counts.0[2 * usize::from(!self.kept) + usize::from(none)] += 1;
        }
        if let Some((copy, alone)) = before.without {
            self.counts.0[WITHOUT] += 1;
            same_without(library, seen, &copy, &alone)?;
        }
        if step.call == Call::IndexAfresh && accepted && self.kept {
            self.counts.0[FRESH] += 1;
            same_afresh(library)?;
        }
        self.kept = match step.call {
            Call::IndexReaders if accepted => true,
            Call::Store8088 { .. }
            | Call::StoreWithPicture { .. }
            | Call::StoreForViewers { .. }
                if accepted =>
            {
                false
            }
            _ => self.kept && !moved,
        };
        Ok(())
    }
}

/// The answer, and all that a store leaves.
fn same_without(
    library: &Library,
    seen: &Seen,
    copy: &Library,
    alone: &Seen,
) -> Result<(), String> {
    let sides = ["without an index", "with a true one"];
    if let Some(differs) = seen.difference(alone, "marks", sides) {
        return Err(differs);
    }
    for buffer in [
        Buffer::Shared,
        Buffer::Screen,
        Buffer::Attribute,
        Buffer::Picture,
    ] {
        if let Some(differs) = library.differs(buffer, copy.content(buffer), false, sides) {
            return Err(differs);
        }
    }
    Ok(())
}

fn same_afresh(library: &Library) -> Result<(), String> {
    let [kept, fresh] = [Buffer::Index, Buffer::SpareIndex].map(|index| library.content(index));
    match (0..INDEX).find(|entry| kept[*entry] != fresh[*entry]) {
        Some(entry) => {
            let memory = if entry < PLACES {
                "screen"
            } else {
                "attribute"
            };
            Err(format!(
                "the kept index differs from a fresh one at {memory} {:X}: {:X}, not {:X}",
                entry % PLACES,
                kept[entry],
                fresh[entry]
            ))
        }
        None => Ok(()),
    }
}
