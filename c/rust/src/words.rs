//! Where a pool's words lie.
use crate::{raw, Error};

/// A pool's sizes: format 1 has 1 to 256 segments, format 2 has 1 to 8,000; both have 1 to 16 clients.
#[derive(Clone, Copy, Debug, PartialEq, Eq)]
pub struct Sizes {
    pub format: u32,
    pub clients: u32,
    pub segments: u32,
}

impl Sizes {
    /// How many words such a pool has; 0 where there is none.
    pub fn total(self) -> u32 {
        unsafe { raw::lj_total(self.format, self.clients, self.segments) }
    }

    /// The word that a new pool has at an address.
    pub fn first_word(self, at: u32) -> u64 {
        unsafe { raw::lj_first_word(self.format, self.clients, self.segments, 1, at) }
    }
}

/// A word step.
#[derive(Clone, Copy, Debug, PartialEq, Eq)]
pub enum Step {
    Load { at: u32 },
    Store { at: u32, value: u64 },
    Exchange { at: u32, from: u64, to: u64 },
}

/// A pool's words, and who has which identity.
///
/// # Safety
///
/// `make` makes the step, atomically and in one order with everybody's steps on these words, and gives the word that was there (for a store 0). `take` gives an
/// identity to one at a time; after `give` no step of the former holder is made. The words were those of a new pool, and nobody else writes them.
pub unsafe trait Words {
    fn sizes(&self) -> Sizes;

    fn make(&self, step: Step) -> u64;

    /// # Errors
    ///
    /// [`Error::Taken`], where somebody has it.
    fn take(&self, who: u32) -> Result<(), Error>;

    fn give(&self, who: u32);

    /// Called by who has made 4,096 word steps of one operation in vain: the holder of a latch may be dead.
    fn waited(&self, _who: u32) {}
}
