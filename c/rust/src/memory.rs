//! Words in this process' memory, which its threads share.
use crate::words::{Sizes, Step, Words};
use crate::Error;
use std::sync::atomic::{AtomicBool, AtomicU64, Ordering::SeqCst};

/// A pool in an array.
pub struct InMemory {
    sizes: Sizes,
    words: Box<[AtomicU64]>,
    taken: [AtomicBool; 16],
}

impl InMemory {
    /// A new pool; none where no pool has such sizes.
    pub fn new(sizes: Sizes) -> Option<InMemory> {
        let words: Box<[AtomicU64]> = (0..sizes.total()).map(|at| AtomicU64::new(sizes.first_word(at))).collect();
        (!words.is_empty()).then(|| InMemory { sizes, words, taken: Default::default() })
    }
}

unsafe impl Words for InMemory {
    fn sizes(&self) -> Sizes {
        self.sizes
    }

    fn make(&self, step: Step) -> u64 {
        match step {
            Step::Load { at } => self.words[at as usize].load(SeqCst),
            Step::Store { at, value } => {
                self.words[at as usize].store(value, SeqCst);
                0
            }
            Step::Exchange { at, from, to } => self.words[at as usize].compare_exchange(from, to, SeqCst, SeqCst).unwrap_or_else(|found| found),
        }
    }

    fn take(&self, who: u32) -> Result<(), Error> {
        if self.taken[who as usize].swap(true, SeqCst) {
            Err(Error::Taken)
        } else {
            Ok(())
        }
    }

    fn give(&self, who: u32) {
        self.taken[who as usize].store(false, SeqCst);
    }
}
