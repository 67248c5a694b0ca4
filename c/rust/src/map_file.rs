//! Words in a mapped file, which processes share: c/include/lojarnek_map.h says what it is.
use crate::words::{Sizes, Step, Words};
use crate::{raw, Error};
use std::ffi::{CStr, CString};
use std::os::raw::c_int;
use std::os::unix::ffi::OsStrExt;
use std::path::Path;
use std::sync::atomic::{AtomicI32, AtomicU64, Ordering::SeqCst};

/// A pool in a mapped file. Fork before an identity is taken, never after it.
pub struct MapFile {
    at: *mut raw::MapPool,
    words: *const AtomicU64,
    sizes: Sizes,
    total: u32,
    locks: [AtomicI32; 16],
}

// Its fields stay as they are, but for the locks; the words behind it are atomics.
unsafe impl Send for MapFile {}
unsafe impl Sync for MapFile {}

impl MapFile {
    /// The pool of these sizes that is in the file; it is made where there is none.
    pub fn open(path: impl AsRef<Path>, sizes: Sizes) -> Result<MapFile, Error> {
        MapFile::begin(path.as_ref(), 2, sizes)
    }

    /// The pool for tables that is in the file, of whatever sizes; one for single blocks is an error.
    pub fn attach(path: impl AsRef<Path>) -> Result<MapFile, Error> {
        MapFile::begin(path.as_ref(), 0, Sizes { format: 0, clients: 0, segments: 0 })
    }

    fn begin(path: &Path, make: c_int, sizes: Sizes) -> Result<MapFile, Error> {
        let path = CString::new(path.as_os_str().as_bytes()).map_err(|_| Error::File("a path with a byte 0".into()))?;
        let mut at = std::ptr::null_mut();
        let error = unsafe { raw::ljm_open(path.as_ptr(), make, sizes.format, sizes.clients, sizes.segments, 0, &mut at) };
        if error != 0 {
            return Err(file_error(error));
        }
        let mut found = [0; 4];
        unsafe { raw::ljm_sizes(at, found.as_mut_ptr()) };
        let [format, clients, segments, total] = found;
        let words = unsafe { raw::ljm_words(at) } as *const AtomicU64;
        Ok(MapFile { at, words, sizes: Sizes { format, clients, segments }, total, locks: [const { AtomicI32::new(-1) }; 16] })
    }

    /// Recovers whoever is dead; how many it were.
    pub fn rescue(&self) -> u32 {
        unsafe { raw::ljm_rescue(self.at, u32::MAX) }
    }

    fn word(&self, at: u32) -> &AtomicU64 {
        assert!(at < self.total);
        unsafe { &*self.words.add(at as usize) }
    }
}

fn file_error(error: c_int) -> Error {
    Error::File(unsafe { CStr::from_ptr(raw::ljm_text(error)) }.to_string_lossy().into_owned())
}

impl Drop for MapFile {
    fn drop(&mut self) {
        unsafe { raw::ljm_close(self.at) };
    }
}

unsafe impl Words for MapFile {
    fn sizes(&self) -> Sizes {
        self.sizes
    }

    fn make(&self, step: Step) -> u64 {
        match step {
            Step::Load { at } => self.word(at).load(SeqCst),
            Step::Store { at, value } => {
                self.word(at).store(value, SeqCst);
                0
            }
            Step::Exchange { at, from, to } => self.word(at).compare_exchange(from, to, SeqCst, SeqCst).unwrap_or_else(|found| found),
        }
    }

    fn take(&self, who: u32) -> Result<(), Error> {
        let mut lock = -1;
        match unsafe { raw::ljm_take(self.at, who, &mut lock) } {
            0 => {
                self.locks[who as usize].store(lock, SeqCst);
                Ok(())
            }
            11 => Err(Error::Taken),
            error => Err(file_error(error)),
        }
    }

    fn give(&self, who: u32) {
        unsafe { raw::ljm_give(self.locks[who as usize].swap(-1, SeqCst)) };
    }

    fn waited(&self, who: u32) {
        unsafe { raw::ljm_rescue(self.at, who) };
    }
}
