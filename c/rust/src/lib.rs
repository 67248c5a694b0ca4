//! A pool of tables over shared words, of which any client may be killed.
//!
//! What an identity may do is what its type has: [`Vacant`] may join, [`Client`] may command and leave, [`Dead`] may be recovered. Each is owned, so an identity
//! has one at a time, and no call can come at the wrong one. A [`Client`] that is dropped is dead, and whoever takes the identity next finds it so.
//!
//! ```no_run
//! use lojarnek::{MapFile, Sizes};
//! let pool = MapFile::open("/dev/shm/a.pool", Sizes { format: 1, clients: 4, segments: 8 })?;
//! let mut me = lojarnek::join(&pool, 0)?; // takes the identity, recovers it where it is dead, and joins
//! me.put(7, 42)?;
//! assert_eq!(me.get(0, 7)?, Some(42));
//! me.leave().ok();
//! # Ok::<(), lojarnek::Error>(())
//! ```
//!
//! [`MapFile`] is a file that processes share, [`InMemory`] an array that threads share. For words elsewhere there is the trait [`Words`], which alone is unsafe.

mod map_file;
mod memory;
mod raw;
mod words;

pub use map_file::MapFile;
pub use memory::InMemory;
pub use words::{Sizes, Step, Words};

use std::fmt;

/// Why something wasn't done.
#[derive(Clone, Debug, PartialEq, Eq)]
pub enum Error {
    /// Somebody has this identity.
    Taken,
    /// An identity that the pool hasn't, or oneself where another one is wanted. Nothing was done.
    OutOfRange,
    /// An allocation found no free block; the table is as before.
    Full,
    /// A block would have more than 1,023 references; the table is as before.
    CountFull,
    /// Eight items wait in the queue already.
    QueueFull,
    /// The identity has no empty root left; the table is as before.
    RootsFull,
    /// The identity's era leaves no room: it can change no count any more.
    EraSpent,
    /// The file: an error of the system, or what is wrong with it.
    File(String),
    NoMemory,
}

impl fmt::Display for Error {
    fn fmt(&self, f: &mut fmt::Formatter<'_>) -> fmt::Result {
        f.write_str(match self {
            Error::Taken => "somebody has this identity",
            Error::OutOfRange => "no such identity",
            Error::Full => "no free block",
            Error::CountFull => "too many references",
            Error::QueueFull => "the queue is full",
            Error::RootsFull => "no empty root",
            Error::EraSpent => "the era is spent",
            Error::File(why) => why,
            Error::NoMemory => "no memory",
        })
    }
}

impl std::error::Error for Error {}

/// What an operation answered.
enum Answer {
    Done,
    Value(u64),
    Nothing,
}

/// An identity for as long as it is there, with its session.
struct Seat<'p, W: Words> {
    words: &'p W,
    who: u32,
    at: *mut raw::Session,
}

// A session may go to another thread: it is in one call at a time, since each call takes it by `&mut`.
unsafe impl<W: Words + Sync> Send for Seat<'_, W> {}

impl<W: Words> Drop for Seat<'_, W> {
    fn drop(&mut self) {
        unsafe { raw::lj_close(self.at) };
        self.words.give(self.who);
    }
}

impl<W: Words> Seat<'_, W> {
    fn run(&mut self, op: u32, a: u64, b: u64, c: u64) -> Result<Answer, Error> {
        let mut said = unsafe { raw::lj_call(self.at, op, a, b, c) };
        let mut steps = 0;
        while said.code <= 2 {
            let step = match said.code {
                0 => Step::Load { at: said.at },
                1 => Step::Store { at: said.at, value: said.second },
                _ => Step::Exchange { at: said.at, from: said.first, to: said.second },
            };
            said = unsafe { raw::lj_tell(self.at, self.words.make(step)) };
            steps += 1;
            if steps % 4096 == 0 {
                self.words.waited(self.who);
            }
        }
        match said.code {
            16 | 17 => Ok(Answer::Done),
            18 => Ok(Answer::Value(said.first)),
            19 | 23 => Ok(Answer::Nothing),
            20 => Err(Error::Full),
            21 => Err(Error::CountFull),
            22 => Err(Error::QueueFull),
            24 => Err(Error::RootsFull),
            25 => Err(Error::EraSpent),
            64 => Err(Error::OutOfRange),
            code => unreachable!("the types rule out {code}"),
        }
    }

    fn value(&mut self, op: u32, a: u64, b: u64, c: u64) -> Result<Option<u64>, Error> {
        Ok(match self.run(op, a, b, c)? {
            Answer::Value(number) => Some(number),
            Answer::Done | Answer::Nothing => None,
        })
    }

    fn was_done(&mut self, op: u32, a: u64, b: u64) -> Result<bool, Error> {
        Ok(matches!(self.run(op, a, b, 0)?, Answer::Done))
    }
}

/// An identity that is new or has left.
pub struct Vacant<'p, W: Words>(Seat<'p, W>);

/// An identity that has joined.
pub struct Client<'p, W: Words>(Seat<'p, W>);

/// An identity whose last holder died.
pub struct Dead<'p, W: Words>(Seat<'p, W>);

/// An identity as it was found.
pub enum Attached<'p, W: Words> {
    Vacant(Vacant<'p, W>),
    Dead(Dead<'p, W>),
}

/// Takes an identity.
pub fn attach<W: Words>(words: &W, who: u32) -> Result<Attached<'_, W>, Error> {
    let Sizes { format, clients, segments } = words.sizes();
    let status_at = unsafe { raw::lj_status_at(format, clients, segments, who) };
    if status_at == 0 {
        return Err(Error::OutOfRange);
    }
    words.take(who)?;
    let status = words.make(Step::Load { at: status_at });
    let mut at = std::ptr::null_mut();
    let code = unsafe { raw::lj_open(format, clients, segments, who, status, &mut at) };
    if code != 0 {
        words.give(who);
        return Err(if code == 68 { Error::NoMemory } else { Error::OutOfRange });
    }
    let seat = Seat { words, who, at };
    Ok(if status == 1 || status == 2 { Attached::Dead(Dead(seat)) } else { Attached::Vacant(Vacant(seat)) })
}

/// Takes an identity, recovers it where it is dead, and joins.
pub fn join<W: Words>(words: &W, who: u32) -> Result<Client<'_, W>, Error> {
    match attach(words, who)? {
        Attached::Vacant(vacant) => Ok(vacant.join()),
        Attached::Dead(dead) => dead.recover().map(Vacant::join).map_err(|_| Error::EraSpent),
    }
}

impl<'p, W: Words> Vacant<'p, W> {
    /// The identity, live: its table is as it left it.
    pub fn join(mut self) -> Client<'p, W> {
        let joined = self.0.run(1, 0, 0, 0);
        debug_assert!(joined.is_ok());
        Client(self.0)
    }
}

impl<'p, W: Words> Dead<'p, W> {
    /// The identity, vacant: its table is as before or as after the command that it died in. Itself where its era is spent.
    pub fn recover(mut self) -> Result<Vacant<'p, W>, Dead<'p, W>> {
        match self.0.run(3, 0, 0, 0) {
            Ok(_) => Ok(Vacant(self.0)),
            Err(_) => Err(self),
        }
    }
}

impl<'p, W: Words> Client<'p, W> {
    /// The key gets the number.
    pub fn put(&mut self, key: u32, number: u64) -> Result<(), Error> {
        self.0.run(4, key.into(), number, 0).map(|_| ())
    }

    /// The number at an author's key; none where there is none.
    pub fn get(&mut self, author: u32, key: u32) -> Result<Option<u64>, Error> {
        self.0.value(5, author.into(), key.into(), 0)
    }

    /// The key goes; whether there was one.
    pub fn del(&mut self, key: u32) -> Result<bool, Error> {
        self.0.was_done(6, key.into(), 0)
    }

    /// The key gets the value that the author has at `other`: its number; none where there is none.
    pub fn copy(&mut self, key: u32, author: u32, other: u32) -> Result<Option<u64>, Error> {
        self.0.value(7, key.into(), author.into(), other.into())
    }

    /// The value at the key goes into the queue to another identity; whether there was one.
    pub fn send(&mut self, to: u32, key: u32) -> Result<bool, Error> {
        self.0.was_done(8, to.into(), key.into())
    }

    /// The key gets the next value of the queue from another identity: its number; none where it is empty.
    pub fn recv(&mut self, from: u32, key: u32) -> Result<Option<u64>, Error> {
        self.0.value(9, from.into(), key.into(), 0)
    }

    /// The identity, vacant: its table stays. Itself where its era is spent.
    pub fn leave(mut self) -> Result<Vacant<'p, W>, Client<'p, W>> {
        match self.0.run(2, 0, 0, 0) {
            Ok(_) => Ok(Vacant(self.0)),
            Err(_) => Err(self),
        }
    }
}
