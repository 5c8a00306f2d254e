//! A memory of tokens that count once.

use crate::request::Outcome;
use crate::seat::compare;
use crate::seats::locked;
use crate::{clock, Error};
use fowharimu_sys as sys;
use std::num::NonZeroUsize;
use std::ptr;
use std::sync::Mutex;

/// Why an accepted token isn't taken.
#[derive(Clone, Copy, Debug, PartialEq, Eq)]
#[non_exhaustive]
pub enum NotTaken {
    /// It was taken before.
    Seen,
    /// Its `exp` and the leeway have passed by the greatest moment that the memory was told, or the memory has let go of what has its `exp`: nobody can say
    /// whether it was taken.
    Late,
    /// As many tokens as there is room for are held, and none of them has passed.
    Full,
    /// It has no `jti`.
    NoId,
    /// It has no `exp`, so it would have to be held for ever.
    NoEnd,
    /// Its `iat` is further ahead of now than the leeway, so nobody can say when it is accepted for the first time.
    Ahead,
    /// Its issuer and `sub` have as many as one owner may, and none of them has passed.
    OwnFull,
    /// It was issued before this memory was opened, or says no `iat`: the memory that was there before may have taken it.
    Before,
}

/// A memory of tokens that count once, by their issuer and `jti`, each until its `exp` and the policy's leeway. A
/// [`Validator`](crate::Validator::taking) asks it behind its verdict and the access rule; several validators may share it, whatever
/// their policies. Threads share it.
///
/// A token is let in once a memory: several processes or machines need one store that they share, which says in one step that issuer and `jti`
/// are new, and holds them from then on.
#[derive(Debug)]
pub struct Once {
    /// A call takes some microseconds of it.
    memory: Mutex<Memory>,
}

/// A memory that the library holds.
#[derive(Debug)]
struct Memory {
    held: sys::fow_once,
}

// SAFETY: what is held is owned by the memory alone, and no function keeps anything for a thread.
unsafe impl Send for Memory {}

impl Once {
    /// An empty memory for so many tokens, each of which takes some 190 octets, 310 with a `sub`. Room is needed for as many as are accepted within the lifetime
    /// of one: where it is too small, good tokens are refused. Of one owner, an issuer with a `sub`, it takes a sixteenth at most. What was issued up to this
    /// second is refused, so that a restart refuses some tokens and lets none in twice.
    ///
    /// # Errors
    /// `OutOfMemory`, and `AnotherLibrary`.
    pub fn open(tokens: NonZeroUsize) -> Result<Once, Error> {
        let next = u64::try_from(clock()).unwrap_or(0).saturating_add(1);
        Once::open_with(tokens, None, next)
    }

    /// The same, of which one owner may have `share`, and which knows everything from the moment `opened` on, in seconds since 1970-01-01T00:00:00Z: what was issued
    /// before, by its `iat` and the leeway, is refused, and so is a token without `iat`. With 0 it lets in each token once more.
    ///
    /// # Errors
    /// `OutOfMemory`, and `AnotherLibrary`.
    pub fn open_with(
        tokens: NonZeroUsize,
        share: Option<NonZeroUsize>,
        opened: u64,
    ) -> Result<Once, Error> {
        compare()?;
        let share = share.map_or(0, NonZeroUsize::get);
        let mut memory = Memory {
            held: sys::fow_once {
                at: ptr::null_mut(),
                held: false,
            },
        };
        // SAFETY: it is zeroed, and this call has it to itself.
        match unsafe { sys::fow_once_open(&mut memory.held, tokens.get(), share, opened) } {
            sys::FOW_OK => Ok(Once {
                memory: Mutex::new(memory),
            }),
            _ => Err(Error::OutOfMemory),
        }
    }

    /// Takes the token that a validator accepted last, at the moment of that verdict.
    ///
    /// # Errors
    /// `NotTaken`, and `OutOfMemory` where nothing is known.
    pub(crate) fn take(&self, validator: &mut sys::fow_validator, now: i64) -> Result<(), Error> {
        // SAFETY: both are those that the other calls had, and this one has them to itself.
        self.take_by(false, |memory, taken| unsafe {
            sys::fow_once_take(memory, validator, now, taken)
        })
    }

    /// Takes the proof that was accepted last, at the moment of that verdict.
    ///
    /// # Errors
    /// `NotTaken`, and `OutOfMemory` where nothing is known.
    pub(crate) fn take_proof(
        &self,
        possession: &mut sys::fow_possession,
        now: i64,
    ) -> Result<(), Error> {
        // SAFETY: as above.
        self.take_by(true, |memory, taken| unsafe {
            sys::fow_possession_take(possession, memory, now, taken)
        })
    }

    /// Takes by this call of the library.
    fn take_by(
        &self,
        is_proof: bool,
        call: impl FnOnce(&mut sys::fow_once, &mut u32) -> u32,
    ) -> Result<(), Error> {
        let mut taken = sys::FOW_TAKEN_NOTHING;
        let status = call(&mut locked(&self.memory).held, &mut taken);
        let why = match (status, taken) {
            (sys::FOW_OK, sys::FOW_TAKEN_NEW) => return Ok(()),
            (sys::FOW_REFUSED, sys::FOW_TAKEN_SEEN) => NotTaken::Seen,
            (sys::FOW_REFUSED, sys::FOW_TAKEN_LATE) => NotTaken::Late,
            (sys::FOW_REFUSED, sys::FOW_TAKEN_FULL) => NotTaken::Full,
            (sys::FOW_REFUSED, sys::FOW_TAKEN_NO_ID) => NotTaken::NoId,
            (sys::FOW_REFUSED, sys::FOW_TAKEN_NO_END) => NotTaken::NoEnd,
            (sys::FOW_REFUSED, sys::FOW_TAKEN_AHEAD) => NotTaken::Ahead,
            (sys::FOW_REFUSED, sys::FOW_TAKEN_OWN_FULL) => NotTaken::OwnFull,
            (sys::FOW_REFUSED, sys::FOW_TAKEN_BEFORE) => NotTaken::Before,
            _ => return Err(Error::OutOfMemory),
        };
        Err(Error::NotTaken {
            why,
            outcome: Outcome::of_taken(is_proof, status, taken),
        })
    }
}

impl Drop for Memory {
    fn drop(&mut self) {
        // SAFETY: it is the one that the other calls had.
        unsafe { sys::fow_once_close(&mut self.held) }
    }
}
