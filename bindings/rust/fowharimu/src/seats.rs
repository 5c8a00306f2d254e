//! The seats of a validator.

use crate::seat::Seat;
use crate::Error;
use std::sync::atomic::{AtomicU64, AtomicUsize, Ordering};
use std::sync::{Mutex, PoisonError, TryLockError};
use std::thread;

/// How many threads have a number.
static NUMBERED: AtomicUsize = AtomicUsize::new(0);

thread_local! {
    /// The number of this thread among those that made a call.
    static NUMBER: usize = NUMBERED.fetch_add(1, Ordering::Relaxed);
}

/// Where a seat waits for its next call. No two lie in one line of a cache, nor in two that a processor fetches together. A call holds the lock
/// while it is under way, and nobody waits for it.
#[derive(Debug, Default)]
#[repr(align(128))]
struct Place(Mutex<Option<Seat>>);

impl Place {
    /// Calls this with the seat of the place, or with one that is opened; gives it back where a call is under way with the place.
    fn call<T, C: FnOnce(&mut Seat) -> T>(
        &self,
        call: C,
        seats: &Seats,
    ) -> Result<Result<T, Error>, C> {
        let mut held = match self.0.try_lock() {
            Ok(held) => held,
            // Where a call panics, its seat is closed, and the place is empty.
            Err(TryLockError::Poisoned(poisoned)) => poisoned.into_inner(),
            Err(TryLockError::WouldBlock) => return Err(call),
        };
        let mut seat = match seats.seat(held.take()) {
            Ok(seat) => seat,
            Err(error) => return Ok(Err(error)),
        };
        let result = call(&mut seat);
        *held = Some(seat).filter(|it| seats.is_current(it));
        Ok(Ok(result))
    }
}

/// The seats of a validator: at most two for each processor, and beside these as many as calls were under way at once. A thread comes back to the
/// seat that it had last, which lies in the cache of its processor.
#[derive(Debug)]
pub(crate) struct Seats {
    /// The policy and the key set, which every seat holds too.
    documents: Mutex<Seat>,
    /// Their number.
    current: AtomicU64,
    /// How many tokens of how many octets each seat remembers.
    remembers: (usize, usize),
    places: Box<[Place]>,
    /// The seats of calls that found no place.
    others: Mutex<Vec<Seat>>,
}

impl Seats {
    pub(crate) fn new(documents: Seat) -> Seats {
        let processors = thread::available_parallelism().map_or(1, usize::from);
        let mut places = Vec::new();
        places.resize_with(2 * processors, Place::default);
        Seats {
            current: AtomicU64::new(documents.documents()),
            documents: Mutex::new(documents),
            remembers: (0, 0),
            places: places.into_boxed_slice(),
            others: Mutex::new(Vec::new()),
        }
    }

    /// The same where each seat remembers so many tokens of so many octets.
    pub(crate) fn remembering(self, tokens: usize, octets: usize) -> Seats {
        let documents = self.documents.into_inner();
        Seats {
            remembers: (tokens, octets),
            ..Seats::new(documents.unwrap_or_else(PoisonError::into_inner))
        }
    }

    /// Calls this with a seat that no other call has.
    pub(crate) fn call<T, C: FnOnce(&mut Seat) -> T>(&self, mut call: C) -> Result<T, Error> {
        let first = NUMBER.with(|it| *it) % self.places.len();
        let (before, after) = self.places.split_at(first);
        for place in after.iter().chain(before) {
            match place.call(call, self) {
                Ok(result) => return result,
                Err(again) => call = again,
            }
        }
        let other = locked(&self.others).pop();
        let mut seat = self.seat(other)?;
        let result = call(&mut seat);
        let mut others = locked(&self.others);
        others.extend(Some(seat).filter(|it| self.is_current(it)));
        Ok(result)
    }

    /// The number of the documents by which a call that begins now judges.
    pub(crate) fn current(&self) -> u64 {
        self.current.load(Ordering::Acquire)
    }

    /// Exchanges the documents. A call that is under way ends by the old ones.
    pub(crate) fn exchange(&self, documents: Seat) {
        let mut held = locked(&self.documents);
        self.current.store(documents.documents(), Ordering::Release);
        *held = documents;
    }

    /// Closes each seat of older documents, and waits for the calls that are under way with one.
    pub(crate) fn close_older(&self) {
        for place in self.places.iter() {
            let mut held = locked(&place.0);
            *held = held.take().filter(|it| self.is_current(it));
        }
        locked(&self.others).retain(|it| self.is_current(it));
    }

    fn is_current(&self, seat: &Seat) -> bool {
        seat.documents() == self.current()
    }

    /// This seat, or where its documents were exchanged another one.
    fn seat(&self, held: Option<Seat>) -> Result<Seat, Error> {
        match held.filter(|it| self.is_current(it)) {
            Some(seat) => Ok(seat),
            None => self.open(),
        }
    }

    fn open(&self) -> Result<Seat, Error> {
        let (tokens, octets) = self.remembers;
        locked(&self.documents).open_beside(tokens, octets)
    }
}

/// Nothing that is done under a lock leaves what it guards half written, so a panic in another thread is no reason to stop.
pub(crate) fn locked<T>(lock: &Mutex<T>) -> std::sync::MutexGuard<'_, T> {
    lock.lock().unwrap_or_else(PoisonError::into_inner)
}
