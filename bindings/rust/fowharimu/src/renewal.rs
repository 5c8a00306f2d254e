//! When keys by URL are fetched, until when they are used, and who waits for a fetch: the library decides.

use fowharimu_sys as sys;
use std::time::{Duration, Instant};

/// Who asks for keys.
#[derive(Clone, Copy, Debug)]
pub(crate) enum Asker {
    /// A token that comes.
    Token,
    /// A token that was refused by the keys of this ticket.
    Refused(u64),
    /// Whoever runs the service.
    Owner,
    /// Whoever has waited for a fetch.
    Waited,
}

/// A fetch that is under way, or begins.
#[derive(Clone, Copy, Debug)]
pub(crate) struct Running {
    /// Its number, which its keys have too.
    pub(crate) ticket: u64,
    /// Whether whoever asked makes it.
    pub(crate) begins: bool,
    /// The time until its deadline.
    pub(crate) left: Duration,
}

/// What whoever asks is told.
#[derive(Clone, Copy, Debug)]
pub(crate) struct Answer {
    /// The moment until which the keys are used and no token need ask; 0 where there are none, or they are too old.
    pub(crate) quiet_until: u64,
    pub(crate) has_keys: bool,
    pub(crate) running: Option<Running>,
}

/// The times by which keys are renewed.
#[derive(Clone, Copy, Debug)]
pub(crate) struct Times {
    pub(crate) refresh_after: Duration,
    pub(crate) cool_down: Duration,
    pub(crate) max_age: Duration,
}

impl Default for Times {
    fn default() -> Times {
        Times {
            refresh_after: Duration::from_secs(600),
            cool_down: Duration::from_secs(30),
            max_age: Duration::from_secs(3_600),
        }
    }
}

/// A clock that stands at 0 when it is made, and counts milliseconds.
#[derive(Clone, Copy, Debug)]
pub(crate) struct Clock(Instant);

impl Clock {
    pub(crate) fn new() -> Clock {
        Clock(Instant::now())
    }

    pub(crate) fn now(self) -> u64 {
        milliseconds(self.0.elapsed())
    }
}

/// What stands of the fetches. One call at a time is made, and its clock is read within it.
#[derive(Debug)]
pub(crate) struct Renewal {
    state: sys::fow_renewal,
    clock: Clock,
    timeout: Duration,
}

impl Renewal {
    pub(crate) fn new(times: &Times, timeout: Duration, clock: Clock) -> Renewal {
        let mut state = sys::fow_renewal::default();
        // (a fetch has its whole timeout, and else no time is longer than it was said)
        let whole = timeout.saturating_add(Duration::from_nanos(999_999));
        // SAFETY: the place is this function's.
        unsafe {
            sys::fow_renewal_begin(
                &mut state,
                milliseconds(times.refresh_after),
                milliseconds(times.cool_down),
                milliseconds(times.max_age),
                milliseconds(whole),
                clock.now(),
            );
        }
        Renewal {
            state,
            clock,
            timeout,
        }
    }

    /// Which keys are to be used, and whether a fetch begins.
    pub(crate) fn ask(&mut self, asker: Asker) -> Answer {
        let (asker, keys) = match asker {
            Asker::Token => (sys::FOW_ASKER_TOKEN, 0),
            Asker::Refused(keys) => (sys::FOW_ASKER_REFUSED, keys),
            Asker::Owner => (sys::FOW_ASKER_OWNER, 0),
            Asker::Waited => (sys::FOW_ASKER_WAITED, 0),
        };
        let (mut said, now) = (sys::fow_renewal_answer::default(), self.clock.now());
        // SAFETY: the state is this one's, and the other place this function's.
        let quiet_for = unsafe {
            sys::fow_renewal_ask(&mut self.state, now, asker, keys, &mut said);
            sys::fow_renewal_quiet_for(&self.state)
        };
        let has_keys = said.has_keys != 0;
        let begins = said.fetch == sys::FOW_FETCH_BEGINS;
        let running = Running {
            ticket: said.ticket,
            begins,
            left: if begins {
                self.timeout
            } else {
                Duration::from_millis(said.left)
            },
        };
        Answer {
            quiet_until: if has_keys {
                now.saturating_add(quiet_for)
            } else {
                0
            },
            has_keys,
            running: Some(running).filter(|_| said.fetch != sys::FOW_NO_FETCH),
        }
    }

    /// Whether the keys of that fetch count; else they are to be dropped.
    pub(crate) fn took(&mut self, ticket: u64) -> bool {
        // SAFETY: the state is this one's.
        unsafe { sys::fow_renewal_took(&mut self.state, self.clock.now(), ticket) }
    }

    /// That fetch gave no keys.
    pub(crate) fn failed(&mut self, ticket: u64) {
        // SAFETY: the state is this one's.
        unsafe {
            sys::fow_renewal_failed(&mut self.state, self.clock.now(), ticket);
        }
    }

    /// Whether a token of this name may wait for that fetch.
    pub(crate) fn wait(&mut self, ticket: u64, name: u64) -> bool {
        // SAFETY: the state is this one's.
        unsafe { sys::fow_renewal_wait(&mut self.state, self.clock.now(), ticket, name) }
    }
}

/// The whole milliseconds of a time; of one that is too long for them the most, which are 584 million years.
fn milliseconds(time: Duration) -> u64 {
    u64::try_from(time.as_millis()).unwrap_or(u64::MAX)
}
