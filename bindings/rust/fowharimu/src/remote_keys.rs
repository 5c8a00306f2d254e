//! Key sets that stand at a URL.

use crate::fetch::{Fetch, TOO_SLOW};
use crate::remote::{Feed, Remote};
use crate::renewal::{Answer, Asker, Clock, Renewal, Running};
use crate::seat::{Named, Seat, Terms};
use crate::seats::{locked, Seats};
use crate::source::unavailable;
use crate::{clock, Access, Call, Claims, Error};
use std::collections::hash_map::RandomState;
use std::hash::{BuildHasher, Hash, Hasher};
use std::io;
use std::sync::atomic::{AtomicU64, Ordering};
use std::sync::{Arc, Condvar, Mutex, MutexGuard, PoisonError, Weak};
use std::thread;

/// A policy, and a key set at a URL, which is fetched at once, and again as docs/REMOTE-KEYS.md says: in the background; where a token is refused for want
/// of a key or by a bad signature, at most once a cool-down. For a fetch at most four tokens wait, one for each `kid`; the others are refused at once. Where
/// a fetch fails, the keys stay until they are too old. Threads share it. Where it is dropped, a fetch that is under way is dropped too.
///
/// A token that waits holds its thread, no longer than a fetch takes. A process that forks opens its keys in each child.
///
/// ```no_run
/// use fowharimu::{Error, Fetch, Remote, RemoteKeys};
/// use std::time::Duration;
///
/// # fn serve(client: impl Fetch, other: impl Fetch, policy: &[u8], token: &[u8]) -> Result<(), Error> {
/// let keys = RemoteKeys::open(policy, "https://issuer.example/keys", client)?;
/// match keys.validate(token) {
///     Ok(claims) => println!("{}", claims.json()),
///     Err(Error::KeysTooOld) => println!("503"),
///     Err(refusal) => println!("401: {refusal}"),
/// }
/// let others = Remote::by(other)
///     .timeout(Duration::from_secs(2))
///     .on_fetch(|it| println!("{} bytes, {:?}", it.octets, it.error))
///     .discover(policy, "https://issuer.example/realm")?;
/// # Ok(())
/// # }
/// ```
#[derive(Debug)]
pub struct RemoteKeys {
    shared: Arc<Shared>,
}

/// What a fetch that ends finds, unless the keys were dropped.
#[derive(Debug)]
struct Shared {
    feed: Arc<Feed>,
    /// What is told of the policy.
    terms: Terms,
    seats: Seats,
    clock: Clock,
    /// The moment until which no token need ask, so that none takes the lock.
    quiet_until: AtomicU64,
    /// Gives the names under which tokens wait.
    names: RandomState,
    state: Mutex<State>,
    /// Wakes those that wait where a fetch ends.
    ends: Condvar,
}

#[derive(Debug)]
struct State {
    renewal: Renewal,
    /// The ticket of the fetch that is under way.
    running: Option<u64>,
    /// The ticket of the fetch that ended last, and why it failed, where it did.
    ended: (u64, Option<String>),
}

impl RemoteKeys {
    /// Fetches the keys at a URL by this client, and as [`Remote`] does where nothing else is set.
    ///
    /// # Errors
    /// As of [`Remote::open`].
    pub fn open(policy: &[u8], url: &str, client: impl Fetch) -> Result<RemoteKeys, Error> {
        Remote::by(client).open(policy, url)
    }

    /// Fetches the keys of an issuer.
    ///
    /// # Errors
    /// As of [`Remote::discover`].
    pub fn discover(policy: &[u8], issuer: &str, client: impl Fetch) -> Result<RemoteKeys, Error> {
        Remote::by(client).discover(policy, issuer)
    }

    /// Fetches the first keys. Until they are there the documents are the policy and no keys.
    pub(crate) fn begin(feed: Feed, mut documents: Seat) -> Result<RemoteKeys, Error> {
        let (tokens, octets) = feed.remembers();
        let clock = Clock::new();
        let shared = Shared {
            terms: documents.terms()?,
            seats: Seats::new(documents).remembering(tokens, octets),
            clock,
            quiet_until: AtomicU64::new(0),
            names: RandomState::new(),
            state: Mutex::new(State {
                renewal: Renewal::new(feed.times(), feed.timeout(), clock),
                running: None,
                ended: (0, None),
            }),
            ends: Condvar::new(),
            feed: Arc::new(feed),
        };
        let keys = RemoteKeys {
            shared: Arc::new(shared),
        };
        keys.refresh()?;
        Ok(keys)
    }

    /// The claims of a token that is accepted at the clock's moment.
    ///
    /// # Errors
    /// `KeysTooOld`, and those of [`Validator::validate`](crate::Validator::validate).
    pub fn validate(&self, token: &[u8]) -> Result<Claims, Error> {
        self.validate_at(token, clock())
    }

    /// The same at a moment, in seconds since 1970-01-01T00:00:00Z. The age of keys goes by a clock of its own.
    ///
    /// # Errors
    /// As of [`validate`](RemoteKeys::validate).
    pub fn validate_at(&self, token: &[u8], now: i64) -> Result<Claims, Error> {
        self.validate_with(token, &Call::new().at(now))
    }

    /// The claims of a token that is accepted at the clock's moment, where they meet an access rule.
    ///
    /// # Errors
    /// `Denied` where they don't, and those of [`validate`](RemoteKeys::validate).
    pub fn validate_for(&self, token: &[u8], access: &Access) -> Result<Claims, Error> {
        self.validate_for_at(token, clock(), access)
    }

    /// The same at a moment, in seconds since 1970-01-01T00:00:00Z.
    ///
    /// # Errors
    /// As of [`validate_for`](RemoteKeys::validate_for).
    pub fn validate_for_at(
        &self,
        token: &[u8],
        now: i64,
        access: &Access,
    ) -> Result<Claims, Error> {
        self.validate_with(token, &Call::new().at(now).access(access))
    }

    /// The issuer that the policy allows; `None` where it allows any, or several.
    #[must_use]
    pub fn issuer(&self) -> Option<&str> {
        self.shared.terms.issuer.as_deref()
    }

    /// The greatest number of octets of a token that the policy takes.
    #[must_use]
    pub fn limit(&self) -> u32 {
        self.shared.terms.limit
    }

    /// As [`Validator::unverified_issuer`](crate::Validator::unverified_issuer), however old the keys are.
    ///
    /// # Errors
    /// `OutOfMemory`.
    pub fn unverified_issuer(&self, token: &[u8]) -> Result<Option<String>, Error> {
        Ok(self.named(token)?.issuer())
    }

    pub(crate) fn named(&self, token: &[u8]) -> Result<Named, Error> {
        self.shared.seats.call(|seat| seat.named(token))?
    }

    /// Fetches the keys now, whatever the cool-down. Where a fetch is under way this waits for that one.
    ///
    /// # Errors
    /// `KeysUnavailable`: the keys are as before.
    pub fn refresh(&self) -> Result<(), Error> {
        let running = self.shared.ask(Asker::Owner).running;
        let running = running.ok_or_else(|| unavailable(TOO_SLOW))?;
        let state = self.shared.until_over(locked(&self.shared.state), running);
        match &state.ended {
            (ticket, None) if *ticket == running.ticket => Ok(()),
            (ticket, Some(reason)) if *ticket == running.ticket => Err(unavailable(reason)),
            _ => Err(unavailable(TOO_SLOW)),
        }
    }

    /// The claims of a token that is accepted by the keys, or by newer ones where these may change that and can be had, where they are as this call asks.
    ///
    /// # Errors
    /// `Denied`, `NotExpected` and `NotHeld` where they aren't, and those of [`validate`](RemoteKeys::validate); `NotTaken` also where a proof was taken before.
    pub fn validate_with(&self, token: &[u8], call: &Call<'_>) -> Result<Claims, Error> {
        let shared = &self.shared;
        shared.find_keys(token)?;
        let once = shared.feed.once();
        let judge = |seat: &mut Seat| (seat.documents(), seat.claims(token, call, once));
        let (keys, said) = shared.seats.call(judge)?;
        if !said.as_ref().err().map_or(false, asks_for_keys) {
            return said;
        }
        let running = shared.ask(Asker::Refused(keys)).running;
        shared.wait(running, token);
        if shared.seats.current() == keys {
            return said;
        }
        shared.seats.call(judge)?.1
    }
}

impl Shared {
    /// Returns where there are keys that may be used, as soon as there are.
    fn find_keys(self: &Arc<Self>, token: &[u8]) -> Result<(), Error> {
        if self.clock.now() < self.quiet_until.load(Ordering::Relaxed) {
            return Ok(());
        }
        let asked = self.ask(Asker::Token);
        if asked.has_keys {
            return Ok(());
        }
        self.wait(asked.running, token);
        if self.ask(Asker::Waited).has_keys {
            return Ok(());
        }
        Err(Error::KeysTooOld)
    }

    /// Asks the library, and begins a fetch where it says so.
    fn ask(self: &Arc<Self>, asker: Asker) -> Answer {
        let mut state = locked(&self.state);
        let answer = state.renewal.ask(asker);
        self.quiet_until
            .store(answer.quiet_until, Ordering::Relaxed);
        let begins = answer.running.filter(|it| it.begins);
        let failed = begins.and_then(|it| self.begin(&mut state, it.ticket).err());
        drop(state);
        if let Some(error) = failed {
            self.feed.tell(0, Some(&error.to_string()));
        }
        answer
    }

    /// Begins a fetch, in a thread of its own, so that nobody waits for it past its deadline.
    fn begin(self: &Arc<Self>, state: &mut State, ticket: u64) -> io::Result<()> {
        state.running = Some(ticket);
        let (feed, shared) = (Arc::clone(&self.feed), Arc::downgrade(self));
        let fetch = move || run(&feed, &shared, ticket);
        let thread = thread::Builder::new().name("fowharimu-keys".to_owned());
        let begun = thread.spawn(fetch).map(drop);
        if let Err(error) = &begun {
            // (the system gives no more threads)
            state.renewal.failed(ticket);
            self.end(state, ticket, Some(error.to_string()));
        }
        begun
    }

    /// Takes what was fetched, where it counts, and gives why it failed, where it did.
    fn exchange(&self, ticket: u64, fetched: Result<Seat, String>) -> Option<String> {
        let mut state = locked(&self.state);
        let error = match fetched {
            Ok(documents) if state.renewal.took(ticket) => {
                self.seats.exchange(documents.numbered(ticket));
                None
            }
            Ok(_) => Some(TOO_SLOW.to_owned()),
            Err(reason) => {
                state.renewal.failed(ticket);
                Some(reason)
            }
        };
        self.end(&mut state, ticket, error.clone());
        error
    }

    /// Notes how the fetch ended that is under way, and wakes those that wait for it.
    fn end(&self, state: &mut State, ticket: u64, error: Option<String>) {
        if state.running == Some(ticket) {
            state.running = None;
            state.ended = (ticket, error);
            self.quiet_until.store(0, Ordering::Relaxed);
            self.ends.notify_all();
        }
    }

    /// Waits for a fetch, where there is one and the token may wait for it.
    fn wait(&self, running: Option<Running>, token: &[u8]) {
        let running = match running {
            Some(running) => running,
            None => return,
        };
        // (nobody vouches for the `kid`; the name of a token without one is that of the empty text)
        let kid = self.seats.call(|seat| seat.kid(token));
        let kid = kid.and_then(|it| it).ok().flatten().unwrap_or_default();
        let mut name = self.names.build_hasher();
        kid.hash(&mut name);
        let mut state = locked(&self.state);
        if state.renewal.wait(running.ticket, name.finish()) {
            drop(self.until_over(state, running));
        }
    }

    /// Waits until a fetch is over, and no longer than its deadline.
    fn until_over<'a>(
        &self,
        state: MutexGuard<'a, State>,
        running: Running,
    ) -> MutexGuard<'a, State> {
        let is_running = |it: &mut State| it.running == Some(running.ticket);
        let waited = self
            .ends
            .wait_timeout_while(state, running.left, is_running);
        waited.unwrap_or_else(PoisonError::into_inner).0
    }
}

/// A fetch, in its thread.
fn run(feed: &Feed, shared: &Weak<Shared>, ticket: u64) {
    let (octets, fetched) = feed.fetch();
    if let Some(shared) = shared.upgrade() {
        let error = shared.exchange(ticket, fetched);
        shared.seats.close_older();
        drop(shared);
        feed.tell(octets, error.as_deref());
    }
}

/// Whether newer keys may change a refusal: it is for want of a key, or by a bad signature.
fn asks_for_keys(refusal: &Error) -> bool {
    matches!(refusal, Error::Signature { fault, .. } if fault == "NoKey" || fault == "BadSignature")
}
