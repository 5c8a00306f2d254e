//! Validates JSON Web Tokens (RFC 7519) by a library that is proved correct. Public-key signatures are verified by its proved verifiers,
//! which need no other library.
//!
//! ```no_run
//! # fn main() -> Result<(), Box<dyn std::error::Error>> {
//! use fowharimu::Validator;
//!
//! let validator = Validator::open(&std::fs::read("policy.json")?, &std::fs::read("keys.json")?)?;
//! let claims = validator.validate(b"eyJ..")?;
//! println!("{}", claims.json());
//! # Ok(())
//! # }
//! ```

mod access;
mod call;
mod error;
mod fetch;
mod issuers;
mod judging;
mod nonces;
mod once;
mod possession;
mod remote;
mod remote_keys;
mod renewal;
pub mod request;
mod seat;
mod seats;
mod source;
mod texts;
mod urls;

pub use access::Access;
pub use call::{Call, Unmet};
pub use error::{Error, Part};
pub use fetch::{Answer, Fetch, Get};
pub use issuers::{Issuers, Judge};
pub use judging::Judging;
pub use nonces::Nonces;
pub use once::{NotTaken, Once};
pub use possession::{Proof, Proofs};
pub use remote::{Fetched, Remote};
pub use remote_keys::RemoteKeys;

use seat::{Named, Seat, Terms};
use seats::Seats;
use std::sync::Arc;
use std::time::{SystemTime, UNIX_EPOCH};

/// The claims of an accepted token. Those are equal whose payloads are.
#[derive(Clone, Debug)]
pub struct Claims {
    json: String,
    remembered: bool,
}

impl PartialEq for Claims {
    fn eq(&self, other: &Claims) -> bool {
        self.json == other.json
    }
}

impl Eq for Claims {}

impl Claims {
    /// The payload: the JSON text of an object, as the token has it.
    pub fn json(&self) -> &str {
        &self.json
    }

    /// Whether the token was remembered: then nothing was tried for it in this call.
    pub fn remembered(&self) -> bool {
        self.remembered
    }
}

/// A policy and a key set, by which tokens are judged. Threads share it, and judge side by side.
#[derive(Debug)]
pub struct Validator {
    seats: Seats,
    terms: Terms,
    once: Option<Arc<Once>>,
}

impl Validator {
    /// Reads a policy and a key set.
    ///
    /// # Errors
    /// `Policy`, `Keys`, `OutOfMemory`, and `AnotherLibrary`.
    pub fn open(policy: &[u8], keys: &[u8]) -> Result<Validator, Error> {
        let mut documents = Seat::open(policy, keys)?;
        let terms = documents.terms()?;
        Ok(Validator {
            terms,
            seats: Seats::new(documents),
            once: None,
        })
    }

    /// Remembers from now on so many accepted tokens, none longer than so many octets; the least used goes first. One that comes again is
    /// found by all its octets, and only its claims are looked at. There are two memories for each processor, and one more for each call beyond
    /// these that was under way at once; a thread comes back to the one that it had last. Accepted tokens lie in memory until they go, and aren't
    /// wiped.
    #[must_use]
    pub fn remembering(self, tokens: usize, octets: usize) -> Validator {
        Validator {
            seats: self.seats.remembering(tokens, octets),
            ..self
        }
    }

    /// Takes each token in this memory from now on that is accepted and meets the access rule: so it is let in once. Whoever calls has to answer the request by
    /// that one call: the next one for the token is refused.
    #[must_use]
    pub fn taking(self, once: Arc<Once>) -> Validator {
        Validator {
            once: Some(once),
            ..self
        }
    }

    /// The issuer that the policy allows; `None` where it allows any, or several.
    #[must_use]
    pub fn issuer(&self) -> Option<&str> {
        self.terms.issuer.as_deref()
    }

    /// The greatest number of octets of a token that the policy takes.
    #[must_use]
    pub fn limit(&self) -> u32 {
        self.terms.limit
    }

    /// Whether everyone may read the keys: no algorithm of the policy is HMAC, and no key a shared secret (RFC 8725, section 2.1).
    #[must_use]
    pub fn is_public(&self) -> bool {
        self.terms.is_public
    }

    /// The issuer that a token names; `None` where it names none, or the octets are no token under the policy. Anyone may have written it.
    ///
    /// # Errors
    /// `OutOfMemory`.
    pub fn unverified_issuer(&self, token: &[u8]) -> Result<Option<String>, Error> {
        Ok(self.named(token)?.issuer())
    }

    fn named(&self, token: &[u8]) -> Result<Named, Error> {
        self.seats.call(|seat| seat.named(token))?
    }

    /// The claims of a token that is accepted at the clock's moment.
    ///
    /// # Errors
    /// Each but `Policy`, `Keys`, `Access`, `Denied`, `NotExpected` and `NotHeld`; `NotTaken` only where tokens count once ([`taking`](Validator::taking)).
    pub fn validate(&self, token: &[u8]) -> Result<Claims, Error> {
        self.validate_at(token, clock())
    }

    /// The claims of a token that is accepted at a moment, in seconds since 1970-01-01T00:00:00Z.
    ///
    /// # Errors
    /// As of [`validate`](Validator::validate).
    pub fn validate_at(&self, token: &[u8], now: i64) -> Result<Claims, Error> {
        self.validate_with(token, &Call::new().at(now))
    }

    /// The claims of a token that is accepted at the clock's moment, where they meet an access rule.
    ///
    /// # Errors
    /// `Denied` where they don't, and those of [`validate`](Validator::validate).
    pub fn validate_for(&self, token: &[u8], access: &Access) -> Result<Claims, Error> {
        self.validate_for_at(token, clock(), access)
    }

    /// The same at a moment, in seconds since 1970-01-01T00:00:00Z.
    ///
    /// # Errors
    /// `Denied` where they don't, and those of [`validate`](Validator::validate).
    pub fn validate_for_at(
        &self,
        token: &[u8],
        now: i64,
        access: &Access,
    ) -> Result<Claims, Error> {
        self.validate_with(token, &Call::new().at(now).access(access))
    }

    /// The claims of a token that is accepted, where they are as this call asks.
    ///
    /// # Errors
    /// `Denied`, `NotExpected` and `NotHeld` where they aren't, and those of [`validate`](Validator::validate); `NotTaken` also where a proof was taken before.
    pub fn validate_with(&self, token: &[u8], call: &Call<'_>) -> Result<Claims, Error> {
        let once = self.once.as_deref();
        self.seats.call(|seat| seat.claims(token, call, once))?
    }
}

/// The clock's moment, in seconds since 1970-01-01T00:00:00Z.
fn clock() -> i64 {
    match SystemTime::now().duration_since(UNIX_EPOCH) {
        Ok(since) => i64::try_from(since.as_secs()).unwrap_or(i64::MAX),
        Err(before) => i64::try_from(before.duration().as_secs()).map_or(i64::MIN, |it| -it),
    }
}
