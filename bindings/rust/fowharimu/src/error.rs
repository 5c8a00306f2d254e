//! Why something is refused.

use crate::request::Outcome;
use crate::{NotTaken, Unmet};
use std::error;
use std::fmt;

/// The part of a token that a fault of its form speaks of.
#[derive(Clone, Copy, Debug, PartialEq, Eq)]
pub enum Part {
    /// The payload.
    Payload,
    /// The protected header of the signature that the error names.
    Protected,
    /// The octets of the signature that the error names.
    Signature,
}

/// Why something is refused. `fault` is the name that the program `jwt` prints, such as `Expired`; signatures and keys are numbered
/// from 0.
#[derive(Clone, Debug, PartialEq, Eq)]
#[non_exhaustive]
pub enum Error {
    /// The library that was linked or loaded has another interface than this crate was made for: `FOW_ABI` in `fowharimu.h`.
    AnotherLibrary {
        made_for: u32,
        loaded: u32,
        version: String,
    },
    /// The policy is refused, for this member where the fault speaks of one.
    Policy {
        fault: String,
        member: Option<String>,
    },
    /// The key set is refused.
    Keys { fault: String },
    /// Keys aren't fetched from this URL: it isn't `https`, has no host, or has a name, a password or a fragment in it; or, of an issuer, a query.
    Url,
    /// The policy is none for keys by URL: it has an HMAC algorithm, while what is fetched is public, or it doesn't name exactly the issuer whose keys
    /// are fetched.
    PolicyByUrl,
    /// The keys can't be fetched, for this reason.
    KeysUnavailable { reason: String },
    /// The keys are too old, and newer ones can't be fetched: nothing is said of the token. A service answers 503 to this.
    KeysTooOld,
    /// There is no issuer, or one under which a policy stands that doesn't name exactly it.
    Issuers,
    /// The access rule is refused, for this member, or this claim, where the fault speaks of one.
    Access {
        fault: String,
        member: Option<String>,
    },
    /// The token is accepted, and its claims don't meet the access rule: this scope isn't granted (`ScopeMissing`), or this claim isn't as it
    /// asks (`ClaimMissing`, `ClaimNotAllowed` and others of docs/ACCESS.md). A service answers 403 to this, and 401 to a token that isn't accepted.
    Denied { fault: String, name: String },
    /// The token is accepted, and isn't the one that the call expected: this is the first claim that isn't as it has to be. A service answers 401 to this.
    NotExpected { why: Unmet, claim: String },
    /// The token is accepted, and its sender hasn't shown that the key is theirs that it is bound to: why the proof is none for this request, such as `OtherUri`
    /// (docs/POSSESSION.md); `OtherCertificate`, where it isn't bound to this certificate; `Bound`, where it is bound, and came as a bearer's. A service answers 401 to
    /// this, by the outcome.
    NotHeld { fault: String, outcome: Outcome },
    /// A secret of nonces has less than 32 octets, or their period isn't from 1 to 2^32 - 1 whole seconds.
    Nonces,
    /// A proof's nonce is empty: where none was asked for, it is left out.
    EmptyNonce,
    /// The token is accepted, and isn't taken by the memory of tokens that count once, or its proof isn't. A service answers 401 to this, by the
    /// outcome.
    NotTaken { why: NotTaken, outcome: Outcome },
    /// The token has more octets than the policy's `limit`.
    TooLong,
    /// The octets are no signed token.
    Form {
        fault: String,
        part: Option<Part>,
        signature: u32,
    },
    /// The policy's `work` or `max_calls` was reached before this key was tried on this signature.
    Ceiling {
        fault: String,
        signature: u32,
        key: u32,
    },
    /// This signature isn't verified.
    Signature { fault: String, signature: u32 },
    /// The claims are refused, for this claim where the fault speaks of one.
    Claims {
        fault: String,
        claim: Option<String>,
    },
    /// An allocation was refused.
    OutOfMemory,
    /// The library wrote octets that are no text in UTF-8, so that nothing can be shown of them.
    NotUtf8,
}

impl fmt::Display for Error {
    fn fmt(&self, f: &mut fmt::Formatter<'_>) -> fmt::Result {
        match self {
            Error::AnotherLibrary {
                made_for,
                loaded,
                version,
            } => write!(
                f,
                "the library {version} has interface {loaded}, and this crate was made for {made_for}"
            ),
            Error::Policy { fault, member } => {
                write!(f, "the policy is refused: {fault}")?;
                member.iter().try_for_each(|it| write!(f, " {it:?}"))
            }
            Error::Keys { fault } => write!(f, "the key set is refused: {fault}"),
            Error::Url => write!(
                f,
                "keys are fetched from a URL that is https, and has a host and neither a name, a password nor a fragment"
            ),
            Error::PolicyByUrl => write!(
                f,
                "the policy is none for keys by URL: it has an HMAC algorithm, or doesn't name the issuer in issuers, and no other"
            ),
            Error::KeysUnavailable { reason } => write!(f, "the keys can't be fetched: {reason}"),
            Error::KeysTooOld => write!(f, "the token isn't accepted: KeysTooOld"),
            Error::Issuers => write!(
                f,
                "the policy of each issuer has to name it in issuers, and no other"
            ),
            Error::Access { fault, member } => {
                write!(f, "the access rule is refused: {fault}")?;
                member.iter().try_for_each(|it| write!(f, " {it:?}"))
            }
            Error::Denied { fault, name } => write!(f, "the token is denied: {fault} {name:?}"),
            Error::NotExpected { why, claim } => {
                write!(f, "the token isn't what was expected: {why:?} {claim:?}")
            }
            Error::NotHeld { fault, .. } => {
                write!(f, "the sender of the token doesn't hold its key: {fault}")
            }
            Error::Nonces => write!(
                f,
                "a secret of nonces has at least 32 octets, and their period is from 1 to 4294967295 whole seconds"
            ),
            Error::EmptyNonce => write!(
                f,
                "a nonce isn't empty: where none was asked for, it is left out"
            ),
            Error::NotTaken { why, .. } => {
                write!(f, "the token counts once, and isn't taken: {why:?}")
            }
            Error::TooLong => write!(f, "the token is refused: TooLong"),
            Error::Form { fault, .. } => write!(f, "the token is refused: {fault}"),
            Error::Ceiling {
                fault,
                signature,
                key,
            } => write!(
                f,
                "the token is refused: {fault} at signature {signature} and key {key}"
            ),
            Error::Signature { fault, signature } => {
                write!(f, "the token is refused: {fault} of signature {signature}")
            }
            Error::Claims { fault, claim } => {
                write!(f, "the token is refused: {fault}")?;
                claim.iter().try_for_each(|it| write!(f, " {it:?}"))
            }
            Error::OutOfMemory => write!(f, "an allocation was refused"),
            Error::NotUtf8 => write!(f, "what is to be shown is no text in UTF-8"),
        }
    }
}

impl error::Error for Error {}
