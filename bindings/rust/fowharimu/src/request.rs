//! The token of a request, and what is answered to it (RFC 6750; RFC 9449, section 7): what a guard of a web service is made of.

use fowharimu_sys as sys;

/// The most octets that a challenge has beside what it quotes.
const MOST_BESIDE: usize = 64;

/// The schemes of `Authorization` that a service takes.
#[derive(Clone, Copy, Debug, PartialEq, Eq)]
#[non_exhaustive]
pub enum Schemes {
    /// Bearer alone (RFC 6750).
    Bearer,
    /// DPoP alone: the request has a proof of possession beside the token (RFC 9449, section 7.1).
    Dpop,
    /// Both.
    Both,
}

/// The scheme by which a request shows its token.
#[derive(Clone, Copy, Debug, PartialEq, Eq)]
#[non_exhaustive]
pub enum Scheme {
    /// None that is taken.
    None,
    /// Bearer.
    Bearer,
    /// DPoP.
    Dpop,
}

/// What is known of a request and its token.
#[derive(Clone, Copy, Debug, PartialEq, Eq)]
#[non_exhaustive]
pub enum Outcome {
    /// Nothing can be said of the token.
    Unanswered,
    /// It is accepted, and its claims meet the access rule, where there is one.
    Admitted,
    /// There is more than one header `Authorization`.
    Several,
    /// There is none, or its scheme is none that is taken.
    NoToken,
    /// What stands behind the scheme is no b64token (RFC 6750, section 2.1).
    Malformed,
    /// It is refused, or bound to another key, or bound and a bearer's.
    NotAccepted,
    /// A scope that the access rule asks for is missing.
    ScopeMissing,
    /// The claims don't meet the access rule otherwise.
    NotGranted,
    /// The keys are too old.
    KeysTooOld,
    /// There is no proof, or several, or it isn't one for this request, or it came before.
    ProofRefused,
    /// The proof hasn't a nonce that is asked for.
    NonceWanted,
    /// The path of the request can be read in more ways than one.
    PathForm,
    /// Whose token or proof it is has as many held as one owner may have.
    ShareUsedUp,
    /// There is no room for one more token, or proof, that counts once.
    MemoryFull,
}

/// What challenges quote, as it is.
#[derive(Clone, Copy, Debug, Default, PartialEq, Eq)]
pub struct Quoted<'a> {
    /// The realm of the service.
    pub realm: &'a str,
    /// What a token needs, with a space between two.
    pub scopes: &'a str,
    /// The algorithms of proofs, as [`Proofs::algs`](crate::Proofs::algs) has them.
    pub algs: &'a str,
}

/// What a request is answered.
#[derive(Clone, Debug, PartialEq, Eq)]
#[non_exhaustive]
pub struct Reply {
    /// The status; 200 where it is let through.
    pub status: u16,
    /// The values of `WWW-Authenticate`, one for each scheme (RFC 6750, section 3; RFC 9449, section 7.1).
    pub challenges: Vec<String>,
    /// Whether the answer has a header `DPoP-Nonce` too, with [`Nonces::now`](crate::Nonces::now), and `Cache-Control` with `no-store`.
    pub wants_nonce: bool,
}

impl Schemes {
    fn number(self) -> u32 {
        match self {
            Schemes::Bearer => sys::FOW_BEARER,
            Schemes::Dpop => sys::FOW_DPOP,
            Schemes::Both => sys::FOW_BEARER + sys::FOW_DPOP,
        }
    }
}

impl Scheme {
    fn of(number: u32) -> Scheme {
        match number {
            sys::FOW_BEARER => Scheme::Bearer,
            sys::FOW_DPOP => Scheme::Dpop,
            _ => Scheme::None,
        }
    }

    fn number(self) -> u32 {
        match self {
            Scheme::None => sys::FOW_NO_SCHEME,
            Scheme::Bearer => sys::FOW_BEARER,
            Scheme::Dpop => sys::FOW_DPOP,
        }
    }
}

impl Outcome {
    /// The outcome of what was said of a proof, by a status and a fault of the library.
    pub(crate) fn of_proof(status: u32, fault: u32) -> Outcome {
        // SAFETY: it takes numbers alone.
        Outcome::of(unsafe { sys::fow_proof_outcome(status, fault) })
    }

    /// The outcome of what was said of a token that counts once, or of a proof.
    pub(crate) fn of_taken(is_proof: bool, status: u32, taken: u32) -> Outcome {
        // SAFETY: it takes numbers alone.
        Outcome::of(unsafe { sys::fow_taken_outcome(is_proof.into(), status, taken) })
    }

    fn of(number: u32) -> Outcome {
        match number {
            1 => Outcome::Admitted,
            5 => Outcome::NotAccepted,
            9 => Outcome::ProofRefused,
            10 => Outcome::NonceWanted,
            11 => Outcome::PathForm,
            12 => Outcome::ShareUsedUp,
            13 => Outcome::MemoryFull,
            _ => Outcome::Unanswered,
        }
    }
}

/// The token in the value of the one header `Authorization`, by a scheme that is taken (RFC 6750, section 2.1; RFC 9449, section 7.1).
///
/// # Errors
/// [`Outcome::NoToken`] or [`Outcome::Malformed`], where it carries none, with the scheme that is shown.
pub fn token_in(taken: Schemes, value: &[u8]) -> Result<(Scheme, &[u8]), (Scheme, Outcome)> {
    let (mut scheme, mut from, mut to) = (sys::FOW_NO_SCHEME, 0, 0);
    // SAFETY: a slice is at so many readable octets, at an address that isn't null; the others are places of this function's.
    let status = unsafe {
        sys::fow_credentials(
            taken.number(),
            value.as_ptr(),
            value.len(),
            &mut scheme,
            &mut from,
            &mut to,
        )
    };
    let shown = Scheme::of(scheme);
    match status {
        sys::FOW_OK => Ok((shown, &value[from..to])),
        sys::FOW_ABSENT => Err((shown, Outcome::NoToken)),
        _ => Err((shown, Outcome::Malformed)),
    }
}

/// The token in the value of the one header `Authorization`, behind the scheme Bearer.
///
/// # Errors
/// [`Outcome::NoToken`] or [`Outcome::Malformed`], where it carries none.
pub fn bearer_token(value: &[u8]) -> Result<&[u8], Outcome> {
    match token_in(Schemes::Bearer, value) {
        Ok((_, token)) => Ok(token),
        Err((_, outcome)) => Err(outcome),
    }
}

/// What a request is answered of which this is known, where these schemes are taken and this one was shown. A challenge that can't be quoted is left out.
pub fn reply_to(taken: Schemes, shown: Scheme, outcome: Outcome, quoted: Quoted<'_>) -> Reply {
    let mut reply = sys::fow_reply::default();
    // SAFETY: what is written to is this function's.
    unsafe { sys::fow_reply_to(taken.number(), shown.number(), outcome as u32, &mut reply) };
    let kinds = [(sys::FOW_BEARER, reply.bearer), (sys::FOW_DPOP, reply.dpop)];
    Reply {
        status: u16::try_from(reply.status).unwrap_or(500),
        challenges: kinds
            .iter()
            .filter_map(|(scheme, kind)| challenge(*scheme, *kind, quoted))
            .collect(),
        wants_nonce: reply.dpop == sys::FOW_USE_DPOP_NONCE,
    }
}

/// The text of a challenge, where there is one.
fn challenge(scheme: u32, kind: u32, quoted: Quoted<'_>) -> Option<String> {
    let Quoted {
        realm,
        scopes,
        algs,
    } = quoted;
    let mut room = vec![0; realm.len() + scopes.len() + algs.len() + MOST_BESIDE];
    let mut written = 0;
    // SAFETY: a text is at so many readable octets, at an address that isn't null; what is written to is this function's, and overlaps with nothing.
    let status = unsafe {
        sys::fow_challenge(
            scheme,
            kind,
            realm.as_ptr(),
            realm.len(),
            scopes.as_ptr(),
            scopes.len(),
            algs.as_ptr(),
            algs.len(),
            room.as_mut_ptr(),
            room.len(),
            &mut written,
        )
    };
    room.truncate(if status == sys::FOW_OK { written } else { 0 });
    String::from_utf8(room).ok().filter(|it| !it.is_empty())
}

/// Whether a realm or scopes can be quoted as they are: each character is a printable one of ASCII, and neither a quotation mark nor a backslash.
pub fn is_quotable(text: &str) -> bool {
    // SAFETY: as above.
    unsafe { sys::fow_quotable(text.as_ptr(), text.len()) }
}
