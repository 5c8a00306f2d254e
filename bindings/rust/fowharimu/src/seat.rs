//! What one call at a time judges with.

use crate::texts::{text_member, written, NAME_ROOM};
use crate::{Call, Claims, Error, Once, Part};
use fowharimu_sys as sys;
use std::ffi::CStr;
use std::ptr;

/// The names of the claims, by the numbers from 1 that the library gives them.
const CLAIMS: [&str; 7] = ["iss", "sub", "aud", "exp", "nbf", "iat", "jti"];

/// What is told of a policy and a key set.
#[derive(Debug)]
pub(crate) struct Terms {
    pub(crate) issuer: Option<String>,
    pub(crate) limit: u32,
    pub(crate) is_public: bool,
}

/// What octets say of their issuer, for whom nobody vouches.
pub(crate) enum Named {
    /// They are no token.
    NoToken,
    /// The token names no issuer.
    Nobody,
    /// The token names this one.
    Issuer(String),
}

impl Named {
    pub(crate) fn issuer(self) -> Option<String> {
        match self {
            Named::Issuer(issuer) => Some(issuer),
            Named::Nobody | Named::NoToken => None,
        }
    }
}

/// A validator of the library.
#[derive(Debug)]
pub(crate) struct Seat {
    held: sys::fow_validator,
    /// The number of its documents, which are 0 where no others come after them.
    documents: u64,
}

// SAFETY: what is written is owned by the seat alone, the documents that it shares with others are only read, and no function keeps
// anything for a thread.
unsafe impl Send for Seat {}

impl Seat {
    fn new() -> Seat {
        Seat {
            held: sys::fow_validator {
                at: ptr::null_mut(),
                held: false,
            },
            documents: 0,
        }
    }

    /// The number of the policy and the key set that it holds.
    pub(crate) fn documents(&self) -> u64 {
        self.documents
    }

    /// The same under another number.
    pub(crate) fn numbered(self, documents: u64) -> Seat {
        let mut seat = self;
        seat.documents = documents;
        seat
    }

    /// Reads a policy and a key set, where the library has the interface that this crate is made for.
    pub(crate) fn open(policy: &[u8], keys: &[u8]) -> Result<Seat, Error> {
        compare()?;
        let mut seat = Seat::new();
        let mut fault = 0;
        // SAFETY: the slices are as long as their lengths say, and aren't null.
        let status = unsafe {
            sys::fow_open(
                &mut seat.held,
                policy.as_ptr(),
                policy.len(),
                keys.as_ptr(),
                keys.len(),
                &mut fault,
            )
        };
        match status {
            sys::FOW_OK => Ok(seat),
            sys::FOW_REFUSED => Err(document_refused(fault, policy)),
            _ => Err(Error::OutOfMemory),
        }
    }

    /// What is told of the policy and the key set.
    pub(crate) fn terms(&mut self) -> Result<Terms, Error> {
        let held = &mut self.held;
        // SAFETY: the octets are as many as their length says.
        let issuer = written(NAME_ROOM, |out, room, len| unsafe {
            sys::fow_sole_issuer(held, out, room, len)
        })?;
        let mut limit = 0;
        // SAFETY: it is the one that the other calls had.
        if unsafe { sys::fow_token_limit(held, &mut limit) } != sys::FOW_OK {
            return Err(Error::OutOfMemory);
        }
        // SAFETY: it is the one that the other calls had.
        let is_public = unsafe { sys::fow_documents_are_public(held) };
        Ok(Terms {
            issuer,
            limit,
            is_public,
        })
    }

    /// The issuer that a token names.
    pub(crate) fn named(&mut self, token: &[u8]) -> Result<Named, Error> {
        let held = &mut self.held;
        let mut status = sys::FOW_OK;
        // SAFETY: the slices are as long as their lengths say, and aren't null.
        let issuer = written(token.len() + 1, |out, room, len| unsafe {
            status = sys::fow_unverified_issuer(held, token.as_ptr(), token.len(), out, room, len);
            if status == sys::FOW_UNNAMED {
                sys::FOW_ABSENT
            } else {
                status
            }
        })?;
        Ok(match issuer {
            Some(issuer) => Named::Issuer(issuer),
            None if status == sys::FOW_UNNAMED => Named::Nobody,
            None => Named::NoToken,
        })
    }

    /// The `kid` of the first signature of a token, for which nobody vouches; nothing where there is none.
    pub(crate) fn kid(&mut self, token: &[u8]) -> Result<Option<String>, Error> {
        let held = &mut self.held;
        // SAFETY: the slices are as long as their lengths say, and aren't null.
        let header = written(token.len() + 1, |out, room, len| unsafe {
            sys::fow_unverified_header(held, token.as_ptr(), token.len(), 0, out, room, len)
        })?;
        match header {
            Some(header) => text_member(header.as_bytes(), "kid"),
            None => Ok(None),
        }
    }

    /// A seat with the same documents, which aren't read again. It remembers so many tokens of so many octets.
    pub(crate) fn open_beside(&mut self, tokens: usize, octets: usize) -> Result<Seat, Error> {
        let mut seat = Seat::new().numbered(self.documents);
        // SAFETY: both are those that the other calls had, and this one has them to itself.
        let opened = unsafe { sys::fow_open_beside(&mut seat.held, &mut self.held) };
        if opened != sys::FOW_OK {
            return Err(Error::OutOfMemory);
        }
        // SAFETY: it was opened just now.
        match unsafe { sys::fow_remember(&mut seat.held, tokens, octets) } {
            sys::FOW_OK => Ok(seat),
            _ => Err(Error::OutOfMemory),
        }
    }

    /// The claims of a token that is accepted, where they are as the call asks.
    pub(crate) fn claims(
        &mut self,
        token: &[u8],
        call: &Call<'_>,
        once: Option<&Once>,
    ) -> Result<Claims, Error> {
        let now = call.moment();
        let report = self.judge(token, now);
        if report.verdict != sys::FOW_OK {
            return Err(self.refusal(&report));
        }
        call.check(&mut self.held, token, report.signature)?;
        let shown = call.shown(&mut self.held, token, now)?;
        let held = &mut self.held;
        // SAFETY: it is the one that judged.
        let remembered = unsafe { sys::fow_remembered(held) };
        // SAFETY: the room is as long as its length says, and isn't null.
        let payload = written(token.len() + 1, |out, room, len| unsafe {
            sys::fow_accepted_payload(held, out, room, len)
        })?;
        // An accepted token has a payload: where there is none, nothing is known.
        let json = payload.ok_or(Error::OutOfMemory)?;
        // (last, so that none is taken whose claims aren't handed out; a client makes another proof, and no other token)
        if let Some(shown) = shown {
            shown.take(now)?;
        }
        if let Some(once) = once {
            once.take(&mut self.held, now)?;
        }
        Ok(Claims { json, remembered })
    }

    fn judge(&mut self, token: &[u8], now: i64) -> sys::fow_report {
        let mut report = sys::fow_report::default();
        // SAFETY: the slice is as long as its length says, and isn't null.
        unsafe {
            sys::fow_judge(
                &mut self.held,
                token.as_ptr(),
                token.len(),
                now,
                &mut report,
            );
        }
        report
    }

    fn refusal(&mut self, report: &sys::fow_report) -> Error {
        let (signature, key) = (report.signature, report.key);
        match report.verdict {
            sys::FOW_REFUSED => {}
            _ => return Error::OutOfMemory,
        }
        let fault = fault_name(report.fault);
        match report.fault / 100 {
            3 => Error::TooLong,
            4 => Error::Form {
                fault,
                part: part_of(report.part),
                signature,
            },
            5 => Error::Ceiling {
                fault,
                signature,
                key,
            },
            6 => Error::Signature { fault, signature },
            _ => match self.refused_claim(report.claim) {
                Ok(claim) => Error::Claims { fault, claim },
                Err(error) => error,
            },
        }
    }

    /// The name of the claim of this number, where there is one.
    fn refused_claim(&mut self, number: u32) -> Result<Option<String>, Error> {
        let place = usize::try_from(number)
            .ok()
            .and_then(|it| it.checked_sub(1));
        let place = match place {
            Some(place) => place,
            None => return Ok(None),
        };
        if let Some(name) = CLAIMS.get(place) {
            return Ok(Some((*name).to_owned()));
        }
        let held = &mut self.held;
        // SAFETY: the octets are as many as their length says.
        written(NAME_ROOM, |out, room, len| unsafe {
            sys::fow_refused_claim(held, out, room, len)
        })
    }
}

impl Drop for Seat {
    fn drop(&mut self) {
        // SAFETY: it is that which the other calls had.
        unsafe {
            sys::fow_close(&mut self.held);
        }
    }
}

/// Whether the library has the interface that this crate is made for.
///
/// # Errors
/// `AnotherLibrary`.
pub(crate) fn compare() -> Result<(), Error> {
    // SAFETY: it takes nothing.
    let loaded = unsafe { sys::fow_abi() };
    if loaded == sys::FOW_ABI {
        return Ok(());
    }
    // SAFETY: the version is a C string that is never freed.
    let version = unsafe { CStr::from_ptr(sys::fow_version()) };
    Err(Error::AnotherLibrary {
        made_for: sys::FOW_ABI,
        loaded,
        version: version.to_string_lossy().into_owned(),
    })
}

fn part_of(part: u32) -> Option<Part> {
    match part {
        1 => Some(Part::Payload),
        2 => Some(Part::Protected),
        3 => Some(Part::Signature),
        _ => None,
    }
}

pub(crate) fn fault_name(fault: u32) -> String {
    // SAFETY: the name is a C string that is never freed.
    let name = unsafe { CStr::from_ptr(sys::fow_fault_name(fault)) };
    name.to_string_lossy().into_owned()
}

pub(crate) fn document_refused(number: u32, policy: &[u8]) -> Error {
    let fault = fault_name(number);
    if number / 100 == 2 {
        return Error::Keys { fault };
    }
    // SAFETY: the slices are as long as their lengths say, and aren't null.
    let member = written(NAME_ROOM, |out, room, len| unsafe {
        sys::fow_refused_member(policy.as_ptr(), policy.len(), out, room, len)
    });
    match member {
        Ok(member) => Error::Policy { fault, member },
        Err(error) => error,
    }
}
