//! What one call asks of a token beside its validator.

use crate::possession::{is_shown, is_unbound, Shown};
use crate::{clock, Access, Error, Proof};
use fowharimu_sys as sys;

/// Why a claim isn't what is expected of it.
#[derive(Clone, Copy, Debug, PartialEq, Eq)]
#[non_exhaustive]
pub enum Unmet {
    /// The claim is absent, or an object that it would stand in is.
    Absent,
    /// The claim is there, and is another text, or no text.
    Other,
}

/// What one call asks of a token beside its validator: an access rule, what this login or this request knows of its claims, that its sender holds the key that it is
/// bound to, another moment than the clock's. Claims are named as in an access rule: by their name, or by a JSON Pointer (RFC 6901), which begins with `/`. The rule is
/// held first, then the expectations in their order, then the sender; a proof and a token that counts once are taken last.
///
/// ```no_run
/// # use fowharimu::{Call, Error, Validator};
/// # fn login(validator: &Validator, token: &[u8], sent: &str, access_token: &[u8]) -> Result<(), Error> {
/// let call = Call::new().text("nonce", sent).half_hash("at_hash", access_token);
/// let claims = validator.validate_with(token, &call)?;
/// # Ok(())
/// # }
/// ```
#[derive(Clone, Debug, Default)]
pub struct Call<'a> {
    now: Option<i64>,
    access: Option<&'a Access>,
    expected: Vec<Expectation<'a>>,
    unbound: bool,
    certificate: Option<&'a [u8]>,
    proof: Option<Proof<'a>>,
}

#[derive(Clone, Debug)]
struct Expectation<'a> {
    claim: &'a str,
    what: Expected<'a>,
}

#[derive(Clone, Debug)]
enum Expected<'a> {
    Text(&'a str),
    HalfHash(&'a [u8]),
}

impl<'a> Call<'a> {
    /// A call that asks for nothing beside.
    #[must_use]
    pub fn new() -> Call<'a> {
        Call::default()
    }

    /// Judges at this moment, in seconds since 1970-01-01T00:00:00Z, in place of the clock's.
    #[must_use]
    pub fn at(self, now: i64) -> Call<'a> {
        Call {
            now: Some(now),
            ..self
        }
    }

    /// Has the claims meet this access rule.
    #[must_use]
    pub fn access(self, access: &'a Access) -> Call<'a> {
        Call {
            access: Some(access),
            ..self
        }
    }

    /// Expects a claim to be this very text, octet by octet, as the `nonce` that was sent with a login, or the subject of a session. A list that holds the
    /// text isn't the text.
    #[must_use]
    pub fn text(self, claim: &'a str, text: &'a str) -> Call<'a> {
        self.expecting(claim, Expected::Text(text))
    }

    /// Expects a claim to be the half of the hash of these octets, by the algorithm of the signature that was verified: `at_hash` is of the access token beside
    /// an ID token, and `c_hash` of the code (OpenID Connect Core 1.0, sections 3.1.3.8 and 3.3.2.11).
    #[must_use]
    pub fn half_hash(self, claim: &'a str, of: &'a [u8]) -> Call<'a> {
        self.expecting(claim, Expected::HalfHash(of))
    }

    /// Asks that the sender holds the key that the token is bound to, by this proof of possession (DPoP, RFC 9449).
    #[must_use]
    pub fn proof(self, proof: Proof<'a>) -> Call<'a> {
        Call {
            proof: Some(proof),
            ..self
        }
    }

    /// Asks that the token is bound to the certificate of the client, whose DER this is, as whoever ended TLS has it (RFC 8705, section 3): it is
    /// [`NotHeld`](Error::NotHeld) as `OtherCertificate` where it isn't.
    #[must_use]
    pub fn certificate(self, der: &'a [u8]) -> Call<'a> {
        Call {
            certificate: Some(der),
            ..self
        }
    }

    /// Asks that the token is bound to nothing, as a service does that takes tokens of bearers: else whoever stole it could use it (RFC 9449, section 7.2). It is
    /// [`NotHeld`](Error::NotHeld) as `Bound` where it is bound. Without this, and without a proof or a certificate, nothing is asked of the sender.
    #[must_use]
    pub fn unbound(self) -> Call<'a> {
        Call {
            unbound: true,
            ..self
        }
    }

    fn expecting(mut self, claim: &'a str, what: Expected<'a>) -> Call<'a> {
        self.expected.push(Expectation { claim, what });
        self
    }

    /// The moment at which a token is judged.
    pub(crate) fn moment(&self) -> i64 {
        self.now.unwrap_or_else(clock)
    }

    /// Whether the token that a validator accepted just now, by the signature of this number, is as the call asks.
    ///
    /// # Errors
    /// `Denied`, `NotExpected`, `NotHeld`, and `OutOfMemory` where nothing is known.
    pub(crate) fn check(
        &self,
        validator: &mut sys::fow_validator,
        token: &[u8],
        signature: u32,
    ) -> Result<(), Error> {
        if let Some(access) = self.access {
            access.check(validator)?;
        }
        self.expected
            .iter()
            .try_for_each(|it| it.check(validator, token, signature))?;
        if self.unbound {
            is_unbound(validator)?;
        }
        Ok(())
    }

    /// The proof that came with the token that a validator accepted just now, where one is asked for: it is accepted, each way in which the token is bound is shown by it and by the
    /// certificate that is asked for, and it is to be taken.
    ///
    /// # Errors
    /// `NotHeld`, and `OutOfMemory` where nothing is known.
    pub(crate) fn shown(
        &self,
        validator: &mut sys::fow_validator,
        token: &[u8],
        now: i64,
    ) -> Result<Option<Shown<'a>>, Error> {
        let proof = self.proof.as_ref();
        let mut shown = proof
            .map(|it| it.judge(validator, token, now))
            .transpose()?;
        is_shown(validator, shown.as_mut(), self.certificate)?;
        Ok(shown)
    }
}

impl Expectation<'_> {
    fn check(
        &self,
        validator: &mut sys::fow_validator,
        token: &[u8],
        signature: u32,
    ) -> Result<(), Error> {
        let mut unmet = sys::FOW_UNMET_NOTHING;
        let status = match self.what {
            Expected::Text(text) => self.hold_text(validator, text, &mut unmet),
            Expected::HalfHash(of) => {
                self.hold_half_hash(validator, (token, signature), of, &mut unmet)
            }
        };
        let why = match (status, unmet) {
            (sys::FOW_OK, _) => return Ok(()),
            (sys::FOW_NOT_EXPECTED, sys::FOW_UNMET_ABSENT) => Unmet::Absent,
            (sys::FOW_NOT_EXPECTED, _) => Unmet::Other,
            _ => return Err(Error::OutOfMemory),
        };
        Err(Error::NotExpected {
            why,
            claim: self.claim.to_owned(),
        })
    }

    fn hold_text(&self, validator: &mut sys::fow_validator, text: &str, unmet: &mut u32) -> u32 {
        // SAFETY: the slices are as long as their lengths say, and aren't null; the validator is the one that judged.
        unsafe {
            sys::fow_expect_text(
                validator,
                self.claim.as_ptr(),
                self.claim.len(),
                text.as_ptr(),
                text.len(),
                unmet,
            )
        }
    }

    /// `accepted` is the token that was accepted, and the number of its signature that verified.
    fn hold_half_hash(
        &self,
        validator: &mut sys::fow_validator,
        accepted: (&[u8], u32),
        of: &[u8],
        unmet: &mut u32,
    ) -> u32 {
        let (token, signature) = accepted;
        // SAFETY: as above.
        unsafe {
            sys::fow_expect_half_hash(
                validator,
                token.as_ptr(),
                token.len(),
                signature,
                self.claim.as_ptr(),
                self.claim.len(),
                of.as_ptr(),
                of.len(),
                unmet,
            )
        }
    }
}
