//! Who sends a token holds the key that it is bound to: proofs of possession (DPoP, RFC 9449), and certificates (RFC 8705).

use crate::request::Outcome;
use crate::seat::{compare, document_refused, fault_name};
use crate::seats::locked;
use crate::{Error, Nonces, Once};
use fowharimu_sys as sys;
use std::ptr;
use std::sync::{Arc, Mutex};

/// A policy for proofs of possession (docs/POSSESSION.md), and the memory in which each is taken that is accepted, since it counts once (RFC 9449, section 11.1).
/// Several may share the memory, and tokens that count once too. Its verifiers are always the library's own. Threads share it.
#[derive(Debug)]
pub struct Proofs {
    policy: Box<[u8]>,
    /// The policies in the library that no call has.
    free: Mutex<Vec<Opened>>,
    once: Arc<Once>,
}

/// A policy for proofs in the library, and the proof that was accepted last. It is used by one call at a time.
#[derive(Debug)]
struct Opened {
    held: sys::fow_possession,
}

// SAFETY: what is held is owned by the policy alone, and no function keeps anything for a thread.
unsafe impl Send for Opened {}

impl Proofs {
    /// Reads a policy for proofs, a JSON text. Room in the memory is needed for as many proofs as are accepted within the policy's `max_age` and its leeway.
    ///
    /// # Errors
    /// `Policy`, `OutOfMemory`, and `AnotherLibrary`.
    pub fn open(policy: &[u8], once: Arc<Once>) -> Result<Proofs, Error> {
        compare()?;
        Ok(Proofs {
            free: Mutex::new(vec![Opened::open(policy)?]),
            policy: policy.into(),
            once,
        })
    }

    /// The names of the algorithms of the policy, with a space between two: what a challenge names.
    ///
    /// # Errors
    /// `OutOfMemory`.
    pub fn algs(&self) -> Result<String, Error> {
        let mut shown = self.lend()?;
        let mut room = vec![0; self.policy.len()];
        let mut written = 0;
        // SAFETY: what is written to is this function's, and as long as is said.
        let status = unsafe {
            sys::fow_possession_algs(shown.held()?, room.as_mut_ptr(), room.len(), &mut written)
        };
        room.truncate(if status == sys::FOW_OK { written } else { 0 });
        String::from_utf8(room).map_err(|_| Error::OutOfMemory)
    }

    /// A policy that no other call has, until what is given ends.
    fn lend(&self) -> Result<Shown<'_>, Error> {
        let free = locked(&self.free).pop();
        let opened = match free {
            Some(opened) => opened,
            None => Opened::open(&self.policy)?,
        };
        Ok(Shown {
            proofs: self,
            opened: Some(opened),
        })
    }
}

impl Opened {
    fn open(policy: &[u8]) -> Result<Opened, Error> {
        let mut opened = Opened {
            held: sys::fow_possession {
                at: ptr::null_mut(),
                held: false,
            },
        };
        let mut fault = 0;
        // SAFETY: the slice is as long as its length says, and isn't null.
        let status = unsafe {
            sys::fow_possession_open(&mut opened.held, policy.as_ptr(), policy.len(), &mut fault)
        };
        match status {
            sys::FOW_OK => Ok(opened),
            sys::FOW_REFUSED => Err(document_refused(fault, policy)),
            _ => Err(Error::OutOfMemory),
        }
    }
}

impl Drop for Opened {
    fn drop(&mut self) {
        // SAFETY: it is the one that the other calls had.
        unsafe { sys::fow_possession_close(&mut self.held) }
    }
}

/// A proof of possession, and the request that it comes with ([`Call::proof`](crate::Call::proof)).
///
/// ```no_run
/// # use fowharimu::{Call, Error, Proof, Proofs, Validator};
/// # fn request(validator: &Validator, token: &[u8], proofs: &Proofs, dpop: &[u8]) -> Result<(), Error> {
/// let proof = Proof::new(proofs, dpop, "GET", "https://api.example/things");
/// let claims = validator.validate_with(token, &Call::new().proof(proof))?;
/// # Ok(())
/// # }
/// ```
#[derive(Clone, Debug)]
pub struct Proof<'a> {
    proofs: &'a Proofs,
    value: &'a [u8],
    method: &'a str,
    uri: &'a str,
    /// Empty where none was asked for.
    nonce: &'a str,
    nonces: Option<&'a Nonces>,
}

impl<'a> Proof<'a> {
    /// `value` is that of the request's only header `DPoP` (a request that has none, or several, is refused before), `method` the request's, by case, and `uri` what the client sees, with scheme and host, which behind a proxy come
    /// from the configuration.
    #[must_use]
    pub fn new(proofs: &'a Proofs, value: &'a [u8], method: &'a str, uri: &'a str) -> Proof<'a> {
        Proof {
            proofs,
            value,
            method,
            uri,
            nonce: "",
            nonces: None,
        }
    }

    /// The same where the proof has to have one of these nonces.
    #[must_use]
    pub fn nonces(self, nonces: &'a Nonces) -> Proof<'a> {
        Proof {
            nonces: Some(nonces),
            ..self
        }
    }

    /// The same where the service asked for this nonce.
    ///
    /// # Errors
    /// `EmptyNonce`.
    pub fn nonce(self, nonce: &'a str) -> Result<Proof<'a>, Error> {
        if nonce.is_empty() {
            return Err(Error::EmptyNonce);
        }
        Ok(Proof { nonce, ..self })
    }

    /// Judges it beside the token that a validator accepted just now, at that moment.
    ///
    /// # Errors
    /// `NotHeld`, and `OutOfMemory` where nothing is known.
    pub(crate) fn judge(
        &self,
        validator: &mut sys::fow_validator,
        token: &[u8],
        now: i64,
    ) -> Result<Shown<'a>, Error> {
        let mut shown = self.proofs.lend()?;
        let mut fault = 0;
        // SAFETY: the slices are as long as their lengths say, and aren't null; the validator is the one that judged, and this call has both to itself.
        let status = unsafe {
            sys::fow_possession_judge(
                shown.held()?,
                validator,
                self.value.as_ptr(),
                self.value.len(),
                self.method.as_ptr(),
                self.method.len(),
                self.uri.as_ptr(),
                self.uri.len(),
                self.nonce.as_ptr(),
                self.nonce.len(),
                token.as_ptr(),
                token.len(),
                now,
                &mut fault,
            )
        };
        let (status, fault) = match self.nonces {
            Some(nonces) if status == sys::FOW_OK => {
                let said = nonces.fresh(shown.held()?, now);
                (said, sys::FOW_PROOF_OTHER_NONCE)
            }
            _ => (status, fault),
        };
        match status {
            sys::FOW_OK => Ok(shown),
            sys::FOW_REFUSED | sys::FOW_NOT_EXPECTED => Err(Error::NotHeld {
                fault: fault_name(fault),
                outcome: Outcome::of_proof(status, fault),
            }),
            _ => Err(Error::OutOfMemory),
        }
    }
}

/// A proof that was accepted. The policy that keeps it is given back where this ends.
#[derive(Debug)]
pub(crate) struct Shown<'a> {
    proofs: &'a Proofs,
    /// There until the end.
    opened: Option<Opened>,
}

impl Shown<'_> {
    fn held(&mut self) -> Result<&mut sys::fow_possession, Error> {
        let opened = self.opened.as_mut();
        opened.map(|it| &mut it.held).ok_or(Error::OutOfMemory)
    }

    /// Takes it, at the moment at which it was judged.
    ///
    /// # Errors
    /// `NotTaken`, and `OutOfMemory` where nothing is known.
    pub(crate) fn take(mut self, now: i64) -> Result<(), Error> {
        let once = Arc::clone(&self.proofs.once);
        once.take_proof(self.held()?, now)
    }
}

impl Drop for Shown<'_> {
    fn drop(&mut self) {
        locked(&self.proofs.free).extend(self.opened.take());
    }
}

/// A policy for proofs that is none, so that no proof is kept.
fn no_proof() -> sys::fow_possession {
    sys::fow_possession {
        at: ptr::null_mut(),
        held: false,
    }
}

/// Whether the token that a validator accepted just now is bound to nothing.
///
/// # Errors
/// `NotHeld`, and `OutOfMemory` where nothing is known.
pub(crate) fn is_unbound(validator: &mut sys::fow_validator) -> Result<(), Error> {
    match ways_shown(validator, &mut no_proof(), b"") {
        Ok(_) => Ok(()),
        Err(Error::NotHeld { .. }) => Err(not_held("Bound")),
        Err(error) => Err(error),
    }
}

/// Whether each way in which the token that a validator accepted just now is bound is shown by this proof and the certificate whose DER this is, where there are such;
/// with a certificate it has to be bound to that.
///
/// # Errors
/// `NotHeld`, and `OutOfMemory` where nothing is known.
pub(crate) fn is_shown(
    validator: &mut sys::fow_validator,
    proof: Option<&mut Shown<'_>>,
    certificate: Option<&[u8]>,
) -> Result<(), Error> {
    let mut none = no_proof();
    let possession = match proof {
        Some(shown) => shown.held()?,
        None if certificate.is_none() => return Ok(()),
        None => &mut none,
    };
    let ways = ways_shown(validator, possession, certificate.unwrap_or_default())?;
    if certificate.is_some() && ways & sys::FOW_BOUND_CERTIFICATE == 0 {
        return Err(not_held("OtherCertificate"));
    }
    Ok(())
}

/// How the token that a validator accepted just now is bound, where each way is shown.
///
/// # Errors
/// `NotHeld`, and `OutOfMemory` where nothing is known.
fn ways_shown(
    validator: &mut sys::fow_validator,
    possession: &mut sys::fow_possession,
    der: &[u8],
) -> Result<u32, Error> {
    let (mut ways, mut fault) = (sys::FOW_BOUND_NOT, 0);
    // SAFETY: the slice is as long as its length says, and isn't null; the validator is the one that judged, and this call has both to itself.
    let status = unsafe {
        sys::fow_shown(
            validator,
            possession,
            der.as_ptr(),
            der.len(),
            &mut ways,
            &mut fault,
        )
    };
    match status {
        sys::FOW_OK => Ok(ways),
        sys::FOW_REFUSED => Err(not_held(&fault_name(fault))),
        _ => Err(Error::OutOfMemory),
    }
}

fn not_held(fault: &str) -> Error {
    Error::NotHeld {
        fault: fault.to_owned(),
        outcome: Outcome::NotAccepted,
    }
}
