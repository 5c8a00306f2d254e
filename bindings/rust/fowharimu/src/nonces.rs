//! The nonces that a service asks of proofs.

use crate::seat::compare;
use crate::{clock, Error};
use fowharimu_sys as sys;
use std::fmt;
use std::time::Duration;

/// The nonces that a service asks of proofs (RFC 9449, section 8), by a secret and the time: each is good for the period in which it is given and for the next one. Nothing is kept of
/// them, and processes that share a secret ask for the same. Threads share it.
#[derive(Clone)]
pub struct Nonces {
    secret: Box<[u8]>,
    period: u32,
}

impl Nonces {
    /// Nonces of a secret of at least 32 random octets, each given for a period of whole seconds.
    ///
    /// # Errors
    /// `Nonces` for a shorter secret, and for a period that isn't from 1 to 2^32 - 1 whole seconds; `AnotherLibrary`.
    pub fn new(secret: &[u8], period: Duration) -> Result<Nonces, Error> {
        compare()?;
        let seconds = u32::try_from(period.as_secs()).unwrap_or(0);
        let nonces = Nonces {
            secret: secret.into(),
            period: if period.subsec_nanos() == 0 {
                seconds
            } else {
                0
            },
        };
        nonces.written(0).ok_or(Error::Nonces)?;
        Ok(nonces)
    }

    /// The nonce of now, the value of a header `DPoP-Nonce`.
    pub fn now(&self) -> String {
        self.at(clock())
    }

    /// The nonce of a moment, in seconds since 1970-01-01T00:00:00Z.
    pub fn at(&self, now: i64) -> String {
        self.written(now).unwrap_or_default()
    }

    /// The nonce of a moment; none where the secret is too short or the period is 0.
    fn written(&self, now: i64) -> Option<String> {
        let mut room = vec![0; sys::FOW_NONCE_LEN];
        let mut written = 0;
        // SAFETY: the slice is as long as its length says, and isn't null; what is written to is this function's.
        let status = unsafe {
            sys::fow_nonce(
                self.secret.as_ptr(),
                self.secret.len(),
                self.period,
                now,
                room.as_mut_ptr(),
                room.len(),
                &mut written,
            )
        };
        if status != sys::FOW_OK {
            return None;
        }
        String::from_utf8(room).ok()
    }

    /// What the library says of the nonce of the proof that it has accepted just now, at that moment.
    pub(crate) fn fresh(&self, possession: &mut sys::fow_possession, now: i64) -> u32 {
        // SAFETY: as above; the policy is the one that judged.
        unsafe {
            sys::fow_possession_fresh(
                possession,
                self.secret.as_ptr(),
                self.secret.len(),
                self.period,
                now,
            )
        }
    }
}

impl fmt::Debug for Nonces {
    /// Without the secret.
    fn fmt(&self, f: &mut fmt::Formatter<'_>) -> fmt::Result {
        f.debug_struct("Nonces")
            .field("period", &self.period)
            .finish_non_exhaustive()
    }
}
