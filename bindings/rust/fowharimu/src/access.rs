//! An access rule: what an accepted token may do.

use crate::seat::{compare, fault_name};
use crate::texts::{written, NAME_ROOM};
use crate::Error;
use fowharimu_sys as sys;
use std::ptr;
use std::sync::{Mutex, PoisonError};

/// An access rule: which scopes and which values of claims an accepted token has to have. Threads share it.
#[derive(Debug)]
pub struct Access {
    scopes: Vec<String>,
    /// A call takes less than a microsecond of it as a rule.
    rule: Mutex<Rule>,
}

/// A rule that the library holds.
#[derive(Debug)]
struct Rule {
    held: sys::fow_access,
}

// SAFETY: what is held is owned by the rule alone, and no function keeps anything for a thread.
unsafe impl Send for Rule {}

impl Access {
    /// Reads an access rule, a JSON text.
    ///
    /// # Errors
    /// `Access`, `OutOfMemory`, and `AnotherLibrary`.
    pub fn open(document: &[u8]) -> Result<Access, Error> {
        compare()?;
        let mut rule = Rule::open(document)?;
        let mut scopes = Vec::new();
        while let Some(scope) = rule.scope(scopes.len())? {
            scopes.push(scope);
        }
        Ok(Access {
            scopes,
            rule: Mutex::new(rule),
        })
    }

    /// The scopes that have to be granted, in the order of the rule: with spaces between them, the `scope` of a challenge that says
    /// insufficient_scope (RFC 6750, section 3.1).
    pub fn scopes(&self) -> &[String] {
        &self.scopes
    }

    /// Whether the claims of the token that a validator accepted last meet the rule.
    ///
    /// # Errors
    /// `Denied`, and `OutOfMemory` where nothing is known.
    pub(crate) fn check(&self, validator: &mut sys::fow_validator) -> Result<(), Error> {
        // Nothing that is done under the lock leaves the rule half written.
        let mut rule = self.rule.lock().unwrap_or_else(PoisonError::into_inner);
        rule.check(validator)
    }
}

impl Rule {
    fn open(document: &[u8]) -> Result<Rule, Error> {
        let mut rule = Rule {
            held: sys::fow_access {
                at: ptr::null_mut(),
                held: false,
            },
        };
        let mut fault = 0;
        // SAFETY: the slice is as long as its length says, and isn't null.
        let status = unsafe {
            sys::fow_access_open(
                &mut rule.held,
                document.as_ptr(),
                document.len(),
                &mut fault,
            )
        };
        match status {
            sys::FOW_OK => Ok(rule),
            sys::FOW_REFUSED => Err(Error::Access {
                fault: fault_name(fault),
                // SAFETY: the slices are as long as their lengths say, and aren't null.
                member: written(NAME_ROOM, |out, room, len| unsafe {
                    sys::fow_access_refused(document.as_ptr(), document.len(), out, room, len)
                })?,
            }),
            _ => Err(Error::OutOfMemory),
        }
    }

    /// The scope of this number, where there is one.
    fn scope(&mut self, number: usize) -> Result<Option<String>, Error> {
        let number = u32::try_from(number).map_err(|_| Error::OutOfMemory)?;
        let held = &mut self.held;
        // SAFETY: the octets are as many as their length says.
        written(NAME_ROOM, |out, room, len| unsafe {
            sys::fow_access_scope(held, number, out, room, len)
        })
    }

    fn check(&mut self, validator: &mut sys::fow_validator) -> Result<(), Error> {
        let mut denial = 0;
        // SAFETY: both are those that the other calls had, and this one has them to itself.
        match unsafe { sys::fow_denied(validator, &mut self.held, &mut denial) } {
            sys::FOW_OK => return Ok(()),
            sys::FOW_DENIED => {}
            _ => return Err(Error::OutOfMemory),
        }
        let held = &mut self.held;
        // SAFETY: as above, and the octets are as many as their length says.
        let name = written(NAME_ROOM, |out, room, len| unsafe {
            sys::fow_denied_name(validator, held, out, room, len)
        })?;
        Err(Error::Denied {
            fault: fault_name(denial),
            name: name.ok_or(Error::OutOfMemory)?,
        })
    }
}

impl Drop for Rule {
    fn drop(&mut self) {
        // SAFETY: it is the one that the other calls had.
        unsafe { sys::fow_access_close(&mut self.held) }
    }
}
