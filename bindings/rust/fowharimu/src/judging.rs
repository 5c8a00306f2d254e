//! What judges tokens.

use crate::{Access, Call, Claims, Error, Issuers, RemoteKeys, Validator};
use std::fmt;
use std::sync::Arc;

/// What judges tokens: a [`Validator`], [`RemoteKeys`] or [`Issuers`], or an `Arc` of one. A guard of a web service takes any. Threads share it.
pub trait Judging: fmt::Debug + Send + Sync {
    /// The claims of a token that is accepted at the clock's moment.
    ///
    /// # Errors
    /// Those of the call of the same name.
    fn validate(&self, token: &[u8]) -> Result<Claims, Error>;

    /// The claims of a token that is accepted at the clock's moment, where they meet an access rule.
    ///
    /// # Errors
    /// Those of the call of the same name.
    fn validate_for(&self, token: &[u8], access: &Access) -> Result<Claims, Error>;

    /// The claims of a token that is accepted and is as a call asks.
    ///
    /// # Errors
    /// Those of the call of the same name.
    fn validate_with(&self, token: &[u8], call: &Call<'_>) -> Result<Claims, Error>;
}

impl Judging for Validator {
    fn validate(&self, token: &[u8]) -> Result<Claims, Error> {
        Validator::validate(self, token)
    }

    fn validate_for(&self, token: &[u8], access: &Access) -> Result<Claims, Error> {
        Validator::validate_for(self, token, access)
    }

    fn validate_with(&self, token: &[u8], call: &Call<'_>) -> Result<Claims, Error> {
        Validator::validate_with(self, token, call)
    }
}

impl Judging for RemoteKeys {
    fn validate(&self, token: &[u8]) -> Result<Claims, Error> {
        RemoteKeys::validate(self, token)
    }

    fn validate_for(&self, token: &[u8], access: &Access) -> Result<Claims, Error> {
        RemoteKeys::validate_for(self, token, access)
    }

    fn validate_with(&self, token: &[u8], call: &Call<'_>) -> Result<Claims, Error> {
        RemoteKeys::validate_with(self, token, call)
    }
}

impl Judging for Issuers {
    fn validate(&self, token: &[u8]) -> Result<Claims, Error> {
        Issuers::validate(self, token)
    }

    fn validate_for(&self, token: &[u8], access: &Access) -> Result<Claims, Error> {
        Issuers::validate_for(self, token, access)
    }

    fn validate_with(&self, token: &[u8], call: &Call<'_>) -> Result<Claims, Error> {
        Issuers::validate_with(self, token, call)
    }
}

impl<J: Judging + ?Sized> Judging for Arc<J> {
    fn validate(&self, token: &[u8]) -> Result<Claims, Error> {
        (**self).validate(token)
    }

    fn validate_for(&self, token: &[u8], access: &Access) -> Result<Claims, Error> {
        (**self).validate_for(token, access)
    }

    fn validate_with(&self, token: &[u8], call: &Call<'_>) -> Result<Claims, Error> {
        (**self).validate_with(token, call)
    }
}
