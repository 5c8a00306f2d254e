//! Several issuers, each with a policy and keys of its own.

use crate::seat::Named;
use crate::{clock, Access, Call, Claims, Error, RemoteKeys, Validator};
use std::collections::BTreeMap;

/// What judges the tokens of an issuer: a [`Validator`] or [`RemoteKeys`], from which it is made by `into`.
#[derive(Debug)]
pub struct Judge(Kind);

#[derive(Debug)]
enum Kind {
    Validator(Box<Validator>),
    RemoteKeys(RemoteKeys),
}

impl From<Validator> for Judge {
    fn from(validator: Validator) -> Judge {
        Judge(Kind::Validator(Box::new(validator)))
    }
}

impl From<RemoteKeys> for Judge {
    fn from(keys: RemoteKeys) -> Judge {
        Judge(Kind::RemoteKeys(keys))
    }
}

impl Judge {
    fn issuer(&self) -> Option<&str> {
        match &self.0 {
            Kind::Validator(it) => it.issuer(),
            Kind::RemoteKeys(it) => it.issuer(),
        }
    }

    fn limit(&self) -> u32 {
        match &self.0 {
            Kind::Validator(it) => it.limit(),
            Kind::RemoteKeys(it) => it.limit(),
        }
    }

    fn named(&self, token: &[u8]) -> Result<Named, Error> {
        match &self.0 {
            Kind::Validator(it) => it.named(token),
            Kind::RemoteKeys(it) => it.named(token),
        }
    }

    fn claims(&self, token: &[u8], call: &Call<'_>) -> Result<Claims, Error> {
        match &self.0 {
            Kind::Validator(it) => it.validate_with(token, call),
            Kind::RemoteKeys(it) => it.validate_with(token, call),
        }
    }
}

/// A map from issuers to what judges their tokens. A token is judged by what stands under the issuer that it names, which nobody has verified by then: so each has a
/// policy whose `issuers` is exactly the one under which it stands, and checks it again.
///
/// A token that names no issuer, or one that isn't here, is refused as `Issuer`. What is no token under the policy with the least `limit` is refused
/// as that one refuses it; of those with the same limit the first issuer in ascending byte order counts. Threads share it.
#[derive(Debug)]
pub struct Issuers {
    judges: BTreeMap<String, Judge>,
    /// The issuer whose policy says what is a token.
    reader: String,
}

impl Issuers {
    /// Takes validators, or keys by URL, each under its issuer. Of two under the same one the last stays. Where there are some of both, each is made a
    /// [`Judge`] by `into`.
    ///
    /// # Errors
    /// `Issuers`.
    pub fn new<J: Into<Judge>>(
        judges: impl IntoIterator<Item = (String, J)>,
    ) -> Result<Issuers, Error> {
        let judges: BTreeMap<String, Judge> = judges
            .into_iter()
            .map(|(issuer, it)| (issuer, it.into()))
            .collect();
        if !judges
            .iter()
            .all(|(issuer, it)| it.issuer() == Some(issuer))
        {
            return Err(Error::Issuers);
        }
        // (in ascending order of the issuers, of which the first with the least limit is taken)
        let least = judges.iter().min_by_key(|(_, it)| it.limit());
        let reader = least.ok_or(Error::Issuers)?.0.clone();
        Ok(Issuers { judges, reader })
    }

    /// The claims of a token that is accepted at the clock's moment.
    ///
    /// # Errors
    /// `Claims` with the fault `Issuer` where nothing stands under its issuer, and those of [`RemoteKeys::validate`].
    pub fn validate(&self, token: &[u8]) -> Result<Claims, Error> {
        self.validate_at(token, clock())
    }

    /// The same at a moment, in seconds since 1970-01-01T00:00:00Z.
    ///
    /// # Errors
    /// As of [`validate`](Issuers::validate).
    pub fn validate_at(&self, token: &[u8], now: i64) -> Result<Claims, Error> {
        self.validate_with(token, &Call::new().at(now))
    }

    /// The claims of a token that is accepted at the clock's moment, where they meet an access rule.
    ///
    /// # Errors
    /// `Denied` where they don't, and those of [`validate`](Issuers::validate).
    pub fn validate_for(&self, token: &[u8], access: &Access) -> Result<Claims, Error> {
        self.validate_for_at(token, clock(), access)
    }

    /// The same at a moment, in seconds since 1970-01-01T00:00:00Z.
    ///
    /// # Errors
    /// As of [`validate_for`](Issuers::validate_for).
    pub fn validate_for_at(
        &self,
        token: &[u8],
        now: i64,
        access: &Access,
    ) -> Result<Claims, Error> {
        self.validate_with(token, &Call::new().at(now).access(access))
    }

    /// The claims of a token that is accepted, where they are as this call asks.
    ///
    /// # Errors
    /// `Denied`, `NotExpected` and `NotHeld` where they aren't, and those of [`validate`](Issuers::validate); `NotTaken` also where a proof was taken before.
    pub fn validate_with(&self, token: &[u8], call: &Call<'_>) -> Result<Claims, Error> {
        self.chosen(token)?.claims(token, call)
    }

    /// What judges a token: the reader, where it is none, and else what stands under the issuer that it names.
    fn chosen(&self, token: &[u8]) -> Result<&Judge, Error> {
        let reader = &self.judges[&self.reader];
        let found = match reader.named(token)? {
            Named::NoToken => Some(reader),
            Named::Nobody => None,
            Named::Issuer(issuer) => self.judges.get(&issuer),
        };
        found.ok_or_else(|| Error::Claims {
            fault: "Issuer".to_owned(),
            claim: None,
        })
    }
}
