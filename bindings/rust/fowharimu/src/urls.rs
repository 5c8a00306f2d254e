//! From which URLs keys and metadata are fetched, and what follows on an answer: the library decides.

use crate::texts::written;
use crate::Error;
use fowharimu_sys as sys;

/// The most octets that a URL of metadata has beside its issuer.
const MOST_BESIDE: usize = 64;

/// What is asked for.
#[derive(Clone, Copy, Debug, PartialEq, Eq)]
pub(crate) enum Asked {
    /// Keys.
    Keys = sys::FOW_ASKED_KEYS as isize,
    /// The metadata of OpenID Connect Discovery 1.0.
    OpenId = sys::FOW_ASKED_OPENID as isize,
    /// The metadata of RFC 8414.
    OAuth = sys::FOW_ASKED_OAUTH as isize,
}

/// What follows on an answer.
#[derive(Clone, Copy, Debug, PartialEq, Eq)]
pub(crate) enum Step {
    /// Nothing: its status is none that is taken.
    Fail,
    /// It is taken, where its body has no more octets than these.
    Take(usize),
    /// Its redirection is followed.
    Follow,
    /// The other metadata are asked for.
    AskOAuth,
    /// Nothing: too many redirections were followed.
    TooOften,
}

impl Step {
    /// What follows on an answer of this status, where so many redirections were followed.
    pub(crate) fn on(asked: Asked, status: u16, followed: u32) -> Step {
        let mut next = sys::fow_next::default();
        // SAFETY: the place is this function's.
        unsafe { sys::fow_next_step(asked as u32, status.into(), followed, &mut next) };
        match next.step {
            sys::FOW_STEP_TAKE => Step::Take(usize::try_from(next.most).unwrap_or(0)),
            sys::FOW_STEP_FOLLOW => Step::Follow,
            sys::FOW_STEP_ASK_OAUTH => Step::AskOAuth,
            sys::FOW_STEP_TOO_OFTEN => Step::TooOften,
            _ => Step::Fail,
        }
    }
}

/// A URL that is taken.
#[derive(Clone, Debug, PartialEq, Eq)]
pub(crate) struct Url(String);

impl Url {
    /// Reads a URL; nothing where it isn't taken.
    pub(crate) fn taken(text: &str, allow_http: bool) -> Option<Url> {
        let mut parts = sys::fow_url::default();
        let status =
            // SAFETY: the slice is as long as its length says, and isn't null; the other place is this function's.
            unsafe { sys::fow_url_of(text.as_ptr(), text.len(), allow_http, &mut parts) };
        (status == sys::FOW_OK).then(|| Url(text.to_owned()))
    }

    /// The URL that a `Location` leads to; nothing where it isn't followed.
    pub(crate) fn redirected(&self, location: &str) -> Result<Option<Url>, Error> {
        let url = &self.0;
        // SAFETY: the slices are as long as their lengths say, and aren't null.
        let to = written(url.len() + location.len() + 1, |out, room, len| unsafe {
            none_where_refused(sys::fow_redirected(
                url.as_ptr(),
                url.len(),
                location.as_ptr(),
                location.len(),
                out,
                room,
                len,
            ))
        })?;
        Ok(to.map(Url))
    }

    /// The URL of the metadata of an issuer; nothing where it can have none.
    pub(crate) fn metadata(asked: Asked, issuer: &str) -> Result<Option<Url>, Error> {
        // SAFETY: as above.
        let url = written(issuer.len() + MOST_BESIDE, |out, room, len| unsafe {
            none_where_refused(sys::fow_metadata_url(
                asked as u32,
                issuer.as_ptr(),
                issuer.len(),
                out,
                room,
                len,
            ))
        })?;
        Ok(url.map(Url))
    }

    pub(crate) fn text(&self) -> &str {
        &self.0
    }

    /// The URL without its query, in which a service may have a secret.
    pub(crate) fn without_query(&self) -> &str {
        self.0.split('?').next().unwrap_or_default()
    }
}

/// The URL of an issuer's keys, as its metadata tell it; nothing where they are of another issuer, or tell none.
pub(crate) fn keys_url(metadata: &[u8], issuer: &str) -> Result<Option<String>, Error> {
    // SAFETY: the slices are as long as their lengths say, and aren't null.
    written(metadata.len() + 1, |out, room, len| unsafe {
        none_where_refused(sys::fow_keys_url(
            metadata.as_ptr(),
            metadata.len(),
            issuer.as_ptr(),
            issuer.len(),
            out,
            room,
            len,
        ))
    })
}

/// What is refused is none.
fn none_where_refused(status: u32) -> u32 {
    if status == sys::FOW_REFUSED {
        sys::FOW_ABSENT
    } else {
        status
    }
}
