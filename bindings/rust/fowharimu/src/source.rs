//! What is fetched of an issuer: its keys, and its metadata, which tell where they stand.

use crate::fetch::{Answer, Fetch, Get, TOO_SLOW};
use crate::urls::{keys_url, Asked, Step, Url};
use crate::Error;
use std::panic::{catch_unwind, AssertUnwindSafe};
use std::time::{Duration, Instant};

/// A client, and what it is asked within.
pub(crate) struct Source {
    client: Box<dyn Fetch>,
    pub(crate) allow_http: bool,
    /// The time of a whole fetch.
    pub(crate) timeout: Duration,
}

impl Source {
    pub(crate) fn by(client: impl Fetch) -> Source {
        Source {
            client: Box::new(client),
            allow_http: false,
            timeout: Duration::from_secs(5),
        }
    }

    /// What stands at a URL; or why it isn't had.
    pub(crate) fn get(&self, url: &Url) -> Result<Vec<u8>, String> {
        let body = self.body(Asked::Keys, url, Instant::now())?;
        body.ok_or_else(|| "its status is 404".to_owned())
    }

    /// The URL of an issuer's keys, which its metadata tell.
    ///
    /// # Errors
    /// `Url` where the issuer is none that has metadata, and `KeysUnavailable`.
    pub(crate) fn keys_url(&self, issuer: &str) -> Result<Url, Error> {
        Url::taken(issuer, self.allow_http).ok_or(Error::Url)?;
        let begun = Instant::now();
        for asked in [Asked::OpenId, Asked::OAuth] {
            let at = Url::metadata(asked, issuer)?.ok_or(Error::Url)?;
            if let Some(metadata) = self.body(asked, &at, begun).map_err(unavailable)? {
                let url = keys_url(&metadata, issuer)?;
                let url = url.and_then(|it| Url::taken(&it, self.allow_http));
                return url.ok_or_else(|| {
                    unavailable(
                        "the metadata are of another issuer, or have no jwks_uri that is taken",
                    )
                });
            }
        }
        Err(unavailable("there are no metadata"))
    }

    /// What stands at a URL, with redirections followed; nothing where the other metadata are to be asked for.
    fn body(&self, asked: Asked, url: &Url, begun: Instant) -> Result<Option<Vec<u8>>, String> {
        let (mut at, mut followed) = (url.clone(), 0);
        loop {
            let answer = self.answer(asked, &at, followed, begun)?;
            match Step::on(asked, answer.status, followed) {
                Step::Take(most) if answer.body.len() > most => {
                    return Err(format!("it has more than {most} octets"));
                }
                Step::Take(_) => return Ok(Some(answer.body)),
                Step::Follow => at = redirected(&at, answer.location)?,
                Step::AskOAuth => return Ok(None),
                Step::TooOften => return Err("it redirects too often".to_owned()),
                Step::Fail => return Err(format!("its status is {}", answer.status)),
            }
            followed += 1;
        }
    }

    /// What the client says of one request. A panic of it is a failure as others are.
    fn answer(
        &self,
        asked: Asked,
        url: &Url,
        followed: u32,
        begun: Instant,
    ) -> Result<Answer, String> {
        let get = Get::new(url.text(), (asked, followed), begun, self.timeout);
        if get.timeout() == Duration::ZERO {
            return Err(TOO_SLOW.to_owned());
        }
        match catch_unwind(AssertUnwindSafe(|| self.client.fetch(&get))) {
            Ok(Ok(answer)) => Ok(answer),
            Ok(Err(error)) => Err(shown(&error.to_string(), url)),
            Err(_) => Err("its client panicked".to_owned()),
        }
    }
}

/// The URL that a redirection leads to.
fn redirected(from: &Url, location: Option<String>) -> Result<Url, String> {
    let to = from.redirected(&location.unwrap_or_default());
    let to = to.map_err(|error| error.to_string())?;
    to.ok_or_else(|| "it redirects to another origin, or to no URL".to_owned())
}

/// The error of keys that can't be had, for this reason.
pub(crate) fn unavailable(reason: impl Into<String>) -> Error {
    Error::KeysUnavailable {
        reason: reason.into(),
    }
}

/// What a client says, in one line, and without the query of the URL. (A server may have written a part of it.)
fn shown(text: &str, url: &Url) -> String {
    let text = text.replace(url.text(), url.without_query());
    let words = text.split(|it: char| it.is_whitespace() || it.is_control());
    words
        .filter(|it| !it.is_empty())
        .collect::<Vec<_>>()
        .join(" ")
}
