//! How key sets that stand at a URL are fetched.

use crate::fetch::Fetch;
use crate::renewal::Times;
use crate::seat::Seat;
use crate::source::Source;
use crate::urls::Url;
use crate::{Error, Once, RemoteKeys};
use std::fmt;
use std::panic::{catch_unwind, AssertUnwindSafe};
use std::sync::Arc;
use std::time::Duration;

/// A policy alone is looked at over this key set.
const NO_KEYS: &[u8] = br#"{"keys":[]}"#;

/// What became of a fetch.
#[derive(Clone, Debug, PartialEq, Eq)]
#[non_exhaustive]
pub struct Fetched<'a> {
    /// The URL of the keys, without its query.
    pub url: &'a str,
    /// How many octets came.
    pub octets: usize,
    /// Why it failed; nothing where the keys are used from now on.
    pub error: Option<&'a str>,
}

/// How keys are fetched, by the rules of docs/REMOTE-KEYS.md. It is begun with a client, and ended by [`open`](Remote::open) or
/// [`discover`](Remote::discover).
pub struct Remote {
    source: Source,
    times: Times,
    remembers: (usize, usize),
    once: Option<Arc<Once>>,
    on_fetch: Box<dyn Fn(&Fetched<'_>) + Send + Sync>,
}

impl Remote {
    /// Fetches by this client, and else as [`RemoteKeys::open`] does.
    #[must_use]
    pub fn by(client: impl Fetch) -> Remote {
        Remote {
            source: Source::by(client),
            times: Times::default(),
            remembers: (0, 0),
            once: None,
            on_fetch: Box::new(|_| {}),
        }
    }

    /// The age at which keys are fetched again, in the background; 10 minutes unless it is set.
    #[must_use]
    pub fn refresh_after(mut self, age: Duration) -> Remote {
        self.times.refresh_after = age;
        self
    }

    /// The least time between two fetches, but for [`RemoteKeys::refresh`]; 30 seconds unless it is set.
    #[must_use]
    pub fn cool_down(mut self, time: Duration) -> Remote {
        self.times.cool_down = time;
        self
    }

    /// The age at which keys are too old; an hour unless it is set.
    #[must_use]
    pub fn max_age(mut self, age: Duration) -> Remote {
        self.times.max_age = age;
        self
    }

    /// The time of a whole fetch; 5 seconds unless it is set.
    #[must_use]
    pub fn timeout(mut self, time: Duration) -> Remote {
        self.source.timeout = time;
        self
    }

    /// Takes `http` URLs too. Whoever can change what comes over the network can sign tokens then.
    #[must_use]
    pub fn allow_http(mut self) -> Remote {
        self.source.allow_http = true;
        self
    }

    /// As of [`Validator::remembering`]. New keys begin a new memory.
    #[must_use]
    pub fn remembering(mut self, tokens: usize, octets: usize) -> Remote {
        self.remembers = (tokens, octets);
        self
    }

    /// As of [`Validator::taking`]. What was taken stays so under new keys.
    #[must_use]
    pub fn taking(mut self, once: Arc<Once>) -> Remote {
        self.once = Some(once);
        self
    }

    /// Calls this after each fetch of keys, in its thread, or in that of who asked where none could begin. Where it panics, nothing else changes.
    #[must_use]
    pub fn on_fetch(mut self, call: impl Fn(&Fetched<'_>) + Send + Sync + 'static) -> Remote {
        self.on_fetch = Box::new(call);
        self
    }

    /// Fetches the keys at a URL.
    ///
    /// # Errors
    /// `Url`, `PolicyByUrl`, `KeysUnavailable`, and those of [`Validator::open`] that speak of the policy, of memory or of the library.
    pub fn open(self, policy: &[u8], url: &str) -> Result<RemoteKeys, Error> {
        let documents = self.without_keys(policy, None)?;
        let url = Url::taken(url, self.source.allow_http).ok_or(Error::Url)?;
        RemoteKeys::begin(self.feed(policy, url), documents)
    }

    /// Fetches the keys of an issuer, whose URL its metadata tell (OpenID Connect Discovery 1.0, section 4; where there are none, RFC 8414, section 3). The
    /// metadata are read once, under the same rules: their `issuer` has to be that very text, and the policy's `issuers` exactly that one.
    ///
    /// # Errors
    /// As of [`open`](Remote::open).
    pub fn discover(self, policy: &[u8], issuer: &str) -> Result<RemoteKeys, Error> {
        let documents = self.without_keys(policy, Some(issuer))?;
        let url = self.source.keys_url(issuer)?;
        RemoteKeys::begin(self.feed(policy, url), documents)
    }

    /// The policy and no keys, where it is one for keys by URL, and for exactly this issuer, where there is one.
    fn without_keys(&self, policy: &[u8], issuer: Option<&str>) -> Result<Seat, Error> {
        let mut documents = Seat::open(policy, NO_KEYS)?;
        let terms = documents.terms()?;
        if terms.is_public && (issuer.is_none() || terms.issuer.as_deref() == issuer) {
            Ok(documents)
        } else {
            Err(Error::PolicyByUrl)
        }
    }

    fn feed(self, policy: &[u8], url: Url) -> Feed {
        Feed {
            policy: policy.to_owned(),
            url,
            how: self,
        }
    }
}

impl fmt::Debug for Remote {
    fn fmt(&self, f: &mut fmt::Formatter<'_>) -> fmt::Result {
        f.debug_struct("Remote")
            .field("times", &self.times)
            .field("timeout", &self.source.timeout)
            .field("allow_http", &self.source.allow_http)
            .finish_non_exhaustive()
    }
}

/// A policy, where its keys stand, and how they are fetched.
pub(crate) struct Feed {
    policy: Vec<u8>,
    url: Url,
    how: Remote,
}

impl Feed {
    pub(crate) fn times(&self) -> &Times {
        &self.how.times
    }

    pub(crate) fn timeout(&self) -> Duration {
        self.how.source.timeout
    }

    /// How many tokens of how many octets are remembered.
    pub(crate) fn remembers(&self) -> (usize, usize) {
        self.how.remembers
    }

    /// Where accepted tokens are taken.
    pub(crate) fn once(&self) -> Option<&Once> {
        self.how.once.as_deref()
    }

    /// How many octets were fetched, and what they are read as, or why that failed.
    pub(crate) fn fetch(&self) -> (usize, Result<Seat, String>) {
        match self.how.source.get(&self.url) {
            Ok(keys) => (keys.len(), self.read(&keys)),
            Err(reason) => (0, Err(reason)),
        }
    }

    /// Reads keys that were fetched, in which there may be no secret (RFC 8725, section 2.1).
    fn read(&self, keys: &[u8]) -> Result<Seat, String> {
        let opened = Seat::open(&self.policy, keys);
        let mut documents = opened.map_err(|error| error.to_string())?;
        match documents.terms() {
            Ok(terms) if terms.is_public => Ok(documents),
            Ok(_) => Err("it has a key of kty oct in it, which everyone may read".to_owned()),
            Err(error) => Err(error.to_string()),
        }
    }

    /// Tells what became of a fetch.
    pub(crate) fn tell(&self, octets: usize, error: Option<&str>) {
        let fetched = Fetched {
            url: self.url.without_query(),
            octets,
            error,
        };
        // (a panic was printed, and says nothing of a token)
        let _ = catch_unwind(AssertUnwindSafe(|| (self.how.on_fetch)(&fetched)));
    }
}

impl fmt::Debug for Feed {
    fn fmt(&self, f: &mut fmt::Formatter<'_>) -> fmt::Result {
        f.debug_struct("Feed")
            .field("url", &self.url.without_query())
            .field("how", &self.how)
            .finish_non_exhaustive()
    }
}
