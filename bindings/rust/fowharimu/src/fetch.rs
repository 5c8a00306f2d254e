//! The client of HTTP that a service fetches keys by.

use crate::urls::{Asked, Step};
use std::error::Error;
use std::io::{self, Read};
use std::time::{Duration, Instant};

/// A client of HTTP, which sends one request when it is asked. A closure is one, too.
///
/// What [`RemoteKeys`](crate::RemoteKeys) decides isn't its matter: which URLs are taken, where a redirection may lead, which status and how many octets
/// are taken. It is the client's matter that the server's certificate is checked, over TLS 1.2 at least, that no proxy is used because an environment says
/// so, that no redirection is followed, and that the whole call ends within the request's `timeout`. What it gives later is dropped, and no token waits
/// for it; but until it ends it holds a thread, and `discover` waits for metadata to the end. It may be called by several threads at once.
///
/// With the crate `ureq`:
///
/// ```ignore
/// struct Client(ureq::Agent);
///
/// impl Fetch for Client {
///     fn fetch(&self, get: &Get) -> Result<Answer, Box<dyn Error + Send + Sync>> {
///         let asked = self.0.get(get.url()).set("Accept", Get::ACCEPT).timeout(get.timeout());
///         let answer = match asked.call() {
///             Ok(answer) | Err(ureq::Error::Status(_, answer)) => answer,
///             Err(error) => return Err(error.into()),
///         };
///         let location = answer.header("Location").map(str::to_owned);
///         Ok(get.answer(answer.status(), location, answer.into_reader())?)
///     }
/// }
///
/// let client = Client(ureq::AgentBuilder::new().redirects(0).build());
/// ```
pub trait Fetch: Send + Sync + 'static {
    /// Sends GET to a URL, and gives what is answered.
    ///
    /// # Errors
    /// Whatever it failed by. Its text is shown to whoever runs the service.
    fn fetch(&self, get: &Get<'_>) -> Result<Answer, Box<dyn Error + Send + Sync>>;
}

impl<F> Fetch for F
where
    F: Fn(&Get<'_>) -> Result<Answer, Box<dyn Error + Send + Sync>> + Send + Sync + 'static,
{
    fn fetch(&self, get: &Get<'_>) -> Result<Answer, Box<dyn Error + Send + Sync>> {
        self(get)
    }
}

/// A request of HTTP.
#[derive(Clone, Copy, Debug)]
pub struct Get<'a> {
    url: &'a str,
    /// What is asked for, and how many redirections were followed.
    asked: (Asked, u32),
    begun: Instant,
    whole: Duration,
}

impl<'a> Get<'a> {
    /// What the header `Accept` may be. No answer is refused for the kind of its content.
    pub const ACCEPT: &'static str = "application/jwk-set+json, application/json";

    pub(crate) fn new(
        url: &'a str,
        asked: (Asked, u32),
        begun: Instant,
        whole: Duration,
    ) -> Get<'a> {
        Get {
            url,
            asked,
            begun,
            whole,
        }
    }

    /// The URL: an `https` one, or an `http` one where that is allowed. It has no fragment.
    #[must_use]
    pub fn url(&self) -> &'a str {
        self.url
    }

    /// The time that is left, until the last octet of the body.
    #[must_use]
    pub fn timeout(&self) -> Duration {
        self.whole.saturating_sub(self.begun.elapsed())
    }

    /// What is answered by a status, the value of `Location`, where there is one, and a body. Where it is taken that is read, to its end, or to one octet
    /// more than are taken.
    ///
    /// # Errors
    /// Those of the reader, and `TimedOut` where an octet comes too late.
    pub fn answer(
        &self,
        status: u16,
        location: Option<String>,
        body: impl Read,
    ) -> io::Result<Answer> {
        let (asked, followed) = self.asked;
        let body = match Step::on(asked, status, followed) {
            Step::Take(most) => self.read(body, most)?,
            _ => Vec::new(),
        };
        Ok(Answer {
            status,
            location,
            body,
        })
    }

    fn read(&self, mut body: impl Read, most: usize) -> io::Result<Vec<u8>> {
        let (mut octets, mut part) = (Vec::new(), [0; 16_384]);
        while octets.len() <= most {
            let count = match body.read(&mut part) {
                Ok(0) => break,
                Ok(count) => count,
                Err(error) if error.kind() == io::ErrorKind::Interrupted => continue,
                Err(error) => return Err(error),
            };
            if self.timeout() == Duration::ZERO {
                return Err(io::Error::new(io::ErrorKind::TimedOut, TOO_SLOW));
            }
            octets.extend_from_slice(&part[..count]);
        }
        octets.truncate(most + 1);
        Ok(octets)
    }
}

/// Why a fetch failed that took longer than its timeout.
pub(crate) const TOO_SLOW: &str = "it takes too long";

/// What a server answers.
#[derive(Clone, Debug, Default, PartialEq, Eq)]
pub struct Answer {
    /// The status.
    pub status: u16,
    /// The value of the header `Location`, where there is one and it is a text.
    pub location: Option<String>,
    /// The body. It is looked at where the status is 200.
    pub body: Vec<u8>,
}
