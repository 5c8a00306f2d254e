//! Lets HTTP requests through where their token is accepted (RFC 6750), and whoever sends it holds its key (RFC 9449), as those of hyper: whatever has an
//! `http::Request`.
//!
//! ```no_run
//! # fn serve(request: &mut http::Request<()>) -> Result<(), Box<dyn std::error::Error>> {
//! use fowharimu_http::Guard;
//!
//! let validator = fowharimu::Validator::open(&std::fs::read("policy.json")?, &std::fs::read("keys.json")?)?;
//! let guard = Guard::new(validator);
//! if let Err(refusal) = guard.admit(request) {
//!     let answer: http::Response<String> = refusal.response();
//! }
//! let claims = request.extensions().get::<fowharimu::Claims>();
//! # Ok(())
//! # }
//! ```

use fowharimu::request::{is_quotable, reply_to, token_in, Outcome, Quoted, Scheme, Schemes};
use fowharimu::{Access, Call, Claims, Error, Judging, Nonces, Proof, Proofs};
use http::header::{AUTHORIZATION, CACHE_CONTROL, WWW_AUTHENTICATE};
use http::{HeaderMap, HeaderValue, Request, Response, StatusCode};
use std::sync::Arc;

/// The header with a proof of possession, and that with the nonce for the next one (RFC 9449, sections 4 and 8).
const DPOP: &str = "dpop";
const DPOP_NONCE: &str = "dpop-nonce";

/// What judges tokens, and an access rule where there is one, that requests are held against. Threads share it.
#[derive(Debug)]
pub struct Guard {
    judging: Box<dyn Judging>,
    access: Option<Arc<Access>>,
    realm: String,
    hides_token: bool,
    dpop: Option<Dpop>,
}

/// How a guard takes tokens that are bound to a key, with a proof in each request (DPoP, RFC 9449).
#[derive(Debug)]
pub struct Dpop {
    proofs: Arc<Proofs>,
    origin: String,
    algs: String,
    schemes: Schemes,
    nonces: Option<Nonces>,
}

/// Why a request isn't let through: what it is answered with, and the error of the token, where it has one.
#[derive(Clone, Debug, PartialEq, Eq)]
pub struct Refusal {
    /// 400, 401 or 403; 429 where the owner of what counts once has used up its share; 500 where nothing is said of the token, and 503 where the keys are too old or there is no room
    /// for what counts once.
    pub status: StatusCode,
    /// The values of `WWW-Authenticate`, one for each scheme (RFC 6750, section 3; RFC 9449, section 7.1); none beside 500 and 503.
    pub challenges: Vec<String>,
    /// The value of `DPoP-Nonce`, where the next proof has to have it.
    pub nonce: Option<String>,
    /// What the validator said of the token; none where it wasn't asked.
    pub error: Option<Error>,
}

impl Guard {
    /// A guard that asks for an accepted token, in the realm `jwt`. Several guards may have one validator, as an `Arc`.
    pub fn new(judging: impl Judging + 'static) -> Guard {
        Guard {
            judging: Box::new(judging),
            access: None,
            realm: "jwt".to_owned(),
            hides_token: false,
            dpop: None,
        }
    }

    /// Takes tokens of the scheme DPoP too, or alone, with proofs.
    pub fn dpop(self, dpop: Dpop) -> Guard {
        Guard {
            dpop: Some(dpop),
            ..self
        }
    }

    /// Has the claims meet an access rule too; where they don't, the answer is 403.
    pub fn access(self, rule: impl Into<Arc<Access>>) -> Guard {
        Guard {
            access: Some(rule.into()),
            ..self
        }
    }

    /// Another realm for a request without a token to be told.
    ///
    /// # Panics
    /// Where a quoted string can't have it: it has other characters than the printable ones of ASCII, a quotation mark or a backslash.
    pub fn realm(self, realm: &str) -> Guard {
        assert!(
            is_quotable(realm),
            "a realm has printable characters of ASCII, and neither quotation marks nor backslashes"
        );
        Guard {
            realm: realm.to_owned(),
            ..self
        }
    }

    /// Has `admit` take `Authorization` and `DPoP` from the requests that it lets through.
    pub fn hide_token(self) -> Guard {
        Guard {
            hides_token: true,
            ..self
        }
    }

    /// Puts the claims of a request whose token is accepted now among its extensions, as `fowharimu::Claims`.
    ///
    /// # Errors
    /// The request isn't to be let through, and is answered by the refusal's response.
    pub fn admit<B>(&self, request: &mut Request<B>) -> Result<(), Refusal> {
        let claims = self.claims(request)?;
        request.extensions_mut().insert(claims);
        if self.hides_token {
            request.headers_mut().remove(AUTHORIZATION);
            request.headers_mut().remove(DPOP);
        }
        Ok(())
    }

    /// The claims of a request.
    fn claims<B>(&self, request: &Request<B>) -> Result<Claims, Refusal> {
        let (scheme, token) = self.token(request.headers())?;
        let call = match &self.access {
            Some(rule) => Call::new().access(rule),
            None => Call::new(),
        };
        let said = match &self.dpop {
            Some(dpop) if scheme == Scheme::Dpop => {
                let value = one_proof(request.headers())
                    .ok_or_else(|| self.told(scheme, Outcome::ProofRefused, None))?;
                let uri = dpop.uri(request.uri().path());
                let proof = Proof::new(&dpop.proofs, value, request.method().as_str(), &uri);
                let proof = match &dpop.nonces {
                    Some(nonces) => proof.nonces(nonces),
                    None => proof,
                };
                self.judging.validate_with(token, &call.proof(proof))
            }
            // (else whoever stole it could use it: RFC 9449, section 7.2)
            _ => self.judging.validate_with(token, &call.unbound()),
        };
        said.map_err(|error| self.refusal(scheme, error))
    }

    fn schemes(&self) -> Schemes {
        self.dpop.as_ref().map_or(Schemes::Bearer, |it| it.schemes)
    }

    /// The token of the one header, with its scheme.
    fn token<'h>(&self, headers: &'h HeaderMap) -> Result<(Scheme, &'h [u8]), Refusal> {
        let mut values = headers.get_all(AUTHORIZATION).iter();
        let value = values.next().map_or(&b""[..], HeaderValue::as_bytes);
        if values.next().is_some() {
            return Err(self.told(Scheme::None, Outcome::Several, None));
        }
        token_in(self.schemes(), value)
            .map_err(|(scheme, outcome)| self.told(scheme, outcome, None))
    }

    fn refusal(&self, scheme: Scheme, error: Error) -> Refusal {
        let outcome = match &error {
            Error::Denied { fault, .. } if *fault == "ScopeMissing" => Outcome::ScopeMissing,
            Error::Denied { .. } => Outcome::NotGranted,
            Error::KeysTooOld => Outcome::KeysTooOld,
            Error::NotHeld { outcome, .. } | Error::NotTaken { outcome, .. } => *outcome,
            Error::TooLong
            | Error::Form { .. }
            | Error::Ceiling { .. }
            | Error::Signature { .. }
            | Error::Claims { .. } => Outcome::NotAccepted,
            _ => Outcome::Unanswered,
        };
        self.told(scheme, outcome, Some(error))
    }

    /// What a request is answered of which this is known.
    fn told(&self, scheme: Scheme, outcome: Outcome, error: Option<Error>) -> Refusal {
        let scopes = self.access.as_ref().map(|rule| rule.scopes().join(" "));
        let quoted = Quoted {
            realm: &self.realm,
            scopes: &scopes.unwrap_or_default(),
            algs: self.dpop.as_ref().map_or("", |it| &it.algs),
        };
        let reply = reply_to(self.schemes(), scheme, outcome, quoted);
        let nonces = self.dpop.as_ref().and_then(|it| it.nonces.as_ref());
        Refusal {
            status: StatusCode::from_u16(reply.status).unwrap_or(StatusCode::INTERNAL_SERVER_ERROR),
            challenges: reply.challenges,
            nonce: nonces.filter(|_| reply.wants_nonce).map(Nonces::now),
            error,
        }
    }
}

/// The value of the one header `DPoP`.
fn one_proof(headers: &HeaderMap) -> Option<&[u8]> {
    let mut values = headers.get_all(DPOP).iter();
    let value = values.next()?;
    values.next().is_none().then(|| value.as_bytes())
}

impl Dpop {
    /// Takes proofs under this policy, beside bearers. `origin` is the scheme and the host that clients see, as `https://api.example`, with no path: nothing of a request is taken for
    /// it, `Host` and `X-Forwarded-Host` neither. The path is that of the request's URI: what cuts or rewrites it, as a nested router may, stands behind the guard.
    ///
    /// # Errors
    /// `OutOfMemory`.
    ///
    /// # Panics
    /// Where the origin isn't a scheme and a host.
    pub fn new(proofs: impl Into<Arc<Proofs>>, origin: &str) -> Result<Dpop, Error> {
        assert!(
            is_origin(origin),
            "an origin is a scheme and a host, as https://api.example, and has no path"
        );
        let proofs = proofs.into();
        Ok(Dpop {
            origin: origin.to_owned(),
            algs: proofs.algs()?,
            schemes: Schemes::Both,
            nonces: None,
            proofs,
        })
    }

    /// What a client sees of a path. One that isn't there, or is `*`, would go on with the host's name.
    fn uri(&self, path: &str) -> String {
        let slash = if path.starts_with('/') { "" } else { "/" };
        format!("{}{slash}{path}", self.origin)
    }

    /// Takes no bearer's token.
    #[must_use]
    pub fn only(self) -> Dpop {
        Dpop {
            schemes: Schemes::Dpop,
            ..self
        }
    }

    /// Has each proof have one of these nonces: a client that has none is told, by 401 with `DPoP-Nonce`.
    #[must_use]
    pub fn nonces(self, nonces: Nonces) -> Dpop {
        Dpop {
            nonces: Some(nonces),
            ..self
        }
    }
}

/// Whether a text is a scheme and a host, with a port or without.
fn is_origin(text: &str) -> bool {
    let (scheme, host) = text.split_once("://").unwrap_or_default();
    let is_of_host = |it: char| it.is_ascii_alphanumeric() || "._~!$&'()*+,;=:[]%-".contains(it);
    ["http", "https"]
        .iter()
        .any(|it| it.eq_ignore_ascii_case(scheme))
        && !host.is_empty()
        && host.chars().all(is_of_host)
}

impl Refusal {
    /// The answer, with an empty body.
    pub fn response<B: Default>(&self) -> Response<B> {
        let mut response = Response::new(B::default());
        *response.status_mut() = self.status;
        let headers = response.headers_mut();
        for value in self
            .challenges
            .iter()
            .flat_map(|it| HeaderValue::from_str(it))
        {
            headers.append(WWW_AUTHENTICATE, value);
        }
        if let Some(Ok(value)) = self.nonce.as_deref().map(HeaderValue::from_str) {
            headers.insert(DPOP_NONCE, value);
            headers.insert(CACHE_CONTROL, HeaderValue::from_static("no-store"));
        }
        response
    }
}

#[cfg(test)]
mod tests {
    use super::*;
    use fowharimu::Once;
    use std::num::NonZeroUsize;

    const PROOFS: &[u8] = br#"{"version":2,"algs":["ES256"],"typ":"dpop+jwt","required":["jti","htm","htu","iat"],"max_age":60,"max_signatures":1,"max_calls":1}"#;

    #[test]
    fn a_path_stands_behind_the_origin() {
        let once = Once::open_with(NonZeroUsize::MIN, None, 0).unwrap();
        let proofs = Proofs::open(PROOFS, Arc::new(once)).unwrap();
        let dpop = Dpop::new(proofs, "https://api.example").unwrap();
        for (target, path) in [
            ("/a%2Fb?c", "/a%2Fb"),
            ("//evil.example/a", "//evil.example/a"),
            ("http://evil.example/a", "/a"),
            ("http://evil.example", "/"),
            ("evil.example:443", "/"),
            ("*", "/*"),
            ("/a#b", "/a"),
        ] {
            let uri: http::Uri = target.parse().unwrap();
            assert_eq!(dpop.uri(uri.path()), format!("https://api.example{path}"));
        }
    }
}
