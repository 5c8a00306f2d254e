//! Keys by URL, from a client that answers as a case wants it: tests/remote has an issuer that is one, over TLS.

use fowharimu::{Access, Answer, Error, Get, Remote, RemoteKeys};
use std::collections::HashMap;
use std::io::{self, Read};
use std::sync::atomic::{AtomicUsize, Ordering};
use std::sync::mpsc::channel;
use std::sync::{Arc, Mutex};
use std::thread;
use std::time::{Duration, Instant};

const NOW: i64 = 1_300_819_379;
const URL: &str = "https://issuer.example/keys?secret";
const POLICY: &[u8] = br#"{"version":2,"algs":["RS256","ES256"],"issuers":["joe"],"required":["exp"],"max_calls":64}"#;
const RS: &str = include_str!("../../../../tests/tokens/RS256.keys");
const ES: &str = include_str!("../../../../tests/tokens/ES256.keys");
const RS_TOKEN: &[u8] = include_bytes!("../../../../tests/tokens/RS256.jwt");
const ES_TOKEN: &[u8] = include_bytes!("../../../../tests/tokens/ES256.jwt");
const SECRET: &str =
    r#"{"keys":[{"kty":"oct","k":"AAAAAAAAAAAAAAAAAAAAAAAAAAAAAAAAAAAAAAAAAAA"}]}"#;

/// What stands at each URL, and how many were asked for.
#[derive(Default)]
struct Places {
    answers: HashMap<String, Answer>,
    fetches: usize,
}

#[derive(Clone, Default)]
struct Issuer(Arc<Mutex<Places>>);

impl Issuer {
    fn with(url: &str, body: &str) -> Issuer {
        let issuer = Issuer::default();
        issuer.put(url, 200, body);
        issuer
    }

    fn put(&self, url: &str, status: u16, body: &str) {
        let answer = Answer {
            status,
            body: body.as_bytes().to_owned(),
            ..Answer::default()
        };
        self.0
            .lock()
            .unwrap()
            .answers
            .insert(url.to_owned(), answer);
    }

    fn redirect(&self, url: &str, location: &str) {
        let answer = Answer {
            status: 302,
            location: Some(location.to_owned()),
            ..Answer::default()
        };
        self.0
            .lock()
            .unwrap()
            .answers
            .insert(url.to_owned(), answer);
    }

    fn fetches(&self) -> usize {
        self.0.lock().unwrap().fetches
    }

    /// How keys are fetched of it, whenever a token asks.
    fn remote(&self) -> Remote {
        let issuer = self.clone();
        let client = move |get: &Get<'_>| {
            let mut held = issuer.0.lock().unwrap();
            held.fetches += 1;
            held.answers
                .get(get.url())
                .cloned()
                .ok_or_else(|| "it isn't there".into())
        };
        Remote::by(client).cool_down(Duration::ZERO)
    }
}

fn is_refused(said: Result<fowharimu::Claims, Error>, name: &str) -> bool {
    matches!(said, Err(Error::Signature { fault, .. }) if fault == name)
}

#[test]
fn a_new_key_is_fetched() {
    let issuer = Issuer::with(URL, RS);
    let keys = issuer.remote().open(POLICY, URL).unwrap();
    assert!(keys
        .validate_at(RS_TOKEN, NOW)
        .unwrap()
        .json()
        .contains("joe"));
    assert_eq!((keys.issuer(), keys.limit()), (Some("joe"), 8_192));
    assert_eq!(
        keys.unverified_issuer(RS_TOKEN).unwrap().as_deref(),
        Some("joe")
    );
    assert_eq!(issuer.fetches(), 1);
    issuer.put(URL, 200, ES);
    assert!(keys.validate_at(ES_TOKEN, NOW).is_ok());
    assert_eq!(issuer.fetches(), 2);
    assert!(is_refused(keys.validate_at(RS_TOKEN, NOW), "NoKey"));
    let access = Access::open(br#"{"scopes":["read"]}"#).unwrap();
    let denied = keys.validate_for_at(ES_TOKEN, NOW, &access);
    assert!(matches!(denied, Err(Error::Denied { .. })));
    assert!(matches!(keys.validate(ES_TOKEN), Err(Error::Claims { .. })));
}

#[test]
fn within_the_cool_down_nothing_is_fetched_but_by_the_owner() {
    let issuer = Issuer::with(URL, RS);
    let remote = issuer.remote().cool_down(Duration::from_secs(600));
    let keys = remote.open(POLICY, URL).unwrap();
    issuer.put(URL, 200, ES);
    assert!(is_refused(keys.validate_at(ES_TOKEN, NOW), "NoKey"));
    assert_eq!(issuer.fetches(), 1);
    assert_eq!(keys.refresh(), Ok(()));
    assert!(keys.validate_at(ES_TOKEN, NOW).is_ok());
    assert_eq!(issuer.fetches(), 2);
}

#[test]
fn keys_that_cannot_be_fetched_leave_the_old_ones() {
    let issuer = Issuer::with(URL, RS);
    let keys = issuer.remote().open(POLICY, URL).unwrap();
    let long = " ".repeat(4_194_305);
    for (status, body, reason) in [
        (500, ES, "its status is 500"),
        (404, ES, "its status is 404"),
        (201, ES, "its status is 201"),
        (302, ES, "it redirects to another origin, or to no URL"),
        (200, long.as_str(), "it has more than 4194304 octets"),
        (200, "{}", "the key set is refused: NotKeySet"),
        (
            200,
            SECRET,
            "it has a key of kty oct in it, which everyone may read",
        ),
    ] {
        issuer.put(URL, status, body);
        let reason = reason.to_owned();
        assert_eq!(keys.refresh(), Err(Error::KeysUnavailable { reason }));
        assert!(is_refused(keys.validate_at(ES_TOKEN, NOW), "NoKey"));
        assert!(keys.validate_at(RS_TOKEN, NOW).is_ok());
    }
}

#[test]
fn keys_grow_too_old() {
    let issuer = Issuer::with(URL, RS);
    let remote = issuer.remote().max_age(Duration::from_secs(1));
    let keys = remote.open(POLICY, URL).unwrap();
    issuer.put(URL, 500, "");
    thread::sleep(Duration::from_millis(1_050));
    assert_eq!(keys.validate_at(RS_TOKEN, NOW), Err(Error::KeysTooOld));
    issuer.put(URL, 200, RS);
    assert!(keys.validate_at(RS_TOKEN, NOW).is_ok());
}

#[test]
fn old_keys_are_fetched_again_in_the_background() {
    let issuer = Issuer::with(URL, RS);
    let (tells, told) = channel();
    let tells = Mutex::new(tells);
    let remote = issuer.remote().refresh_after(Duration::from_millis(300));
    let remote = remote.on_fetch(move |it| {
        tells.lock().unwrap().send(format!("{it:?}")).unwrap();
    });
    let keys = remote.open(POLICY, URL).unwrap();
    issuer.put(URL, 200, ES);
    thread::sleep(Duration::from_millis(350));
    assert!(keys.validate_at(RS_TOKEN, NOW).is_ok());
    for octets in [RS.len(), ES.len()] {
        let fetched = told.recv_timeout(Duration::from_secs(10)).unwrap();
        let wanted = format!(
            "Fetched {{ url: \"https://issuer.example/keys\", octets: {octets}, error: None }}"
        );
        assert_eq!(fetched, wanted);
    }
    assert!(keys.validate_at(ES_TOKEN, NOW).is_ok());
}

#[test]
fn what_is_fetched_is_public() {
    let issuer = Issuer::with(URL, SECRET);
    let hmac = br#"{"algs":["RS256","HS256"]}"#;
    assert_eq!(
        issuer.remote().open(hmac, URL).unwrap_err(),
        Error::PolicyByUrl
    );
    let refused = issuer.remote().open(br#"{"algs":[]}"#, URL).unwrap_err();
    assert!(matches!(refused, Error::Policy { .. }));
    assert_eq!(issuer.fetches(), 0);
    let refused = issuer.remote().open(POLICY, URL).unwrap_err();
    assert!(matches!(refused, Error::KeysUnavailable { .. }));
}

#[test]
fn from_where_keys_are_fetched() {
    let issuer = Issuer::with("http://issuer.example/keys", RS);
    for url in [
        "http://issuer.example/keys",
        "https://a@issuer.example/keys",
        "keys",
        "https://",
    ] {
        assert_eq!(
            issuer.remote().open(POLICY, url).unwrap_err(),
            Error::Url,
            "{url}"
        );
    }
    let remote = issuer.remote().allow_http();
    assert!(remote.open(POLICY, "http://issuer.example/keys").is_ok());
    issuer.redirect(URL, "http://issuer.example/keys");
    let refused = issuer.remote().allow_http().open(POLICY, URL).unwrap_err();
    assert!(refused
        .to_string()
        .ends_with("it redirects to another origin, or to no URL"));
    for hops in [5, 6] {
        for it in 0..hops {
            issuer.redirect(
                &format!("https://issuer.example/{it}"),
                &format!("{}", it + 1),
            );
        }
        issuer.put(&format!("https://issuer.example/{hops}"), 200, RS);
        let opened = issuer.remote().open(POLICY, "https://issuer.example/0");
        assert_eq!(opened.is_ok(), hops == 5);
    }
}

#[test]
fn by_the_issuer() {
    let name = "https://issuer.example/realm";
    let policy = format!(r#"{{"algs":["RS256"],"issuers":["{name}"]}}"#);
    let places = [
        "https://issuer.example/realm/.well-known/openid-configuration",
        "https://issuer.example/.well-known/oauth-authorization-server/realm",
    ];
    for place in places {
        let issuer = Issuer::with(URL, RS);
        issuer.put(places[0], 404, "");
        let open = |metadata: String| {
            issuer.put(place, 200, &metadata);
            issuer.remote().discover(policy.as_bytes(), name)
        };
        let of = |issuer: &str, url: &str| format!(r#"{{"issuer":"{issuer}","jwks_uri":"{url}"}}"#);
        let keys = open(of(name, URL)).unwrap();
        assert!(
            matches!(keys.validate_at(RS_TOKEN, NOW), Err(Error::Claims { fault, .. }) if fault == "Issuer")
        );
        for wrong in [
            of("https://issuer.example/realm/", URL),
            of("https://issuer.example", URL),
            of(name, "http://issuer.example/keys"),
            format!(r#"{{"issuer":"{name}"}}"#),
            of(name, URL) + of(name, URL).as_str(),
        ] {
            assert!(matches!(
                open(wrong).unwrap_err(),
                Error::KeysUnavailable { .. }
            ));
        }
    }
    let issuer = Issuer::default();
    let refused = issuer
        .remote()
        .discover(policy.as_bytes(), name)
        .unwrap_err();
    assert!(matches!(refused, Error::KeysUnavailable { .. }));
    let other = issuer
        .remote()
        .discover(policy.as_bytes(), "https://issuer.example");
    assert_eq!(other.unwrap_err(), Error::PolicyByUrl);
}

#[test]
fn a_client_that_goes_on_is_waited_for_by_nobody() {
    let calls = Arc::new(AtomicUsize::new(0));
    let client = {
        let calls = Arc::clone(&calls);
        move |get: &Get<'_>| {
            if calls.fetch_add(1, Ordering::SeqCst) > 0 {
                thread::sleep(Duration::from_secs(2));
            }
            Ok(get.answer(200, None, RS.as_bytes())?)
        }
    };
    let remote = Remote::by(client)
        .cool_down(Duration::ZERO)
        .timeout(Duration::from_millis(300));
    let keys = remote.open(POLICY, URL).unwrap();
    let begun = Instant::now();
    assert!(is_refused(keys.validate_at(ES_TOKEN, NOW), "NoKey"));
    let reason = "it takes too long".to_owned();
    assert_eq!(keys.refresh(), Err(Error::KeysUnavailable { reason }));
    assert!(keys.validate_at(RS_TOKEN, NOW).is_ok());
    drop(keys);
    assert!(begun.elapsed() < Duration::from_millis(1_500));
    assert_eq!(calls.load(Ordering::SeqCst), 3);
}

#[test]
fn a_panic_of_the_client_or_of_who_is_told_changes_no_verdict() {
    let panics = |_: &Get<'_>| -> Result<Answer, Box<dyn std::error::Error + Send + Sync>> {
        panic!("a client")
    };
    let refused = RemoteKeys::open(POLICY, URL, panics).unwrap_err();
    let reason = "its client panicked".to_owned();
    assert_eq!(refused, Error::KeysUnavailable { reason });
    let issuer = Issuer::with(URL, RS);
    let remote = issuer.remote().on_fetch(|_| panic!("whoever is told"));
    let keys = remote.open(POLICY, URL).unwrap();
    assert_eq!(keys.refresh(), Ok(()));
    assert!(keys.validate_at(RS_TOKEN, NOW).is_ok());
}

#[test]
fn what_a_client_says_is_shown_in_one_line_without_the_query() {
    let client = |get: &Get<'_>| Err(format!("{}:\n\n\u{1b}no  route", get.url()).into());
    let refused = RemoteKeys::open(POLICY, URL, client).unwrap_err();
    let reason = "https://issuer.example/keys: no route".to_owned();
    assert_eq!(refused, Error::KeysUnavailable { reason });
}

#[test]
fn new_keys_begin_a_new_memory() {
    let issuer = Issuer::with(URL, RS);
    let keys = issuer
        .remote()
        .remembering(10, 4_096)
        .open(POLICY, URL)
        .unwrap();
    let is_remembered = || keys.validate_at(RS_TOKEN, NOW).unwrap().remembered();
    assert_new_then_remembered(is_remembered);
    keys.refresh().unwrap();
    assert_new_then_remembered(is_remembered);
}

/// The thread that fetched may hold a place for a moment, where it frees older keys: a call then takes another place, which has a memory of its own.
fn assert_new_then_remembered(is_remembered: impl Fn() -> bool) {
    assert!(!is_remembered());
    assert!((0..100).any(|_| is_remembered()));
}

#[test]
fn threads_share_keys_that_rotate() {
    let both = format!(
        "{},{}",
        RS.trim_end().trim_end_matches("]}"),
        &ES[ES.find('[').unwrap() + 1..]
    );
    let issuer = Issuer::with(URL, &both);
    let keys = issuer.remote().open(POLICY, URL).unwrap();
    let is_over = AtomicUsize::new(0);
    thread::scope(|scope| {
        for token in [RS_TOKEN, ES_TOKEN, RS_TOKEN, ES_TOKEN] {
            let (keys, is_over) = (&keys, &is_over);
            scope.spawn(move || {
                while is_over.load(Ordering::SeqCst) == 0 {
                    keys.validate_at(token, NOW).unwrap();
                }
            });
        }
        for _ in 0..100 {
            keys.refresh().unwrap();
        }
        is_over.store(1, Ordering::SeqCst);
    });
    assert_eq!(issuer.fetches(), 101);
}

/// A body that gives an octet whenever it is asked, without an end.
struct Endless(Duration);

impl Read for Endless {
    fn read(&mut self, room: &mut [u8]) -> io::Result<usize> {
        thread::sleep(self.0);
        let count = if self.0.is_zero() { room.len() } else { 1 };
        room[..count].fill(b' ');
        Ok(count)
    }
}

#[test]
fn a_body_without_an_end_ends() {
    for (pause, reason) in [
        (Duration::ZERO, "it has more than 4194304 octets"),
        (Duration::from_millis(20), "it takes too long"),
    ] {
        let client = move |get: &Get<'_>| Ok(get.answer(200, None, Endless(pause))?);
        let remote = Remote::by(client).timeout(Duration::from_secs(1));
        let reason = reason.to_owned();
        assert_eq!(
            remote.open(POLICY, URL).unwrap_err(),
            Error::KeysUnavailable { reason }
        );
    }
}
