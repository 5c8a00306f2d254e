//! What a guard judges by: tests/requests has the table of what requests are answered.

use fowharimu::{Error, Get, Issuers, Remote, RemoteKeys, Validator};
use fowharimu_http::Guard;
use http::header::AUTHORIZATION;
use http::Request;
use std::sync::Arc;
use std::thread;
use std::time::Duration;

const KEYS: &[u8] = include_bytes!("../../../../tests/tokens/RS256.keys");
const TOKEN: &str = include_str!("../../../../tests/tokens/RS256.jwt");
const POLICY: &[u8] = br#"{"algs":["RS256"],"issuers":["joe"]}"#;

/// Keys by URL that are used for so long.
fn remote(max_age: Duration) -> RemoteKeys {
    let client = |get: &Get<'_>| Ok(get.answer(200, None, KEYS)?);
    let remote = Remote::by(client).max_age(max_age);
    remote.open(POLICY, "https://issuer.example/keys").unwrap()
}

fn request() -> Request<()> {
    let value = format!("Bearer {TOKEN}");
    Request::builder()
        .header(AUTHORIZATION, value)
        .body(())
        .unwrap()
}

#[test]
fn a_guard_takes_whatever_judges() {
    let open = || Validator::open(POLICY, KEYS).unwrap();
    let issuers = Issuers::new([("joe".to_owned(), open())]).unwrap();
    for guard in [
        Guard::new(open()),
        Guard::new(Arc::new(open())),
        Guard::new(remote(Duration::from_secs(600))),
        Guard::new(issuers),
    ] {
        // (the token expired long ago: its signature is verified, and then its claims are refused)
        let refusal = guard.admit(&mut request()).unwrap_err();
        assert_eq!(refusal.status, 401);
        assert!(matches!(refusal.error, Some(Error::Claims { fault, .. }) if fault == "Expired"));
    }
}

#[test]
fn keys_that_are_too_old_are_no_fault_of_the_token() {
    let guard = Guard::new(remote(Duration::from_millis(1)));
    thread::sleep(Duration::from_millis(10));
    let refusal = guard.admit(&mut request()).unwrap_err();
    assert_eq!(refusal.status, 503);
    assert_eq!(
        (refusal.challenges, refusal.error),
        (Vec::new(), Some(Error::KeysTooOld))
    );
}
