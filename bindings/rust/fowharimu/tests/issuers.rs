//! Several issuers: tests/issuers has the table of what is answered.

use fowharimu::{Access, Error, Get, Issuers, Judge, Judging, Remote, Validator};
use std::sync::Arc;
use std::thread;
use std::time::Duration;

const NO_KEYS: &[u8] = br#"{"keys":[]}"#;
const SECRET: &[u8] =
    br#"{"keys":[{"kty":"oct","k":"AAAAAAAAAAAAAAAAAAAAAAAAAAAAAAAAAAAAAAAAAAA"}]}"#;
/// RFC 7515, appendix A.1: its `iss` is `joe`.
const TOKEN: &[u8] = include_bytes!("../../../../examples/rfc7515-a1.jwt");
const KEYS: &[u8] = include_bytes!("../../../../examples/rfc7515-a1.keys");
/// Its `iss` is `joe` too.
const RSA_TOKEN: &[u8] = include_bytes!("../../../../tests/tokens/RS256.jwt");
const RSA_KEYS: &[u8] = include_bytes!("../../../../tests/tokens/RS256.keys");
const NOW: i64 = 1_300_819_379;

/// (without the line feed at its end)
fn trimmed(token: &[u8]) -> &[u8] {
    token.strip_suffix(b"\n").unwrap_or(token)
}

fn open(policy: &str, keys: &[u8]) -> Validator {
    Validator::open(policy.as_bytes(), keys).unwrap()
}

#[test]
fn what_a_validator_tells_of_its_policy_and_keys() {
    let long = "a".repeat(60_000);
    for (policy, keys, issuer, limit, is_public) in [
        (r#"{"algs":["RS256"]}"#, NO_KEYS, None, 8_192, true),
        (
            r#"{"algs":["RS256"],"issuers":["a","b"],"limit":7}"#,
            NO_KEYS,
            None,
            7,
            true,
        ),
        (
            &format!(r#"{{"algs":["RS256"],"issuers":["{long}"]}}"#),
            NO_KEYS,
            Some(long.as_str()),
            8_192,
            true,
        ),
        (
            r#"{"algs":["RS256"],"issuers":[""]}"#,
            SECRET,
            Some(""),
            8_192,
            false,
        ),
        (r#"{"algs":["RS256","HS512"]}"#, NO_KEYS, None, 8_192, false),
    ] {
        let it = open(policy, keys);
        assert_eq!(
            (it.issuer(), it.limit(), it.is_public()),
            (issuer, limit, is_public)
        );
    }
}

#[test]
fn each_judges_its_own() {
    let joe = r#"{"algs":["HS256"],"issuers":["joe"]}"#;
    let eve = r#"{"algs":["HS256"],"issuers":["eve"],"limit":300}"#;
    let issuers = Issuers::new([
        ("joe".to_owned(), open(joe, KEYS)),
        ("eve".to_owned(), open(eve, SECRET)),
    ])
    .unwrap();
    let token = trimmed(TOKEN);
    assert!(issuers
        .validate_at(token, NOW)
        .unwrap()
        .json()
        .contains("joe"));
    assert!(matches!(
        issuers.validate(token),
        Err(Error::Claims { fault, .. }) if fault == "Expired"
    ));
    let access = Access::open(br#"{"scopes":["read"]}"#).unwrap();
    assert!(matches!(
        issuers.validate_for_at(token, NOW, &access),
        Err(Error::Denied { .. })
    ));
    assert_eq!(issuers.validate_at(&[b'x'; 301], NOW), Err(Error::TooLong));
    assert!(matches!(
        issuers.validate_at(b"x", NOW),
        Err(Error::Form { .. })
    ));
    let alone = Issuers::new([("eve".to_owned(), open(eve, KEYS))]).unwrap();
    let refusal = Error::Claims {
        fault: "Issuer".to_owned(),
        claim: None,
    };
    assert_eq!(alone.validate_at(token, NOW), Err(refusal));
}

#[test]
fn keys_by_url_stand_under_their_issuer() {
    let policy = br#"{"algs":["RS256"],"issuers":["joe"]}"#;
    let client = |get: &Get<'_>| Ok(get.answer(200, None, RSA_KEYS)?);
    let remote = Remote::by(client)
        .max_age(Duration::from_secs(1))
        .cool_down(Duration::from_secs(60));
    let keys = remote.open(policy, "https://joe.example/keys").unwrap();
    let issuers = Issuers::new([
        ("joe".to_owned(), Judge::from(keys)),
        (
            "eve".to_owned(),
            open(r#"{"algs":["RS256"],"issuers":["eve"]}"#, NO_KEYS).into(),
        ),
    ])
    .unwrap();
    assert!(issuers.validate_at(RSA_TOKEN, NOW).is_ok());
    let access = Access::open(br#"{"scopes":["read"]}"#).unwrap();
    let denied = issuers.validate_for_at(RSA_TOKEN, NOW, &access);
    assert!(matches!(denied, Err(Error::Denied { .. })));
    thread::sleep(Duration::from_millis(1_050));
    let shared: Arc<dyn Judging> = Arc::new(issuers);
    assert_eq!(shared.validate(RSA_TOKEN), Err(Error::KeysTooOld));
    let said = Arc::clone(&shared).validate_for(RSA_TOKEN, &access);
    assert_eq!(said, Err(Error::KeysTooOld));
}

#[test]
fn a_policy_of_another_issuer_is_refused() {
    let joe = || open(r#"{"algs":["HS256"],"issuers":["joe"]}"#, KEYS);
    for names in [&["eve"][..], &["joe", "eve"], &[]] {
        let all = names.iter().map(|it| ((*it).to_owned(), joe()));
        assert!(matches!(Issuers::new(all), Err(Error::Issuers)));
    }
}

#[test]
fn the_issuer_that_a_token_names() {
    let it = open(r#"{"algs":["RS256"]}"#, NO_KEYS);
    let token = trimmed(TOKEN);
    assert_eq!(it.unverified_issuer(token), Ok(Some("joe".to_owned())));
    for none in [&b"x"[..], b"", b"e30.e30.AA"] {
        assert_eq!(it.unverified_issuer(none), Ok(None));
    }
}
