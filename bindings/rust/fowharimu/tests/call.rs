//! What one call expects of the claims of an accepted token.

use fowharimu::request::Outcome;
use fowharimu::{Access, Call, Claims, Error, Issuers, NotTaken, Once, Unmet, Validator};
use std::fs;
use std::num::NonZeroUsize;
use std::path::Path;
use std::sync::Arc;

const NOW: i64 = 1_300_819_379;
/// The `nonce` of the profile's tokens.
const NONCE: &str = "n-0S6_WzA2Mj";
/// The access token of OpenID Connect Core 1.0, appendix A.4, whose `at_hash` one of them has.
const ACCESS_TOKEN: &[u8] = b"jHkWEdUXMU1BwAsC4vtUsZwnNvTIxEl0z9K3vx5KF0Y";

/// A file of the profile of ID tokens.
fn read(name: &str) -> Vec<u8> {
    let profile = Path::new(env!("CARGO_MANIFEST_DIR")).join("../../../examples/profiles/id-token");
    fs::read(profile.join(name)).unwrap()
}

fn id_tokens() -> Validator {
    Validator::open(&read("policy.json"), &read("keys.json")).unwrap()
}

fn asked_of(token: &str, call: &Call<'_>) -> Result<Claims, Error> {
    id_tokens().validate_with(&read(&format!("tokens/{token}.jwt")), call)
}

fn asked(call: &Call<'_>) -> Result<Claims, Error> {
    asked_of("good", call)
}

fn not_expected(why: Unmet, claim: &str) -> Result<Claims, Error> {
    Err(Error::NotExpected {
        why,
        claim: claim.to_owned(),
    })
}

#[test]
fn a_token_is_the_one_that_was_expected() {
    let call = Call::new().at(NOW);
    assert!(asked(&call.clone().text("nonce", NONCE).text("/nonce", NONCE)).is_ok());
    for other in ["", "n", "n-0S6_WzA2Mj ", &NONCE[1..]] {
        let said = asked(&call.clone().text("nonce", other));
        assert_eq!(said, not_expected(Unmet::Other, "nonce"));
    }
    // (a date is no text)
    let said = asked(&call.clone().text("exp", "1300819380"));
    assert_eq!(said, not_expected(Unmet::Other, "exp"));
    let said = asked(&call.clone().text("nonce", NONCE).text("sid", "s"));
    assert_eq!(said, not_expected(Unmet::Absent, "sid"));
    let said = asked(&call.text("/nonce/a", "s").text("nonce", "x"));
    assert_eq!(said, not_expected(Unmet::Absent, "/nonce/a"));
}

#[test]
fn a_claim_has_the_half_of_a_hash() {
    let with_hash = |call: Call<'_>| asked_of("other-access-token", &call);
    let call = Call::new().at(NOW);
    assert!(with_hash(call.clone().half_hash("at_hash", ACCESS_TOKEN)).is_ok());
    let said = with_hash(call.clone().half_hash("at_hash", b"another"));
    assert_eq!(said, not_expected(Unmet::Other, "at_hash"));
    let said = with_hash(call.clone().half_hash("c_hash", ACCESS_TOKEN));
    assert_eq!(said, not_expected(Unmet::Absent, "c_hash"));
    // (a validator that remembers the token has the same hash)
    let remembering = id_tokens().remembering(10, 4096);
    let token = read("tokens/other-access-token.jwt");
    let good = call.half_hash("at_hash", ACCESS_TOKEN);
    for is_remembered in [false, true] {
        let claims = remembering.validate_with(&token, &good).unwrap();
        assert_eq!(claims.remembered(), is_remembered);
    }
}

#[test]
fn the_tokens_of_the_profile_are_not_what_was_expected() {
    let login = Call::new().at(NOW).text("nonce", NONCE);
    assert_eq!(
        asked_of("other-nonce", &login),
        not_expected(Unmet::Other, "nonce")
    );
    assert_eq!(
        asked_of(
            "other-access-token",
            &login.half_hash("at_hash", b"another")
        ),
        not_expected(Unmet::Other, "at_hash")
    );
}

#[test]
fn what_is_expected_stands_behind_the_verdict_and_the_rule() {
    let call = Call::new().text("nonce", "x");
    assert!(matches!(
        asked(&call.clone().at(NOW + 90_000)),
        Err(Error::Claims { .. })
    ));
    let rule = Access::open(br#"{"scopes":["admin"]}"#).unwrap();
    assert!(matches!(
        asked(&call.at(NOW).access(&rule)),
        Err(Error::Denied { .. })
    ));
}

#[test]
fn a_token_that_is_not_expected_is_not_taken() {
    let once = Arc::new(Once::open_with(NonZeroUsize::new(10).unwrap(), None, 0).unwrap());
    let validator = id_tokens().taking(once);
    let token = read("tokens/good.jwt");
    let call = Call::new().at(NOW);
    let other = call.clone().text("nonce", "x");
    assert_eq!(
        validator.validate_with(&token, &other),
        not_expected(Unmet::Other, "nonce")
    );
    // (this one has no jti: it is asked last)
    assert_eq!(
        validator.validate_with(&token, &call.text("nonce", NONCE)),
        Err(Error::NotTaken {
            why: NotTaken::NoId,
            outcome: Outcome::NotAccepted,
        })
    );
}

#[test]
fn several_issuers_expect_as_one_does() {
    let issuer = id_tokens().issuer().unwrap().to_owned();
    let issuers = Issuers::new([(issuer, id_tokens())]).unwrap();
    let token = read("tokens/good.jwt");
    let call = Call::new().at(NOW);
    assert!(issuers
        .validate_with(&token, &call.clone().text("nonce", NONCE))
        .is_ok());
    assert_eq!(
        issuers.validate_with(&token, &call.text("nonce", "x")),
        not_expected(Unmet::Other, "nonce")
    );
}

#[test]
fn an_error_says_what_was_not_expected() {
    let said = asked(&Call::new().at(NOW).text("nonce", "x")).unwrap_err();
    assert_eq!(
        said.to_string(),
        "the token isn't what was expected: Other \"nonce\""
    );
}
