//! Tokens that count once: one is let in by one call, whichever thread makes it.

use fowharimu::request::Outcome;
use fowharimu::{Access, Answer, Error, Get, NotTaken, Once, Remote, Validator};
use std::fs;
use std::num::NonZeroUsize;
use std::path::Path;
use std::sync::Arc;
use std::thread;

/// The profile of client assertions (RFC 7523).
const ASSERTION: &str = "client-assertion";
const NOW: i64 = 1_300_819_379;

/// A file of a profile.
fn read(profile: &str, name: &str) -> Vec<u8> {
    let profiles = Path::new(env!("CARGO_MANIFEST_DIR")).join("../../../examples/profiles");
    fs::read(profiles.join(profile).join(name)).unwrap()
}

fn memory(tokens: usize) -> Arc<Once> {
    let tokens = NonZeroUsize::new(tokens).unwrap();
    Arc::new(Once::open_with(tokens, Some(tokens), 0).unwrap())
}

/// What judges by a profile, and takes what it accepts in this memory.
fn taking(profile: &str, once: &Arc<Once>) -> Validator {
    let policy = read(profile, "policy.json");
    let keys = read(profile, "keys.json");
    Validator::open(&policy, &keys)
        .unwrap()
        .taking(Arc::clone(once))
}

fn good(profile: &str) -> Vec<u8> {
    read(profile, "tokens/good.jwt")
}

/// Why a token isn't taken.
fn refused(why: NotTaken) -> Error {
    Error::NotTaken {
        why,
        outcome: Outcome::NotAccepted,
    }
}

#[test]
fn a_token_is_let_in_once() {
    let once = memory(1000);
    let validator = taking(ASSERTION, &once);
    let token = good(ASSERTION);
    assert!(validator.validate_at(&token, NOW).is_ok());
    assert_eq!(
        validator.validate_at(&token, NOW),
        Err(refused(NotTaken::Seen))
    );
    // (another token, and another validator over the same memory)
    let longer = read(ASSERTION, "tokens/more-claims.jwt");
    let second = taking(ASSERTION, &once);
    assert_eq!(
        second.validate_at(&longer, NOW),
        Err(refused(NotTaken::Seen))
    );
    // (a memory of its own)
    let other = taking(ASSERTION, &memory(1));
    assert!(other.validate_at(&token, NOW).is_ok());
}

#[test]
fn what_is_refused_or_denied_is_not_taken() {
    let validator = taking(ASSERTION, &memory(1000));
    let token = good(ASSERTION);
    let rule = Access::open(br#"{"scopes":["admin"]}"#).unwrap();
    assert!(matches!(
        validator.validate_at(&token, NOW + 3600),
        Err(Error::Claims { .. })
    ));
    assert!(matches!(
        validator.validate_for_at(&token, NOW, &rule),
        Err(Error::Denied { .. })
    ));
    assert!(validator.validate_at(&token, NOW).is_ok());
}

#[test]
fn a_token_that_cant_be_held_is_refused() {
    let once = memory(1);
    let event = taking("security-event", &once);
    assert_eq!(
        event.validate_at(&good("security-event"), NOW),
        Err(refused(NotTaken::NoEnd))
    );
    let plain = Path::new(env!("CARGO_MANIFEST_DIR")).join("../../../examples/rfc7515-a1");
    let [policy, keys, token] =
        ["policy", "keys", "jwt"].map(|it| fs::read(plain.with_extension(it)).unwrap());
    let nameless = Validator::open(&policy, &keys)
        .unwrap()
        .taking(Arc::clone(&once));
    assert_eq!(
        nameless.validate_at(&token, NOW),
        Err(refused(NotTaken::NoId))
    );
    assert!(taking(ASSERTION, &once)
        .validate_at(&good(ASSERTION), NOW)
        .is_ok());
    assert_eq!(
        taking("logout-token", &once).validate_at(&good("logout-token"), NOW),
        Err(Error::NotTaken {
            why: NotTaken::Full,
            outcome: Outcome::MemoryFull,
        })
    );
}

#[test]
fn what_was_taken_stays_so_under_new_keys() {
    let client = |_: &Get<'_>| {
        Ok(Answer {
            status: 200,
            body: read(ASSERTION, "keys.json"),
            ..Answer::default()
        })
    };
    let keys = Remote::by(client)
        .taking(memory(1000))
        .open(
            &read(ASSERTION, "policy.json"),
            "https://issuer.example/keys",
        )
        .unwrap();
    let token = good(ASSERTION);
    assert!(keys.validate_at(&token, NOW).is_ok());
    keys.refresh().unwrap();
    assert_eq!(keys.validate_at(&token, NOW), Err(refused(NotTaken::Seen)));
}

#[test]
fn of_many_threads_one_is_let_in() {
    let validator = taking(ASSERTION, &memory(1000));
    let token = good(ASSERTION);
    let let_in: usize = thread::scope(|scope| {
        let asking: Vec<_> = (0..8)
            .map(|_| {
                scope.spawn(|| {
                    (0..50)
                        .filter(|_| validator.validate_at(&token, NOW).is_ok())
                        .count()
                })
            })
            .collect();
        asking.into_iter().map(|it| it.join().unwrap()).sum()
    });
    assert_eq!(let_in, 1);
}

#[test]
fn an_error_says_why() {
    let said = refused(NotTaken::Seen).to_string();
    assert_eq!(said, "the token counts once, and isn't taken: Seen");
}
