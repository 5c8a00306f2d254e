//! The tokens of the repository.

use fowharimu::{Error, Part, Validator};
use std::ffi::OsStr;
use std::fs;
use std::path::{Path, PathBuf};
use std::thread;

const NOW: i64 = 1_300_819_379;

fn top() -> PathBuf {
    Path::new(env!("CARGO_MANIFEST_DIR")).join("../../..")
}

/// The tokens, each with its policy and key set beside it.
fn tokens() -> Vec<PathBuf> {
    let mut names = Vec::new();
    for folder in ["examples", "tests/tokens"] {
        for entry in fs::read_dir(top().join(folder)).unwrap() {
            let path = entry.unwrap().path();
            if path.extension() == Some(OsStr::new("jwt")) {
                names.push(path);
            }
        }
    }
    names
}

fn open(token: &Path) -> Validator {
    let read = |end| fs::read(token.with_extension(end)).unwrap();
    Validator::open(&read("policy"), &read("keys")).unwrap()
}

#[test]
fn each_token_is_accepted_and_refused_where_it_is_changed() {
    let names = tokens();
    assert!(names.len() >= 15);
    for name in names {
        let mut token = fs::read(&name).unwrap();
        let validator = open(&name);
        let verdict = validator.validate_at(&token, NOW);
        if name.ends_with("rfc8037-a4.jwt") {
            assert!(matches!(verdict, Err(Error::Claims { .. })), "{name:?}");
        } else if name.ends_with("Ed448.jwt") {
            assert!(matches!(verdict, Err(Error::Signature { .. })), "{name:?}");
        } else {
            assert!(verdict.unwrap().json().contains("joe"), "{name:?}");
        }
        let first = token.iter().rposition(|it| *it == b'.').unwrap() + 1;
        token[first] = if token[first] == b'A' { b'B' } else { b'A' };
        let refusal = Error::Signature {
            fault: "BadSignature".to_owned(),
            signature: 0,
        };
        assert_eq!(validator.validate_at(&token, NOW), Err(refusal), "{name:?}");
    }
}

#[test]
fn a_token_that_comes_again_is_judged_by_its_claims() {
    let name = top().join("examples/rfc7515-a1.jwt");
    let token = fs::read(&name).unwrap();
    let length = token.len();
    for (tokens, octets, is) in [
        (10, 4096, true),
        (1, length, true),
        (10, length - 1, false),
        (0, 4096, false),
    ] {
        let validator = open(&name).remembering(tokens, octets);
        assert!(!validator.validate_at(&token, NOW).unwrap().remembered());
        let again = validator.validate_at(&token, NOW).unwrap();
        assert_eq!(again.remembered(), is);
        assert_eq!(again, open(&name).validate_at(&token, NOW).unwrap());
        let expired = validator.validate_at(&token, NOW + 1);
        assert!(matches!(expired, Err(Error::Claims { fault, .. }) if fault == "Expired"));
        assert_eq!(validator.validate_at(&token, NOW).unwrap().remembered(), is);
        assert!(validator.validate_at(&token[..length - 1], NOW).is_err());
    }
    let validator = open(&name);
    assert!(!validator.validate_at(&token, NOW).unwrap().remembered());
    assert!(!validator.validate_at(&token, NOW).unwrap().remembered());
}

#[test]
fn each_kind_of_refusal() {
    let token = fs::read(top().join("examples/rfc7515-a1.jwt")).unwrap();
    let keys = fs::read(top().join("examples/rfc7515-a1.keys")).unwrap();
    let refused = |policy: &str, token: &[u8]| {
        let validator = Validator::open(policy.as_bytes(), &keys).unwrap();
        validator.validate_at(token, NOW).unwrap_err()
    };
    let named = |fault: &str| fault.to_owned();
    assert_eq!(
        refused(r#"{"algs":["HS256"],"limit":100}"#, &token),
        Error::TooLong
    );
    assert_eq!(
        refused(r#"{"algs":["HS256"]}"#, b"e30.*.AA"),
        Error::Form {
            fault: named("Base64"),
            part: Some(Part::Payload),
            signature: 0
        }
    );
    assert_eq!(
        refused(r#"{"algs":["HS256"],"work":10}"#, &token),
        Error::Ceiling {
            fault: named("WorkExceeded"),
            signature: 0,
            key: 0
        }
    );
    assert_eq!(
        refused(r#"{"algs":["HS256"],"required":["role"]}"#, &token),
        Error::Claims {
            fault: named("ClaimMissing"),
            claim: Some(named("role"))
        }
    );
    let opened = Validator::open(br#"{"algs":["HS256"],"audience":"me"}"#, &keys);
    assert_eq!(
        opened.unwrap_err(),
        Error::Policy {
            fault: named("Member"),
            member: Some(named("audience"))
        }
    );
}

#[test]
fn a_name_of_any_length_is_told() {
    let token = fs::read(top().join("examples/rfc7515-a1.jwt")).unwrap();
    let keys = fs::read(top().join("examples/rfc7515-a1.keys")).unwrap();
    let name = "x".repeat(5_000);
    let policy = format!(r#"{{"algs":["HS256"],"required":["{name}"]}}"#);
    let validator = Validator::open(policy.as_bytes(), &keys).unwrap();
    assert_eq!(
        validator.validate_at(&token, NOW),
        Err(Error::Claims {
            fault: "ClaimMissing".to_owned(),
            claim: Some(name.clone())
        })
    );
    let policy = format!(r#"{{"algs":["HS256"],"{name}":1}}"#);
    assert_eq!(
        Validator::open(policy.as_bytes(), &keys).unwrap_err(),
        Error::Policy {
            fault: "Member".to_owned(),
            member: Some(name)
        }
    );
}

#[test]
fn another_thread_may_have_it() {
    let name = top().join("tests/tokens/RS256.jwt");
    let token = fs::read(&name).unwrap();
    let validator = open(&name);
    let claims = thread::spawn(move || validator.validate_at(&token, NOW)).join();
    assert!(claims.unwrap().is_ok());
}

#[test]
fn threads_share_it() {
    for name in ["examples/rfc7515-a1.jwt", "tests/tokens/RS256.jwt"] {
        let name = top().join(name);
        let token = fs::read(&name).unwrap();
        let mut forged = token.clone();
        let place = forged.len() - 10;
        forged[place] ^= 1;
        let validator = open(&name);
        thread::scope(|threads| {
            for _ in 0..16 {
                threads.spawn(|| {
                    for _ in 0..50 {
                        assert!(validator.validate_at(&token, NOW).is_ok());
                        assert!(validator.validate_at(&forged, NOW).is_err());
                    }
                });
            }
        });
    }
}

#[test]
fn the_clock_is_the_moment() {
    let name = top().join("tests/tokens/RS256.jwt");
    let refusal = open(&name).validate(&fs::read(&name).unwrap()).unwrap_err();
    assert_eq!(
        refusal,
        Error::Claims {
            fault: "Expired".to_owned(),
            claim: None
        }
    );
}

/// `tests/run` links a library of another interface.
#[test]
fn another_library_is_refused() {
    let another = match std::env::var("FOWHARIMU_ANOTHER") {
        Ok(another) => another,
        Err(_) => return,
    };
    let error = Validator::open(br#"{"algs":["HS256"]}"#, br#"{"keys":[]}"#).unwrap_err();
    let (made_for, loaded) = match error {
        Error::AnotherLibrary {
            made_for, loaded, ..
        } => (made_for, loaded),
        _ => panic!("{error}"),
    };
    assert_eq!(loaded.to_string(), another);
    assert_eq!(
        error.to_string(),
        format!(
            "the library another has interface {loaded}, and this crate was made for {made_for}"
        )
    );
}
