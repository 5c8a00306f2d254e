//! Access rules, over the claims of RFC 7515, appendix A.1: `iss` joe, `exp` and `http://example.com/is_root` true.

use fowharimu::{Access, Error, Validator};
use std::fs;
use std::path::Path;
use std::thread;

const NOW: i64 = 1_300_819_379;

/// The validator and the token.
fn example() -> (Validator, Vec<u8>) {
    let name = Path::new(env!("CARGO_MANIFEST_DIR")).join("../../../examples/rfc7515-a1");
    let read = |end| fs::read(name.with_extension(end)).unwrap();
    (
        Validator::open(&read("policy"), &read("keys")).unwrap(),
        read("jwt"),
    )
}

/// What is said of the token under a rule.
fn said(rule: &str) -> Result<(), Error> {
    let (validator, token) = example();
    let access = Access::open(rule.as_bytes())?;
    let claims = validator.validate_for_at(&token, NOW, &access)?;
    assert!(claims.json().contains("joe"));
    Ok(())
}

fn denied(fault: &str, name: &str) -> Result<(), Error> {
    Err(Error::Denied {
        fault: fault.to_owned(),
        name: name.to_owned(),
    })
}

fn refused(fault: &str, member: Option<&str>) -> Result<(), Error> {
    Err(Error::Access {
        fault: fault.to_owned(),
        member: member.map(str::to_owned),
    })
}

#[test]
fn an_accepted_token_meets_a_rule_or_is_denied() {
    assert_eq!(said("{}"), Ok(()));
    assert_eq!(
        said(r#"{"claims":{"iss":["ann","joe"],"http://example.com/is_root":[true]}}"#),
        Ok(())
    );
    assert_eq!(
        said(r#"{"scopes":["read","write"]}"#),
        denied("ScopeMissing", "read")
    );
    assert_eq!(
        said(r#"{"claims":{"iss":["ann"]}}"#),
        denied("ClaimNotAllowed", "iss")
    );
    assert_eq!(said(r#"{"claims":{"":["x"]}}"#), denied("ClaimMissing", ""));
    let long = "/".to_owned() + &"a".repeat(5000);
    assert_eq!(
        said(&format!(r#"{{"claims":{{"{long}":[1]}}}}"#)),
        denied("ClaimMissing", &long)
    );
}

#[test]
fn a_rule_is_refused() {
    assert_eq!(said(""), refused("Json", None));
    assert_eq!(
        said(r#"{"scopes":[],"scopes":[]}"#),
        refused("NameTwice", None)
    );
    assert_eq!(
        said(r#"{"scope":"read"}"#),
        refused("Member", Some("scope"))
    );
    assert_eq!(
        said(r#"{"scopes":["read write"]}"#),
        refused("Range", Some("scopes"))
    );
    assert_eq!(
        said(r#"{"claims":{"a":[1.5]}}"#),
        refused("Claim", Some("a"))
    );
    assert_eq!(
        said(r#"{"claims":{"/~2":["x"]}}"#),
        refused("ClaimRange", Some("/~2"))
    );
    assert_eq!(said(&" ".repeat(65_537)), refused("TooLong", None));
}

#[test]
fn a_token_that_is_refused_is_not_denied() {
    let (validator, token) = example();
    let access = Access::open(br#"{"scopes":["read"]}"#).unwrap();
    assert!(matches!(
        validator.validate_for_at(&token, NOW + 3600, &access),
        Err(Error::Claims { .. })
    ));
    assert!(matches!(
        validator.validate_for(&token, &access),
        Err(Error::Claims { .. })
    ));
}

#[test]
fn a_rule_tells_its_scopes() {
    let access = Access::open(br#"{"scopes":["b","a"]}"#).unwrap();
    assert_eq!(access.scopes(), ["b", "a"]);
    let error = Error::Denied {
        fault: "ScopeMissing".to_owned(),
        name: "b".to_owned(),
    };
    assert_eq!(error.to_string(), "the token is denied: ScopeMissing \"b\"");
}

#[test]
fn threads_share_a_rule() {
    let (validator, token) = example();
    let grants = Access::open(br#"{"claims":{"iss":["joe"]}}"#).unwrap();
    let denies = Access::open(br#"{"scopes":["read"]}"#).unwrap();
    thread::scope(|scope| {
        for _ in 0..8 {
            scope.spawn(|| {
                for _ in 0..200 {
                    assert!(validator.validate_for_at(&token, NOW, &grants).is_ok());
                    assert!(matches!(
                        validator.validate_for_at(&token, NOW, &denies),
                        Err(Error::Denied { .. })
                    ));
                }
            });
        }
    });
}
