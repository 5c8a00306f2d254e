//! Who sends a token holds the key that it is bound to, over the proofs of the repository.

use fowharimu::request::Outcome;
use fowharimu::{
    Access, Answer, Call, Claims, Error, Get, Issuers, Nonces, NotTaken, Once, Proof, Proofs,
    Remote, Unmet, Validator,
};
use fowharimu_sys as sys;
use std::fs;
use std::num::NonZeroUsize;
use std::path::Path;
use std::sync::Arc;
use std::thread;
use std::time::Duration;

/// The moment of the profile's tokens.
const NOW: i64 = 1_300_819_379;

/// A token by the key of the table that is bound to a certificate: to that whose octets are `a certificate`.
const BY_CERTIFICATE: &[u8] = b"eyJhbGciOiJIUzI1NiJ9\
    .eyJjbmYiOnsieDV0I1MyNTYiOiJnYXpYWWhRUHBwS2hRb0l0TDc1Tnh2Vkx5cVVCOW9xemZscnUwTHItVFprIn19\
    .a5Odip2COipDt5QxjBTl9mZ_UMESay37cdC8KXVyk1Y";

/// A file of the repository.
fn read(name: &str) -> Vec<u8> {
    let top = Path::new(env!("CARGO_MANIFEST_DIR")).join("../../..");
    fs::read(top.join(name)).unwrap()
}

/// A file of the profile of FAPI 2.0.
fn fapi(name: &str) -> Vec<u8> {
    read(&format!("examples/profiles/fapi2/{name}"))
}

/// The text of a member of a line; nothing where it is null.
fn text(line: &str, name: &str) -> Option<String> {
    let mut out = vec![0; line.len()];
    let mut len = 0;
    // SAFETY: the slices are as long as their lengths say, and aren't null.
    let status = unsafe {
        sys::fow_text_member(
            line.as_ptr(),
            line.len(),
            name.as_ptr(),
            name.len(),
            out.as_mut_ptr(),
            out.len(),
            &mut len,
        )
    };
    out.truncate(len);
    (status == sys::FOW_OK).then(|| String::from_utf8(out).unwrap())
}

/// An object that is a member of a line, in whose texts no braces stand.
fn object(line: &str, name: &str) -> Vec<u8> {
    let key = format!("\"{name}\": ");
    let from = &line[line.find(&key).unwrap() + key.len()..];
    let mut depth = 0;
    let ends = |it: char| {
        depth += i32::from(it == '{') - i32::from(it == '}');
        it == '}' && depth == 0
    };
    from.as_bytes()[..=from.find(ends).unwrap()].to_vec()
}

/// A row of the table: a request with an access token, and what is said of its proof.
struct Row {
    name: String,
    answer: String,
    proof: String,
    method: String,
    uri: String,
    nonce: Option<String>,
    token: Option<String>,
    now: i64,
}

impl Row {
    fn of(line: &str) -> Row {
        let named = |name| text(line, name).unwrap();
        let key = "\"now\": ";
        let now = &line[line.rfind(key).unwrap() + key.len()..];
        let end = now.find(|it: char| it != '-' && !it.is_ascii_digit());
        Row {
            name: named("name"),
            answer: named("answer"),
            proof: named("proof"),
            method: named("method"),
            uri: named("uri"),
            nonce: text(line, "nonce"),
            token: text(line, "token"),
            now: now[..end.unwrap()].parse().unwrap(),
        }
    }

    fn token(&self) -> &[u8] {
        self.token.as_deref().unwrap_or_default().as_bytes()
    }

    fn proof<'a>(&'a self, proofs: &'a Proofs) -> Proof<'a> {
        let proof = Proof::new(proofs, self.proof.as_bytes(), &self.method, &self.uri);
        match &self.nonce {
            Some(nonce) => proof.nonce(nonce).unwrap(),
            None => proof,
        }
    }

    /// A call at its moment, with its proof.
    fn call<'a>(&'a self, proofs: &'a Proofs) -> Call<'a> {
        Call::new().at(self.now).proof(self.proof(proofs))
    }
}

/// The table, with what opens its documents.
struct Table {
    policy: Vec<u8>,
    access_policy: Vec<u8>,
    access_keys: Vec<u8>,
    rows: Vec<Row>,
}

impl Table {
    fn read() -> Table {
        let lines = String::from_utf8(read("tests/possession/cases.jsonl")).unwrap();
        let (first, rows) = lines.split_once('\n').unwrap();
        Table {
            policy: object(first, "policy"),
            access_policy: object(first, "access_policy"),
            access_keys: object(first, "access_keys"),
            rows: rows.lines().map(Row::of).collect(),
        }
    }

    /// What accepts the access tokens.
    fn validator(&self) -> Validator {
        Validator::open(&self.access_policy, &self.access_keys).unwrap()
    }

    fn proofs(&self, once: &Arc<Once>) -> Proofs {
        Proofs::open(&self.policy, Arc::clone(once)).unwrap()
    }

    /// The first row, whose proof is held.
    fn good(&self) -> &Row {
        &self.rows[0]
    }
}

fn memory(tokens: usize) -> Arc<Once> {
    let tokens = NonZeroUsize::new(tokens).unwrap();
    Arc::new(Once::open_with(tokens, Some(tokens), 0).unwrap())
}

fn not_held(fault: &str) -> Result<Claims, Error> {
    Err(Error::NotHeld {
        fault: fault.to_owned(),
        outcome: match fault {
            "Bound" | "OtherCertificate" | "OtherKey" => Outcome::NotAccepted,
            "OtherNonce" => Outcome::NonceWanted,
            _ => Outcome::ProofRefused,
        },
    })
}

fn not_taken(why: NotTaken) -> Result<Claims, Error> {
    Err(Error::NotTaken {
        why,
        outcome: Outcome::ProofRefused,
    })
}

#[test]
fn each_proof_is_answered_as_the_table_says() {
    let table = Table::read();
    let validator = table.validator();
    let mut judged = 0;
    for row in &table.rows {
        if validator.validate_at(row.token(), row.now).is_err() {
            continue; // (there is no access token, or the standard's own, which is none)
        }
        judged += 1;
        let proofs = table.proofs(&memory(1));
        let said = match validator.validate_with(row.token(), &row.call(&proofs)) {
            Ok(_) => "held".to_owned(),
            Err(Error::NotHeld { fault, .. }) => fault,
            Err(other) => other.to_string(),
        };
        assert_eq!(said, row.answer, "{}", row.name);
    }
    assert!(2 * judged > table.rows.len());
    println!("{judged} proofs");
}

#[test]
fn a_proof_counts_once() {
    let table = Table::read();
    let (validator, good, once) = (table.validator(), table.good(), memory(2));
    let first = table.proofs(&once);
    assert!(validator
        .validate_with(good.token(), &good.call(&first))
        .is_ok());
    let second = table.proofs(&once);
    assert_eq!(
        validator.validate_with(good.token(), &good.call(&second).at(good.now + 1)),
        not_taken(NotTaken::Seen)
    );
}

#[test]
fn a_proof_is_taken_behind_all_else() {
    let table = Table::read();
    let (validator, good, proofs) = (table.validator(), table.good(), table.proofs(&memory(1)));
    let show = |call: Call<'_>| validator.validate_with(good.token(), &call);
    let call = good.call(&proofs);
    assert_eq!(
        show(call.clone().text("sub", "nobody")),
        Err(Error::NotExpected {
            why: Unmet::Other,
            claim: "sub".to_owned()
        })
    );
    let rule = Access::open(br#"{"scopes":["admin"]}"#).unwrap();
    assert!(matches!(
        show(call.clone().access(&rule)),
        Err(Error::Denied { .. })
    ));
    assert_eq!(show(call.clone().unbound()), not_held("Bound"));
    assert_eq!(
        show(call.clone().certificate(b"a")),
        not_held("OtherCertificate")
    );
    let other = Proof::new(&proofs, good.proof.as_bytes(), "POST", &good.uri);
    assert_eq!(show(call.clone().proof(other)), not_held("OtherMethod"));
    assert!(show(call.clone().text("sub", "user")).is_ok());
    assert_eq!(show(call), not_taken(NotTaken::Seen));
}

#[test]
fn a_token_whose_proof_is_refused_is_not_taken() {
    let table = Table::read();
    let proofs = table.proofs(&memory(1));
    let validator = Validator::open(&fapi("policy.json"), &fapi("keys.json"))
        .unwrap()
        .taking(memory(1));
    let token = fapi("tokens/good.jwt");
    // (the proof is of another key, and of another time)
    let call = table.good().call(&proofs).at(NOW);
    assert_eq!(
        validator.validate_with(&token, &call),
        not_held("OtherKey")
    );
    assert!(validator.validate_at(&token, NOW).is_ok());
    assert_eq!(
        validator.validate_at(&token, NOW),
        Err(Error::NotTaken {
            why: NotTaken::Seen,
            outcome: Outcome::NotAccepted,
        })
    );
}

#[test]
fn one_of_many_threads_has_its_proof_taken() {
    let table = Table::read();
    let (validator, good, proofs) = (table.validator(), table.good(), table.proofs(&memory(8)));
    let other = Proof::new(&proofs, good.proof.as_bytes(), &good.method, "https://a/");
    let other = good.call(&proofs).proof(other);
    let show = || {
        (0..20)
            .filter(|_| {
                assert_eq!(
                    validator.validate_with(good.token(), &other),
                    not_held("OtherUri")
                );
                let said = validator.validate_with(good.token(), &good.call(&proofs));
                assert!(said.is_ok() || said == not_taken(NotTaken::Seen));
                said.is_ok()
            })
            .count()
    };
    let held: usize = thread::scope(|scope| {
        let showing: Vec<_> = (0..8).map(|_| scope.spawn(show)).collect();
        showing.into_iter().map(|it| it.join().unwrap()).sum()
    });
    assert_eq!(held, 1);
}

#[test]
fn a_bound_token_that_comes_alone_is_refused_where_that_is_asked() {
    let table = Table::read();
    let (validator, good) = (table.validator(), table.good());
    let call = Call::new().at(good.now);
    assert!(validator.validate_with(good.token(), &call).is_ok());
    assert_eq!(
        validator.validate_with(good.token(), &call.unbound()),
        not_held("Bound")
    );
    let plain = ["policy", "keys", "jwt"].map(|it| read(&format!("examples/rfc7515-a1.{it}")));
    let [policy, keys, token] = plain;
    let call = Call::new().at(NOW).unbound();
    let free = Validator::open(&policy, &keys).unwrap();
    assert!(free.validate_with(&token, &call).is_ok());
}

#[test]
fn a_certificate_is_the_one_that_the_token_is_bound_to() {
    let table = Table::read();
    let (validator, good) = (table.validator(), table.good());
    for der in [&b"a certificate"[..], b""] {
        let call = Call::new().at(good.now).certificate(der);
        assert_eq!(
            validator.validate_with(good.token(), &call),
            not_held("OtherKey")
        );
    }
    for (der, is_held) in [(&b"a certificate"[..], true), (b"a certificate.", false)] {
        let said = validator.validate_with(BY_CERTIFICATE, &Call::new().certificate(der));
        let wanted = is_held || said == not_held("OtherCertificate");
        assert!(said.is_ok() == is_held && wanted, "{said:?}");
    }
}

#[test]
fn tokens_of_a_profile_are_held_by_another() {
    let keys = || {
        let client = |_: &Get<'_>| {
            Ok(Answer {
                status: 200,
                body: fapi("keys.json"),
                ..Answer::default()
            })
        };
        Remote::by(client)
            .open(&fapi("policy.json"), "https://bank.example/keys")
            .unwrap()
    };
    let validator = Validator::open(&fapi("policy.json"), &fapi("keys.json")).unwrap();
    let issuer = validator.issuer().unwrap().to_owned();
    let issuers = Issuers::new([(issuer, keys())]).unwrap();
    let remote = keys();
    for (name, call, fault) in [
        (
            "other-certificate",
            Call::new().certificate(b"another certificate"),
            "OtherCertificate",
        ),
        ("came-alone", Call::new().unbound(), "Bound"),
    ] {
        let (token, call) = (fapi(&format!("tokens/{name}.jwt")), call.at(NOW));
        assert_eq!(validator.validate_with(&token, &call), not_held(fault));
        assert_eq!(remote.validate_with(&token, &call), not_held(fault));
        assert_eq!(issuers.validate_with(&token, &call), not_held(fault));
    }
}

#[test]
fn a_policy_that_isnt_one_for_proofs_is_refused() {
    let rest = r#""required":["jti","htm","htu","iat"],"max_age":60}"#;
    for (document, fault, member) in [
        (
            format!(r#"{{"algs":["ES256"],"typ":"at+jwt",{rest}"#),
            "Typ",
            None,
        ),
        (
            format!(r#"{{"algs":["ES256","HS256"],"typ":"dpop+jwt",{rest}"#),
            "SharedSecret",
            None,
        ),
        (
            r#"{"algs":["ES256"],"typ":"dpop+jwt","max_age":60}"#.to_owned(),
            "Required",
            None,
        ),
        (
            r#"{"algs":["ES256"],"typ":"dpop+jwt","required":["jti","htm","htu","iat"]}"#
                .to_owned(),
            "MaxAge",
            None,
        ),
        (
            r#"{"algs":["ES256"],"more":1}"#.to_owned(),
            "Member",
            Some("more"),
        ),
    ] {
        let said = Proofs::open(document.as_bytes(), memory(1)).unwrap_err();
        let wanted = Error::Policy {
            fault: fault.to_owned(),
            member: member.map(str::to_owned),
        };
        assert_eq!(said, wanted);
    }
}

/// The secret of the row nonce-by-time, or one of another length.
fn nonces(secret: u8) -> Nonces {
    Nonces::new(&(0..secret).collect::<Vec<u8>>(), Duration::from_secs(300)).unwrap()
}

#[test]
fn a_nonce_is_of_its_period() {
    let nonces = nonces(32);
    // (by Python's hmac)
    for (moment, nonce) in [
        (-1, "nwzZuUCX_kkpkY0riUKzRDlXQmGjXcUBY_BsZ9TkiJk"),
        (299, "nwzZuUCX_kkpkY0riUKzRDlXQmGjXcUBY_BsZ9TkiJk"),
        (300, "xDLgWcN47vf-LxGBpAUINvUeCFb9dJN76BeE-g76ehw"),
        (1_700_000_000, "fdsa7SV0-mwnIO2JHyjPzqPl9f-EmyECOeNtXhUDeWk"),
    ] {
        assert_eq!(nonces.at(moment), nonce, "{moment}");
    }
    assert!(!format!("{nonces:?}").contains("secret"));
    for (secret, period) in [
        (31, Duration::from_secs(60)),
        (32, Duration::ZERO),
        (32, Duration::from_millis(1500)),
        (32, Duration::from_secs(1 << 32)),
    ] {
        let refused = Nonces::new(&vec![0; secret], period).unwrap_err();
        assert_eq!(refused, Error::Nonces);
    }
}

#[test]
fn a_proof_has_a_nonce_of_its_period() {
    let table = Table::read();
    let validator = table.validator();
    let by_time = table.rows.iter().find(|it| it.name == "nonce-by-time");
    let row = by_time.unwrap();
    let proofs = table.proofs(&memory(1));
    let said = |row: &Row, nonces: &Nonces| {
        let call = Call::new()
            .at(row.now)
            .proof(row.proof(&proofs).nonces(nonces));
        validator.validate_with(row.token(), &call)
    };
    assert_eq!(said(row, &nonces(33)), not_held("OtherNonce"));
    assert_eq!(said(table.good(), &nonces(32)), not_held("OtherNonce"));
    assert!(said(row, &nonces(32)).is_ok());
    assert_eq!(
        proofs.algs().unwrap(),
        "ES256 ES384 ES512 RS256 PS256 EdDSA"
    );
}

#[test]
fn a_nonce_isnt_empty() {
    let table = Table::read();
    let proofs = table.proofs(&memory(1));
    let proof = table.good().proof(&proofs).nonce("");
    assert_eq!(proof.unwrap_err(), Error::EmptyNonce);
}

#[test]
fn an_error_says_why() {
    let said = not_held("OtherUri").unwrap_err().to_string();
    assert_eq!(
        said,
        "the sender of the token doesn't hold its key: OtherUri"
    );
}
