//! Answers each case of a table that `tests/cases/make` wrote: cases [-remember] FILE. `tests/cases/README.md` says what a
//! line is. `?` stands for what this crate doesn't show. It doesn't issue. With `-remember` tokens are remembered, and each is judged at several
//! moments first.

use fowharimu::{Access, Error, Part, Validator};
use std::fs::File;
use std::io::{self, BufRead, BufReader, BufWriter, Write};
use std::{env, error};

type Failure = Box<dyn error::Error>;

/// The octets that a word of the table spells.
fn octets_of(word: &str) -> Result<Vec<u8>, Failure> {
    if word == "-" {
        return Ok(Vec::new());
    }
    (0..word.len())
        .step_by(2)
        .map(|at| {
            let pair = word.get(at..at + 2).ok_or("half an octet")?;
            Ok(u8::from_str_radix(pair, 16)?)
        })
        .collect()
}

/// A text in hexadecimal, and `-` where it is empty.
fn spelled(text: &str) -> String {
    if text.is_empty() {
        return "-".to_owned();
    }
    text.bytes().map(|it| format!("{it:02x}")).collect()
}

fn part_number(part: Option<Part>) -> u32 {
    match part {
        None => 0,
        Some(Part::Payload) => 1,
        Some(Part::Protected) => 2,
        Some(Part::Signature) => 3,
    }
}

/// The answer that an error is. One that says nothing of the case is handed on.
fn refused(error: Error) -> Result<String, Error> {
    let none = String::new;
    let (fault, part, signature, key, claim) = match error {
        Error::Policy { fault, member } => {
            let member = spelled(&member.unwrap_or_default());
            return Ok(format!(
                "refused\tpolicy.{fault}\t0\t0\t0\t{member}\t0\t\t\t-"
            ));
        }
        Error::Keys { fault } => return Ok(format!("refused\tkeys.{fault}\t0\t0\t0\t-\t0\t\t\t-")),
        Error::Access { fault, member } => {
            let member = spelled(&member.unwrap_or_default());
            return Ok(format!(
                "refused\taccess.{fault}\t0\t0\t0\t{member}\t0\t\t\t-"
            ));
        }
        Error::Denied { fault, name } => {
            let name = spelled(&name);
            return Ok(format!(
                "denied\tdenied.{fault}\t0\t?\t?\t{name}\t?\t?\t?\t-"
            ));
        }
        Error::TooLong => (
            "text.TooLong".to_owned(),
            0,
            "0".to_owned(),
            "0".to_owned(),
            none(),
        ),
        Error::Form {
            fault,
            part,
            signature,
        } => (
            format!("form.{fault}"),
            part_number(part),
            signature.to_string(),
            "0".to_owned(),
            none(),
        ),
        Error::Ceiling {
            fault,
            signature,
            key,
        } => (
            format!("ceiling.{fault}"),
            0,
            signature.to_string(),
            key.to_string(),
            none(),
        ),
        Error::Signature { fault, signature } => (
            format!("signature.{fault}"),
            0,
            signature.to_string(),
            "?".to_owned(),
            none(),
        ),
        Error::Claims { fault, claim } => (
            format!("claims.{fault}"),
            0,
            "?".to_owned(),
            "?".to_owned(),
            claim.unwrap_or_default(),
        ),
        other => return Err(other),
    };
    let claim = spelled(&claim);
    Ok(format!(
        "refused\t{fault}\t{part}\t{signature}\t{key}\t{claim}\t?\t?\t?\t-"
    ))
}

/// Judges a token at its moment, at others, and at its moment again: an accepted one in compact form is remembered then.
fn again(validator: &Validator, token: &[u8], now: i64) -> Result<(), Failure> {
    const FAR: i64 = 1_000_000_000;
    for by in [0, FAR, -FAR, 0] {
        let _ = validator.validate_at(token, now.saturating_add(by));
    }
    match validator.validate_at(token, now) {
        Ok(claims) if !claims.remembered() && !token.contains(&b'{') => {
            Err("a token isn't remembered".into())
        }
        _ => Ok(()),
    }
}

/// The answer to a token.
fn judged(opened: &Result<Validator, Error>, now: &str, token: &str) -> Result<String, Failure> {
    let validator = match opened {
        Ok(validator) => validator,
        Err(error) => return Ok(refused(error.clone())?),
    };
    if remembers() {
        again(validator, &octets_of(token)?, now.parse()?)?;
    }
    match validator.validate_at(&octets_of(token)?, now.parse()?) {
        Ok(claims) => Ok(format!(
            "accepted\t-\t0\t?\t?\t-\t?\t?\t?\t{}",
            spelled(claims.json())
        )),
        Err(error) => Ok(refused(error)?),
    }
}

/// The answer to a token under an access rule, which is read first.
fn denied(
    opened: &Result<Validator, Error>,
    now: &str,
    rule: &str,
    token: &str,
) -> Result<String, Failure> {
    let said = Access::open(&octets_of(rule)?).and_then(|access| match opened {
        Ok(validator) => Ok((validator, access)),
        Err(error) => Err(error.clone()),
    });
    let (validator, access) = match said {
        Ok(both) => both,
        Err(error) => return Ok(refused(error)?),
    };
    match validator.validate_for_at(&octets_of(token)?, now.parse()?, &access) {
        Ok(claims) => Ok(format!(
            "accepted\t-\t0\t?\t?\t-\t?\t?\t?\t{}",
            spelled(claims.json())
        )),
        Err(error) => Ok(refused(error)?),
    }
}

/// Whether tokens are to be remembered.
fn remembers() -> bool {
    env::args().any(|it| it == "-remember")
}

/// A validator that takes any documents, and remembers tokens where that is asked for.
fn open(policy: &[u8], keys: &[u8]) -> Result<Validator, Error> {
    let validator = Validator::open(policy, keys)?;
    Ok(if remembers() {
        validator.remembering(100, 1 << 20)
    } else {
        validator
    })
}

fn main() -> Result<(), Failure> {
    let name = env::args()
        .skip(1)
        .last()
        .ok_or("usage: cases [-remember] FILE")?;
    let mut out = BufWriter::new(io::stdout().lock());
    let mut opened = None;
    for line in BufReader::new(File::open(name)?).lines() {
        let line = line?;
        let words: Vec<&str> = line.split(' ').collect();
        match (words.as_slice(), &opened) {
            (["open", policy, keys], _) => {
                opened = Some(open(&octets_of(policy)?, &octets_of(keys)?));
            }
            (["judge", name, now, token], Some(opened)) => {
                writeln!(out, "{name}\t{}", judged(opened, now, token)?)?
            }
            (["deny", name, now, rule, token], Some(opened)) => {
                writeln!(out, "{name}\t{}", denied(opened, now, rule, token)?)?
            }
            (["issue", ..], Some(_)) => {}
            _ => return Err("the table has another line".into()),
        }
    }
    out.flush()?;
    Ok(())
}
