//! Asks jsonwebtoken: asks_jsonwebtoken QUESTIONS

use jsonwebtoken::{decode, Algorithm, DecodingKey, Validation};
use serde_json::{Map, Value};
use std::{env, error, fs};

type Answer<T> = Result<T, Box<dyn error::Error>>;

/// The octets of a field.
fn octets_of(word: &str) -> Answer<Vec<u8>> {
    let digits = if word == "-" { "" } else { word };
    let places = (0..digits.len()).step_by(2);
    Ok(places.map(|at| u8::from_str_radix(&digits[at..at + 2], 16)).collect::<Result<_, _>>()?)
}

fn text_of(word: &str) -> Answer<String> {
    Ok(String::from_utf8(octets_of(word)?)?)
}

fn key_of(alg: Algorithm, octets: &[u8]) -> Answer<DecodingKey> {
    Ok(match alg {
        Algorithm::HS256 | Algorithm::HS384 | Algorithm::HS512 => DecodingKey::from_secret(octets),
        Algorithm::ES256 | Algorithm::ES384 => DecodingKey::from_ec_pem(octets)?,
        Algorithm::EdDSA => DecodingKey::from_ed_pem(octets)?,
        _ => DecodingKey::from_rsa_pem(octets)?,
    })
}

/// Judges the token of a question. All algorithms that are allowed are of one family, or it refuses each token.
fn judge(fields: &[&str]) -> Answer<()> {
    let algs = fields[1].split(',').map(str::parse).collect::<Result<Vec<Algorithm>, _>>()?;
    let mut validation = Validation::new(algs[0]);
    validation.algorithms = algs.clone();
    validation.leeway = fields[7].parse()?;
    validation.validate_nbf = true;
    validation.required_spec_claims.clear();
    if fields[4] != "-" {
        validation.set_issuer(&[text_of(fields[4])?]);
    }
    if fields[5] != "-" {
        validation.set_audience(&[text_of(fields[5])?]);
    }
    let token = text_of(fields[8])?;
    let claims = decode::<Map<String, Value>>(&token, &key_of(algs[0], &octets_of(fields[3])?)?, &validation)?.claims;
    for word in fields[6].split(',').filter(|it| *it != "-") {
        claims.get(&text_of(word)?).ok_or("missing")?;
    }
    Ok(())
}

fn main() -> Answer<()> {
    let name = env::args().nth(1).ok_or("usage: asks_jsonwebtoken QUESTIONS")?;
    for line in fs::read_to_string(name)?.lines() {
        let fields: Vec<&str> = line.split('\t').collect();
        let said = if judge(&fields).is_ok() { "accepted" } else { "refused" };
        println!("{}\t{said}", fields[0]);
    }
    Ok(())
}
