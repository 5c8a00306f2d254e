//! Prints how many calls a second so many threads make of jsonwebtoken: rates THREADS SECONDS NAME BURST
//!
//! NAME ends with the algorithm. NAME.key is the secret of a token by HS256, NAME.pem the public key of any other. `bench/rates` puts the bursts of the crate's own example
//! beside it.

mod bursts;

use jsonwebtoken::{decode, Algorithm, DecodingKey, Validation};
use std::collections::HashMap;
use std::{error, fs};

fn main() -> Result<(), Box<dyn error::Error>> {
    let words = bursts::Words::read()?;
    let (key, algorithm) = key_of(&words.name)?;
    let validation = validation(algorithm);
    let token = fs::read_to_string(format!("{}.jwt", words.name))?;
    words.print_rates(|| {
        decode::<HashMap<String, serde_json::Value>>(token.trim(), &key, &validation).expect("it is accepted");
    });
    Ok(())
}

/// The key of this name, and its algorithm.
fn key_of(name: &str) -> Result<(DecodingKey, Algorithm), Box<dyn error::Error>> {
    let pem = || fs::read(format!("{name}.pem"));
    Ok(match name.rsplit('/').next() {
        Some("HS256") => (DecodingKey::from_secret(&fs::read(format!("{name}.key"))?), Algorithm::HS256),
        Some("ES256") => (DecodingKey::from_ec_pem(&pem()?)?, Algorithm::ES256),
        Some("ES384") => (DecodingKey::from_ec_pem(&pem()?)?, Algorithm::ES384),
        Some("Ed25519") => (DecodingKey::from_ed_pem(&pem()?)?, Algorithm::EdDSA),
        _ => (DecodingKey::from_rsa_pem(&pem()?)?, Algorithm::RS256),
    })
}

/// The issuer is asked for. The end isn't looked at, since the moment can't be set, and the tokens of the RFC ended in 2011.
fn validation(algorithm: Algorithm) -> Validation {
    let mut validation = Validation::new(algorithm);
    validation.set_issuer(&["joe"]);
    validation.validate_exp = false;
    validation
}
