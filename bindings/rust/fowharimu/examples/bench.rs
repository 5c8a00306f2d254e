//! Prints the least time of a call, in microseconds, on a token by HMAC and one by RS256: bench HMAC RSA [URL]
//!
//! Keys by URL are read from the file of the keys: what is measured begins when they are there.

use fowharimu::request::bearer_token;
use fowharimu::{Error, Get, Remote, Validator};
use std::time::{Duration, Instant};
use std::{env, error, fs, io};

const ROUNDS: u32 = 400;
const NOW: i64 = 1_300_819_379;
const URL: &str = "https://issuer.example/keys";

fn main() -> Result<(), Box<dyn error::Error>> {
    let words: Vec<String> = env::args().skip(1).collect();
    let (hmac, rsa) = match words.as_slice() {
        [hmac, rsa, ..] => (hmac, rsa),
        _ => return Err("usage: bench HMAC RSA [URL]".into()),
    };
    let token = read(hmac, "jwt")?;
    let by = open(hmac)?;
    measure("HS256 claims", 200, || {
        by.validate_at(&token, NOW).map(drop)
    })?;
    let by = open(hmac)?.remembering(10, 4_096);
    measure("HS256 claims, remembered", 200, || {
        by.validate_at(&token, NOW).map(drop)
    })?;
    let (token, policy, keys) = (read(rsa, "jwt")?, read(rsa, "policy")?, read(rsa, "keys")?);
    let by = open(rsa)?;
    measure("RS256 claims", 20, || by.validate_at(&token, NOW).map(drop))?;
    let by = open(rsa)?.remembering(10, 4_096);
    measure("RS256 claims, remembered", 200, || {
        by.validate_at(&token, NOW).map(drop)
    })?;
    let client = move |get: &Get<'_>| Ok(get.answer(200, None, keys.as_slice())?);
    let remote = Remote::by(client).remembering(10, 4_096);
    let by = remote.open(&policy, URL)?;
    measure("RS256 claims, remembered, keys by URL", 200, || {
        by.validate_at(&token, NOW).map(drop)
    })?;
    let value = [b"Bearer ", token.as_slice()].concat();
    measure("Authorization", 200, || {
        assert!(bearer_token(&value).is_ok());
        Ok(())
    })?;
    Ok(())
}

/// Prints the least time of this call, taken over so many of them.
fn measure(
    label: &str,
    calls: u32,
    mut call: impl FnMut() -> Result<(), Error>,
) -> Result<(), Error> {
    let mut least = Duration::MAX;
    for _ in 0..ROUNDS {
        let begun = Instant::now();
        for _ in 0..calls {
            call()?;
        }
        least = least.min(begun.elapsed());
    }
    let each = least.as_secs_f64() * 1e6 / f64::from(calls);
    println!("{label} {each:.3}");
    Ok(())
}

fn open(name: &str) -> Result<Validator, Box<dyn error::Error>> {
    Ok(Validator::open(
        &read(name, "policy")?,
        &read(name, "keys")?,
    )?)
}

fn read(name: &str, end: &str) -> io::Result<Vec<u8>> {
    fs::read(format!("{name}.{end}"))
}
