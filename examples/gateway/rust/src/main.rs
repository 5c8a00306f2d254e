//! Lets requests through whose token is accepted: gateway ADDRESS POLICY KEYS
//!
//! ADDRESS is as 127.0.0.1:8080; POLICY and KEYS are files. What is behind the gateway answers the claims of the token. It speaks
//! as much of HTTP as this needs, by std alone: `decide` is what a service with a server of its own takes from here.

use fowharimu::{Claims, Error, Validator};
use std::io::{self, BufRead, BufReader, Read, Write};
use std::net::{TcpListener, TcpStream};
use std::sync::Arc;
use std::time::Duration;
use std::{env, error, fs, thread};

/// The most octets that the head of a request may have.
const MOST: u64 = 65_536;

/// What is done with a request.
enum Decision {
    /// It goes through, with the claims of its token.
    Through(Claims),
    /// It is answered 401 with this challenge (RFC 6750, section 3).
    Refused(&'static str),
    /// Nothing can be said of the token: it is answered 500.
    Failed,
}

/// Lets a request through where its token is accepted now.
fn decide(validator: &Validator, head: &[String]) -> Decision {
    let token = match bearer(head) {
        Some(token) => token,
        None => return Decision::Refused("Bearer realm=\"gateway\""),
    };
    match validator.validate(token.as_bytes()) {
        Ok(claims) => Decision::Through(claims),
        Err(Error::OutOfMemory | Error::NotUtf8) => Decision::Failed,
        Err(refusal) => {
            eprintln!("{refusal}");
            Decision::Refused("Bearer error=\"invalid_token\"")
        }
    }
}

/// The token of the one header Authorization, where its scheme is Bearer.
fn bearer(head: &[String]) -> Option<&str> {
    let mut values = head
        .iter()
        .skip(1)
        .filter_map(|line| line.split_once(':'))
        .filter(|(name, _)| name.eq_ignore_ascii_case("authorization"));
    let (_, value) = values.next()?;
    let (scheme, token) = value.trim_matches(&[' ', '\t'][..]).split_once(' ')?;
    let is_one = values.next().is_none() && scheme.eq_ignore_ascii_case("bearer");
    is_one.then(|| token.trim_start_matches(' '))
}

/// The lines of a request before its body.
fn read_head(stream: &TcpStream) -> io::Result<Vec<String>> {
    let mut lines = Vec::new();
    for line in BufReader::new(stream.take(MOST)).lines() {
        let line = line?;
        if line.is_empty() {
            return Ok(lines);
        }
        lines.push(line);
    }
    Err(io::ErrorKind::UnexpectedEof.into())
}

/// Reads a request, and answers it.
fn serve(validator: &Validator, mut stream: TcpStream) -> io::Result<()> {
    stream.set_read_timeout(Some(Duration::from_secs(10)))?;
    let head = read_head(&stream)?;
    let (status, more, body) = match decide(validator, &head) {
        Decision::Through(claims) => (
            "200 OK",
            "Content-Type: application/json".to_owned(),
            claims.json().to_owned(),
        ),
        Decision::Refused(challenge) => (
            "401 Unauthorized",
            format!("WWW-Authenticate: {challenge}"),
            "a token is needed\n".to_owned(),
        ),
        Decision::Failed => (
            "500 Internal Server Error",
            "Content-Type: text/plain".to_owned(),
            "nothing can be said of the token\n".to_owned(),
        ),
    };
    let length = body.len();
    write!(
        stream,
        "HTTP/1.1 {status}\r\n{more}\r\nContent-Length: {length}\r\nConnection: close\r\n\r\n{body}"
    )
}

fn main() -> Result<(), Box<dyn error::Error>> {
    let words: Vec<String> = env::args().skip(1).collect();
    let (address, policy, keys) = match words.as_slice() {
        [address, policy, keys] => (address, policy, keys),
        _ => return Err("usage: gateway ADDRESS POLICY KEYS".into()),
    };
    let validator = Arc::new(Validator::open(&fs::read(policy)?, &fs::read(keys)?)?);
    let listener = TcpListener::bind(address)?;
    println!("listening on {}", listener.local_addr()?);
    for stream in listener.incoming().flatten() {
        let validator = Arc::clone(&validator);
        thread::spawn(move || serve(&validator, stream));
    }
    Ok(())
}
