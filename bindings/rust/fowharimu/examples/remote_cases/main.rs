//! Opens keys by URL, and several issuers, and judges by them as tests/remote/run and tests/issuers/run say, a command a line. Keys are fetched by `curl`.

mod curl;

use curl::Curl;
use fowharimu::{Claims, Error, Issuers, Remote, RemoteKeys, Validator};
use std::fs;
use std::io::{self, BufRead};
use std::sync::atomic::{AtomicBool, AtomicU64, Ordering};
use std::sync::Arc;
use std::thread::{self, JoinHandle};
use std::time::{Duration, Instant};

type Failure = Box<dyn std::error::Error>;

/// What judges.
enum Held {
    Nothing,
    Keys(Arc<RemoteKeys>),
    Issuers(Issuers),
}

/// Threads that validate one token until they are told to rest.
#[derive(Default)]
struct Load {
    counts: Arc<Counts>,
    threads: Vec<JoinHandle<()>>,
}

#[derive(Default)]
struct Counts {
    judged: AtomicU64,
    wrong: AtomicU64,
    is_over: AtomicBool,
}

impl Load {
    fn begin(keys: &Arc<RemoteKeys>, token: &[u8], now: i64, count: usize) -> Load {
        let mut load = Load::default();
        for _ in 0..count {
            let (keys, token, counts) = (Arc::clone(keys), token.to_owned(), load.counts.clone());
            load.threads.push(thread::spawn(move || {
                while !counts.is_over.load(Ordering::SeqCst) {
                    if keys.validate_at(&token, now).is_err() {
                        counts.wrong.fetch_add(1, Ordering::SeqCst);
                    }
                    counts.judged.fetch_add(1, Ordering::SeqCst);
                }
            }));
        }
        load
    }

    fn rest(self) -> String {
        self.counts.is_over.store(true, Ordering::SeqCst);
        for it in self.threads {
            it.join().expect("a thread that validates doesn't panic");
        }
        let of = |count: &AtomicU64| count.load(Ordering::SeqCst);
        format!("{} {}", of(&self.counts.judged), of(&self.counts.wrong))
    }
}

/// What the lines are told to.
struct Driver {
    held: Held,
    load: Load,
}

impl Driver {
    fn answer(&mut self, words: &[&str]) -> Result<String, Failure> {
        match (words[0], &self.held) {
            ("open" | "discover", _) => self.open(words),
            ("issuers", _) => self.open_issuers(&words[1..]),
            ("close", _) => {
                self.held = Held::Nothing;
                Ok("closed".to_owned())
            }
            (_, Held::Nothing) => Ok("Closed".to_owned()),
            (_, Held::Issuers(issuers)) => Ok(said(
                issuers.validate_at(&fs::read(words[1])?, words[2].parse()?),
            )),
            ("validate", Held::Keys(keys)) => Ok(said(
                keys.validate_at(&fs::read(words[1])?, words[2].parse()?),
            )),
            ("crowd", Held::Keys(keys)) => {
                crowd(keys, &fs::read_to_string(words[1])?, words[2].parse()?)
            }
            ("load", Held::Keys(keys)) => {
                let (now, count) = (words[2].parse()?, words[3].parse()?);
                self.load = Load::begin(keys, &fs::read(words[1])?, now, count);
                Ok("loading".to_owned())
            }
            ("rest", _) => Ok(std::mem::take(&mut self.load).rest()),
            (_, Held::Keys(keys)) => Ok(keys.refresh().is_ok().to_string()),
        }
    }

    fn open(&mut self, words: &[&str]) -> Result<String, Failure> {
        let [how, policy, url, cool_down, refresh_after, max_age, timeout, authority, http] =
            <[&str; 9]>::try_from(words)?;
        let milliseconds = |word: &str| word.parse().map(Duration::from_millis);
        let authorities = Some(authority.to_owned()).filter(|it| it != "-");
        let mut remote = Remote::by(Curl { authorities })
            .cool_down(milliseconds(cool_down)?)
            .refresh_after(milliseconds(refresh_after)?)
            .max_age(milliseconds(max_age)?)
            .timeout(milliseconds(timeout)?);
        if http == "1" {
            remote = remote.allow_http();
        }
        let policy = fs::read(policy)?;
        let opened = if how == "open" {
            remote.open(&policy, url)
        } else {
            remote.discover(&policy, url)
        };
        Ok(match opened {
            Ok(keys) => {
                self.held = Held::Keys(Arc::new(keys));
                "opened".to_owned()
            }
            Err(Error::KeysUnavailable { .. }) => "unavailable".to_owned(),
            Err(Error::Policy { .. }) => "policy".to_owned(),
            Err(Error::Url | Error::PolicyByUrl) => "misused".to_owned(),
            Err(error) => error.to_string(),
        })
    }

    fn open_issuers(&mut self, words: &[&str]) -> Result<String, Failure> {
        let mut all = Vec::new();
        for it in words.chunks_exact(3) {
            let validator = Validator::open(&fs::read(it[1])?, &fs::read(it[2])?)?;
            all.push((it[0].to_owned(), validator));
        }
        Ok(match Issuers::new(all) {
            Ok(issuers) => {
                self.held = Held::Issuers(issuers);
                "opened".to_owned()
            }
            Err(_) => "misused".to_owned(),
        })
    }
}

/// How many of these tokens, one a line, are answered at once, and how many later, where all are judged at the same time.
fn crowd(keys: &RemoteKeys, tokens: &str, now: i64) -> Result<String, Failure> {
    let begun = Instant::now();
    let late = AtomicU64::new(0);
    let tokens: Vec<&str> = tokens.lines().collect();
    thread::scope(|scope| {
        for token in &tokens {
            scope.spawn(|| {
                // (whatever becomes of it)
                let _ = keys.validate_at(token.as_bytes(), now);
                if begun.elapsed() >= Duration::from_millis(1_200) {
                    late.fetch_add(1, Ordering::SeqCst);
                }
            });
        }
    });
    let late = late.into_inner();
    Ok(format!("{} {late}", tokens.len() as u64 - late))
}

/// `accepted`, or the name of the fault.
fn said(claims: Result<Claims, Error>) -> String {
    match claims {
        Ok(_) => "accepted".to_owned(),
        Err(Error::TooLong) => "TooLong".to_owned(),
        Err(Error::KeysTooOld) => "KeysTooOld".to_owned(),
        Err(
            Error::Form { fault, .. }
            | Error::Signature { fault, .. }
            | Error::Ceiling { fault, .. }
            | Error::Claims { fault, .. },
        ) => fault,
        Err(error) => error.to_string(),
    }
}

fn main() -> Result<(), Failure> {
    let mut driver = Driver {
        held: Held::Nothing,
        load: Load::default(),
    };
    for line in io::stdin().lock().lines() {
        let line = line?;
        let words: Vec<&str> = line.split('\t').collect();
        println!("{}", driver.answer(&words)?);
    }
    Ok(())
}
