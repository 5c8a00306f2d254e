//! Exchanges key sets while threads judge: `renew POLICY TOKEN NOW KEYS KEYS ..`, where each key set has the token's key.
//!
//! Who has keys at a URL fetches them by a client of its own, as docs/REMOTE-KEYS.md says, and does here what it does with the octets: a new set is a new
//! validator. A call that is under way ends by the old one, which is freed then. No token is judged by a mixture.

use fowharimu::{Claims, Error, Validator};
use std::env;
use std::fs;
use std::sync::atomic::{AtomicBool, AtomicU64, Ordering};
use std::sync::{Arc, PoisonError, RwLock};
use std::thread;

const THREADS: usize = 8;
const ROUNDS: usize = 100;

/// A policy, and the key set that is in use.
struct Keys {
    policy: Vec<u8>,
    current: RwLock<Arc<Validator>>,
}

impl Keys {
    /// Begins by a key set.
    fn open(policy: Vec<u8>, keys: &[u8]) -> Result<Keys, Error> {
        let validator = Validator::open(&policy, keys)?;
        Ok(Keys {
            policy,
            current: RwLock::new(Arc::new(validator)),
        })
    }

    /// Takes a new key set, and says whether it did: where it is refused, or has a secret in it, the old one stays.
    fn exchange(&self, keys: &[u8]) -> bool {
        match Validator::open(&self.policy, keys) {
            Ok(newer) if newer.is_public() => {
                let mut current = self.current.write().unwrap_or_else(PoisonError::into_inner);
                *current = Arc::new(newer);
                true
            }
            _ => false,
        }
    }

    /// The claims of a token that is accepted by the key set that is in use when this begins.
    fn validate_at(&self, token: &[u8], now: i64) -> Result<Claims, Error> {
        let current = self
            .current
            .read()
            .unwrap_or_else(PoisonError::into_inner)
            .clone();
        current.validate_at(token, now)
    }
}

fn main() -> Result<(), Box<dyn std::error::Error>> {
    let words: Vec<String> = env::args().skip(1).collect();
    let (policy, token, now) = (
        fs::read(&words[0])?,
        fs::read(&words[1])?,
        words[2].parse()?,
    );
    let sets: Vec<Vec<u8>> = words[3..].iter().map(fs::read).collect::<Result<_, _>>()?;
    let keys = Keys::open(policy, &sets[0])?;
    let (is_over, judged, refused) = (AtomicBool::new(false), AtomicU64::new(0), AtomicU64::new(0));
    thread::scope(|scope| {
        for _ in 0..THREADS {
            scope.spawn(|| {
                while !is_over.load(Ordering::SeqCst) {
                    let count = if keys.validate_at(&token, now).is_ok() {
                        &judged
                    } else {
                        &refused
                    };
                    count.fetch_add(1, Ordering::SeqCst);
                }
            });
        }
        for round in 0..ROUNDS {
            assert!(keys.exchange(&sets[round % sets.len()]));
            assert!(!keys.exchange(b"{}"));
            assert!(!keys.exchange(br#"{"keys":[{"kty":"oct","k":"AAAA"}]}"#));
        }
        is_over.store(true, Ordering::SeqCst);
    });
    println!(
        "{} judged, {} refused",
        judged.into_inner(),
        refused.load(Ordering::SeqCst)
    );
    assert_eq!(refused.into_inner(), 0);
    Ok(())
}
