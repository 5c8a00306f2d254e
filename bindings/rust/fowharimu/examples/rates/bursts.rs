//! Bursts of calls by threads.

use std::time::{Duration, SystemTime, UNIX_EPOCH};
use std::{env, error, thread};

/// How long a thread waits between two bursts. A burst begins where the clock is a multiple of a burst and a pause: so threads and processes
/// begin together.
const PAUSE: Duration = Duration::from_millis(20);
const CALLS: u32 = 16;

/// RUSAGE_THREAD of Linux, and the place of ru_nivcsw among the words of a rusage.
const RUSAGE_THREAD: i32 = 1;
const SWITCHED_OUT: usize = 17;

extern "C" {
    fn getrusage(who: i32, usage: *mut [i64; 18]) -> i32;
}

/// What the program was called with.
pub struct Words {
    threads: usize,
    length: Duration,
    pub name: String,
    burst: Duration,
    pub remembers: bool,
}

/// The calls a second of a burst, by its number.
type Rate = (u128, f64);

impl Words {
    pub fn read() -> Result<Words, Box<dyn error::Error>> {
        let words: Vec<String> = env::args().skip(1).collect();
        if words.len() != 4 && !(words.len() == 5 && words[4] == "remember") {
            return Err("usage: rates THREADS SECONDS NAME BURST [remember]".into());
        }
        Ok(Words {
            threads: words[0].parse()?,
            length: Duration::from_secs_f64(words[1].parse()?),
            name: words[2].clone(),
            burst: Duration::from_secs_f64(words[3].parse()?),
            remembers: words.len() == 5,
        })
    }

    /// Prints how many calls a second so many threads made in a burst in which none of them was switched out or began late, the median of
    /// these bursts, and how many there were.
    pub fn print_rates(&self, call: impl Fn() + Sync) {
        let end = since_epoch() + self.length;
        let made: Vec<Vec<Rate>> = thread::scope(|scope| {
            let workers: Vec<_> = (0..self.threads)
                .map(|_| scope.spawn(|| judge(self.burst, end, &call)))
                .collect();
            workers
                .into_iter()
                .map(|it| it.join().expect("it ends"))
                .collect()
        });
        let mut rates: Vec<f64> = made[0]
            .iter()
            .filter_map(|&(n, _)| made.iter().map(|of_one| rate_at(of_one, n)).sum())
            .collect();
        rates.sort_by(f64::total_cmp);
        let median = rates.get(rates.len() / 2).copied().unwrap_or(0.0);
        println!("{median:.0} {}", rates.len());
    }
}

fn rate_at(rates: &[Rate], n: u128) -> Option<f64> {
    rates.iter().find(|it| it.0 == n).map(|it| it.1)
}

fn since_epoch() -> Duration {
    SystemTime::now()
        .duration_since(UNIX_EPOCH)
        .expect("the clock is set")
}

/// Calls in bursts until this moment. It gives the calls a second of each in which the thread wasn't disturbed.
fn judge(burst: Duration, end: Duration, call: &impl Fn()) -> Vec<Rate> {
    let period = (burst + PAUSE).as_nanos();
    let first = since_epoch().as_nanos() / period + 1;
    let mut rates = Vec::new();
    for n in first..end.as_nanos() / period {
        let start = Duration::from_nanos((n * period) as u64);
        thread::sleep(start.saturating_sub(since_epoch()));
        if let Some(rate) = rate_of(start, burst, call) {
            rates.push((n, rate));
        }
    }
    rates
}

/// The calls a second of a burst that begins at this moment; `None` where the thread was disturbed.
fn rate_of(start: Duration, burst: Duration, call: &impl Fn()) -> Option<f64> {
    let (before, began) = (switched_out(), since_epoch());
    let is_late = began.saturating_sub(start) > burst / 8;
    let mut calls = 0;
    while since_epoch() < start + burst {
        for _ in 0..CALLS {
            call();
        }
        calls += CALLS;
    }
    let length = (since_epoch() - began).as_secs_f64();
    (!is_late && switched_out() == before).then(|| f64::from(calls) / length)
}

fn switched_out() -> i64 {
    let mut usage = [0; 18];
    // SAFETY: a rusage has so many words.
    unsafe { getrusage(RUSAGE_THREAD, &mut usage) };
    usage[SWITCHED_OUT]
}
