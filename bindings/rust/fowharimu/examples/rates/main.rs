//! Prints how many calls a second so many threads make on one validator: rates THREADS SECONDS NAME BURST [remember]

mod bursts;

use fowharimu::Validator;
use std::{error, fs};

const NOW: i64 = 1_300_819_379;

fn main() -> Result<(), Box<dyn error::Error>> {
    let words = bursts::Words::read()?;
    let name = &words.name;
    let policy = fs::read(format!("{name}.policy"))?;
    let validator = Validator::open(&policy, &fs::read(format!("{name}.keys"))?)?;
    let validator = validator.remembering(if words.remembers { 100 } else { 0 }, 4096);
    let token = fs::read(format!("{name}.jwt"))?;
    words.print_rates(|| {
        validator.validate_at(&token, NOW).expect("it is accepted");
    });
    Ok(())
}
