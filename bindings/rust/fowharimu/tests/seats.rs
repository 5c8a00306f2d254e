//! The seats of a validator. This stands by itself, so that no other test's threads are numbered beside its own.

use fowharimu::Validator;
use std::fs;
use std::path::Path;
use std::thread;

const NOW: i64 = 1_300_819_379;

#[test]
fn a_thread_comes_back_to_the_memory_that_it_had_last() {
    let name = Path::new(env!("CARGO_MANIFEST_DIR")).join("../../../examples/rfc7515-a1.jwt");
    let read = |end| fs::read(name.with_extension(end)).unwrap();
    let token = read("jwt");
    let validator = Validator::open(&read("policy"), &read("keys"))
        .unwrap()
        .remembering(10, 4096);
    let is_remembered = || validator.validate_at(&token, NOW).unwrap().remembered();
    assert!(!is_remembered());
    thread::scope(|threads| {
        let other = threads.spawn(|| [is_remembered(), is_remembered()]);
        assert_eq!(other.join().unwrap(), [false, true]);
    });
    assert!(is_remembered());
}
