//! The seeds of a run: every random test runs with a fixed one, so that nothing gets lost from one
//! run to the next, and with a fresh one.

use std::collections::hash_map::RandomState;
use std::env;
use std::hash::{BuildHasher, Hasher};
use std::io::{self, Write};
use std::panic::resume_unwind;
use std::sync::OnceLock;
use std::thread;

use reference::rng::Rng;

const FIXED: u64 = 1;

/// What a test gives with each of the two seeds, at the same time.
pub fn with_both_seeds<T: Send>(test: impl Fn(Rng) -> T + Sync) -> [T; 2] {
    let test = &test;
    thread::scope(|scope| {
        let threads =
            [FIXED, fresh()].map(|seed| (seed, scope.spawn(move || test(Rng::new(seed)))));
        threads.map(|(seed, thread)| {
            thread.join().unwrap_or_else(|panic| {
                say(format!("failed with seed {seed}\n"));
                resume_unwind(panic)
            })
        })
    })
}

/// One for all tests of this run, or the one that `RX_SEED` gives.
fn fresh() -> u64 {
    static SEED: OnceLock<u64> = OnceLock::new();
    *SEED.get_or_init(|| {
        let seed = match env::var("RX_SEED") {
            Ok(given) => given.parse().expect("RX_SEED is a decimal number of 64 bits"),
            Err(_) => RandomState::new().build_hasher().finish(),
        };
        say(format!("RX_SEED={seed}\n"));
        seed
    })
}

/// Past the test harness, which would keep it back and lose it in a crash; in one piece.
fn say(line: String) {
    io::stderr().write_all(line.as_bytes()).expect("standard error can be written");
}
