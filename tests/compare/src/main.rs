//! The proved library, over pipes, against document 01 in ordinary Rust: every call is made on both, and
//! every answer, all that it carries and every byte of the book is compared.
//!
//! `compare gate WORDS..` runs all checks once with a fixed seed, on a driver for each processor, and `compare
//! long SECONDS SEED WORDS..` goes on for as long as one likes. The words run the driver.
#![forbid(unsafe_code)]

mod checks;
mod drawn;
mod edges;
mod entries;
mod linked;
mod pipe;

use checks::{Check, Pair, COUNTED, DRAWN};
use linked::{Linked, ANSWERS, CARRIED};
use reference::testing::both::Both;
use reference::testing::random::Random;
use reference::Reference;
use std::sync::atomic::{AtomicUsize, Ordering};
use std::time::{Duration, Instant};

/// The seed of the gate.
const SEED: u64 = 2026;

/// How large a round of the gate is, and a round of the long run.
const GATE: usize = 8;
const ROUND: usize = 1;

fn main() {
    let words: Vec<String> = std::env::args().skip(1).collect();
    match words.iter().map(String::as_str).collect::<Vec<_>>()[..] {
        ["gate", _, ..] => gate(&words[1..]),
        ["long", seconds, seed, _, ..] => {
            let seconds = seconds.parse().expect("how many seconds");
            long(seconds, seed.parse().expect("a seed"), &words[3..]);
        }
        _ => panic!("compare gate WORDS.. | compare long SECONDS SEED WORDS.."),
    }
}

fn pair(words: &[String]) -> Pair {
    Both {
        first: Linked::start(words),
        second: Reference,
    }
}

/// Says which check it was and with which seed, where one panics.
struct Running {
    name: &'static str,
    seed: u64,
}

impl Drop for Running {
    fn drop(&mut self) {
        if std::thread::panicking() {
            eprintln!("compare: {} failed, seed {}", self.name, self.seed);
        }
    }
}

fn run(pair: &mut Pair, (name, check): &Check, seed: u64, scale: usize) {
    let _running = Running { name, seed };
    check(pair, seed, scale);
}

/// How many drivers work beside each other: one for each processor, or COMPARE_DRIVERS.
fn drivers() -> usize {
    let wanted = std::env::var("COMPARE_DRIVERS").ok();
    let wanted = wanted.map(|wanted| wanted.parse().expect("how many drivers"));
    wanted.unwrap_or_else(|| std::thread::available_parallelism().map_or(1, usize::from))
}

/// Where a check panics, no other goes on.
struct Together;

impl Drop for Together {
    fn drop(&mut self) {
        if std::thread::panicking() {
            std::process::exit(101);
        }
    }
}

/// A word, where those checks alone are to run that have it in their name: COMPARE_CHECKS.
fn wanted() -> Option<String> {
    std::env::var("COMPARE_CHECKS").ok()
}

/// The checks that are to run.
fn checks() -> Vec<&'static Check> {
    let word = wanted().unwrap_or_default();
    let checks = COUNTED.iter().chain(&DRAWN);
    let checks: Vec<_> = checks.filter(|check| check.0.contains(&word)).collect();
    assert!(!checks.is_empty(), "no check has {word:?} in its name");
    checks
}

/// Runs the next check that no other driver has taken, until none is left. Gives what the driver's calls gave.
fn work(words: &[String], next: &AtomicUsize) -> Linked {
    let _together = Together;
    let mut pair = pair(words);
    let checks = checks();
    while let Some(check) = checks.get(next.fetch_add(1, Ordering::Relaxed)) {
        let (calls, from) = (pair.first.calls(), Instant::now());
        run(&mut pair, check, SEED, GATE);
        if std::env::var_os("COMPARE_TIMES").is_some() {
            let (calls, took) = (pair.first.calls() - calls, from.elapsed().as_millis());
            println!("{took:>8} ms {calls:>8} calls  {}", check.0);
        }
    }
    pair.first.end();
    pair.first
}

/// All checks once, or those that are wanted. Where all ran, every call has to have given every answer that it can, or
/// too little was compared.
fn gate(words: &[String]) {
    let began = Instant::now();
    let next = AtomicUsize::new(0);
    let all: Vec<Linked> = std::thread::scope(|scope| {
        let working: Vec<_> = (0..drivers())
            .map(|_| scope.spawn(|| work(words, &next)))
            .collect();
        let ended = working.into_iter().map(|one| one.join());
        ended
            .map(|linked| linked.expect("a driver's work"))
            .collect()
    });
    if wanted().is_none() {
        all_given(&all);
    }
    let calls: u64 = all.iter().map(Linked::calls).sum();
    let seconds = began.elapsed().as_secs();
    println!("compare: {calls} calls, no difference ({seconds} s)");
}

/// Every call gave every answer that it can, and each thing was carried.
fn all_given(all: &[Linked]) {
    for (call, answers) in ANSWERS {
        let count = |answer: u8| -> u64 {
            let counts = all.iter().map(|linked| linked.counts[call as usize]);
            counts.map(|counts| counts[usize::from(answer)]).sum()
        };
        for answer in answers {
            assert!(count(*answer) > 0, "{call:?} never gave {answer}");
        }
    }
    for (place, what) in CARRIED.iter().enumerate() {
        let seen = all.iter().any(|linked| linked.carried[place] > 0);
        assert!(seen, "not carried: {what}");
    }
}

/// Rounds of the drawn checks until the time is over. Each round has a seed of its own, which starts a run
/// with that round.
fn long(seconds: u64, mut seed: u64, words: &[String]) {
    println!("compare: seed {seed}, {seconds} s");
    let end = Instant::now() + Duration::from_secs(seconds);
    let mut pair = pair(words);
    for check in &COUNTED {
        run(&mut pair, check, seed, ROUND);
    }
    for round in 1.. {
        for check in &DRAWN {
            run(&mut pair, check, seed, ROUND);
        }
        let left = end.saturating_duration_since(Instant::now()).as_secs();
        let calls = pair.first.calls();
        println!(
            "compare: round {round}, seed {seed}: {calls} calls, no difference, {left} s to go"
        );
        if left == 0 {
            break;
        }
        seed = Random::new(seed).bits() >> 1;
    }
    pair.first.end();
    summary(&pair.first);
}

/// How often each call gave each answer.
fn summary(linked: &Linked) {
    for (call, answers) in ANSWERS {
        let counts = linked.counts[call as usize];
        let row = answers
            .iter()
            .map(|&answer| format!("{answer}: {}", counts[usize::from(answer)]));
        println!("  {call:?}: {}", row.collect::<Vec<_>>().join(", "));
    }
    let carried = CARRIED.iter().zip(linked.carried);
    let carried = carried.map(|(what, count)| format!("{what}: {count}"));
    println!("  {}", carried.collect::<Vec<_>>().join(", "));
}
