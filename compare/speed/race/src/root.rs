//! The root beside the machine's own, and how often its guess misses.

use std::hint::black_box;
use std::time::Instant;

use judge::random::Random;

use crate::library::{Guess, Library, Root};

const NUMBERS: usize = 1 << 16;
const GUESSES: u64 = 100_000_000;

unsafe extern "C" fn hardware(x: f64) -> f64 {
    x.sqrt()
}

/// Nanoseconds a call, each argument resting on the last result.
fn latency(root: Root, numbers: &[f64]) -> f64 {
    let start = Instant::now();
    let mut last = 0.0;
    for x in numbers {
        last = unsafe { root(x + last * 0.0) };
    }
    black_box(last);
    start.elapsed().as_secs_f64() * 1e9 / numbers.len() as f64
}

/// The same, no call resting on another.
fn throughput(root: Root, numbers: &[f64]) -> f64 {
    let start = Instant::now();
    let mut sum = 0.0;
    for x in numbers {
        sum += unsafe { root(*x) };
    }
    black_box(sum);
    start.elapsed().as_secs_f64() * 1e9 / numbers.len() as f64
}

/// Of uniformly drawn normal patterns, those at which the guess is not the root.
fn misses(guess: Guess) -> u64 {
    let mut random = Random::new(1);
    let mut missed = 0;
    let mut drawn = 0;
    while drawn < GUESSES {
        let bits = random.word() >> 1;
        let x = f64::from_bits(bits);
        if !x.is_normal() {
            continue;
        }
        drawn += 1;
        let places = (bits >> 52) + 1073;
        missed += (unsafe { guess(x, bits, places / 2 - 26) } != x.sqrt()) as u64;
    }
    missed
}

/// Prints the table, and answers how many roots differ from the machine's.
pub fn race(libraries: &[Library], seconds: f64) -> usize {
    let mut random = Random::new(2);
    let numbers: Vec<f64> = (0..NUMBERS)
        .map(|_| f64::from_bits(random.word() >> 12 | (983 + random.word() % 80) << 52))
        .collect();
    let roots: Vec<Root> = std::iter::once(hardware as Root).chain(libraries.iter().map(|l| l.root)).collect();
    let mut best = vec![(f64::MAX, f64::MAX); roots.len()];
    let begun = Instant::now();
    while begun.elapsed().as_secs_f64() < seconds {
        for (root, best) in roots.iter().zip(&mut best) {
            let black = black_box(*root);
            *best = (best.0.min(latency(black, &numbers)), best.1.min(throughput(black, &numbers)));
        }
    }
    let mut differing = 0;
    println!("\n| root | ns in a chain | ns apart | misses of {GUESSES} guesses | bits |\n|---|---|---|---|---|");
    println!("| the machine's | {:.1} | {:.1} |  |  |", best[0].0, best[0].1);
    for (i, library) in libraries.iter().enumerate() {
        let unlike = numbers.iter().filter(|x| unsafe { (library.root)(**x) } != x.sqrt()).count();
        let bits = if unlike == 0 { "same bits".to_string() } else { format!("{unlike} ROOTS DIFFER") };
        println!("| {} | {:.1} | {:.1} | {} | {bits} |", i + 1, best[i + 1].0, best[i + 1].1, misses(library.guess));
        differing += unlike;
    }
    differing
}
