//! Whole problems drawn from a seed, and how they end.

use std::collections::BTreeMap;

use crate::families::{small, FAMILIES};
use crate::problem::Ending;
use crate::random::Random;
use crate::words::words;

fn ending_name(ending: &Ending) -> &'static str {
    match ending {
        Ending::ExcessIter(_) => "ExcessIter, scaled",
        Ending::ExcessIterUnscaled(_) => "ExcessIter, unscaled",
        other => other.name(),
    }
}

/// Draws `count` problems and prints how they end. A run that no sweep limit cut off is made
/// again over plain f64: the watched numbers must have changed nothing.
pub fn survey(seed: u64, count: usize) {
    let mut random = Random::new(seed);
    let mut endings: BTreeMap<&str, usize> = BTreeMap::new();
    let (mut below_zero, mut large_norms) = (0, 0);
    let (mut stopped, mut steps, mut rotations, mut zeros, mut unlike) = (0, 0, 0, 0, 0);
    for i in 0..count {
        let drawn = small(&mut random, FAMILIES[i % FAMILIES.len()]);
        below_zero += usize::from(drawn.is_below_zero());
        let p = drawn.raised().problem();
        stopped += usize::from(p.stops());
        let answer = p.solve();
        *endings.entry(ending_name(&answer.ending)).or_default() += 1;
        steps += answer.k;
        rotations += answer.q;
        zeros += usize::from(answer.unlike_zeros > 0);
        large_norms += usize::from(answer.large_norms > 0);
        if answer.has_plain_form() {
            let plain = p.plain_form(&answer);
            let same = plain.progress.steps == answer.k
                && words(&plain.work) == words(&answer.work)
                && words(&plain.cone_work) == words(&answer.cone_work);
            if !same {
                unlike += 1;
                println!("problem {i}: watched and plain runs differ");
            }
        }
    }
    println!("seed {seed}: {count} drawn");
    for (name, number) in &endings {
        println!("  {number:6} {name}");
    }
    println!("{below_zero} with a tolerance below zero, which is refused, had with -0 for it");
    println!("{stopped} runs on whose empty matrix the original stops, had with the rule's sums");
    println!("{steps} steps, {rotations} rotations");
    println!("{zeros} runs with a larger or smaller of -0 and +0");
    println!("{large_norms} runs with a norm whose plain sum is infinite, of finite numbers");
    println!("{unlike} runs whose watched and plain forms differ");
}
