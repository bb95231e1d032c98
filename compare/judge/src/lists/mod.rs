//! The fixed lists.

pub mod cards;
pub mod cones;
pub mod editions;
mod grouped;
pub mod kernels;
mod large_norms;
pub mod logs;
pub mod roots;
pub mod runs;

use std::path::Path;

/// Writes every list as the standard input of the program that replays it, a crate in `crates`, and
/// prints what each holds. Of the cards, the answers are the program's standard output.
pub fn make(seed: u64, crates: &Path) -> std::io::Result<()> {
    roots::make(seed, &crates.join("replay_roots/stdin"))?;
    kernels::make(seed, &crates.join("replay_kernels/stdin"))?;
    cones::make(seed, &crates.join("replay_cones/stdin"))?;
    runs::make(seed, &crates.join("replay_runs/stdin"))?;
    logs::make(seed, &crates.join("replay_logs/stdin"))?;
    editions::make(seed, &crates.join("replay_editions/stdin"))?;
    cards::make(seed, &crates.join("replay_cards"), &crates.join("../cards"))
}
