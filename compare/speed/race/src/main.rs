//! race SECONDS COUNT LIBRARY.. [PROBLEM..]: the original and each of COUNT libraries, turn by turn. See ../measure.

mod library;
mod problems;
mod root;
mod stack;

use std::time::Instant;

use judge::cone_list::work_len;

use library::Library;
use problems::Case;

const STEPS: u64 = 200;
const FEWEST: usize = 20;

/// Microseconds a step, the best of all runs; and the places that differed.
struct Raced {
    original: f64,
    ours: Vec<Option<f64>>,
    differing: usize,
}

fn same(x: f64, y: f64) -> bool {
    x.to_bits() == y.to_bits() || x.is_nan() && y.is_nan()
}

fn unlike(x: &[f64], y: &[f64]) -> usize {
    x.len().abs_diff(y.len()) + x.iter().zip(y).filter(|(x, y)| !same(**x, **y)).count()
}

fn race(case: &Case, libraries: &[Library], seconds: f64) -> Raced {
    let p = case.problem(STEPS);
    let mut original = f64::MAX;
    let mut ours = vec![None; libraries.len()];
    let mut differing = 0;
    let begun = Instant::now();
    let mut runs = 0;
    while runs < FEWEST || begun.elapsed().as_secs_f64() < seconds {
        let start = Instant::now();
        let theirs = p.original();
        original = start.elapsed().as_secs_f64().min(original);
        for (library, best) in libraries.iter().zip(&mut ours) {
            let Some(solve) = library.solve(case) else { continue };
            let mut work = vec![0.0; 6 * case.n + 10 * case.m + 6];
            let mut cone_work = vec![0.0; work_len(&p.blocks)];
            let start = Instant::now();
            let steps = solve(STEPS, &p, &mut work, &mut cone_work);
            let took = start.elapsed().as_secs_f64();
            *best = Some(best.map_or(took, |b: f64| b.min(took)));
            differing += unlike(&theirs.work, &work) + unlike(&theirs.cone_work, &cone_work);
            differing += (steps != theirs.progress.steps) as usize;
        }
        runs += 1;
    }
    let a_step = |t: f64| t * 1e6 / STEPS as f64;
    Raced { original: a_step(original), ours: ours.into_iter().map(|t| t.map(a_step)).collect(), differing }
}

fn cell(ours: Option<f64>, original: f64) -> String {
    ours.map_or("|  |  ".into(), |t| format!("| {t:.2} | {:.3} ", t / original))
}

fn main() {
    let args: Vec<String> = std::env::args().skip(1).collect();
    let seconds: f64 = args[0].parse().expect("SECONDS");
    let count: usize = args[1].parse().expect("COUNT");
    let libraries: Vec<Library> = args[2..2 + count].iter().map(|path| Library::load(path)).collect();
    let asked = &args[2 + count..];
    let cases: Vec<Case> = if asked.is_empty() { problems::all() } else { asked.iter().map(|word| Case::read(word)).collect() };

    let numbered: String = (1..=count).map(|i| format!("| {i} | ratio ")).collect();
    println!("\n| µs a step | original {numbered}| bits |\n|---|---{}|---|", "|---|---".repeat(count));
    let mut differing = 0;
    for case in &cases {
        let raced = race(case, &libraries, seconds);
        let cells: String = raced.ours.iter().map(|t| cell(*t, raced.original)).collect();
        let bits = if raced.differing == 0 { "same bits".to_string() } else { format!("{} PLACES DIFFER", raced.differing) };
        println!("| {} | {:.2} {cells}| {bits} |", case.name(), raced.original);
        differing += raced.differing;
    }
    if asked.is_empty() {
        differing += root::race(&libraries, seconds);
        stack::count(&libraries);
    }
    if differing > 0 {
        std::process::exit(1);
    }
}
