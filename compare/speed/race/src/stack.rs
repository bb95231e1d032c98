//! How much stack a run takes, with all that it calls.

use std::thread;

use judge::cone_list::work_len;

use crate::library::Library;
use crate::problems::Case;

const CASES: &str = "dense:1:1 dense:1024:1024 packed:1024 psd:2:990 split:1024:1024";
const STEPS: u64 = 2;

/// Of a thread's stack so much is filled with a pattern before the run, but for what lies next to the frame that fills it.
const FILLED: usize = 1 << 20;
const NEXT: usize = 1024;
const PATTERN: u8 = 0xa5;

/// The bytes from here to the last one that no longer holds the pattern after the run.
#[inline(never)]
fn touched(run: &mut dyn FnMut()) -> usize {
    let here = 0u8;
    let here = std::hint::black_box(&here) as *const u8 as usize;
    let filled = here - FILLED..here - NEXT;
    for at in filled.clone() {
        unsafe { (at as *mut u8).write_volatile(PATTERN) };
    }
    run();
    let mut filled = filled;
    let last = filled.find(|at| unsafe { (*at as *const u8).read_volatile() } != PATTERN);
    last.map_or(0, |at| here - at)
}

/// That of a run of the case; none where the checkout can't run it.
fn taken(library: &Library, case: &Case) -> Option<usize> {
    let p = case.problem(STEPS);
    let solve = library.solve(case)?;
    let mut work = vec![0.0; 6 * case.n + 10 * case.m + 6];
    let mut cone_work = vec![0.0; work_len(&p.blocks)];
    let mut run = || {
        solve(STEPS, &p, &mut work, &mut cone_work);
    };
    thread::scope(|scope| {
        let builder = thread::Builder::new().stack_size(4 * FILLED);
        let running = builder.spawn_scoped(scope, move || touched(&mut run));
        Some(running.expect("a thread").join().expect("its end"))
    })
}

pub fn count(libraries: &[Library]) {
    let numbered: String = (1..=libraries.len()).map(|i| format!("| {i} ")).collect();
    println!("\n| bytes of stack {numbered}|\n|---{}|", "|---".repeat(libraries.len()));
    for case in CASES.split_whitespace().map(Case::read) {
        let cells: String = libraries.iter().map(|library| taken(library, &case).map_or("|  ".into(), |bytes| format!("| {bytes} "))).collect();
        println!("| {} {cells}|", case.name());
    }
}
