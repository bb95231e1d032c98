//! Whether a run can have −0 beside +0 in a larger or smaller: docs/DIFFERENCES.md says why none
//! has.

use totsu_core::{FloatGeneric, MatType};

use judge::cone_list::Block;
use judge::original::{self as ask, Kind};
use judge::problem::Problem;
use judge::seen::{sight, watch, Seen};

const NUMBERS: [f64; 4] = [-1.0, -0.0, 0.0, 1.0];

fn block(kind: Kind, size: usize) -> Block {
    Block { kind, size }
}

/// m places: all nonnegative, or rotated blocks of one place.
fn lists(m: usize) -> [Vec<Block>; 2] {
    [
        vec![block(Kind::Nonnegative, m)],
        (0..m).map(|_| block(Kind::Rotated, 1)).collect(),
    ]
}

/// Every problem of up to two columns and two rows with these numbers, each run for six steps.
#[test]
fn no_small_run_has_unlike_zeros() {
    let (mut runs, mut steps) = (0, 0);
    for (n, m) in [(0, 1), (0, 2), (1, 1), (1, 2), (2, 1), (2, 2)] {
        let count = n + n * m + m;
        for drawn in 0..4usize.pow(count as u32) {
            let numbers: Vec<f64> = (0..count)
                .map(|i| NUMBERS[drawn / 4usize.pow(i as u32) % 4])
                .collect();
            for blocks in lists(m) {
                for eps_zero in [1e-12, 0.0] {
                    let answer = Problem {
                        a_type: MatType::General(m, n),
                        c: numbers[..n].to_vec(),
                        a: numbers[n..n + n * m].to_vec(),
                        b: numbers[n + n * m..].to_vec(),
                        blocks: blocks.clone(),
                        max_iter: 6,
                        sweep_limit: 1,
                        eps_acc: 0.0,
                        eps_inf: 0.0,
                        eps_zero,
                        edition: 1,
                    }
                    .solve();
                    assert_eq!(answer.unlike_zeros, 0);
                    runs += 1;
                    steps += answer.k;
                }
            }
        }
    }
    println!("{runs} runs, {steps} steps");
    assert_eq!(runs, 4 * (4 + 16 + 64 + 1024 + 1024 + 65536));
}

/// A projection by itself has such a pair, and it is seen.
#[test]
fn a_projection_has_unlike_zeros() {
    watch(1);
    let mut x = [Seen(-0.0), Seen(-1.0)];
    ask::proj::<Seen, FloatGeneric<Seen>>(Kind::Nonnegative, false, &mut x, &mut [], Seen(0.0))
        .unwrap();
    assert_eq!(x.map(|v| v.0.to_bits()), [0, 0]);
    assert_eq!(sight().unlike_zeros, 1);
}
