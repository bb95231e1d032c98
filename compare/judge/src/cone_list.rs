//! A cone that holds a list: the blocks stand one after another, each answered by the original.

use std::marker::PhantomData;
use totsu_core::solver::Cone;

use crate::original::{order, product_group, proj, Kind, KINDS};
use crate::ruled_norm::Algebra;
use crate::seen::Number;

#[derive(Clone, Copy, Debug, PartialEq)]
pub struct Block {
    pub kind: Kind,
    pub size: usize,
}

impl Block {
    /// Reads a cone word: 3 bits of kind, 13 bits of size.
    pub fn read(word: u16) -> Option<Block> {
        let block = Block {
            kind: *KINDS.get(usize::from(word >> 13))?,
            size: usize::from(word & 0x1fff),
        };
        let fits = block.kind != Kind::Semidefinite || order(block.size).is_some();
        fits.then_some(block)
    }

    pub fn word(self) -> u16 {
        let kind = KINDS.iter().position(|k| *k == self.kind).unwrap() as u16;
        kind << 13 | self.size as u16
    }
}

/// The places of cone work that the largest semidefinite block needs.
pub fn work_len(blocks: &[Block]) -> usize {
    let orders = blocks.iter().filter(|b| b.kind == Kind::Semidefinite);
    orders
        .map(|b| order(b.size).unwrap())
        .map(|d| d + d * d)
        .max()
        .unwrap_or(0)
}

/// What the list did: it outlives the list, which the solver takes.
#[derive(Default)]
pub struct Progress {
    /// Steps begun: each projects the dual part once.
    pub steps: u64,
    /// The block that failed.
    pub failed: Option<usize>,
}

/// Its blocks are projected over the linear algebra C.
pub struct ConeList<'a, F, C> {
    blocks: &'a [Block],
    work: &'a mut [F],
    eps_zero: F,
    progress: &'a mut Progress,
    algebra: PhantomData<C>,
}

impl<'a, F: Number, C: Algebra<F>> ConeList<'a, F, C> {
    pub fn new(
        blocks: &'a [Block],
        work: &'a mut [F],
        eps_zero: F,
        progress: &'a mut Progress,
    ) -> ConeList<'a, F, C> {
        ConeList {
            blocks,
            work,
            eps_zero,
            progress,
            algebra: PhantomData,
        }
    }
}

impl<F: Number, L: Algebra<F>, C: Algebra<F>> Cone<L> for ConeList<'_, F, C> {
    fn proj(&mut self, dual_cone: bool, x: &mut [F]) -> Result<(), ()> {
        if dual_cone {
            self.progress.steps += 1;
        }
        let mut rest = x;
        for (i, block) in self.blocks.iter().enumerate() {
            let (part, after) = rest.split_at_mut(block.size);
            rest = after;
            if proj::<F, C>(block.kind, dual_cone, part, self.work, self.eps_zero).is_err() {
                self.progress.failed = Some(i);
                return Err(());
            }
        }
        Ok(())
    }

    fn product_group<G: Fn(&mut [F]) + Copy>(&self, dp_tau: &mut [F], group: G) {
        let mut rest = dp_tau;
        for block in self.blocks {
            let (part, after) = rest.split_at_mut(block.size);
            rest = after;
            product_group::<F, C>(block.kind, part, group);
        }
    }
}
