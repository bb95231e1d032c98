//! The original's matrix, but for the empty ones on whose sums it stops: there document 01 adds 0.

use num_traits::Zero;
use totsu_core::solver::{Operator, SliceLike};
use totsu_core::{LinAlgEx, MatOp, MatType};

use crate::original::{stops_on_column_sums, stops_on_row_sums};

pub struct RuledSums<'a, L: LinAlgEx> {
    typ: MatType,
    original: MatOp<'a, L>,
}

impl<'a, L: LinAlgEx> RuledSums<'a, L> {
    pub fn new(typ: MatType, array: &'a [L::F]) -> RuledSums<'a, L> {
        RuledSums {
            typ,
            original: MatOp::new(typ, array),
        }
    }
}

fn add_zero<L: LinAlgEx>(y: &mut L::Sl) {
    for e in y.get_mut() {
        *e = L::F::zero() + *e;
    }
}

impl<L: LinAlgEx> Operator<L> for RuledSums<'_, L> {
    fn size(&self) -> (usize, usize) {
        self.original.size()
    }

    fn op(&self, alpha: L::F, x: &L::Sl, beta: L::F, y: &mut L::Sl) {
        self.original.op(alpha, x, beta, y);
    }

    fn trans_op(&self, alpha: L::F, x: &L::Sl, beta: L::F, y: &mut L::Sl) {
        self.original.trans_op(alpha, x, beta, y);
    }

    fn absadd_cols(&self, tau: &mut L::Sl) {
        if stops_on_column_sums(self.typ) {
            add_zero::<L>(tau);
        } else {
            self.original.absadd_cols(tau);
        }
    }

    fn absadd_rows(&self, sigma: &mut L::Sl) {
        if stops_on_row_sums(self.typ) {
            add_zero::<L>(sigma);
        } else {
            self.original.absadd_rows(sigma);
        }
    }
}
