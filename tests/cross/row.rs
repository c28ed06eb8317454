//! card_row: rows within a run, just past it and far out.

use crate::card::{self, Run, Shown};
use crate::check::{differ, Call, Check};
use crate::lists::{Fill, Lists};
use crate::reference::{self, MOST_MONTHS};
use crate::runs::any_good_run;

impl Check {
    /// Reads a row; what the lists hold is compared by the next add, or by `untouched`.
    pub fn row(&mut self, run: &Run, row: usize, lists: &mut Lists) -> Shown {
        let library = card::row(*run, row, &lists.library.lend());
        let reference = match reference::row(run, row, &lists.reference.lend()) {
            Ok(shown) => shown,
            Err(refusal) => Shown { number: refusal as u8, ..Shown::default() },
        };
        if library != reference {
            differ(Call::Row, &(row, run, lists.lengths()), &library, &reference);
        }
        self.count(Call::Row, reference.number);
        reference
    }

    /// Nothing was written since the last add.
    pub fn untouched(&mut self, run: &Run, lists: &mut Lists) {
        if !lists.agree() {
            differ(Call::Row, &(run, lists.lengths()), &lists.differences(), &"nothing written");
        }
    }
}

/// Rows of columns of any content. Some of those far out are a good row if they are cut to 32 binary digits.
pub fn rows(c: &mut Check) {
    c.kind("rows, near and far");
    let far = [1 << 31, 1 << 32, 1 << 63, usize::MAX - 1];
    for length in [1, 2, 40, 2_399, 2_400, 2_401, MOST_MONTHS - 1, MOST_MONTHS, MOST_MONTHS + 1] {
        let mut lists = Lists::new(&mut c.random, [length; 7], Fill::AnyBits);
        for months in [0, 1, length / 2, length - 1, length] {
            let mut run = any_good_run(&mut c.random, length);
            (run.months, run.opens, run.values.v) = (months as u32, c.random.below(months as u64 + 1) as u32, 0);
            lists.meet(&run);
            let near = [0, 1, months, length, 2_400, MOST_MONTHS, c.random.below(MOST_MONTHS as u64) as usize];
            for row in near.into_iter().chain(far) {
                for row in [row.wrapping_sub(1), row, row.wrapping_add(1)] {
                    c.row(&run, row, &mut lists);
                }
            }
            c.untouched(&run, &mut lists);
        }
    }
}
