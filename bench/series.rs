//! The whole series of bench/peer.rs: no list besides those that are lent, and linear in the months.

/// The reference again, for this file alone: with one caller its month is compiled in place, and without the percent,
/// which a whole series does not show.
#[path = "../tests/cross/reference.rs"]
mod reference;

use crate::card::{Values, OPEN, SETTLED};
use reference::{next, spell_month, Course, Decides, Refusal, MOST_MONTHS, MOST_Z};

/// Answers, refuses and writes as reference::whole_series does.
pub fn whole_series(z: &[i32], index: &mut [i32], mark: &mut [u8]) -> Result<(), Refusal> {
    let length = z.len();
    if length == 0 || length > MOST_MONTHS || index.len() != length || mark.len() != length {
        return Err(Refusal::Lengths);
    }
    // All of them, even behind one that is refused: so several are compared at a time.
    if !z.iter().fold(true, |fit, z| fit & (-MOST_Z..=MOST_Z).contains(z)) {
        return Err(Refusal::BadZ);
    }
    let settled = fill(z, index);
    mark[..settled].fill(SETTLED);
    mark[settled..].fill(OPEN);
    Ok(())
}

/// Fills in the indexes, and hands back how many months are settled. A month gets the index that it shows as it is
/// added; open months before one that decides with X1 or X2 are filled in again.
fn fill(z: &[i32], index: &mut [i32]) -> usize {
    let index = &mut index[..z.len()];
    let mut values = Values { x1: 0, x2: 0, x3: 0, v: 0 };
    // The first open month, and X1 and X2 before it.
    let (mut first, mut before) = (0, (0, 0));
    for month in 0..z.len() {
        let step = spell_month(&values, z[month]);
        values = step.values;
        let Values { x1, x2, x3, .. } = values;
        if step.decides != Decides::Nothing {
            // The two that it does not decide with are 0.
            index[month] = x1 + x2 + x3;
            // Before a month that decides with X3 a spell abates, and each month shows its own X3 already.
            if step.decides != Decides::WithX3 && first < month {
                let (z, index) = (&z[first..month], &mut index[first..month]);
                if step.decides == Decides::WithX1 {
                    settle(z, index, (before.0, raised), (before.1, lowered));
                } else {
                    settle(z, index, (before.1, lowered), (before.0, raised));
                }
            }
            (first, before) = (month + 1, (x1, x2));
        } else if step.course == Course::Abating {
            // "X3 if nonzero": it is beyond 500 in size.
            index[month] = x3;
        } else {
            // "Else the larger in size of X1 and X2, X2 on a tie."
            index[month] = if x1 > -x2 { x1 } else { x2 };
        }
    }
    first
}

/// The next month's X1, where it is open.
#[inline]
fn raised(x1: i32, z: i32) -> i32 {
    next(x1, z).max(0)
}

/// The next month's X2, where it is open.
#[inline]
fn lowered(x2: i32, z: i32) -> i32 {
    next(x2, z).min(0)
}

/// Settles the open months before one that decides, with `own`: each side is its value before these months, and how the
/// next month's comes of it. A month gets its own side's value at first. One in which the other side alone is not 0
/// gives that side to itself and to those that are `waiting` for a side, and they are reckoned again from what was
/// `held` before them.
#[inline(never)]
fn settle<Own, Other>(z: &[i32], index: &mut [i32], own: (i32, Own), other: (i32, Other))
where
    Own: Fn(i32, i32) -> i32,
    Other: Fn(i32, i32) -> i32,
{
    let ((mut own, own_next), (mut other, other_next)) = (own, other);
    let (mut waiting, mut held) = (0, other);
    for month in 0..z.len().min(index.len()) {
        own = own_next(own, z[month]);
        other = other_next(other, z[month]);
        index[month] = own;
        if own == 0 && other != 0 {
            for (index, &z) in index[waiting..=month].iter_mut().zip(&z[waiting..=month]) {
                held = other_next(held, z);
                *index = held;
            }
            waiting = month + 1;
        } else if own != 0 && other == 0 {
            (waiting, held) = (month + 1, 0);
        }
    }
}
