//! card_whole_series: against the reference, and against adding singly.

use crate::add_z::{pick_z, STYLES};
use crate::card;
use crate::check::{differ, Call, Check};
use crate::lists::{edged, inner, marks, numbers, unchanged, Fill, Lists};
use crate::reference::{self, MOST_MONTHS, MOST_Z};
use crate::runs::NO_RUN;

/// What stands before and after a list of Z. It is none, so that whoever reads too far refuses.
const BESIDE: i32 = i32::MIN;

impl Check {
    /// Hands the reference's indexes and marks back.
    pub fn whole(&mut self, z: &[i32], index: usize, mark: usize) -> (u8, Vec<i32>, Vec<u8>) {
        let mut lent = edged(z, BESIDE);
        let before = (numbers(&mut self.random, index, Fill::AnyBits), marks(&mut self.random, mark));
        let (mut library, mut reference, mut expected) = (before.clone(), before.clone(), before);
        let number = card::whole_series(inner(&mut lent), inner(&mut library.0), inner(&mut library.1));
        let answer = reference::whole_series(z, inner(&mut reference.0), inner(&mut reference.1));
        let wanted = answer.map_or_else(|refusal| refusal as u8, |()| 0);
        if wanted == 0 {
            inner(&mut expected.0).copy_from_slice(inner(&mut reference.0));
            inner(&mut expected.1).copy_from_slice(inner(&mut reference.1));
        }
        if number != wanted || library != expected || reference != expected || !unchanged(&lent, z, BESIDE) {
            let inputs = (z, index, mark, &expected);
            differ(Call::WholeSeries, &inputs, &(number, library, lent), &(wanted, reference, z));
        }
        self.count(Call::WholeSeries, wanted);
        (wanted, inner(&mut reference.0).to_vec(), inner(&mut reference.1).to_vec())
    }

    /// The whole series of these Z against the columns that adding them singly has filled.
    pub fn whole_against(&mut self, z: &[i32], lists: &mut Lists) {
        let (number, index, mark) = self.whole(z, z.len(), z.len());
        let k = lists.expected.lend();
        if number != 0 || index != k.index[..z.len()] || mark != k.mark[..z.len()] {
            let singly = (&k.index[..z.len()], &k.mark[..z.len()]);
            differ(Call::WholeSeries, &(z, "against adding singly"), &(number, index, mark), &singly);
        }
    }
}

/// Lists of Z for the whole series alone.
pub fn whole_lists(c: &mut Check, times: u64) {
    c.kind("whole series, months left open");
    for length in [1, 2, 3, 4, 1_000, 2_399, 2_400, 2_401, MOST_MONTHS - 1, MOST_MONTHS] {
        for (first, second) in [(12, -3), (-12, 3), (2_998, -1), (-2_998, 1)] {
            let mut z = vec![0; length];
            z[0] = first;
            z[(length - 1).min(1)] = second;
            c.whole(&z, length, length);
            // And a last month that decides for all of them.
            for last in [-MOST_Z, -3_000, -60, 60, 3_000, MOST_Z] {
                z[length - 1] = last;
                c.whole(&z, length, length);
            }
        }
    }
    c.kind("whole series, random");
    for _ in 0..6_000 * times {
        let most = c.random.pick(&[4, 60, 400, 400, 2_400, MOST_MONTHS as i64]);
        let length = c.random.within(1, most) as usize;
        let change = c.random.pick(&[3, 12, 60, 1_500]);
        let mut style = c.random.pick(&STYLES);
        let mut values = NO_RUN.values;
        let mut z = Vec::with_capacity(length);
        for _ in 0..length {
            if c.random.one_in(change) {
                style = c.random.pick(&STYLES);
            }
            let month = pick_z(&mut c.random, style, &values);
            values = reference::spell_month(&values, month).values;
            z.push(month);
        }
        c.whole(&z, length, length);
        if c.random.one_in(8) {
            z[c.random.below(length as u64) as usize] =
                c.random.pick(&[-MOST_Z - 1, MOST_Z + 1, i32::MIN, i32::MAX]);
            c.whole(&z, length, length);
        }
    }
}

pub fn whole_refusals(c: &mut Check) {
    c.kind("several refusals, whole series");
    let lengths = [0, 1, 2, 3, 2_399, 2_400, 2_401, MOST_MONTHS - 1, MOST_MONTHS, MOST_MONTHS + 1];
    for z in lengths {
        for index in lengths {
            for mark in lengths {
                for value in [0, -MOST_Z, MOST_Z, -MOST_Z - 1, MOST_Z + 1, i32::MIN, i32::MAX] {
                    for place in [0, z / 2, z.saturating_sub(1)] {
                        let mut list = vec![25; z];
                        if let Some(month) = list.get_mut(place) {
                            *month = value;
                        }
                        c.whole(&list, index, mark);
                    }
                }
            }
        }
    }
}
