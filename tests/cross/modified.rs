//! The modified index. Every month that is added anywhere in the cross-check is held to the request's words in 128 bits
//! (`Check::account`). Here are months that are chosen for it: the worked ones, exact halves, X and V at their ends, and runs
//! in which a spell abates; and that no later month changes it.

use crate::add::Add;
use crate::add_z::{pick_z, STYLES};
use crate::card::{Added, Run, Values};
use crate::check::{differ, Call, Check};
use crate::lists::{Fill, Lists};
use crate::random::Random;
use crate::reference::{next, MOST_MONTHS, MOST_Z};
use crate::runs::{any_good_run, NO_RUN};

/// What any X may be in size, and what a month may add to V.
const MOST_X: i32 = 13_000_000;
const MOST_U: i64 = 4_000_150;

// ---- By the request's words --------------------------------------------------------------------------------

/// Nearest to n / d, halves away from zero. The divisor is not 0.
fn nearest(n: i128, d: i128) -> i128 {
    let (n, d) = (n * d.signum(), d.abs());
    n.signum() * ((2 * n.abs() + d) / (2 * d))
}

/// Where a spell abates: the numerator and the divisor of "(1 - p) X3 + p X1", or of "(1 - p) X3 + p X2", "with the month's
/// new values, p = 1000 V / Q". Drought and wet spell as document 01 has them, from the values before the month.
fn mixture(last: &Values, z: i32, new: &Values) -> Option<(i128, i128)> {
    let [last_x3, last_v, z] = [i128::from(last.x3), i128::from(last.v), i128::from(z)];
    let [x1, x2, x3, v] = [i128::from(new.x1), i128::from(new.x2), i128::from(new.x3), i128::from(new.v)];
    if last_x3 < -500 {
        let (u, e) = (z + 150, -2691 * last_x3 - 1_500_000);
        let q = e + 1000 * last_v;
        (u + last_v > 0 && 1000 * u < e).then_some(((q - 1000 * v) * x3 + 1000 * v * x1, q))
    } else if last_x3 > 500 {
        let (u, e) = (z - 150, -2691 * last_x3 + 1_500_000);
        let q = e + 1000 * last_v;
        (u + last_v < 0 && 1000 * u > e).then_some(((q - 1000 * v) * x3 + 1000 * v * x2, q))
    } else {
        None
    }
}

/// The modified index of a month, from the values before it, its Z and the values after it. "Elsewhere X3 if nonzero, else
/// the larger in size of X1 and X2, X2 on a tie. Rounded once, nearest".
pub fn modified(last: &Values, z: i32, new: &Values) -> i32 {
    match mixture(last, z, new) {
        Some((n, q)) => nearest(n, q) as i32,
        None if new.x3 != 0 => new.x3,
        None if new.x1.abs() > new.x2.abs() => new.x1,
        None => new.x2,
    }
}

/// What the modified indexes came to.
#[derive(Default)]
pub struct Mixed {
    /// Months in which a drought abates, and a wet spell.
    abating: [u64; 2],
    /// Of these, those exactly between two whole numbers, by whether they are below 0 or above.
    halves: [[u64; 2]; 2],
    /// And those whose numerator is past 64 bits.
    past: u64,
    /// The largest size of V among them.
    most_v: u64,
    elsewhere: u64,
}

impl Mixed {
    fn count(&mut self, v: i64, n: i128, q: i128) {
        let (wet, above) = (usize::from(v < 0), usize::from((n > 0) == (q > 0)));
        self.abating[wet] += 1;
        self.halves[wet][above] += u64::from(n % q != 0 && 2 * n % q == 0);
        self.past += u64::from(i64::try_from(n).is_err());
        self.most_v = self.most_v.max(v.unsigned_abs());
    }

    pub fn print(&self) {
        let ([drought, wet], [[down, up], [below, above]]) = (self.abating, self.halves);
        println!(
            "modified index mixed in {drought} months of drought and {wet} wet ones, {} past 64 bits, V up to {}; elsewhere {}",
            self.past, self.most_v, self.elsewhere
        );
        println!(
            "mixed to an exact half: of droughts {down} below 0 and {up} above, of wet spells {below} and {above}"
        );
    }
}

/// Holds what an add answered to it.
pub fn hold(mixed: &mut Mixed, call: Call, run: &Run, added: &Added) {
    let (last, z, new) = (&run.values, added.figures.z, &added.run.values);
    match mixture(last, z, new) {
        Some((n, q)) => mixed.count(new.v, n, q),
        None => mixed.elsewhere += 1,
    }
    let wanted = modified(last, z, new);
    if added.figures.modified != wanted {
        differ(call, &(run, z, "the modified index of its month"), &added.figures, &wanted);
    }
}

// ---- Months chosen for it ----------------------------------------------------------------------------------

pub fn modified_indexes(c: &mut Check, times: u64) {
    worked(c);
    halves(c);
    next_to_halves(c);
    at_the_ends(c);
    kept(c, times);
    let Mixed { halves, past, most_v, .. } = &c.mixed;
    assert!(halves.iter().flatten().all(|cases| *cases > 0) && *past > 0 && *most_v == 48_001_800_000);
}

/// A run of so many months, and columns of this length to which it belongs.
fn standing(c: &mut Check, months: usize, length: usize) -> (Run, Lists) {
    let mut lists = Lists::new(&mut c.random, [length; 7], Fill::AnyBits);
    let run = Run { months: months as u32, opens: 0, ..any_good_run(&mut c.random, 0) };
    lists.meet(&run);
    (run, lists)
}

/// S4 of document 01, S5 and S6 after it, and their mirrors; and a tie that is settled. Where the printed percent stood for p
/// the first two would be -994 and -1,804.
fn worked(c: &mut Check) {
    c.kind("modified index, worked");
    let (x3, s4, modified) = (-4_070, [3_590, -1_460, -1_600], [-1_009, -1_788, -2_591]);
    for sign in [1, -1] {
        for (last, index) in [(-1_130, -3_017), (6_273, 2_091)] {
            let values = Values { x1: 0, x2: 0, x3: sign * x3, v: 0 };
            let zs = [s4[0], s4[1], s4[2], last].map(|z| sign * z);
            let shown = [modified[0], modified[1], modified[2], index].map(|x| sign * x);
            assert_eq!(months(c, values, &zs), shown);
        }
        let tied = [1_500, -673, -3_000].map(|z| sign * z);
        assert_eq!(months(c, NO_RUN.values, &tied), [sign * 500, -224, sign * -1_201]);
    }
}

/// The modified indexes of these months from these values on, by the answers, by the records and by the rows in the end.
fn months(c: &mut Check, values: Values, zs: &[i32]) -> Vec<i32> {
    let (mut run, mut lists) = standing(c, 0, zs.len());
    run.values = values;
    let mut told = Vec::new();
    for &z in zs {
        let added = c.add(Add::Z(z), &run, &mut lists);
        told.push(added.figures.modified);
        run = added.run;
    }
    let records = lists.library.lend().records.iter().map(|record| record.modified).collect::<Vec<i32>>();
    let rows = (0..zs.len()).map(|row| c.row(&run, row, &mut lists).month.modified).collect::<Vec<i32>>();
    c.untouched(&run, &mut lists);
    if records != told || rows != told {
        differ(Call::Row, &(values, zs, "their modified indexes"), &(records, rows), &told);
    }
    told
}

/// A month of a drought, and the same turned into one of a wet spell.
fn both_ways(c: &mut Check, run: &Run, lists: &mut Lists, drought: Values, z: i32) {
    let Values { x1, x2, x3, v } = drought;
    let wet = Values { x1: -x2, x2: -x1, x3: -x3, v: -v };
    c.add(Add::Z(z), &Run { values: drought, ..*run }, lists);
    c.add(Add::Z(-z), &Run { values: wet, ..*run }, lists);
}

/// Months in which p is a fraction of a small even number, so that many are exactly between two whole numbers: next to 0 on
/// both sides, and far from it.
fn halves(c: &mut Check) {
    c.kind("modified index, halves");
    let (run, mut lists) = standing(c, 40, 41);
    for of in [2, 4, 6, 10] {
        for part in 1..of {
            for thousands in [1, 2, 3, 13, 1_000] {
                // With X3 at -1000 `thousands`, E is 1000 `e`. Where V is `part` times some j and e - U the rest of `of`
                // times j, p is part / of.
                let e = 2691 * thousands - 1_500;
                let least = (e + of - 1) / of;
                for j in [least, least + 1, least + 2, 2 * least + 7] {
                    let (u, v) = (e - (of - part) * j, of * j - e);
                    turning(c, &run, &mut lists, -1000 * thousands, v, u - 150);
                }
            }
        }
    }
}

/// A month of this Z with this X3 and V before it. X1 is such that the mixture is about 0, where p X1 is (1 - p) times the size
/// of X3, or far from it.
fn turning(c: &mut Check, run: &Run, lists: &mut Lists, x3: i64, v: i64, z: i64) {
    let left = -2691 * x3 - 1_500_000 - 1000 * (z + 150);
    let x3_after = (2691 * x3 + 1000 * z) / 3000;
    let x1_after = -x3_after * left / (1000 * (v + z + 150));
    let middle = (3000 * x1_after - 1000 * z) / 2691;
    let near = (middle - 6..=middle + 6).chain([0, 1, 2, middle / 2, 2 * middle, 2 * middle + 1]);
    for x1 in near.filter(|x1| (0..=i64::from(MOST_X)).contains(x1)) {
        both_ways(c, run, lists, Values { x1: x1 as i32, x2: -300, x3: x3 as i32, v }, z as i32);
    }
}

/// Months that come as near to a half as V can bring them, on both sides of it: for some of them X and V are so large that
/// floating point would not tell them from it.
fn next_to_halves(c: &mut Check) {
    c.kind("modified index, next to halves");
    let (run, mut lists) = standing(c, MOST_MONTHS - 1, MOST_MONTHS);
    let most_v = MOST_U * i64::from(run.months);
    for (x3, x1) in
        [(MOST_X, MOST_X), (1_200_003, 11_111_111), (10_007, 12_999_999), (2_001, MOST_X), (601, 70_000)]
    {
        let e = 2691 * i64::from(x3) - 1_500_000;
        for left in [999, 1_000_001, 70_000_003, e] {
            let z = ((e - left) / 1000 - 150).clamp(-149, i64::from(MOST_Z)) as i32;
            let left = e - 1000 * (i64::from(z) + 150);
            // The mixture is X1 after the month, less this by Q.
            let product = left * i64::from(next(x1, z) + next(x3, -z));
            for whole in [0, 1, 2, 10].map(|more| product / (e + 1000 * most_v) + more) {
                let v = (2 * product / (2 * whole + 1) - e) / 1000;
                for v in [v, v + 1].into_iter().filter(|v| (0..=most_v).contains(v)) {
                    both_ways(c, &run, &mut lists, Values { x1, x2: -300, x3: -x3, v }, z);
                }
            }
        }
    }
}

/// X and V as large as a run may bring them, and beside that: V up to 48,001,800,000 after the month.
fn at_the_ends(c: &mut Check) {
    c.kind("modified index, at the ends");
    for months in [1, 2_400, MOST_MONTHS - 1] {
        let (run, mut lists) = standing(c, months, months + 1);
        let most = MOST_U * months as i64;
        for v in [most, most - 1, most / 2 + 1, 1_000_000, 1, 0] {
            for x3 in [MOST_X, MOST_X - 1, MOST_X / 2, 2_000_001, 1_000, 501] {
                for (x1, other) in [(MOST_X, 0), (MOST_X - 1, MOST_X), (0, MOST_X), (1, 1), (x3, x3 - 1)] {
                    for z in [MOST_Z, MOST_Z - 1, 1_000_001, 0, -149, -1_000_000, -MOST_Z] {
                        both_ways(c, &run, &mut lists, Values { x1, x2: -other, x3: -x3, v }, z);
                    }
                }
            }
        }
    }
}

/// A run in which a spell is in force, with V up to its end.
fn in_a_spell(random: &mut Random, run: &mut Run) {
    let size = random.pick(&[1_500, 5_000, 100_000, i64::from(MOST_X)]);
    let (x3, x1, x2) = (random.within(501, size), random.within(0, size), random.within(0, size));
    let most = random.pick(&[0, 1_000, 50_000, i64::MAX]).min(MOST_U * i64::from(run.months));
    let v = random.within(0, most);
    let sign = random.pick(&[1, -1]);
    run.values = Values { x1: x1 as i32, x2: -x2 as i32, x3: sign * x3 as i32, v: -i64::from(sign) * v };
}

/// Runs from any values of a spell in force, month by month until the columns are full: each month's modified index stays as
/// it was answered, whatever is added after it.
fn kept(c: &mut Check, times: u64) {
    c.kind("modified index, kept");
    for number in 0..6_000 * times {
        let months = c.random.pick(&[1, 4, 40, 40, 200, 200, 2_400]);
        let length = months + c.random.within(1, 12) as usize;
        let (mut run, mut lists) = standing(c, months, length);
        in_a_spell(&mut c.random, &mut run);
        let mut told = Vec::new();
        while (run.months as usize) < length {
            let style = c.random.pick(&STYLES);
            let z = pick_z(&mut c.random, style, &run.values);
            let added = c.add(Add::Z(z), &run, &mut lists);
            told.push(added.figures.modified);
            run = added.run;
        }
        let held: Vec<i32> = lists.library.lend().records[months..].iter().map(|month| month.modified).collect();
        if held != told {
            differ(Call::AddZ, &(number, run, "the modified indexes of its months"), &held, &told);
        }
        let row = c.random.below(length as u64) as usize;
        c.row(&run, row, &mut lists);
        c.untouched(&run, &mut lists);
    }
}
