//! Document 01 in plain Rust and in its order, with document 02's season in one call (E2), modified index (E4), thin soils
//! (E5), rows that show the water (E6), trace rain (E7), repaired months (E8, in reference_repair.rs), longer lists (E9),
//! station constants (E10, in reference_constants.rs), refused zero K (E11) and lines of a division file (E14 and E1's reader,
//! in reference_lines.rs), written from these two alone, but for the repair, for the library to be compared with and measured
//! against. The sentences quoted in the comments are the documents'. It shares the library's data types and nothing else. A
//! call borrows the run and changes it only where it does what it was asked, a season month by month.
#![allow(dead_code)]

use crate::card::{
    self, Columns, Figures, MonthInches, MonthKinds, Reading, Record, Run, Shown, Soil, Values, Water,
};
use std::ops::RangeInclusive;

#[path = "reference_constants.rs"]
pub mod constants;
#[path = "reference_lines.rs"]
pub mod lines;
#[path = "reference_repair.rs"]
pub mod repairing;

// ---- Quantities --------------------------------------------------------------------------------------------

/// "Raise the limit of lent lists to 12,000 months."
pub const MOST_MONTHS: usize = 12_000;
/// "Z given directly: -4,000,000 to 4,000,000."
pub const MOST_Z: i32 = 4_000_000;
/// "C may be 100 to 30,000."
const CAPACITY: RangeInclusive<u32> = 100..=30_000;
/// "Alpha, beta, delta 0 to 10,000; gamma 0 to 50,000; K 0 to 100,000."
const MOST_CONSTANT: [i32; 5] = [10_000, 10_000, 50_000, 10_000, 100_000];
/// "mark (1 open, 2 settled)"
pub const OPEN: u8 = 1;
pub const SETTLED: u8 = 2;

/// "The surface layer holds the smaller of 1,000 and C, the underlying layer the rest, possibly nothing."
#[inline]
pub fn layers(capacity: u32) -> [u32; 2] {
    let surface = capacity.min(1_000);
    [surface, capacity - surface]
}

/// "Nearest" means the nearest whole number, halves away from zero. The divisor is above 0.
#[inline]
fn nearest(n: i64, d: i64) -> i64 {
    let half = d / 2;
    (if n < 0 { n - half } else { n + half }) / d
}

// ---- Refusals ----------------------------------------------------------------------------------------------

/// The table of refusal numbers, without 0 (done) and 13 (the program's).
#[derive(Clone, Copy, Debug, PartialEq, Eq)]
#[repr(u8)]
pub enum Refusal {
    Lengths = 1,
    NotSixty = 2,
    Constant = 3,
    Capacity = 4,
    Storage = 5,
    StartMonth = 6,
    NotARun = 7,
    Missing = 8,
    NotAcceptable = 9,
    Full = 10,
    NoRow = 11,
    BadZ = 12,
    Malformed = 14,
    OtherLine = 15,
    OtherYear = 16,
    Waterless = 17,
    FewYears = 18,
    Gamma = 19,
    K = 20,
    ZeroK = 21,
    Unfit = 24,
    ShortLine = 25,
}

// ---- Readings at the door ----------------------------------------------------------------------------------

/// What a reading says, in thousandths of an inch, and its kind: "none, trace (above zero, nearest thousandth 0), and
/// measured."
#[derive(Clone, Copy, Debug, PartialEq, Eq)]
pub struct Amount {
    pub water: u32,
    pub kind: u8,
}

/// "A whole-number reading of 0 is none."
#[inline]
fn whole(thousandths: i32) -> Amount {
    Amount { water: thousandths as u32, kind: if thousandths == 0 { card::NONE } else { card::MEASURED } }
}

/// The nearest thousandth of a number with this fraction, which is 0 of no number but 0. "A trace counts as no water."
#[inline]
fn converted(water: u32, fraction: u64) -> Amount {
    let kind = match (water, fraction) {
        (0, 0) => card::NONE,
        (0, _) => card::TRACE,
        _ => card::MEASURED,
    };
    Amount { water, kind }
}

/// A number from 0 to `most` as fraction / 2^halvings. "Negative zero is 0. NaN, infinities, negatives and
/// anything above the range are refused."
#[inline]
fn parts(x: f32, most: f32) -> Result<(u64, u32), Refusal> {
    let bits = x.to_bits();
    if bits == 0x8000_0000 {
        return Ok((0, 149));
    }
    // From 0 up, bits are in the order of their numbers; infinity, NaN and the sign bit come above.
    if bits > most.to_bits() {
        return Err(Refusal::NotAcceptable);
    }
    let fraction = u64::from(bits & 0x007f_ffff);
    match bits >> 23 {
        0 => Ok((fraction, 149)),
        exponent => Ok((fraction | 0x0080_0000, 150 - exponent)),
    }
}

/// "Inches as an IEEE 754 binary32 number (0 to 100)": "the nearest thousandth of an inch to the exact value of
/// the number".
#[inline]
pub fn inches(x: f32) -> Result<Amount, Refusal> {
    let (fraction, halvings) = parts(x, 100.0)?;
    // Here 1000 x fraction is below 2^34, so with more halvings than 35 the answer is 0.
    if halvings > 35 {
        return Ok(converted(0, fraction));
    }
    let water = (1000 * fraction + (1 << (halvings - 1))) >> halvings;
    Ok(converted(water as u32, fraction))
}

/// "Millimetres as binary32 (0 to 2,540)": "for millimetres that is value x 5000/127".
#[inline]
pub fn millimetres(x: f32) -> Result<Amount, Refusal> {
    let (fraction, halvings) = parts(x, 2540.0)?;
    // Here 5000 x fraction is below 2^37, so with more halvings than 35 the answer is 0.
    if halvings > 35 {
        return Ok(converted(0, fraction));
    }
    let divisor = 127u64 << halvings;
    let water = (5000 * fraction + divisor / 2) / divisor;
    Ok(converted(water as u32, fraction))
}

/// "A reading is one of four: whole thousandths (0 to 100,000)", inches, millimetres, "or missing". Any other
/// kind is not acceptable.
#[inline]
pub fn read(reading: &Reading) -> Result<Amount, Refusal> {
    match reading.kind {
        card::MISSING => Err(Refusal::Missing),
        card::WHOLE if (0..=100_000).contains(&reading.whole) => Ok(whole(reading.whole)),
        card::INCHES => inches(reading.measure),
        card::MILLIMETRES => millimetres(reading.measure),
        _ => Err(Refusal::NotAcceptable),
    }
}

// ---- One month of water ------------------------------------------------------------------------------------

/// Nearest to the amount "x Su / C, at most Su". The product is at most 100,000 x 29,000, so it fits.
#[inline]
fn underlying_loss(amount: u32, soil: &Soil) -> u32 {
    ((amount * soil.underlying + soil.capacity / 2) / soil.capacity).min(soil.underlying)
}

/// A month of water from the start storages, with the month's five constants: its water figures and its Z. The
/// storages become those at its end.
pub fn water_month(soil: &mut Soil, constants: &[i32], p: Amount, pe: Amount) -> (Water, i32) {
    // "Reading, month, list and row answers all carry it": of both readings.
    let kinds = MonthKinds { p: p.kind, pe: pe.kind };
    let (p, pe) = (p.water, pe.water);
    let mut w = Water { p, pe, kinds, ..Water::default() };

    // "Potentials, from the start storages."
    w.pro = soil.surface + soil.underlying;
    w.pr = soil.capacity - w.pro;
    let pls = pe.min(soil.surface);
    w.pl = pls + underlying_loss(pe - pls, soil);

    if p < pe {
        // "Ls = smaller of Ss and PE - P. Lu = nearest to (PE - P - Ls) x Su / C, at most Su."
        w.ls = soil.surface.min(pe - p);
        w.lu = underlying_loss(pe - p - w.ls, soil);
        w.et = p + w.ls + w.lu;
        soil.surface -= w.ls;
        soil.underlying -= w.lu;
    } else {
        // "The excess P - PE fills the surface layer, then the underlying layer; the rest is RO."
        let excess = p - pe;
        let [surface, underlying] = layers(soil.capacity);
        let upper = excess.min(surface - soil.surface);
        let lower = (excess - upper).min(underlying - soil.underlying);
        w.et = pe;
        w.r = upper + lower;
        w.ro = excess - w.r;
        soil.surface += upper;
        soil.underlying += lower;
    }

    // "N = alpha PE + beta PR + gamma PRO - delta PL."
    let times = |constant: usize, amount: u32| i64::from(constants[constant]) * i64::from(amount);
    let n = times(0, pe) + times(1, w.pr) + times(2, w.pro) - times(3, w.pl);
    w.cafec = nearest(n, 10_000) as i32;
    // "Rounded once, from N and not from the rounded CAFEC."
    let z = nearest(i64::from(constants[4]) * (10_000 * i64::from(p) - n), 100_000_000);
    (w, z as i32)
}

// ---- One month of spells -----------------------------------------------------------------------------------

/// What became of the spell in force.
#[derive(Clone, Copy, Debug, PartialEq, Eq)]
pub enum Course {
    NoSpell,
    Steady,
    Abating,
    Ended,
}

/// Which of the running indexes a month decides with.
#[derive(Clone, Copy, Debug, PartialEq, Eq)]
pub enum Decides {
    Nothing,
    WithX1,
    WithX2,
    WithX3,
}

/// A month of spells: the values that it leaves, its two indexes as it is added, and how it came to them.
#[derive(Clone, Copy, Debug)]
pub struct Step {
    pub values: Values,
    pub percent: u32,
    /// What it decides, or else the provisional one.
    pub index: i32,
    pub modified: i32,
    pub course: Course,
    pub decides: Decides,
}

/// "next(x) = nearest to (2691 x + 1000 Z) / 3000."
#[inline]
pub fn next(x: i32, z: i32) -> i32 {
    nearest(2691 * i64::from(x) + 1000 * i64::from(z), 3000) as i32
}

/// One month of spells from last month's values.
#[inline]
pub fn spell_month(last: &Values, z: i32) -> Step {
    let x3 = i64::from(last.x3);
    // "A drought is in force if last month's X3 is below -500, a wet spell if above 500."
    if x3 < -500 {
        let u = i64::from(z) + 150;
        let v = u + last.v;
        let e = -2691 * x3 - 1_500_000;
        if v <= 0 {
            steady(last, z)
        } else if 1000 * u >= e {
            no_spell(last, z, Course::Ended)
        } else {
            abating(last, z, v, e - 1000 * u)
        }
    } else if x3 > 500 {
        // "Wet spell: the mirror." V and Q are below 0 where it abates.
        let u = i64::from(z) - 150;
        let v = u + last.v;
        let e = -2691 * x3 + 1_500_000;
        if v >= 0 {
            steady(last, z)
        } else if 1000 * u <= e {
            no_spell(last, z, Course::Ended)
        } else {
            abating(last, z, v, 1000 * u - e)
        }
    } else {
        // "Otherwise there is none, and X3 and V are read as 0."
        no_spell(last, z, Course::NoSpell)
    }
}

/// "X3 = next(X3), X1 = X2 = V = 0, percent 0. This month decides with X3."
#[inline]
fn steady(last: &Values, z: i32) -> Step {
    let x3 = next(last.x3, z);
    let values = Values { x1: 0, x2: 0, x3, v: 0 };
    Step { values, percent: 0, index: x3, modified: x3, course: Course::Steady, decides: Decides::WithX3 }
}

/// "X3 = next(X3), V kept, X1 = larger of 0 and next(X1), X2 = smaller of 0 and next(X2)." The percent is "nearest to
/// 100,000 V / Q, held within 1 to 99. Nothing is decided." `left` is the size of Q - 1000 V, which is E - 1000 U: Q is E
/// and 1000 times the V before, V is U and the V before. The provisional index is X3, beyond 500 in size.
#[inline(always)]
fn abating(last: &Values, z: i32, v: i64, left: i64) -> Step {
    let (x1, x2, x3) = (next(last.x1, z).max(0), next(last.x2, z).min(0), next(last.x3, z));
    let over = 1000 * v.abs();
    let q = over + left;
    let percent = nearest(100 * over, q).clamp(1, 99) as u32;
    // "While a drought abates it is (1 - p) X3 + p X1, while a wet spell abates (1 - p) X3 + p X2, with the month's new
    // values, p = 1000 V / Q and not the printed percent."
    let (x, side) = if v > 0 { (x3, x1) } else { (-x3, -x2) };
    let mixed = between(x, side, left, q);
    let modified = if v > 0 { mixed } else { -mixed };
    let values = Values { x1, x2, x3, v };
    Step { values, percent, index: x3, modified, course: Course::Abating, decides: Decides::Nothing }
}

/// Nearest to (1 - p) x3 + p x1, "rounded once", where x3 is below x1 and 1 - p is `left` / q. That is x1 - left (x1 - x3)
/// / q: `left` is below 2^36 and x1 - x3 below 2^25 for every run that is one, so the product fits. A half goes up where the
/// whole number above it is above 0.
#[inline]
fn between(x3: i32, x1: i32, left: i64, q: i64) -> i32 {
    let (product, q) = (left as u64 * u64::from((x1 - x3) as u32), q as u64);
    let (upper, rest) = (x1 - (product / q) as i32, product % q);
    upper - i32::from(2 * rest > q || 2 * rest == q && upper <= 0)
}

/// "No spell, or one just ended: X1 and X2 as in 'abating'; percent 0 unless just ended."
#[inline]
fn no_spell(last: &Values, z: i32, course: Course) -> Step {
    let x1 = next(last.x1, z).max(0);
    let x2 = next(last.x2, z).min(0);
    // "X1 at least 1,000: X3 = X1, then X1 = X2 = 0. Decides with X1; the index is the new X3." "Else X2 at most -1,000:
    // likewise with X2."
    let (values, index, decides) = if x1 >= 1_000 {
        (Values { x1: 0, x2: 0, x3: x1, v: 0 }, x1, Decides::WithX1)
    } else if x2 <= -1_000 {
        (Values { x1: 0, x2: 0, x3: x2, v: 0 }, x2, Decides::WithX2)
    } else {
        // "Else X1 = 0: decides with X2. Else X2 = 0: decides with X1. Else nothing is decided", and the index is the
        // provisional one: "the larger in size of X1 and X2, X2 on a tie".
        let (index, decides) = match (x1, x2) {
            (0, _) => (x2, Decides::WithX2),
            (_, 0) => (x1, Decides::WithX1),
            _ => (if x1 > -x2 { x1 } else { x2 }, Decides::Nothing),
        };
        (Values { x1, x2, x3: 0, v: 0 }, index, decides)
    };
    let percent = if course == Course::Ended { 100 } else { 0 };
    // "Elsewhere X3 if nonzero, else the larger in size of X1 and X2, X2 on a tie." A month that decides with one of them
    // has no other.
    Step { values, percent, index, modified: index, course, decides }
}

// ---- Hindsight ---------------------------------------------------------------------------------------------

/// "Exactly one of X1, X2 nonzero gives the side."
#[inline]
fn side(x1: i32, x2: i32) -> Decides {
    match (x1 != 0, x2 != 0) {
        (true, false) => Decides::WithX1,
        (false, true) => Decides::WithX2,
        _ => Decides::Nothing,
    }
}

/// Settles the months `first..month` of the columns, where `month` decides. It goes back from the deciding month,
/// so the side that it has met last is the first one from each month onward.
fn settle(k: &mut Columns, first: usize, month: usize, decides: Decides) {
    let index = &mut k.index[first..month];
    if decides == Decides::WithX3 {
        index.copy_from_slice(&k.x3[first..month]);
    } else {
        let mut held = decides;
        let values = k.x1[first..month].iter().zip(&k.x2[first..month]);
        for (index, (&x1, &x2)) in index.iter_mut().zip(values).rev() {
            let own = side(x1, x2);
            if own != Decides::Nothing {
                held = own;
            }
            *index = if held == Decides::WithX1 { x1 } else { x2 };
        }
    }
    k.mark[first..month].fill(SETTLED);
}

// ---- What can be asked -------------------------------------------------------------------------------------

/// What an add answers where it is not refused.
#[derive(Clone, Copy, Debug)]
pub struct Added {
    pub figures: Figures,
    pub settled: u32,
}

fn constants_in_range(constants: &[i32]) -> bool {
    constants
        .chunks_exact(5)
        .all(|month| month.iter().zip(&MOST_CONSTANT).all(|(c, most)| (0..=*most).contains(c)))
}

/// "A month that counts for nothing".
fn holds_zero_k(constants: &[i32]) -> bool {
    constants.chunks_exact(5).any(|month| month[4] == 0)
}

/// Neither layer "above its layer".
#[inline]
fn storages_in_range(soil: &Soil) -> bool {
    let [surface, underlying] = layers(soil.capacity);
    soil.surface <= surface && soil.underlying <= underlying
}

/// "Start a run." "Order at a start, which takes no columns: 2 to 6." "21 zero K, at a start right after 3".
pub fn start(constants: &[i32], capacity: i32, surface: i32, underlying: i32, month: i32) -> Result<Run, Refusal> {
    let constants: &[i32; 60] = constants.try_into().map_err(|_| Refusal::NotSixty)?;
    if !constants_in_range(constants) {
        return Err(Refusal::Constant);
    }
    if holds_zero_k(constants) {
        return Err(Refusal::ZeroK);
    }
    // A number below 0 comes out above every range.
    let soil = Soil { capacity: capacity as u32, surface: surface as u32, underlying: underlying as u32 };
    if !CAPACITY.contains(&soil.capacity) {
        return Err(Refusal::Capacity);
    }
    if !storages_in_range(&soil) {
        return Err(Refusal::Storage);
    }
    if !(1..=12).contains(&month) {
        return Err(Refusal::StartMonth);
    }
    Ok(Run {
        months: 0,
        opens: 0,
        calendar: month as u32,
        soil,
        // "A fresh run has X1 = X2 = X3 = V = 0."
        values: Values { x1: 0, x2: 0, x3: 0, v: 0 },
        constants: *constants,
    })
}

/// Refusals 1 and 7, and otherwise the column length.
#[inline(always)]
pub fn check(run: &Run, k: &Columns) -> Result<usize, Refusal> {
    let length = k.x1.len();
    let others = [k.x2.len(), k.x3.len(), k.index.len(), k.mark.len(), k.records.len(), k.v.len()];
    if length == 0 || length > MOST_MONTHS || others.iter().any(|other| *other != length) {
        return Err(Refusal::Lengths);
    }
    if is_run(run, length) && ends_meet(run, k.records) {
        Ok(length)
    } else {
        Err(Refusal::NotARun)
    }
}

/// The paragraph "Not a run", turned round. "A run holding one is 7": a zero K.
#[inline(always)]
fn is_run(run: &Run, length: usize) -> bool {
    let Values { x1, x2, x3, v } = run.values;
    run.months as usize <= length
        && run.opens <= run.months
        && (1..=12).contains(&run.calendar)
        && CAPACITY.contains(&run.soil.capacity)
        && storages_in_range(&run.soil)
        && (0..=13_000_000).contains(&x1)
        && (-13_000_000..=0).contains(&x2)
        && (-13_000_000..=13_000_000).contains(&x3)
        && v.unsigned_abs() <= 4_000_150 * u64::from(run.months)
        && (v <= 0 || x3 < 0)
        && (v >= 0 || x3 > 0)
        && constants_in_range(&run.constants)
        && !holds_zero_k(&run.constants)
}

/// "After any month, the last row's end storages equal the run's." A number below 0 comes out above every range, and the
/// run's are in theirs.
#[inline]
fn ends_meet(run: &Run, records: &[Record]) -> bool {
    if run.months == 0 {
        return true;
    }
    let last = &records[run.months as usize - 1];
    last.surface as u32 == run.soil.surface && last.underlying as u32 == run.soil.underlying
}

/// What a month's record says of whether it had water.
const NO_WATER: i32 = 0;
pub const WATER: i32 = 1;

/// "Each month's record keeps Z, .. P, PE, ET, R, L, RO and both storages at its start and end". L is what both layers lose.
/// The modified index is put in when it is known. "One more column keeps precipitation's" kind.
#[inline]
pub fn record_of(w: &Water, z: i32, start: [u32; 2], end: &Soil, water: i32) -> Record {
    Record {
        z,
        p: w.p as i32,
        pe: w.pe as i32,
        et: w.et as i32,
        r: w.r as i32,
        l: (w.ls + w.lu) as i32,
        ro: w.ro as i32,
        ss: start[0] as i32,
        su: start[1] as i32,
        surface: end.surface as i32,
        underlying: end.underlying as i32,
        water,
        modified: 0,
        kind: i32::from(w.kinds.p),
    }
}

/// Adds a month whose water and Z are known and stand in its record. The month's place is there.
pub fn add(run: &mut Run, water: Water, z: i32, k: &mut Columns) -> Added {
    let month = run.months as usize;
    let Step { values, percent, index, modified, decides, .. } = spell_month(&run.values, z);
    let Values { x1, x2, x3, v } = values;
    let mut mark = OPEN;
    let mut settled = 0;
    // "The number of months settled by this call, its own included: the open months before it plus one if it
    // decides, else 0."
    if decides == Decides::Nothing {
        run.opens += 1;
    } else {
        settle(k, month - run.opens as usize, month, decides);
        mark = SETTLED;
        settled = run.opens + 1;
        run.opens = 0;
    }
    k.x1[month] = x1;
    k.x2[month] = x2;
    k.x3[month] = x3;
    k.index[month] = index;
    k.mark[month] = mark;
    k.v[month] = v;
    // "Rows carry both figures." "It is fixed when the month is added."
    k.records[month].modified = modified;
    run.months += 1;
    run.calendar = run.calendar % 12 + 1;
    run.values = values;
    Added { figures: Figures { water, z, percent, x1, x2, x3, index, mark, modified }, settled }
}

/// An add of water whose readings are known. Refusal 10 is the last. It is compiled in place: there are more arguments than
/// go in registers.
#[inline(always)]
fn add_amounts(run: &mut Run, p: Amount, pe: Amount, k: &mut Columns) -> Result<Added, Refusal> {
    if run.months as usize == k.x1.len() {
        return Err(Refusal::Full);
    }
    let first = 5 * (run.calendar as usize - 1);
    let start = [run.soil.surface, run.soil.underlying];
    let (water, z) = water_month(&mut run.soil, &run.constants[first..first + 5], p, pe);
    k.records[run.months as usize] = record_of(&water, z, start, &run.soil, WATER);
    Ok(add(run, water, z, k))
}

/// "Add a month of water." "At an add of water: 1, 7, precipitation 8 or 9, PE 8 or 9, 10."
pub fn add_water(run: &mut Run, p: &Reading, pe: &Reading, k: &mut Columns) -> Result<Added, Refusal> {
    check(run, k)?;
    let p = read(p)?;
    let pe = read(pe)?;
    add_amounts(run, p, pe, k)
}

/// "One month's precipitation and PE may arrive together as two binary32 inches."
pub fn add_inches(run: &mut Run, month: MonthInches, k: &mut Columns) -> Result<Added, Refusal> {
    check(run, k)?;
    let p = inches(month.p)?;
    let pe = inches(month.pe)?;
    add_amounts(run, p, pe, k)
}

/// "Add a Z (storage stays, the calendar moves on)." "At an add of Z: 1, 7, 12, 10."
pub fn add_z(run: &mut Run, z: i32, k: &mut Columns) -> Result<Added, Refusal> {
    let length = check(run, k)?;
    if !(-MOST_Z..=MOST_Z).contains(&z) {
        return Err(Refusal::BadZ);
    }
    if run.months as usize == length {
        return Err(Refusal::Full);
    }
    Ok(add_known_z(run, z, k))
}

/// An add of a Z that is in its range. The month's place is there.
#[inline(always)]
fn add_known_z(run: &mut Run, z: i32, k: &mut Columns) -> Added {
    // "For an added Z all those before Z are 0." "A Z-only month records its Z .., zeros for the six water figures and the
    // carried storages, with a mark that it had no water." "A whole-number reading of 0 is none, as is a Z-only month."
    let (water, carried) = (Water::default(), [run.soil.surface, run.soil.underlying]);
    k.records[run.months as usize] = record_of(&water, z, carried, &run.soil, NO_WATER);
    add(run, water, z, k)
}

/// What a season answers. All but the refusal tells of the months that were added.
#[derive(Clone, Copy, Debug)]
pub struct Season {
    pub added: u32,
    pub settled: u32,
    pub figures: Figures,
    pub refused: Option<Refusal>,
}

/// A reading in a season's lists: "in whole thousandths", "with -1 for missing".
#[inline]
fn listed(reading: i32) -> Result<Amount, Refusal> {
    match reading {
        0..=100_000 => Ok(whole(reading)),
        -1 => Err(Refusal::Missing),
        _ => Err(Refusal::NotAcceptable),
    }
}

/// "A season in one call." "At the first month that a single add refuses, the call stops, keeps the earlier ones,
/// and returns that refusal with how many were added."
pub fn add_season(run: &mut Run, p: &[i32], pe: &[i32], k: &mut Columns) -> Season {
    let mut season = Season { added: 0, settled: 0, figures: Figures::default(), refused: None };
    season.refused = add_months(run, p, pe, k, &mut season).err();
    season
}

/// "Add the months in order." Each one's order of refusals is that of an add of water from 8 on.
fn add_months(run: &mut Run, p: &[i32], pe: &[i32], k: &mut Columns, season: &mut Season) -> Result<(), Refusal> {
    // "1 also covers two lists of unequal length, and 1 and 7 are checked once, before the first month."
    if p.len() != pe.len() {
        return Err(Refusal::Lengths);
    }
    check(run, k)?;
    for (&p, &pe) in p.iter().zip(pe) {
        let p = listed(p)?;
        let pe = listed(pe)?;
        let month = add_amounts(run, p, pe, k)?;
        // "The figures are the last added month's (0 if none), settled counts summed, also on a refusal."
        season.added += 1;
        season.settled += month.settled;
        season.figures = month.figures;
    }
    Ok(())
}

/// "Show a month's row (what the five columns hold there)", and its record and V. "Row: 1, 7, 11." "Rows are numbered from
/// 0."
pub fn row(run: &Run, row: usize, k: &Columns) -> Result<Shown, Refusal> {
    check(run, k)?;
    if row >= run.months as usize {
        return Err(Refusal::NoRow);
    }
    Ok(Shown {
        number: 0,
        x1: k.x1[row],
        x2: k.x2[row],
        x3: k.x3[row],
        index: k.index[row],
        mark: k.mark[row],
        month: k.records[row],
        v: k.v[row],
    })
}

/// The months of a whole series, before hindsight.
struct Series {
    x1: Vec<i32>,
    x2: Vec<i32>,
    x3: Vec<i32>,
    decides: Vec<Decides>,
}

/// "Whole series (a list of Z, filling a list of indexes and one of marks, equal in length, as adding them singly
/// to a fresh run would": "1, 12". It reckons all months first and then fills the lists forward.
pub fn whole_series(z: &[i32], index: &mut [i32], mark: &mut [u8]) -> Result<(), Refusal> {
    let length = z.len();
    if length == 0 || length > MOST_MONTHS || index.len() != length || mark.len() != length {
        return Err(Refusal::Lengths);
    }
    if !z.iter().all(|z| (-MOST_Z..=MOST_Z).contains(z)) {
        return Err(Refusal::BadZ);
    }
    let mut series = Series {
        x1: vec![0; length],
        x2: vec![0; length],
        x3: vec![0; length],
        decides: vec![Decides::Nothing; length],
    };
    let mut values = Values { x1: 0, x2: 0, x3: 0, v: 0 };
    for (month, &z) in z.iter().enumerate() {
        let step = spell_month(&values, z);
        values = step.values;
        series.x1[month] = values.x1;
        series.x2[month] = values.x2;
        series.x3[month] = values.x3;
        series.decides[month] = step.decides;
        index[month] = step.index;
    }
    let mut first = 0;
    for month in 0..length {
        // "A month's deciding month is the first from it onward that decides."
        if series.decides[month] != Decides::Nothing {
            fill(&series, index, first, month);
            first = month + 1;
        }
    }
    // "With none, the month is open."
    mark[..first].fill(SETTLED);
    mark[first..].fill(OPEN);
    Ok(())
}

/// Fills in the indexes of the months `first..deciding`, going forward.
fn fill(series: &Series, index: &mut [i32], first: usize, deciding: usize) {
    // "If it decides with X3, the month's index is its own X3."
    if series.decides[deciding] == Decides::WithX3 {
        index[first..deciding].copy_from_slice(&series.x3[first..deciding]);
        return;
    }
    // "Otherwise go forward from the month itself: the first month before the deciding one with exactly one of
    // X1, X2 nonzero gives the side; with none, the deciding month gives it." `waiting` is the first month without
    // a side.
    let mut waiting = first;
    for month in first..=deciding {
        let side =
            if month < deciding { side(series.x1[month], series.x2[month]) } else { series.decides[deciding] };
        if side == Decides::Nothing {
            continue;
        }
        let own = if side == Decides::WithX1 { &series.x1 } else { &series.x2 };
        let end = deciding.min(month + 1);
        // "The index is the month's own value on that side."
        index[waiting..end].copy_from_slice(&own[waiting..end]);
        waiting = end;
    }
}
