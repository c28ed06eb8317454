//! Constants, soils, runs and lengths that the calls are tried with, good and bad.

use crate::card::{Run, Soil, Values};
use crate::random::Random;
use crate::reference::{layers, MOST_MONTHS};

/// "A refused start: all zeros."
pub const NO_RUN: Run = Run {
    months: 0,
    opens: 0,
    calendar: 0,
    soil: Soil { capacity: 0, surface: 0, underlying: 0 },
    values: Values { x1: 0, x2: 0, x3: 0, v: 0 },
    constants: [0; 60],
};

/// The least that each of a month's five constants may be in a run, and the most.
const LEAST: [i32; 5] = [0, 0, 0, 0, 1];
pub const MOST: [i32; 5] = [10_000, 10_000, 50_000, 10_000, 100_000];

/// Sixty good constants: like a real station's, or anywhere in their ranges, or at their ends.
pub fn good_constants(random: &mut Random) -> Vec<i32> {
    let way = random.below(3);
    let constant = |place: usize| match way {
        0 => random.within([7_000, 0, 0, 0, 9_000][place % 5], [10_000, 4_000, 2_500, 6_000, 25_000][place % 5])
            as i32,
        1 => random.within(i64::from(LEAST[place % 5]), i64::from(MOST[place % 5])) as i32,
        _ => random.pick(&[LEAST[place % 5], LEAST[place % 5] + 1, MOST[place % 5] - 1, MOST[place % 5]]),
    };
    (0..60).map(constant).collect()
}

/// A capacity, two storages and a month that are good.
pub fn good_soil(random: &mut Random) -> [i32; 4] {
    let (thin, any) = (random.within(100, 999), random.within(100, 30_000));
    let capacity = random.pick(&[100, thin, thin, 999, 1_000, 1_001, 6_000, 30_000, any, any]);
    let storages = layers(capacity as u32).map(|most| {
        let some = random.within(0, i64::from(most)) as i32;
        random.pick(&[0, some, most as i32])
    });
    [capacity as i32, storages[0], storages[1], random.within(1, 12) as i32]
}

/// A run that is one, with any values: most of them no series leads to.
pub fn any_good_run(random: &mut Random, length: usize) -> Run {
    let months = random.within(0, length as i64);
    let opens = random.within(0, months);
    let [capacity, surface, underlying, month] = good_soil(random).map(|x| x as u32);
    Run {
        months: months as u32,
        opens: opens as u32,
        calendar: month,
        soil: Soil { capacity, surface, underlying },
        values: any_values(random, months),
        constants: good_constants(random).try_into().unwrap_or([-1; 60]),
    }
}

/// X1, X2, X3 and V of a run of so many months.
pub fn any_values(random: &mut Random, months: i64) -> Values {
    let size = random.pick(&[3, 600, 1_200, 5_000, 13_000_000]);
    let x3 = random.within(-size, size);
    let near = random.pick(&[-13_000_000, -2_000, -1_000, -501, -500, 0, 500, 501, 1_000, 2_000, 13_000_000]);
    let x3 = random.pick(&[0, x3, x3, near]);
    let most_v = 4_000_150 * months;
    let v = random.pick(&[0, 1, 1_000, most_v]).min(most_v);
    let v = -x3.signum() * random.within(0, v);
    let mut side = || {
        let x = random.within(0, size);
        random.pick(&[0, 1, x, x]) as i32
    };
    Values { x1: side(), x2: -side(), x3: x3 as i32, v }
}

/// The fields of a run before its constants.
pub const FIELDS: usize = 10;

/// Sets a field of a run, counted as they stand in it, to as much of the value as it takes.
pub fn set_field(run: &mut Run, field: usize, value: i64) {
    match field {
        0 => run.months = value as u32,
        1 => run.opens = value as u32,
        2 => run.calendar = value as u32,
        3 => run.soil.capacity = value as u32,
        4 => run.soil.surface = value as u32,
        5 => run.soil.underlying = value as u32,
        6 => run.values.x1 = value as i32,
        7 => run.values.x2 = value as i32,
        8 => run.values.x3 = value as i32,
        9 => run.values.v = value,
        _ => run.constants[field - FIELDS] = value as i32,
    }
}

/// Values at and past every limit of every field.
pub fn limits(run: &Run, length: usize) -> Vec<i64> {
    let most_v = 4_000_150 * i64::from(run.months);
    let ends =
        [0, 1, 12, 100, 500, 1_000, 10_000, 30_000, 50_000, 100_000, 13_000_000, 1 << 31, 1 << 32, most_v, i64::MAX];
    let [surface, underlying] = layers(run.soil.capacity).map(i64::from);
    let own = [length as i64, i64::from(run.months), i64::from(run.opens), surface, underlying];
    let mut values: Vec<i64> = ends
        .iter()
        .chain(&own)
        .chain(&[2_400, MOST_MONTHS as i64])
        .flat_map(|&end| [end.saturating_sub(1), end, end.saturating_add(1)])
        .flat_map(|end| [end, -end])
        .collect();
    values.push(i64::MIN);
    values.sort_unstable();
    values.dedup();
    values
}

/// Lengths of the seven columns: all good first, then with faults.
pub fn length_faults() -> Vec<[usize; 7]> {
    let equal = [5, 2_401, MOST_MONTHS, 0, MOST_MONTHS + 1, MOST_MONTHS + 600];
    let mut found = equal.map(|length| [length; 7]).to_vec();
    for column in 0..7 {
        for (length, other) in [(5, 0), (5, 4), (5, 6), (2_400, 2_401), (MOST_MONTHS, MOST_MONTHS + 1)] {
            let mut lengths = [length; 7];
            lengths[column] = other;
            found.push(lengths);
        }
    }
    found
}

/// Each with the number of months as given and with as many as the columns hold.
pub fn run_faults(run: &Run) -> Vec<Run> {
    let mut found = Vec::new();
    for months in [run.months, 5] {
        let good = Run { months, ..*run };
        found.push(good);
        let counts = [(0, 6), (0, 2_500), (0, MOST_MONTHS as i64 + 100), (1, i64::from(months) + 1)];
        let soil = [(2, 0), (3, 99), (4, 1_001), (5, 29_001)];
        let values = [(6, -1), (7, 1), (8, 13_000_001), (9, 1), (FIELDS, -1)];
        for (field, value) in counts.into_iter().chain(soil).chain(values) {
            let mut spoiled = good;
            set_field(&mut spoiled, field, value);
            found.push(spoiled);
        }
    }
    found
}
