//! card_start: each argument at and past its ends, several faults at once, and any numbers.

use crate::card::{self, Started};
use crate::check::{differ, Call, Check};
use crate::lists::{edged, inner, unchanged};
use crate::reference;
use crate::runs::{good_constants, good_soil, MOST, NO_RUN};

/// What stands before and after the constants. It is none, so that whoever reads too far refuses.
const BESIDE: i32 = i32::MIN;

impl Check {
    pub fn start(&mut self, constants: &[i32], [capacity, surface, underlying, month]: [i32; 4]) -> Started {
        let mut lent = edged(constants, BESIDE);
        let library = card::start(inner(&mut lent), capacity, surface, underlying, month);
        let reference = match reference::start(constants, capacity, surface, underlying, month) {
            Ok(run) => Started { number: 0, run },
            Err(refusal) => Started { number: refusal as u8, run: NO_RUN },
        };
        if library != reference || !unchanged(&lent, constants, BESIDE) {
            let inputs = (constants, capacity, surface, underlying, month);
            differ(Call::Start, &inputs, &(library, lent), &(reference, constants));
        }
        self.count(Call::Start, reference.number);
        reference
    }
}

pub fn starts(c: &mut Check, times: u64) {
    c.kind("starts, one argument");
    for place in 0..60 {
        let most = MOST[place % 5];
        for value in [i32::MIN, -1, 0, 1, most - 1, most, most + 1, i32::MAX] {
            let mut constants = good_constants(&mut c.random);
            constants[place] = value;
            c.start(&constants, [6_000, 500, 3_000, 7]);
        }
    }
    let constants = good_constants(&mut c.random);
    for length in [0, 1, 5, 12, 59, 60, 61, 65, 120, 600] {
        let list: Vec<i32> = constants.iter().cycle().take(length).copied().collect();
        c.start(&list, [6_000, 500, 3_000, 7]);
    }
    for capacity in [i32::MIN, -1, 0, 99, 100, 101, 999, 1_000, 1_001, 29_999, 30_000, 30_001, i32::MAX] {
        for surface in [i32::MIN, -1, 0, 1, 99, 100, 101, 999, 1_000, 1_001, i32::MAX] {
            let layer = capacity.saturating_sub(1_000);
            for underlying in
                [i32::MIN, -1, 0, 1, layer.saturating_sub(1), layer, layer.saturating_add(1), i32::MAX]
            {
                for month in [i32::MIN, -1, 0, 1, 2, 11, 12, 13, 257, i32::MAX] {
                    c.start(&constants, [capacity, surface, underlying, month]);
                }
            }
        }
    }
    for month in -2..=14 {
        c.start(&constants, [30_000, 0, 29_000, month]);
    }
    starts_with_faults(c, times);
}

/// Several faults at once, for the order of refusals; then starts of any numbers.
fn starts_with_faults(c: &mut Check, times: u64) {
    c.kind("starts, several faults");
    let good = good_constants(&mut c.random);
    for faults in 0..1u32 << 6 {
        let has = |fault: u32| faults >> fault & 1 == 1;
        for length in [0, 1, 59, 61] {
            let mut constants = good.clone();
            if has(1) {
                constants[0] = -1;
            }
            if has(0) {
                constants.resize(length, 0);
            }
            let capacity = if has(2) { 99 } else { 100 };
            let surface = if has(3) { 101 } else { 100 };
            let underlying = if has(4) { 1 } else { 0 };
            let month = if has(5) { 13 } else { 12 };
            c.start(&constants, [capacity, surface, underlying, month]);
        }
    }
    c.kind("starts, random");
    for _ in 0..20_000 * times {
        let mut constants = good_constants(&mut c.random);
        let mut soil = good_soil(&mut c.random);
        if c.random.one_in(4) {
            let place = c.random.below(60) as usize;
            constants[place] = c.random.bits() as i32;
        }
        if c.random.one_in(4) {
            let place = c.random.below(4) as usize;
            soil[place] = c.random.within(-2_000, 32_000) as i32;
        }
        c.start(&constants, soil);
    }
}
