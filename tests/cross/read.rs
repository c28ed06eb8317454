//! card_read: readings, against the reference and against the exact computation.

use crate::card::{self, Answer, Reading};
use crate::check::{differ, Call, Check};
use crate::conversion::{Unit, MOST_WATER, UNITS};
use crate::reference::{self, Amount};

impl Check {
    pub fn read(&mut self, reading: Reading) -> Answer {
        let library = card::read(reading);
        let reference = match reference::read(&reading) {
            Ok(Amount { water, kind }) => Answer { number: 0, kind, water },
            Err(refusal) => Answer { number: refusal as u8, kind: card::NONE, water: 0 },
        };
        if library != reference {
            let inputs = (reading, format!("{:#010x}", reading.measure.to_bits()));
            differ(Call::Read, &inputs, &library, &reference);
        }
        self.count(Call::Read, reference.number);
        self.told.alone(&reference);
        reference
    }

    /// A reading of this pattern, held to the exact computation.
    pub fn read_exactly(&mut self, unit: &Unit, bits: u32) {
        let x = f32::from_bits(bits);
        let library = card::read(unit.reading(x));
        if !unit.allows(x, library) {
            let inputs = (unit.reading(x), format!("{bits:#010x}"), "against the exact computation");
            differ(Call::Read, &inputs, &library, &unit.answer(x));
        }
        self.count(Call::Read, library.number);
        self.told.alone(&library);
    }
}

pub const KINDS: [u32; 12] = [0, 1, 2, 3, 4, 5, 255, 256, 257, 258, 0x8000_0003, u32::MAX];

/// Patterns of binary32 at the edges, of both signs.
pub fn edge_patterns() -> Vec<u32> {
    let hundred = 100f32.to_bits();
    let most_mm = 2540f32.to_bits();
    let mut edges = vec![0, 1, 2, 0x0040_0000, 0x007f_ffff, 0x0080_0000, 0x0080_0001, 0x3f80_0000];
    edges.extend([hundred - 1, hundred, hundred + 1, most_mm - 1, most_mm, most_mm + 1, 0x7f7f_ffff]);
    edges.extend([0x7f80_0000, 0x7f80_0001, 0x7fbf_ffff, 0x7fc0_0000, 0x7fc0_0001, 0x7fff_ffff]);
    edges.iter().flat_map(|bits| [*bits, bits | 0x8000_0000]).collect()
}

/// Readings of every kind, with every number at its edges.
pub fn edge_readings() -> Vec<Reading> {
    let wholes = [-1, 0, 1, 99_999, 100_000, 100_001, i32::MIN, i32::MAX];
    let mut found = Vec::new();
    for kind in KINDS {
        for bits in edge_patterns() {
            found.extend(wholes.map(|whole| Reading { kind, whole, measure: f32::from_bits(bits) }));
        }
    }
    found
}

pub fn readings(c: &mut Check, times: u64) {
    c.kind("readings, edges");
    for reading in edge_readings() {
        c.read(reading);
    }
    c.kind("readings, whole");
    for whole in -1_000..=101_000 {
        c.read(Reading::whole(whole));
    }
    for _ in 0..100_000 * times {
        let kind = c.random.pick(&KINDS);
        let (whole, bits) = (c.random.bits() as i32, c.random.bits() as u32);
        c.read(Reading { kind, whole, measure: f32::from_bits(bits) });
    }
    reading_halves(c);
    reading_spread(c, times);
}

/// Numbers halfway between two thousandths, or next to halfway, with both neighbours.
fn reading_halves(c: &mut Check) {
    c.kind("readings, halves");
    let mut around = |middle: f32, reading: fn(f32) -> Reading| {
        for bits in middle.to_bits() - 1..=middle.to_bits() + 1 {
            c.read(reading(f32::from_bits(bits)));
        }
    };
    // An exact half in inches is an odd number of sixteenths, and in millimetres an odd multiple of 127/16.
    for odd in (1..1600).step_by(2) {
        around(odd as f32 / 16.0, Reading::inches);
    }
    for odd in (1..320).step_by(2) {
        around(127.0 * odd as f32 / 16.0, Reading::millimetres);
    }
    for thousandth in 0..100_000 {
        let middle = f64::from(thousandth) + 0.5;
        around((middle / 1000.0) as f32, Reading::inches);
        around((middle * 127.0 / 5000.0) as f32, Reading::millimetres);
    }
}

fn reading_spread(c: &mut Check, times: u64) {
    c.kind("readings, the range by stride");
    let stride = (READING_STRIDE / times).max(1);
    for (most, reading) in [(100f32, Reading::inches as fn(f32) -> Reading), (2540f32, Reading::millimetres)] {
        let mut bits = u64::from(most.to_bits()) + 1000;
        while bits > 0 {
            c.read(reading(f32::from_bits(bits as u32)));
            bits = bits.saturating_sub(stride);
        }
    }
    c.kind("readings, near the range's end");
    for (most, reading) in [(100f32, Reading::inches as fn(f32) -> Reading), (2540f32, Reading::millimetres)] {
        for bits in most.to_bits() - 100_000..most.to_bits() + 100_000 {
            c.read(reading(f32::from_bits(bits)));
        }
    }
    c.kind("readings, random bits");
    for _ in 0..RANDOM_READINGS * times {
        let measure = f32::from_bits(c.random.bits() as u32);
        c.read(Reading::inches(measure));
        c.read(Reading::millimetres(measure));
    }
    // From a 64th of a thousandth up, where the answers vary.
    for _ in 0..RANDOM_READINGS * times {
        let inches = c.random.within(0x3780_0000, i64::from(100f32.to_bits())) as u32;
        let mm = c.random.within(0x3780_0000, i64::from(2540f32.to_bits())) as u32;
        c.read(Reading::inches(f32::from_bits(inches)));
        c.read(Reading::millimetres(f32::from_bits(mm)));
    }
}

const READING_STRIDE: u64 = 757;

const RANDOM_READINGS: u64 = 3_000_000;

/// Both units against the exact computation, of which tests/cross/every does all patterns: the range by a stride
/// from its top down, some patterns at its ends and beyond, and for each answer the least pattern that has it and
/// the one before.
pub fn readings_exactly(c: &mut Check) {
    for unit in &UNITS {
        c.kind("readings, exactly, by stride");
        let top = unit.top.to_bits();
        for bits in (0..=top).rev().step_by(EXACT_STRIDE) {
            c.read_exactly(unit, bits);
        }
        for bits in [0, 1, top, top + 1, 0x7f7f_ffff, 0x7f80_0000, 0x7f80_0001, 0x7fc0_0000, 0x7fff_ffff] {
            c.read_exactly(unit, bits);
            c.read_exactly(unit, bits | 0x8000_0000);
        }
        c.kind("readings, exactly, each answer");
        for n in 1..=MOST_WATER {
            let least = unit.least(n);
            c.read_exactly(unit, least - 1);
            c.read_exactly(unit, least);
        }
    }
}

const EXACT_STRIDE: usize = 499;
