//! What a binary32 reading must answer, by exact comparison; no bit pattern is taken apart. It shares the
//! library's data types and nothing else. From 0 to the top of the range the answer to x is the n with
//!     (2 n - 1) of <= 2 per x < (2 n + 1) of,
//! the whole number nearest to x per / of, a half going up. In f64 nothing of this is rounded: an f32 is an f64 as
//! it stands, its 24 binary digits times the 14 of 2 per are at most 38 of 53, the other side is a whole number
//! below 2^40 for any n of 32 binary digits, and 2 per x is 0 or far above the least f64. Of an x above zero an answer of 0
//! is a trace.
#![allow(dead_code)]

use crate::card::{self, Answer, Reading};

/// The most that a reading answers, in thousandths of an inch.
pub const MOST_WATER: u32 = 100_000;

/// "NaN, infinities, negatives and anything above the range are refused."
const REFUSED: Answer = Answer { number: 9, kind: card::NONE, water: 0 };

/// A unit of readings: x of it are x per / of thousandths of an inch.
pub struct Unit {
    pub name: &'static str,
    kind: u32,
    pub top: f32,
    per: f64,
    of: i64,
}

pub const UNITS: [Unit; 2] = [
    Unit { name: "inches", kind: card::INCHES, top: 100.0, per: 1000.0, of: 1 },
    Unit { name: "millimetres", kind: card::MILLIMETRES, top: 2540.0, per: 5000.0, of: 127 },
];

/// What a reading is told as where it is not refused. "A whole-number reading of 0 is none."
pub fn told(reading: &Reading) -> u8 {
    match UNITS.iter().find(|unit| unit.kind == reading.kind) {
        Some(unit) => unit.told(reading.measure),
        None if reading.whole == 0 => card::NONE,
        None => card::MEASURED,
    }
}

impl Unit {
    pub fn reading(&self, x: f32) -> Reading {
        Reading { kind: self.kind, whole: 0, measure: x }
    }

    /// Whether x is in the range. -0 equals 0 and is; a NaN compares with nothing and is not.
    fn holds(&self, x: f32) -> bool {
        (0.0..=self.top).contains(&x)
    }

    /// Whether x is at least halfway from n - 1 to n.
    fn reaches(&self, x: f32, n: u32) -> bool {
        let halfway = ((2 * i64::from(n) - 1) * self.of) as f64;
        halfway <= 2.0 * self.per * f64::from(x)
    }

    /// "None, trace (above zero, nearest thousandth 0), and measured", of an x in the range. -0 equals 0, and neither is
    /// above it.
    pub fn told(&self, x: f32) -> u8 {
        if self.reaches(x, 1) {
            card::MEASURED
        } else if f64::from(x) > 0.0 {
            card::TRACE
        } else {
            card::NONE
        }
    }

    /// Whether this is the right answer to x.
    pub fn allows(&self, x: f32, answer: Answer) -> bool {
        if self.holds(x) {
            let nearest = self.reaches(x, answer.water) && !self.reaches(x, answer.water + 1);
            answer.number == 0 && nearest && answer.kind == self.told(x)
        } else {
            answer == REFUSED
        }
    }

    /// The right answer to x, looked for from the top down.
    pub fn answer(&self, x: f32) -> Answer {
        if self.holds(x) {
            let water = (1..=MOST_WATER).rev().find(|&n| self.reaches(x, n)).unwrap_or(0);
            Answer { number: 0, kind: self.told(x), water }
        } else {
            REFUSED
        }
    }

    /// The least pattern whose number reaches n, which is at most `MOST_WATER`. From 0 up, patterns are in the
    /// order of their numbers.
    pub fn least(&self, n: u32) -> u32 {
        let (mut low, mut high) = (0, self.top.to_bits());
        while low < high {
            let middle = low + (high - low) / 2;
            if self.reaches(f32::from_bits(middle), n) {
                high = middle;
            } else {
                low = middle + 1;
            }
        }
        low
    }
}
