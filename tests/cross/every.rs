//! Calls the library on every binary32 pattern, as inches and as millimetres, and holds each answer and its kind to the
//! exact computation: the range from 0 up, then all other patterns. Each answer from 0 to 100,000 must occur. It prints how
//! many patterns are none, a trace and measured, and how many are refused. All processors are used. The first difference,
//! by unit and pattern, is printed, and the status is then 1.

#[path = "../../host/card.rs"]
mod card;
mod conversion;

use card::Answer;
use conversion::{Unit, MOST_WATER, UNITS};
use std::ops::Range;
use std::sync::atomic::{AtomicU64, Ordering};

/// How many patterns there are, and how many are handed out at a time.
const PATTERNS: u64 = 1 << 32;
const PIECE: u64 = 1 << 20;
const PIECES: u64 = PATTERNS / PIECE;
const ALL_PIECES: u64 = PIECES * UNITS.len() as u64;

fn main() {
    let threads = std::thread::available_parallelism().map_or(1, usize::from);
    let next = AtomicU64::new(0);
    let shares: Vec<Share> = std::thread::scope(|scope| {
        let started: Vec<_> = (0..threads).map(|_| scope.spawn(|| share(&next))).collect();
        started.into_iter().map(|thread| thread.join().expect("a thread broke off")).collect()
    });
    let wrong = shares.iter().filter_map(|share| share.wrong.as_ref());
    if let Some(wrong) = wrong.min_by_key(|wrong| (wrong.unit, wrong.bits)) {
        differ(wrong);
    }
    let heads = ["in range", "none", "trace", "measured", "refused", "answers"];
    println!("{:<14}{}", "unit", heads.map(|head| format!("{head:>12}")).concat());
    let mut cases = 0;
    for (place, unit) in UNITS.iter().enumerate() {
        let tallies: Vec<&Tally> = shares.iter().map(|share| &share.tallies[place]).collect();
        cases += print(unit, &tallies);
    }
    println!("-0 is counted as in range, as none");
    println!("every reading: {cases} cases on {threads} threads, no difference");
}

/// What a unit's answers came to.
struct Tally {
    /// Those in the range, by their kind.
    kinds: [u64; 3],
    refused: u64,
    /// Whether each answer occurred.
    seen: Vec<bool>,
}

/// A wrong answer.
struct Wrong {
    unit: usize,
    bits: u32,
    answer: Answer,
}

/// What a thread did.
struct Share {
    tallies: [Tally; UNITS.len()],
    wrong: Option<Wrong>,
}

/// Takes pieces until none are left, or one has a difference. They are taken in order, and each is tried to its
/// end or its first difference, so the least difference of all threads is the first there is.
fn share(next: &AtomicU64) -> Share {
    let none = |_| Tally { kinds: [0; 3], refused: 0, seen: vec![false; MOST_WATER as usize + 1] };
    let mut share = Share { tallies: [0; UNITS.len()].map(none), wrong: None };
    while share.wrong.is_none() {
        let piece = next.fetch_add(1, Ordering::Relaxed);
        if piece >= ALL_PIECES {
            return share;
        }
        let (unit, first) = ((piece / PIECES) as usize, piece % PIECES * PIECE);
        share.wrong = try_piece(unit, first..first + PIECE, &mut share.tallies[unit]).err();
    }
    next.fetch_max(ALL_PIECES, Ordering::Relaxed);
    share
}

/// Tries patterns until one is answered wrongly.
fn try_piece(unit: usize, patterns: Range<u64>, tally: &mut Tally) -> Result<(), Wrong> {
    for bits in patterns {
        let bits = bits as u32;
        let x = f32::from_bits(bits);
        let answer = card::read(UNITS[unit].reading(x));
        if !UNITS[unit].allows(x, answer) {
            return Err(Wrong { unit, bits, answer });
        }
        if answer.number == 0 {
            tally.kinds[answer.kind as usize] += 1;
            tally.seen[answer.water as usize] = true;
        } else {
            tally.refused += 1;
        }
    }
    Ok(())
}

fn differ(wrong: &Wrong) -> ! {
    let (unit, x) = (&UNITS[wrong.unit], f32::from_bits(wrong.bits));
    println!("difference at {}", unit.name);
    println!("pattern: {:#010x}", wrong.bits);
    println!("number: {x:?}");
    println!("library: {:?}", wrong.answer);
    println!("allowed: {:?}", unit.answer(x));
    std::process::exit(1);
}

/// Prints a unit's line, and hands back how many of its patterns were tried.
fn print(unit: &Unit, tallies: &[&Tally]) -> u64 {
    let [none, trace, measured] = [0, 1, 2].map(|kind| tallies.iter().map(|tally| tally.kinds[kind]).sum::<u64>());
    let refused: u64 = tallies.iter().map(|tally| tally.refused).sum();
    let in_range = none + trace + measured;
    let occurs = |&n: &u32| tallies.iter().any(|tally| tally.seen[n as usize]);
    let answers = (0..=MOST_WATER).filter(occurs).count();
    let counts = [in_range, none, trace, measured, refused, answers as u64];
    println!("{:<14}{}", unit.name, counts.map(|count| format!("{count:>12}")).concat());
    if let Some(n) = (0..=MOST_WATER).find(|n| !occurs(n)) {
        println!("difference at {}: {n} is never answered", unit.name);
        std::process::exit(1);
    }
    in_range + refused
}
