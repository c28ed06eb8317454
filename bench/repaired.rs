//! Repairs of the first month of a full run, by which all its months are worked once more.

/// The reference again, for this file alone, so that what it has compiled in place elsewhere stays as it is.
#[path = "../tests/cross/reference.rs"]
mod reference;

use super::Inputs;
use crate::card::{self, Change, Columns, Reading, Run};
use reference::Refusal;
use std::hint::black_box;

type Answer = Result<u32, Refusal>;

/// The same inputs, with every month of water added to the run.
pub fn filled(mut inputs: Inputs) -> Inputs {
    let (p, pe) = &inputs.season;
    let _ = reference::add_season(&mut inputs.run, p, pe, &mut inputs.lists.lend());
    inputs
}

/// New readings for the first month: its own precipitation and an inch more, in turn, and its own PE.
fn readings(inputs: &Inputs) -> [Reading; 2] {
    let (p, pe) = inputs.water[0];
    let more = if inputs.lists.records[0].p == p { 1_000 } else { 0 };
    [p + more, pe].map(Reading::whole)
}

pub fn library(inputs: &mut Inputs) -> u32 {
    let [p, pe] = readings(inputs);
    let repaired = card::repair(inputs.run, 0, p, pe, &mut inputs.lists.lend(), &mut inputs.report);
    inputs.run = repaired.run;
    repaired.changed
}

pub fn rust(inputs: &mut Inputs) -> u32 {
    let repair: fn(&mut Run, usize, &Reading, &Reading, &mut Columns, &mut [Change]) -> Answer =
        black_box(reference::repairing::repair);
    let [p, pe] = readings(inputs);
    repair(&mut inputs.run, 0, &p, &pe, &mut inputs.lists.lend(), &mut inputs.report).unwrap_or(0)
}
