//! Constants worked out of a full run, and one of its calendar months summed.

/// The reference again, for this file alone, so that what it has compiled in place elsewhere stays as it is.
#[path = "../tests/cross/reference.rs"]
mod reference;

use super::Inputs;
use crate::card::{self, Columns, Run, Summed, Sums, WorkedOut, DONE, WEIGHTS};
use reference::Refusal;
use std::hint::black_box;

/// About what the paper's first weights are.
const FIRST: [i32; WEIGHTS] =
    [17_000, 16_500, 16_000, 15_000, 14_000, 12_500, 11_500, 12_000, 13_500, 15_000, 16_000, 17_000];

const MONTH: i32 = 7;

/// What is worked out of a run that leaves nothing to refuse.
fn sum_of_worked(worked: &WorkedOut) -> u32 {
    let numbers = worked.constants.iter().map(|constant| *constant as u32).chain(worked.departures);
    numbers.fold(refused(worked.number), |sum, number| sum.wrapping_mul(31).wrapping_add(number))
}

fn sum_of_summed(summed: &Summed) -> u32 {
    let Sums { et, pe, r, pr, ro, pro, l, pl } = summed.sums;
    let numbers = [summed.years, et, pe, r, pr, ro, pro, l, pl];
    numbers.iter().fold(refused(summed.number), |sum, number| sum.wrapping_mul(31).wrapping_add(*number))
}

/// Nothing is measured that was refused.
fn refused(number: u8) -> u32 {
    if number != DONE {
        eprintln!("bench: {}", card::meaning(number));
        std::process::exit(1);
    }
    0
}

pub fn library(inputs: &mut Inputs) -> u32 {
    sum_of_worked(&card::work_out(inputs.run, &FIRST, &inputs.lists.lend()))
}

pub fn rust(inputs: &mut Inputs) -> u32 {
    let work: fn(&Run, &[i32], &Columns) -> Result<WorkedOut, Refusal> = black_box(reference::constants::work_out);
    work(&inputs.run, &FIRST, &inputs.lists.lend()).map_or(0, |worked| sum_of_worked(&worked))
}

pub fn month_library(inputs: &mut Inputs) -> u32 {
    sum_of_summed(&card::sum_month(inputs.run, MONTH, &inputs.lists.lend()))
}

pub fn month_rust(inputs: &mut Inputs) -> u32 {
    let sum: fn(&Run, i32, &Columns) -> Result<Summed, Refusal> = black_box(reference::constants::sum_month);
    sum(&inputs.run, MONTH, &inputs.lists.lend()).map_or(0, |summed| sum_of_summed(&summed))
}
