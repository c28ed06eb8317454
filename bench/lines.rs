//! The calls of bench/peer.rs that write and read a line of a division file: no list besides those that are lent. A line is
//! written once all its values are known to fit, and read in one pass.

/// The reference again, for this file alone, so that what it has compiled in place elsewhere stays as it is.
#[path = "../tests/cross/reference.rs"]
mod reference;

use crate::card::{
    Columns, LineFigures, Run, DONE, LINE, LINE_MONTHS, MALFORMED, NOT_THE_YEAR, OTHER_LINE, SETTLED, SHORT_LINE,
    UNFIT,
};
use reference::check;

const HEADING: usize = 10;
const WIDTH: usize = 7;
/// Of the heading's fields, each from where to where.
const FIELDS: [(usize, usize); 4] = [(0, 2), (2, 4), (4, 6), (6, HEADING)];
/// In hundredths, as all values.
const MISSING: i32 = -9_999;

const PRECIPITATION: u32 = 1;
const NO_PRECIPITATION: i32 = -999;
const MOST_PRECIPITATION: i32 = 10_000;

#[derive(Clone, Copy)]
pub enum Element {
    Index = 5,
    Z = 7,
    Modified = 8,
}

/// What a line is asked with: its state and division, the year of row 0 and which of the run's years.
#[derive(Clone, Copy)]
pub struct Asked {
    pub state: u32,
    pub division: u32,
    pub year: u32,
    pub which: u32,
}

// ---- Writing -----------------------------------------------------------------------------------------------

/// The line of a year, or the refusal.
#[inline(always)]
pub fn write(element: Element, asked: Asked, run: &Run, k: &Columns, line: &mut [u8]) -> Result<(), u8> {
    check(run, k).map_err(|refusal| refusal as u8)?;
    let Asked { state, division, year, which } = asked;
    let own = u64::from(year) + u64::from(which);
    if state > 99 || division > 99 || own > 9_999 {
        return Err(UNFIT);
    }
    let values = values(element, which as usize, run, k)?;
    let line: &mut [u8; LINE] = line.first_chunk_mut().ok_or(SHORT_LINE)?;
    let (heading, months) = line.split_at_mut(HEADING);
    for ((from, to), number) in FIELDS.into_iter().zip([state, division, element as u32, own as u32]) {
        put_number(&mut heading[from..to], number);
    }
    for (field, value) in months.chunks_exact_mut(WIDTH).zip(values) {
        put_value(field, value);
    }
    Ok(())
}

/// The year's values, of which the months outside the run and those that are not sent are missing.
#[inline(always)]
fn values(element: Element, which: usize, run: &Run, k: &Columns) -> Result<[i32; LINE_MONTHS], u8> {
    let mut values = [MISSING; LINE_MONTHS];
    // How many months of its calendar year row 0 comes after.
    let before = (run.calendar as usize + 11 - run.months as usize % 12) % 12;
    let (year, end) = (12 * which, run.months as usize + before);
    for (place, value) in (year..end).zip(&mut values) {
        let Some(row) = place.checked_sub(before) else { continue };
        let thousandths = match element {
            Element::Index if k.mark[row] != SETTLED => continue,
            Element::Index => k.index[row],
            Element::Z => k.records[row].z,
            Element::Modified => k.records[row].modified,
        };
        *value = hundredths(thousandths)?;
    }
    Ok(values)
}

/// Nearest, and in seven characters another than the missing mark.
#[inline(always)]
fn hundredths(thousandths: i32) -> Result<i32, u8> {
    if !(-999_994..=9_999_994).contains(&thousandths) {
        return Err(UNFIT);
    }
    let half = if thousandths < 0 { -5 } else { 5 };
    match (thousandths + half) / 10 {
        MISSING => Err(UNFIT),
        hundredths => Ok(hundredths),
    }
}

#[inline(always)]
fn digit_of(n: u32) -> u8 {
    b'0' + (n % 10) as u8
}

/// Zeros on the left.
#[inline(always)]
fn put_number(field: &mut [u8], mut number: u32) {
    for place in field.iter_mut().rev() {
        *place = digit_of(number);
        number /= 10;
    }
}

/// Spaces on the left, and a digit before the point.
#[inline(always)]
fn put_value(field: &mut [u8], hundredths: i32) {
    let size = hundredths.unsigned_abs();
    let (mut first, mut units) = (3, size / 100);
    field.copy_from_slice(&[b' ', b' ', b' ', digit_of(units), b'.', digit_of(size / 10), digit_of(size)]);
    while units > 9 {
        units /= 10;
        first -= 1;
        field[first] = digit_of(units);
    }
    if hundredths < 0 {
        field[first - 1] = b'-';
    }
}

// ---- Reading -----------------------------------------------------------------------------------------------

/// What a line says of its year, or the refusal.
#[inline(always)]
pub fn read(element: Element, line: &[u8], state: u32, division: u32, year: u32) -> Result<LineFigures, u8> {
    let (line, after) = line.split_first_chunk::<LINE>().ok_or(MALFORMED)?;
    let [mut own_state, mut own_division, mut own_element, mut own_year] = [0; 4];
    for (number, (from, to)) in
        [&mut own_state, &mut own_division, &mut own_element, &mut own_year].into_iter().zip(FIELDS)
    {
        *number = number_of(&line[from..to]).ok_or(MALFORMED)?;
    }
    let (mut hundredths, mut present) = ([0; LINE_MONTHS], 0u32);
    for (month, field) in line[HEADING..].chunks_exact(WIDTH).enumerate() {
        let value = value_of(field).ok_or(MALFORMED)?;
        if own_element == PRECIPITATION && !is_precipitation(value) {
            return Err(MALFORMED);
        }
        if value != MISSING {
            hundredths[month] = value;
            present |= 1 << month;
        }
    }
    if after.iter().any(|byte| *byte != b' ') {
        return Err(MALFORMED);
    }
    if own_state != state || own_division != division || own_element != element as u32 {
        return Err(OTHER_LINE);
    }
    if own_year != year {
        return Err(NOT_THE_YEAR);
    }
    let first_missing = match present.trailing_ones() as usize {
        LINE_MONTHS => 0,
        months => months as u32 + 1,
    };
    Ok(LineFigures { number: DONE, hundredths, present, count: present.count_ones(), first_missing })
}

#[inline(always)]
fn is_precipitation(value: i32) -> bool {
    value == NO_PRECIPITATION || (0..=MOST_PRECIPITATION).contains(&value)
}

#[inline(always)]
fn digit(byte: u8) -> Option<u32> {
    match byte.wrapping_sub(b'0') {
        n @ 0..=9 => Some(u32::from(n)),
        _ => None,
    }
}

/// The number that digits make.
#[inline(always)]
fn number_of(field: &[u8]) -> Option<u32> {
    field.iter().try_fold(0, |number, byte| Some(10 * number + digit(*byte)?))
}

/// A value's seven columns, in hundredths.
#[inline(always)]
fn value_of(field: &[u8]) -> Option<i32> {
    let field: &[u8; WIDTH] = field.try_into().ok()?;
    let [units @ .., point, tenths, hundredths] = field;
    let mut first = units.iter().take_while(|byte| **byte == b' ').count();
    let minus = units.get(first) == Some(&b'-');
    first += usize::from(minus);
    if *point != b'.' || first < 3 && units[first] == b'0' {
        return None;
    }
    let size = 100 * number_of(&units[first..])? + 10 * digit(*tenths)? + digit(*hundredths)?;
    Some(if minus { -(size as i32) } else { size as i32 })
}

// ---- For a person ------------------------------------------------------------------------------------------

pub fn year(line: &[u8]) -> u32 {
    let (from, to) = FIELDS[3];
    line.get(from..to).and_then(number_of).unwrap_or(0)
}

/// The column, from 1, where the first field at fault begins, or 0.
pub fn fault(line: &[u8]) -> u32 {
    let Some((line, after)) = line.split_first_chunk::<LINE>() else {
        return line.len() as u32 + 1;
    };
    for (from, to) in FIELDS {
        if number_of(&line[from..to]).is_none() {
            return from as u32 + 1;
        }
    }
    let rain = number_of(&line[4..6]) == Some(PRECIPITATION);
    for (month, field) in line[HEADING..].chunks_exact(WIDTH).enumerate() {
        if !value_of(field).is_some_and(|value| !rain || is_precipitation(value)) {
            return (HEADING + WIDTH * month) as u32 + 1;
        }
    }
    if after.iter().any(|byte| *byte != b' ') {
        return LINE as u32 + 1;
    }
    0
}
