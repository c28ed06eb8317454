//! The reference's lines of a division file, document 02's E14 and what it takes of E1's reader: a part of reference.rs, written
//! from that document, the layout's description and the calls' alone. The sentences quoted in the comments are the documents'.
//! A line is put together and taken apart as text.

use super::*;
use crate::card::LineFigures;
use std::ops::Range;

/// "A line is 94 characters."
pub const LINE: usize = 94;
/// "State, division, element and year in the first ten columns": each from its first byte to past its last.
const HEADING: [Range<usize>; 4] = [0..2, 2..4, 4..6, 6..10];
/// "Then twelve values of seven characters".
const VALUES: usize = 10;
const WIDTH: usize = 7;
/// "Their missing mark is -99.99", in hundredths as all values here.
const MARK: i64 = -9_999;
/// What seven characters hold.
const FITS: RangeInclusive<i64> = -99_999..=999_999;
/// "Precipitation is element 01 and its missing mark is -9.99." Its amounts are "0 to 100 inches".
const RAIN: u32 = 1;
const RAIN_MARK: i64 = -999;
const RAINS: RangeInclusive<i64> = 0..=10_000;

/// "The elements are 05, 07 and 08."
#[derive(Clone, Copy, Debug, PartialEq, Eq)]
pub enum Element {
    Index = 5,
    Z = 7,
    Modified = 8,
}

// ---- Writing -----------------------------------------------------------------------------------------------

/// "State, division, the year of row 0 and which of the run's years (from 0) are given."
#[derive(Clone, Copy, Debug)]
pub struct Sent {
    pub element: Element,
    pub state: u32,
    pub division: u32,
    pub year: u32,
    pub which: u32,
}

/// "Refusals: after 1 and 7, 24 such a value, or a state, division or year that doesn't fit its digits, 25 output list too
/// short for the line, in that order, with nothing written."
pub fn write(sent: &Sent, run: &Run, k: &Columns, line: &mut [u8]) -> Result<(), Refusal> {
    check(run, k)?;
    let year = u64::from(sent.year) + u64::from(sent.which);
    if sent.state > 99 || sent.division > 99 || year > 9_999 {
        return Err(Refusal::Unfit);
    }
    let mut text = format!("{:02}{:02}{:02}{year:04}", sent.state, sent.division, sent.element as u8);
    for month in 0..12 {
        // "An open Palmer month and a month outside the run get the mark."
        let hundredths = match row_of(sent.which, month, run).and_then(|row| sent_of(sent.element, row, k)) {
            Some(thousandths) => fitting(thousandths)?,
            None => MARK,
        };
        text.push_str(&printed(hundredths));
    }
    if line.len() < LINE {
        return Err(Refusal::ShortLine);
    }
    line[..LINE].copy_from_slice(text.as_bytes());
    Ok(())
}

/// The row of a calendar month, January 0, of one of the run's years: year 0 is the one that row 0 lies in. None outside the
/// run. The run's calendar month is that of the month after the last row.
fn row_of(which: u32, month: i64, run: &Run) -> Option<usize> {
    let of_row_0 = (i64::from(run.calendar) - i64::from(run.months) - 1).rem_euclid(12);
    let row = 12 * i64::from(which) + month - of_row_0;
    (0..i64::from(run.months)).contains(&row).then_some(row as usize)
}

/// The thousandths that a row has to send. None of an index that is not settled, whatever its mark.
fn sent_of(element: Element, row: usize, k: &Columns) -> Option<i32> {
    match element {
        Element::Index if k.mark[row] == SETTLED => Some(k.index[row]),
        Element::Index => None,
        Element::Z => Some(k.records[row].z),
        Element::Modified => Some(k.records[row].modified),
    }
}

/// "Values nearest to hundredths." "A value that doesn't fit its seven characters, or that would itself print as the missing
/// mark, refuses the line."
fn fitting(thousandths: i32) -> Result<i64, Refusal> {
    let hundredths = nearest(i64::from(thousandths), 10);
    if FITS.contains(&hundredths) && hundredths != MARK {
        Ok(hundredths)
    } else {
        Err(Refusal::Unfit)
    }
}

/// "Fortran F7.2: seven characters, right-justified, blank-padded on the left", with a digit before the point.
fn printed(hundredths: i64) -> String {
    let (minus, size) = (if hundredths < 0 { "-" } else { "" }, hundredths.abs());
    let number = format!("{minus}{}.{:02}", size / 100, size % 100);
    format!("{number:>WIDTH$}")
}

// ---- Reading -----------------------------------------------------------------------------------------------

/// What a line says of its year: "14 malformed line or precipitation neither the mark nor 0 to 100 inches, 15 other state,
/// division or element, 16 not the expected year, in that order".
pub fn read(element: Element, line: &[u8], state: u32, division: u32, year: u32) -> Result<LineFigures, Refusal> {
    if fault(line) != 0 {
        return Err(Refusal::Malformed);
    }
    let [own_state, own_division, own_element, own_year] = HEADING.map(|field| digits(&line[field]));
    if [own_state, own_division, own_element] != [Some(state), Some(division), Some(element as u32)] {
        return Err(Refusal::OtherLine);
    }
    if own_year != Some(year) {
        return Err(Refusal::OtherYear);
    }
    let mut told = LineFigures::default();
    for (month, value) in values(line).enumerate() {
        let hundredths = number(value).unwrap_or(MARK);
        if hundredths != MARK {
            told.hundredths[month] = hundredths as i32;
            told.present |= 1 << month;
            told.count += 1;
        } else if told.first_missing == 0 {
            told.first_missing = month as u32 + 1;
        }
    }
    Ok(told)
}

/// The column, from 1, where the first field at fault of a malformed line begins, and 0 where none is at fault. "Spaces after
/// the last value are ignored."
pub fn fault(line: &[u8]) -> u32 {
    if line.len() < LINE {
        return line.len() as u32 + 1;
    }
    let no_digits = HEADING.into_iter().find(|field| digits(&line[field.clone()]).is_none());
    let unlike = values(line).position(|value| !is_value(line, value)).map(|month| VALUES + WIDTH * month);
    let after = line[LINE..].iter().any(|byte| *byte != b' ').then_some(LINE);
    let first = no_digits.map(|field| field.start).or(unlike).or(after);
    first.map_or(0, |place| place as u32 + 1)
}

/// The year that a line says, 0 where it says none.
pub fn year(line: &[u8]) -> u32 {
    line.get(HEADING[3].clone()).and_then(digits).unwrap_or(0)
}

fn values(line: &[u8]) -> impl Iterator<Item = &[u8]> {
    line[VALUES..LINE].chunks_exact(WIDTH)
}

/// Whether a value is a number and, on a line of precipitation, one of its amounts or its mark.
fn is_value(line: &[u8], value: &[u8]) -> bool {
    let rain = digits(&line[HEADING[2].clone()]) == Some(RAIN);
    number(value).is_some_and(|value| !rain || value == RAIN_MARK || RAINS.contains(&value))
}

/// The number that digits make, and none of anything else.
fn digits(text: &[u8]) -> Option<u32> {
    text.iter().try_fold(0, |number, byte| match byte {
        b'0'..=b'9' => Some(10 * number + u32::from(byte - b'0')),
        _ => None,
    })
}

/// A value in hundredths: spaces, maybe a minus, digits with no zero too many in front or none at all, the point, two digits.
/// "A zero before the point may be left out (`    .73`), and so a negative one may read `   -.05`." None of anything else.
fn number(value: &[u8]) -> Option<i64> {
    let text = std::str::from_utf8(value).ok()?.trim_start_matches(' ');
    let (sign, size) = text.strip_prefix('-').map_or((1, text), |size| (-1, size));
    let (whole, part) = size.split_once('.')?;
    if part.len() != 2 || whole.len() > 1 && whole.starts_with('0') {
        return None;
    }
    let hundredths = 100 * digits(whole.as_bytes())? + digits(part.as_bytes())?;
    Some(sign * i64::from(hundredths))
}
