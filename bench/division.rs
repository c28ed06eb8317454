//! A hand-written reader of division files, to be measured beside the program `division`: the same arguments, the
//! same checks on every line, and the same on standard output.
//!
//!   division STATE DIVISION <FILE

use std::ffi::OsString;
use std::io::{self, BufRead, Write};
use std::os::unix::ffi::OsStrExt;

// The refusals: malformed, another state, division or element, not the year that must follow.
const MALFORMED: u8 = 14;
const ANOTHER: u8 = 15;
const NOT_THE_YEAR: u8 = 16;

const HEADING: usize = 10;
const WIDTH: usize = 7;
const LAST_COLUMN: usize = 94;
const PRECIPITATION: u32 = 1;

// In hundredths of an inch.
const MISSING: i32 = -999;
const MOST: i32 = 10_000;

struct Year {
    number: u32,
    /// In hundredths of an inch.
    months: [i32; 12],
}

/// The number that digits make.
fn number(part: &[u8]) -> Option<u32> {
    let mut n = 0;
    for b in part {
        if !b.is_ascii_digit() {
            return None;
        }
        n = 10 * n + u32::from(b - b'0');
    }
    Some(n)
}

/// A value's seven columns, in hundredths.
fn value(field: &[u8]) -> Option<i32> {
    let (before, after) = field.split_at(4);
    let padding = before.iter().take_while(|b| **b == b' ').count();
    let mut units = &before[padding..];
    let minus = units.first() == Some(&b'-');
    if minus {
        units = &units[1..];
    }
    if after[0] != b'.' || units.len() > 1 && units[0] == b'0' {
        return None;
    }
    let hundredths = (100 * number(units)? + number(&after[1..])?) as i32;
    Some(if minus { -hundredths } else { hundredths })
}

/// Reads a line, of the year that is due or, where none is yet, of any.
fn read(line: &[u8], state: u32, division: u32, due: Option<u32>) -> Result<Year, u8> {
    if line.len() < LAST_COLUMN {
        return Err(MALFORMED);
    }
    let column = |from: usize, to: usize| number(&line[from..to]).ok_or(MALFORMED);
    let place = (column(0, 2)?, column(2, 4)?, column(4, 6)?);
    let year = column(6, HEADING)?;
    let mut months = [0; 12];
    for (month, field) in months.iter_mut().zip(line[HEADING..LAST_COLUMN].chunks_exact(WIDTH)) {
        *month = value(field).ok_or(MALFORMED)?;
    }
    if line[LAST_COLUMN..].iter().any(|b| *b != b' ') {
        return Err(MALFORMED);
    }
    let rain = |n: &i32| *n == MISSING || (0..=MOST).contains(n);
    if place.2 == PRECIPITATION && !months.iter().all(rain) {
        return Err(MALFORMED);
    }
    if place != (state, division, PRECIPITATION) {
        return Err(ANOTHER);
    }
    if year != due.unwrap_or(year) {
        return Err(NOT_THE_YEAR);
    }
    Ok(Year { number: year, months })
}

/// A year's row: the year, twelve amounts in thousandths or a dash, how many months are present.
fn put(year: &Year, rows: &mut Vec<u8>) -> io::Result<()> {
    write!(rows, "{}", year.number)?;
    let mut count = 0;
    for n in year.months {
        if n == MISSING {
            write!(rows, " -")?;
        } else {
            write!(rows, " {}", 10 * n)?;
            count += 1;
        }
    }
    writeln!(rows, " {count}")
}

/// What is printed of an input: a row for each year, or the line that stopped the reading and why.
fn century(input: &mut impl BufRead, state: u32, division: u32) -> io::Result<Vec<u8>> {
    let (mut rows, mut line, mut lines, mut due) = (Vec::new(), Vec::new(), 0u32, None);
    while input.read_until(b'\n', &mut line)? > 0 {
        lines = lines.saturating_add(1);
        match read(line.strip_suffix(b"\n").unwrap_or(&line), state, division, due) {
            Ok(year) => {
                put(&year, &mut rows)?;
                due = Some(year.number + 1);
            }
            Err(ANOTHER) => {}
            Err(refusal) => return Ok(refused(lines, refusal)),
        }
        line.clear();
    }
    Ok(if due.is_none() { refused(lines, ANOTHER) } else { rows })
}

fn refused(line: u32, number: u8) -> Vec<u8> {
    format!("refused {line} {number}\n").into_bytes()
}

/// A state or a division: one or two digits.
fn named(word: &OsString) -> Option<u32> {
    let digits = word.as_bytes();
    if digits.is_empty() || digits.len() > 2 {
        return None;
    }
    number(digits)
}

fn main() -> io::Result<()> {
    let words: Vec<OsString> = std::env::args_os().skip(1).collect();
    let names: Vec<u32> = words.iter().filter_map(named).collect();
    match (words.len(), &names[..]) {
        (2, &[state, division]) => {
            let printed = century(&mut io::stdin().lock(), state, division)?;
            io::stdout().write_all(&printed)
        }
        _ => {
            eprintln!("usage: division STATE DIVISION <FILE");
            std::process::exit(2);
        }
    }
}
