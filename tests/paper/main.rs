//! Holds the card's library to the figures that Palmer's paper prints: `main TABLES EXPECTED RECORD CONSTANTS` works the
//! paper's months out with the library, lists each figure that is off by more than is allowed, and holds that listing to the
//! expected one, line by line; then it works the station constants out of a record, and holds them to those expected, line
//! by line. Status: 0 they are the same; 1 they are not, the tables or the record are not such as can be compared, or the
//! library refuses a month; 2 wrong arguments, or a file that cannot be read; 3 output that cannot be written.
//!
//! A line has the part, year, month, figure, what the paper prints and what the library gives; `sign` where they differ
//! in the sign alone. docs/SOURCE.md says what each is, and what comes of the record.

#[path = "../../host/card.rs"]
mod card;
mod constants;
mod listing;
mod runs;
mod spells;
mod tables;
mod water;

use listing::Part;
use std::io::Write;
use tables::{unreadable, Fault, Tables};

fn main() {
    let words: Vec<String> = std::env::args().skip(1).collect();
    let [tables, expected, record, constants] = words.as_slice() else {
        eprintln!("paper: wanted are four files: tables, expected listing, record and expected constants");
        std::process::exit(2);
    };
    let (text, status) = match compare(tables, expected, record, constants) {
        Ok(told) => told,
        Err(fault) => {
            eprintln!("paper: {}", fault.words);
            std::process::exit(fault.status);
        }
    };
    if let Err(error) = std::io::stdout().write_all(text.as_bytes()) {
        eprintln!("paper: the output cannot be written: {error}");
        std::process::exit(3);
    }
    std::process::exit(status);
}

fn parts(tables: &Tables) -> Result<Vec<Part>, Fault> {
    let mut parts = vec![water::iowa_months(tables)?];
    parts.extend(water::iowa_chained(tables)?);
    parts.push(water::kansas(tables, false)?);
    parts.push(water::kansas(tables, true)?);
    parts.push(spells::years_1932(tables)?);
    parts.push(spells::years_1888(tables)?);
    Ok(parts)
}

/// What is to be printed, and the status.
fn compare(tables: &str, expected: &str, record: &str, constants: &str) -> Result<(String, i32), Fault> {
    let parts = parts(&Tables::read(tables)?)?;
    let tallies: String = listing::tallies(&parts).iter().map(|line| format!("{line}\n")).collect();
    let (figures, differ) = held_to("what differs", &listing::listing(&parts), expected)?;
    let answers = constants::answers(record)?;
    let (worked_out, others) = held_to("what the library makes of the record", &answers, constants)?;
    Ok((tallies + &figures + &worked_out, differ.max(others)))
}

/// Holds lines to those of a file; what is to be said of it, and the status.
fn held_to(what: &str, held: &[String], expected: &str) -> Result<(String, i32), Fault> {
    let wanted = std::fs::read_to_string(expected).map_err(|error| unreadable(expected, error))?;
    let wanted: Vec<&str> = wanted.lines().collect();
    if held == wanted {
        return Ok((format!("paper: {what} is what {expected} lists\n"), 0));
    }
    let mut text = String::new();
    for line in held.iter().filter(|line| !wanted.contains(&line.as_str())) {
        text += &format!("not expected: {line}\n");
    }
    for line in wanted.iter().filter(|line| !held.iter().any(|other| other == *line)) {
        text += &format!("expected, and not so: {line}\n");
    }
    Ok((text + &format!("paper: {what} is not what {expected} lists, line for line\n"), 1))
}
