//! The paper's spells of western Kansas: table 13, table 12 and the text of sections 9 and 10.

use crate::card::Added;
use crate::listing::Part;
use crate::runs::Card;
use crate::tables::{Fault, Tables, When};

/// What may be off, in thousandths: two units of the last place printed for an index, which the paper carried in
/// hundredths from month to month, and one for V and for a percent.
pub const INDEX: i32 = 20;
const LAST_PLACE: i32 = 10;

/// What the text can tell of a month, with what the library has. A percent is a part of 1.
fn spells(month: &Added) -> [(&'static str, i32, i32); 5] {
    let (figures, values) = (&month.figures, &month.run.values);
    [
        ("X1", figures.x1, INDEX),
        ("X2", figures.x2, INDEX),
        ("X3", figures.x3, INDEX),
        ("percent", 10 * figures.percent as i32, LAST_PLACE),
        ("V", values.v as i32, LAST_PLACE),
    ]
}

/// Months from `first` on, after a month that left X1 so and nothing else, held to the text and to table 13.
fn years(tables: &Tables, name: &'static str, first: When, x1: i32, z: &[i32]) -> Result<Part, Fault> {
    let (text, x) = (tables.find("text, western Kansas")?, tables.find("table 13, western Kansas")?);
    let mut card = Card::for_z(first, z.len())?;
    card.run.values.x1 = x1;
    let mut months = Vec::new();
    for (when, &z) in first.and_on(z.len() as u32).zip(z) {
        months.push((when, card.add_z(when, z)?));
    }
    let mut part = Part::new(name);
    for (place, (when, month)) in months.iter().enumerate() {
        for (figure, ours, allowed) in spells(month) {
            let told = if text.has(*when) { text.printed(*when, figure)? } else { None };
            if let Some(printed) = told {
                part.hold(*when, figure, printed, ours, allowed);
            }
        }
        part.hold(*when, "X", x.of_month(*when)?, card.index(*when, place)?, INDEX);
    }
    Ok(part)
}

/// The Z of table 4, from a fresh run: June 1932 founds a wet spell from nothing.
pub fn years_1932(tables: &Tables) -> Result<Part, Fault> {
    let first = When::new(1932, 6);
    let table = tables.find("table 4, western Kansas")?;
    let z: Result<Vec<i32>, Fault> = first.and_on(36).map(|when| table.figure(when, "Z")).collect();
    years(tables, "1932 to 1935", first, 0, &z?)
}

/// The Z of table 12, restored where the scan is damaged, after the X1 that the text tells of March 1888.
pub fn years_1888(tables: &Tables) -> Result<Part, Fault> {
    let first = When::new(1888, 4);
    let table = tables.find("table 12, western Kansas")?;
    let restored = |when| match table.printed(when, "restored")? {
        Some(z) => Ok(z),
        None => table.figure(when, "Z"),
    };
    let z: Result<Vec<i32>, Fault> = first.and_on(40).map(restored).collect();
    let march = tables.find("text, western Kansas")?.figure(When::new(1888, 3), "X1")?;
    years(tables, "1888 to 1891", first, march, &z?)
}
