//! Lines that are read: damaged in every column by every byte, too short, too long and with something after the last value, and
//! every spelling of a value from a small alphabet.

use crate::card;
use crate::check::{differ, Call, Check};
use crate::lines::{good_line, ELEMENTS, GOOD_ONE};
use crate::reference::lines::{Element, LINE};

pub fn lines(c: &mut Check) {
    damaged(c);
    lengths(c);
    spelled(c);
    every_spelling(c);
}

pub fn with_value(line: &[u8], month: usize, value: &[u8]) -> Vec<u8> {
    let place = 10 + 7 * month;
    [&line[..place], value, &line[place + 7..]].concat()
}

/// The good line with this heading's element and every value the same.
pub fn all_months(element: u8, value: &[u8]) -> Vec<u8> {
    [&good_line(element)[..10], &value.repeat(12)].concat()
}

pub fn expect(c: &mut Check, line: &[u8], asked: [u32; 3], wanted: [u8; 3]) {
    let numbers = c.told(line, asked);
    if numbers != wanted {
        differ(Call::ReadIndex, &(String::from_utf8_lossy(line), asked), &numbers, &wanted);
    }
}

// ---- Damage ------------------------------------------------------------------------------------------------

/// A line of each element and one of precipitation, with every byte in every column.
fn damaged(c: &mut Check) {
    c.kind("lines read, every byte");
    for element in [5, 7, 8, 1] {
        let good = if element == 1 { all_months(1, b"   7.03") } else { good_line(element) };
        for (column, byte) in (0..LINE).flat_map(|column| (0..=255).map(move |byte| (column, byte))) {
            let mut line = good.clone();
            line[column] = byte;
            c.year_and_fault(&line);
            match ELEMENTS.into_iter().find(|own| *own as u8 == element) {
                Some(own) => c.read_line(own, &line, GOOD_ONE),
                None => c.read_line(Element::Index, &line, GOOD_ONE),
            };
        }
    }
}

/// Lines that end early, some with another fault before that; spaces after the last value, to far out; and one other byte among
/// them.
fn lengths(c: &mut Check) {
    c.kind("lines read, short and long");
    for (number, element) in [5, 7, 8, 1, 6].into_iter().enumerate() {
        let good = all_months(element, b"   0.73");
        let wanted = [0, 1, 2].map(|own| if own == number { 0 } else { card::OTHER_LINE });
        for length in 0..LINE {
            let mut line = good[..length].to_vec();
            expect(c, &line, GOOD_ONE, [card::MALFORMED; 3]);
            if let Some(first) = line.first_mut() {
                *first = b'x';
                let fault = c.year_and_fault(&line)[1];
                if fault != length as u32 + 1 {
                    differ(Call::LineFault, &line, &fault, &(length + 1));
                }
            }
        }
        for spaces in (0..40).chain([162, 1_000, 1 << 16]) {
            let mut line = [&good[..], &b" ".repeat(spaces)].concat();
            expect(c, &line, GOOD_ONE, wanted);
            if spaces > 0 {
                line[LINE + spaces - 1] = b'\n';
                expect(c, &line, GOOD_ONE, [card::MALFORMED; 3]);
            }
        }
        for (place, byte) in [0, 1, 7, 29].into_iter().flat_map(|place| (0..=255).map(move |byte| (place, byte))) {
            let mut line = [&good[..], &[b' '; 30]].concat();
            line[LINE + place] = byte;
            expect(c, &line, GOOD_ONE, if byte == b' ' { wanted } else { [card::MALFORMED; 3] });
        }
    }
}

// ---- Spellings ---------------------------------------------------------------------------------------------

/// Values and what they say in hundredths; the last ones are malformed.
const SPELLED: [(&[u8; 7], Option<i32>); 48] = [
    (b"   7.03", Some(703)),
    (b"    .73", Some(73)),
    (b"   0.73", Some(73)),
    (b"   -.05", Some(-5)),
    (b"  -0.05", Some(-5)),
    (b"  -0.00", Some(0)),
    (b"   -.00", Some(0)),
    (b"    .00", Some(0)),
    (b"   0.00", Some(0)),
    (b"  -9.99", Some(-999)),
    (b" 100.00", Some(10_000)),
    (b" -99.98", Some(-9_998)),
    (b"-100.00", Some(-10_000)),
    (b"-999.99", Some(-99_999)),
    (b"9999.99", Some(999_999)),
    (b"1000.00", Some(100_000)),
    (b"  99.99", Some(9_999)),
    (b" -99.90", Some(-9_990)),
    (b"  07.03", None),
    (b"0007.03", None),
    (b"  00.73", None),
    (b" -00.05", None),
    (b" -01.00", None),
    (b"-099.99", None),
    (b"  +7.03", None),
    (b" - 9.99", None),
    (b"-   .05", None),
    (b"- 99.99", None),
    (b"7   .03", None),
    (b"7.03   ", None),
    (b"  7.03 ", None),
    (b"  7.030", None),
    (b"    703", None),
    (b"   7,03", None),
    (b"   7. 3", None),
    (b"   7.3 ", None),
    (b"   7.-3", None),
    (b"  --.05", None),
    (b"  -.-05", None),
    (b"   ..05", None),
    (b"  7..03", None),
    (b"\t  7.03", None),
    (b"   7.0E", None),
    (b"       ", None),
    (b"      .", None),
    (b"    .  ", None),
    (b"*******", None),
    (b"    -. ", None),
];

/// Each of `SPELLED` in every month, and in all of them at once.
fn spelled(c: &mut Check) {
    c.kind("lines read, spellings");
    for (value, wanted) in SPELLED {
        for element in ELEMENTS {
            for month in 0..12 {
                let line = with_value(&all_months(element as u8, b" -99.99"), month, value);
                let told = c.read_line(element, &line, GOOD_ONE);
                let fault = c.year_and_fault(&line)[1];
                let good = match wanted {
                    Some(hundredths) => {
                        [told.number.into(), told.present, fault] == [0, 1 << month, 0]
                            && told.hundredths[month] == hundredths
                    }
                    None => told.number == card::MALFORMED && fault == 11 + 7 * month as u32,
                };
                if !good {
                    differ(Call::ReadIndex, &String::from_utf8_lossy(&line), &(told, fault), &wanted);
                }
            }
            c.told(&all_months(element as u8, value), GOOD_ONE);
        }
    }
}

/// Every value whose first four bytes, the fifth and the last two are from small alphabets.
fn every_spelling(c: &mut Check) {
    c.kind("lines read, every spelling");
    let (before, point, after) = (b" -.019+", b".0 ,", b"09 -.");
    let mut line = good_line(7);
    for number in 0..7usize.pow(4) * 4 * 25 {
        let (first, rest) = (number / 100, number % 100);
        let month = number % 12;
        let value = &mut line[10 + 7 * month..17 + 7 * month];
        let was = value.to_vec();
        for place in 0..4 {
            value[place] = before[first / 7usize.pow(place as u32) % 7];
        }
        (value[4], value[5], value[6]) = (point[rest / 25], after[rest / 5 % 5], after[rest % 5]);
        c.read_line(Element::Z, &line, GOOD_ONE);
        c.year_and_fault(&line);
        line[10 + 7 * month..17 + 7 * month].copy_from_slice(&was);
    }
}
