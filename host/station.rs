//! A station's card from end to end, in Rust: the same program as station.c, which says what the station file and a
//! file of repairs hold, what the arguments are and what the statuses mean. Function by function it does what that one does, and
//! it prints and says the same, byte for byte.
//!
//! It is started as a C program is. Rust's own start would put /dev/null in the place of a standard output that
//! is closed, and what is written there is lost without a word.
#![no_main]

mod card;

use card::{
    meaning, Change, Columns, Figures, Reading, Record, Run, Shown, Summed, WorkedOut, BAD_GAMMA, BAD_K,
    BAD_READING, CAPACITY_OUT, CONSTANTS, CONSTANT_OUT, DONE, FEW_YEARS, FULL, HAD_WATER, LINE, MISSING_READING,
    MOST_MONTHS, NONE, SETTLED, STORAGE_OUT, TRACE, WEIGHTS, ZERO_K,
};
use std::ffi::{OsStr, OsString};
use std::fs::File;
use std::io::{ErrorKind, Read, Write};
use std::mem::ManuallyDrop;
use std::os::unix::ffi::OsStrExt;
use std::os::unix::io::FromRawFd;

const REFUSED: i32 = 1;
const NOT_READ: i32 = 2;
const NOT_WRITTEN: i32 = 3;
const MOST_BYTES: usize = 1048576;
const MOST_SHOWN: usize = 40;

#[rustfmt::skip]
const CALENDAR: [&str; 12] = ["January", "February", "March", "April", "May", "June",
                              "July", "August", "September", "October", "November", "December"];
const CONSTANT: [&str; 5] = ["alpha", "beta", "gamma", "delta", "K"];
/// The ranges in words, for whom the library has refused; see card_start.
const CONSTANT_RANGE: [&str; 5] = ["0 to 10000", "0 to 10000", "0 to 50000", "0 to 10000", "1 to 100000"];

// ---- What is said ---------------------------------------------------------------------------------------------

/// Why the program ends early: its status, and the line for standard error.
struct Stop {
    status: i32,
    line: String,
}

/// Ends the program: every caller hands this on, up to `main`.
fn stop<T>(status: i32, what: String) -> Result<T, Stop> {
    Err(Stop { status, line: format!("station: {what}\n") })
}

/// A place in a file, counted from 1; column 0 where it is a line as a whole, or the end of the file. What stands
/// before the line where it is told is nothing of the station file, and REPAIRS of the file of repairs.
const REPAIRS: &str = "repairs, ";
#[derive(Clone, Copy)]
struct Place {
    file: &'static str,
    line: usize,
    column: usize,
}

/// What is wrong at a place of a file.
fn refuse<T>(at: Place, what: String) -> Result<T, Stop> {
    match at.column {
        0 => stop(REFUSED, format!("{}line {}: {what}", at.file, at.line)),
        column => stop(REFUSED, format!("{}line {}, column {column}: {what}", at.file, at.line)),
    }
}

/// A word as it can be said in one line: of a long one the beginning, and ? for a byte that is no plain text.
fn shown(text: &[u8]) -> String {
    let plain = |&byte: &u8| if (32..=126).contains(&byte) { byte as char } else { '?' };
    let held: String = text.iter().take(MOST_SHOWN).map(plain).collect();
    held + if text.len() > MOST_SHOWN { ".." } else { "" }
}

// ---- Lines and words ------------------------------------------------------------------------------------------

/// A word of the file, and where it begins.
#[derive(Clone, Copy)]
struct Word<'a> {
    text: &'a [u8],
    at: Place,
}

impl Word<'_> {
    /// The word for a message.
    fn said(&self) -> String {
        shown(self.text)
    }

    /// Whether it is this word, letter by letter, capitals too.
    fn is(&self, name: &str) -> bool {
        self.text == name.as_bytes()
    }

    /// The place of a byte of it.
    fn place(&self, i: usize) -> Place {
        Place { column: self.at.column + i, ..self.at }
    }

    /// None after its last byte.
    fn byte(&self, i: usize) -> Option<u8> {
        self.text.get(i).copied()
    }

    fn is_digit(&self, i: usize) -> bool {
        matches!(self.byte(i), Some(b'0'..=b'9'))
    }

    /// The place after the digits that begin at a place, of which there may be none.
    fn after_digits(&self, mut i: usize) -> usize {
        while self.is_digit(i) {
            i += 1;
        }
        i
    }
}

/// A file, and how far it was read.
struct Scanner<'a> {
    file: &'static str, // as its places have it
    text: &'a [u8],
    next: usize,         // where the next line begins
    closed: usize,       // how many line feeds stand before it
    number: usize,       // the line at hand: its number,
    line: &'a [u8],      // its bytes,
    at: usize,           // and how far they were read
    words: usize,        // how many words of it were taken
    lines: usize,        // how many lines were opened before it, comments not counted
    expected: String,    // what it should hold,
    other: &'static str, // or else
}

impl<'a> Scanner<'a> {
    /// Before the first line.
    fn new(file: &'static str, text: &'a [u8]) -> Scanner<'a> {
        let (line, expected) = (&text[..0], String::new());
        Scanner { file, text, next: 0, closed: 0, number: 1, line, at: 0, words: 0, lines: 0, expected, other: "" }
    }

    /// The place of the line as a whole, and below of a byte of it.
    fn whole_line(&self) -> Place {
        Place { file: self.file, line: self.number, column: 0 }
    }

    fn in_line(&self, at: usize) -> Place {
        Place { file: self.file, line: self.number, column: at + 1 }
    }

    /// Goes to the next line, whatever it holds; false where the file has ended.
    fn next_line(&mut self) -> bool {
        self.number = self.closed + 1;
        let left = &self.text[self.next..];
        let feed = left.iter().position(|&byte| byte == b'\n');
        self.line = &left[..feed.unwrap_or(left.len())];
        self.next += feed.map_or(left.len(), |length| length + 1);
        self.closed += usize::from(feed.is_some());
        self.at = 0;
        self.words = 0;
        !left.is_empty()
    }

    /// The end of the file where a line should stand. The first line that is asked for is the first that is no
    /// comment.
    fn refuse_end(&self) -> Result<(), Stop> {
        let what = match (self.text.len(), self.lines) {
            (0, _) => format!("the file is empty; expected: {}", self.expected),
            (_, 0) => format!("the file has only comments; expected: {}", self.expected),
            _ => "the file ends without its last line, end; it may be cut short".to_string(),
        };
        refuse(self.whole_line(), what)
    }

    /// A byte that is no plain text. Those that an editor leaves unseen are named.
    fn refuse_byte(&self, at: usize) -> Result<(), Stop> {
        let left = &self.line[at..];
        let first = self.number == 1 && at == 0;
        let what = match left {
            [b'\t', ..] => "a tab; words are parted by spaces".to_string(),
            [b'\r'] => {
                "a carriage return; the file has CR LF line ends, and a line feed alone is expected".to_string()
            }
            [b'\r', ..] => "a carriage return; lines are closed by a line feed alone".to_string(),
            [0xef, 0xbb, 0xbf, ..] => "a byte order mark; save the file without it".to_string(),
            [0xff, 0xfe, ..] | [0xfe, 0xff, ..] if first => {
                "a byte order mark of UTF-16; save the file as plain text (ASCII)".to_string()
            }
            _ => format!("byte {}, which is no plain text (ASCII)", left[0]),
        };
        refuse(self.in_line(at), what)
    }

    /// Opens the next line that is no comment. Its bytes are looked at before its words, so that a tab or a
    /// carriage return is told as what it is and not as part of a word.
    fn open_line(&mut self, expected: String, other: &'static str) -> Result<(), Stop> {
        self.expected = expected;
        self.other = other;
        loop {
            if !self.next_line() {
                self.refuse_end()?;
            }
            if self.line.first() != Some(&b'#') {
                break;
            }
        }
        if self.line.is_empty() {
            return refuse(self.whole_line(), format!("it is empty; expected: {}{other}", self.expected));
        }
        if let Some(at) = self.line.iter().position(|byte| !(32..=126).contains(byte)) {
            self.refuse_byte(at)?;
        }
        self.lines += 1;
        Ok(())
    }

    /// The line's next word; empty where there is none.
    fn next_word(&mut self) -> Result<Word<'a>, Stop> {
        while self.line.get(self.at) == Some(&b' ') {
            self.at += 1;
        }
        let begin = self.at;
        while self.at < self.line.len() && self.line[self.at] != b' ' {
            self.at += 1;
        }
        let w = Word { text: &self.line[begin..self.at], at: self.in_line(begin) };
        if w.byte(0) == Some(b'#') {
            let what = "a # that does not begin its line; a comment has a line of its own";
            return refuse(w.at, what.to_string());
        }
        Ok(w)
    }

    /// The line's next word, which must be there.
    fn take(&mut self) -> Result<Word<'a>, Stop> {
        let w = self.next_word()?;
        if w.text.is_empty() {
            let s = if self.words == 1 { "" } else { "s" };
            let other = if self.words == 0 { self.other } else { "" };
            let cut = if self.closed < self.number { "; the file ends here and may be cut short" } else { "" };
            let what =
                format!("the line ends after {} word{s}; expected: {}{other}{cut}", self.words, self.expected);
            return refuse(w.at, what);
        }
        self.words += 1;
        Ok(w)
    }

    /// No word may follow.
    fn close_line(&mut self) -> Result<(), Stop> {
        const NTH: [&str; 7] = ["first", "second", "third", "fourth", "fifth", "sixth", "seventh"];
        let w = self.next_word()?;
        if !w.text.is_empty() {
            let nth = NTH[self.words];
            return refuse(w.at, format!("a {nth} word, \"{}\"; expected: {}", w.said(), self.expected));
        }
        Ok(())
    }

    /// The word that must stand here.
    fn keyword(&mut self, name: &str) -> Result<(), Stop> {
        let w = self.take()?;
        no_comma(w, "")?;
        if !w.is(name) {
            return refuse(w.at, format!("\"{}\" is not known here; expected: {}", w.said(), self.expected));
        }
        Ok(())
    }
}

/// A line of a table with commas is a single word here: say so before anything else is said of it.
fn no_comma(w: Word, more: &str) -> Result<(), Stop> {
    if let Some(i) = w.text.iter().position(|&byte| byte == b',' || byte == b';') {
        let name = if w.text[i] == b',' { "comma" } else { "semicolon" };
        return refuse(w.place(i), format!("a {name} in \"{}\"; words are parted by spaces{more}", w.said()));
    }
    Ok(())
}

// ---- Numbers --------------------------------------------------------------------------------------------------

/// A kind of number, as it is told to whom wrote something else.
struct Kind {
    decimals: bool,
    comma: &'static str,
    form: &'static str,
    after: &'static str,
    takes_trace: bool,           // whether T is one,
    trace: Option<&'static str>, // and what is said of a t, and of a T where it is none
    takes_kept: bool,            // whether = is one, the reading as it is recorded
    missing: &'static str,       // what is to be done about one that is missing,
    refused: &'static str,       // and what more is said of one that the library does not accept
}

const THOUSANDTHS: Kind = Kind {
    decimals: false,
    comma: ", and a whole number has digits only",
    form: "expected: a whole number of thousandths of an inch",
    after: "expected: a whole number of thousandths of an inch",
    takes_trace: false,
    trace: None,
    takes_kept: false,
    missing: "",
    refused: "",
};
const TEN_THOUSANDTHS: Kind = Kind {
    form: "expected: a whole number of ten-thousandths",
    after: "expected: a whole number of ten-thousandths",
    ..THOUSANDTHS
};
const PRECIPITATION: Kind = Kind {
    decimals: true,
    comma: ", and decimals begin with a point",
    form: "expected: digits, perhaps with a point, T for a trace, or - for a missing reading",
    after: "digits and a point only, and the unit stands once, in the line months",
    takes_trace: true,
    trace: Some("a trace of rain is written T, a missing reading -"),
    takes_kept: false,
    missing: "README.md, \"Missing months\", says what to do",
    refused: ", and a missing reading is written -",
};
const PE: Kind = Kind {
    form: "expected: digits, perhaps with a point, or - for a missing reading",
    takes_trace: false,
    trace: Some("a trace is of rain; PE is worked out and not observed: write 0, or - where it is missing"),
    ..PRECIPITATION
};
/// The same two in a file of repairs.
const NEW_PRECIPITATION: Kind = Kind {
    form: "expected: digits, perhaps with a point, T for a trace, or = for the reading as recorded",
    after: "digits and a point only, and the unit stands once, in the line repairs",
    trace: Some("a trace of rain is written T, the reading as recorded ="),
    takes_kept: true,
    missing: "a repair has both readings, and = is the one that is recorded",
    refused: "",
    ..PRECIPITATION
};
const NEW_PE: Kind = Kind {
    form: "expected: digits, perhaps with a point, or = for the reading as recorded",
    takes_trace: false,
    trace: Some("a trace is of rain; PE is worked out and not observed: write 0, or = for the recorded one"),
    ..NEW_PRECIPITATION
};

/// The smallest binary32 number above zero, which T is handed over as: in either unit it is a trace to the library
/// and can be nothing else, and it says no more of the rain than the observer did.
const SMALLEST: f32 = f32::from_bits(1);

/// What follows a number's digits and does not belong to it.
fn refuse_rest<T>(w: Word, i: usize, k: &Kind) -> Result<T, Stop> {
    let said = w.said();
    let what = match (w.byte(i), w.byte(i + 1)) {
        (Some(b'.'), _) if !k.decimals => format!("a point in \"{said}\"; {}", k.form),
        (Some(b'.'), _) => format!("a second point in \"{said}\"; {}", k.form),
        (Some(b'e' | b'E'), Some(b'+' | b'-' | b'0'..=b'9')) => {
            format!("an exponent in \"{said}\"; write the number out")
        }
        _ => format!("something after the number in \"{said}\"; {}", k.after),
    };
    refuse(w.place(i), what)
}

/// Where a number's first digit stands.
fn first_digit(w: Word, k: &Kind) -> Result<usize, Stop> {
    let i = usize::from(w.byte(0) == Some(b'-'));
    let said = w.said();
    no_comma(w, k.comma)?;
    if w.byte(0) == Some(b'+') {
        return refuse(w.at, format!("a plus in \"{said}\"; a number is written without one"));
    }
    if w.is_digit(i) {
        return Ok(i);
    }
    if w.byte(i) == Some(b'.') && !k.decimals {
        return refuse_rest(w, i, k);
    }
    if w.byte(i) == Some(b'.') {
        return refuse(w.place(i), format!("no digit before the point in \"{said}\"; one half is written 0.5"));
    }
    let what = k.trace.filter(|_| w.is("T") || w.is("t")).unwrap_or(k.form);
    refuse(w.at, format!("\"{said}\" is no number; {what}"))
}

/// A whole number, and the word that it was.
#[derive(Clone, Copy)]
struct Whole<'a> {
    value: i32,
    word: Word<'a>,
}

/// Scanned and summed up here: `parse` takes a plus.
fn take_whole<'a>(s: &mut Scanner<'a>, k: &Kind) -> Result<Whole<'a>, Stop> {
    let w = s.take()?;
    let i = first_digit(w, k)?;
    let end = w.after_digits(i);
    if end < w.text.len() {
        return refuse_rest(w, end, k);
    }
    // from the first sum that is beyond both ends on, the digits are left out
    let add = |n: i64, &digit: &u8| if n <= -i64::from(i32::MIN) { 10 * n + i64::from(digit - b'0') } else { n };
    let n = w.text[i..end].iter().fold(0, add);
    match i32::try_from(if i == 1 { -n } else { n }) {
        Ok(value) => Ok(Whole { value, word: w }),
        Err(_) => {
            let what = "is too large in size; whole numbers are -2147483648 to 2147483647";
            refuse(w.at, format!("\"{}\" {what}", w.said()))
        }
    }
}

/// A reading, the word that it was, and as what it was read. That of a = is known when its month is repaired.
#[derive(Clone, Copy)]
struct Measure<'a> {
    reading: Reading,
    word: Word<'a>,
    kind: &'static Kind,
}

/// The word is scanned here, since `parse` takes much that is no reading (1e2, nan, +5). What is left it takes; a
/// NaN in its place would be refused by the library.
fn take_reading<'a>(s: &mut Scanner<'a>, unit: Unit, kind: &'static Kind) -> Result<Measure<'a>, Stop> {
    let w = s.take()?;
    if w.is("-") || kind.takes_kept && w.is("=") {
        return Ok(Measure { reading: Reading::missing(), word: w, kind });
    }
    if kind.takes_trace && w.is("T") {
        return Ok(Measure { reading: unit.reading(SMALLEST), word: w, kind });
    }
    let mut i = w.after_digits(first_digit(w, kind)?);
    if w.byte(i) == Some(b'.') {
        if !w.is_digit(i + 1) {
            let what = "write digits after it, or no point";
            return refuse(w.place(i), format!("no digit after the point in \"{}\"; {what}", w.said()));
        }
        i = w.after_digits(i + 1);
    }
    if i < w.text.len() {
        return refuse_rest(w, i, kind);
    }
    let measure = std::str::from_utf8(w.text).ok().and_then(|text| text.parse().ok()).unwrap_or(f32::NAN);
    Ok(Measure { reading: unit.reading(measure), word: w, kind })
}

// ---- The station file -----------------------------------------------------------------------------------------

#[derive(Clone, Copy)]
enum Unit {
    Inches,
    Millimetres,
}

impl Unit {
    fn reading(self, measure: f32) -> Reading {
        match self {
            Unit::Inches => Reading::inches(measure),
            Unit::Millimetres => Reading::millimetres(measure),
        }
    }

    fn name(self) -> &'static str {
        match self {
            Unit::Inches => "inches",
            Unit::Millimetres => "millimetres",
        }
    }
}

/// Dates are counted in months from January of the year 0.
const AFTER_THE_LAST: usize = 12 * 10000;

/// A date as the file and the rows have it.
fn date(when: usize) -> String {
    format!("{:04}-{:02}", when / 12, when % 12 + 1)
}

#[derive(Clone, Copy)]
struct Month<'a> {
    date: Word<'a>,
    precipitation: Measure<'a>,
    pe: Measure<'a>,
}

/// The constants and the weights of the file.
struct Section<'a> {
    lost: bool,                // whether the file has weights in the place of constants
    constants: Vec<Whole<'a>>, // where they are lost any that a start takes,
    weights: Vec<Whole<'a>>,   // and where they are not their K
}

/// What the file holds. One month more is kept than a run can hold: it is the library that refuses it, and it
/// would refuse the same one if there were more.
struct Station<'a> {
    capacity: Whole<'a>,
    surface: Whole<'a>,
    underlying: Whole<'a>,
    section: Section<'a>,
    unit: Unit,
    months: Vec<Month<'a>>,
    first: usize, // the first month's date,
    next: usize,  // and the one that is to follow the last
}

/// One of the three lines about the soil.
fn read_storage<'a>(s: &mut Scanner<'a>, name: &str) -> Result<Whole<'a>, Stop> {
    s.open_line(format!("{name} THOUSANDTHS"), "")?;
    s.keyword(name)?;
    let number = take_whole(s, &THOUSANDTHS)?;
    s.close_line()?;
    Ok(number)
}

/// The name of a calendar month, the one that is to come in a section.
fn calendar_name(s: &mut Scanner, name: &str, section: &str) -> Result<(), Stop> {
    let w = s.take()?;
    no_comma(w, "")?;
    if w.is(name) {
        return Ok(());
    }
    if CALENDAR.iter().any(|other| w.is(other)) {
        let what = format!("was to follow; the {section} stand from January to December");
        return refuse(w.at, format!("{} here, and {name} {what}", w.said()));
    }
    refuse(w.at, format!("\"{}\" is not known here; expected: {}", w.said(), s.expected))
}

/// The constants, after the first word of their heading. The heading is asked word for word: a table in another order
/// of columns must not pass for this one.
fn read_constants<'a>(s: &mut Scanner<'a>) -> Result<Section<'a>, Stop> {
    for name in CONSTANT {
        s.keyword(name)?;
    }
    s.close_line()?;
    let mut constants = Vec::with_capacity(CONSTANTS);
    for name in CALENDAR {
        s.open_line(format!("{name} ALPHA BETA GAMMA DELTA K"), "")?;
        calendar_name(s, name, "constants")?;
        for _ in CONSTANT {
            constants.push(take_whole(s, &TEN_THOUSANDTHS)?);
        }
        s.close_line()?;
    }
    let weights = constants.iter().skip(4).step_by(5).copied().collect();
    Ok(Section { lost: false, constants, weights })
}

/// The weights, after their heading's word. The constants that the run is started with are then 0 0 0 0 1: neither the
/// water of a month nor what is worked out of it goes by them.
fn read_weights<'a>(s: &mut Scanner<'a>) -> Result<Section<'a>, Stop> {
    s.expected = "weights".to_string();
    s.close_line()?;
    let mut weights = Vec::with_capacity(WEIGHTS);
    for name in CALENDAR {
        s.open_line(format!("{name} WEIGHT"), "")?;
        calendar_name(s, name, "weights")?;
        weights.push(take_whole(s, &TEN_THOUSANDTHS)?);
        s.close_line()?;
    }
    let word = Word { text: &[], at: s.whole_line() };
    let constants = (0..CONSTANTS).map(|i| Whole { value: i32::from(i % 5 == 4), word }).collect();
    Ok(Section { lost: true, constants, weights })
}

/// The constants, or where they are to be worked out perhaps weights in their place.
fn read_section<'a>(s: &mut Scanner<'a>, working_out: bool) -> Result<Section<'a>, Stop> {
    let other = if working_out { ", or weights" } else { "" };
    s.open_line("constants alpha beta gamma delta K".to_string(), other)?;
    let w = s.take()?;
    no_comma(w, "")?;
    if w.is("weights") && !working_out {
        let what = "weights and no constants; host/constants works the constants out of this file";
        return refuse(s.whole_line(), what.to_string());
    }
    if w.is("weights") {
        return read_weights(s);
    }
    if !w.is("constants") {
        let what = format!("\"{}\" is not known here; expected: {}{other}", w.said(), s.expected);
        return refuse(w.at, what);
    }
    read_constants(s)
}

/// The unit stands once and has no default: 62 mm taken for 62 inches would pass the library's ranges.
fn read_unit(s: &mut Scanner) -> Result<Unit, Stop> {
    s.open_line("months inches, or months millimetres".to_string(), "")?;
    s.keyword("months")?;
    let w = s.take()?;
    no_comma(w, "")?;
    if !w.is("inches") && !w.is("millimetres") {
        return refuse(w.at, format!("\"{}\" is no unit; expected: {}", w.said(), s.expected));
    }
    let unit = if w.is("inches") { Unit::Inches } else { Unit::Millimetres };
    s.close_line()?;
    Ok(unit)
}

/// A date, or none where the word is none.
fn date_of(w: Word) -> Option<usize> {
    if w.text.len() != 7 || w.after_digits(0) != 4 || w.text[4] != b'-' || w.after_digits(5) != 7 {
        return None;
    }
    let number = |digits: &[u8]| digits.iter().fold(0, |n, &digit| 10 * n + usize::from(digit - b'0'));
    let (year, month) = (number(&w.text[..4]), number(&w.text[5..]));
    if (1..=12).contains(&month) {
        Some(12 * year + month - 1)
    } else {
        None
    }
}

/// A date, which the word must be.
fn take_date(s: &Scanner, w: Word) -> Result<usize, Stop> {
    no_comma(w, "")?;
    match date_of(w) {
        Some(when) => Ok(when),
        None => {
            let expected = format!("(four digits, a minus, 01 to 12); expected: {}{}", s.expected, s.other);
            refuse(w.at, format!("\"{}\" is no month {expected}", w.said()))
        }
    }
}

/// A date, where it must be the one that follows. A gap is no missing reading: the next month's rain would be
/// judged by the constants of another month.
fn take_following(s: &Scanner, st: &Station, w: Word) -> Result<usize, Stop> {
    let when = take_date(s, w)?;
    let said = w.said();
    if st.months.is_empty() || when == st.next {
        return Ok(when);
    }
    if st.next == AFTER_THE_LAST {
        return refuse(w.at, format!("{said} here, and no month can follow 9999-12; expected: end"));
    }
    let next = date(st.next);
    let what = if when > st.next {
        format!("{said} here, and {next} was to follow; a month without readings is written {next} - -")
    } else if when + 1 == st.next {
        format!("{said} here again, and {next} was to follow; each month stands once")
    } else {
        format!("{said} here, and {next} was to follow; the months stand in order of time")
    };
    refuse(w.at, what)
}

/// Opens the line of a month or of the end, with what it should be.
fn open_month(s: &mut Scanner, st: &Station) -> Result<(), Stop> {
    if st.months.is_empty() {
        s.open_line("YYYY-MM PRECIPITATION PE".to_string(), "")
    } else if st.next == AFTER_THE_LAST {
        s.open_line("end".to_string(), "")
    } else {
        s.open_line(format!("{} PRECIPITATION PE", date(st.next)), ", or end")
    }
}

/// The next month; false where the line is the end.
fn read_month<'a>(s: &mut Scanner<'a>, st: &mut Station<'a>) -> Result<bool, Stop> {
    open_month(s, st)?;
    let w = s.take()?;
    if w.is("end") {
        if st.months.is_empty() {
            return refuse(w.at, format!("end here, and no month before it; expected: {}", s.expected));
        }
        s.expected = "end".to_string();
        s.close_line()?;
        return Ok(false);
    }
    let when = take_following(s, st, w)?;
    let precipitation = take_reading(s, st.unit, &PRECIPITATION)?;
    let pe = take_reading(s, st.unit, &PE)?;
    s.close_line()?;
    if st.months.is_empty() {
        st.first = when;
    }
    st.next = when + 1;
    if st.months.len() <= MOST_MONTHS {
        st.months.push(Month { date: w, precipitation, pe });
    }
    Ok(true)
}

/// Nothing may follow the last line.
fn close_file(s: &mut Scanner) -> Result<(), Stop> {
    if !s.next_line() {
        return Ok(());
    }
    if s.line.is_empty() {
        let what = "it is empty; end is the last line, and nothing may follow it";
        return refuse(s.whole_line(), what.to_string());
    }
    refuse(s.in_line(0), "something after the last line, end; nothing may follow it".to_string())
}

/// The whole file, line by line, before the library sees any of it.
fn read_station(text: &[u8], working_out: bool) -> Result<Station<'_>, Stop> {
    let s = &mut Scanner::new("", text);
    let capacity = read_storage(s, "capacity")?;
    let surface = read_storage(s, "surface")?;
    let underlying = read_storage(s, "underlying")?;
    let section = read_section(s, working_out)?;
    let unit = read_unit(s)?;
    let mut st = Station { capacity, surface, underlying, section, unit, months: vec![], first: 0, next: 0 };
    while read_month(s, &mut st)? {}
    close_file(s)?;
    Ok(st)
}

// ---- The file of repairs --------------------------------------------------------------------------------------

/// What it holds. Of a station file with more months than a run can hold, of which the library refuses one before any
/// is repaired, not all need be kept.
#[derive(Default)]
struct Repairs<'a> {
    months: Vec<Month<'a>>,
    last: usize, // the last month's date
}

/// The unit stands in this file too, and is the station file's.
fn read_same_unit(s: &mut Scanner, st: &Station) -> Result<(), Stop> {
    let unit = st.unit.name();
    s.open_line(format!("repairs {unit}"), "")?;
    s.keyword("repairs")?;
    let w = s.take()?;
    no_comma(w, "")?;
    if !w.is(unit) {
        let what = format!("is not the station file's unit; expected: {}", s.expected);
        return refuse(w.at, format!("\"{}\" {what}", w.said()));
    }
    s.close_line()
}

/// A date, where it must be one of the station file and after those that were read.
fn take_later(s: &Scanner, st: &Station, rs: &Repairs, w: Word) -> Result<usize, Stop> {
    let when = take_date(s, w)?;
    let said = w.said();
    if when < st.first || when >= st.next {
        let (first, last) = (date(st.first), date(st.next - 1));
        return refuse(w.at, format!("{said} is not in the station file, which has {first} to {last}"));
    }
    if !rs.months.is_empty() && when == rs.last {
        return refuse(w.at, format!("{said} here again; each month stands once"));
    }
    if !rs.months.is_empty() && when < rs.last {
        let last = date(rs.last);
        return refuse(w.at, format!("{said} here, after {last}; the months stand in order of time"));
    }
    Ok(when)
}

/// The next month; false where the line is the end.
fn read_repair<'a>(s: &mut Scanner<'a>, st: &Station, rs: &mut Repairs<'a>) -> Result<bool, Stop> {
    let other = if rs.months.is_empty() { "" } else { ", or end" };
    s.open_line("YYYY-MM PRECIPITATION PE".to_string(), other)?;
    let w = s.take()?;
    if w.is("end") {
        if rs.months.is_empty() {
            return refuse(w.at, format!("end here, and no month before it; expected: {}", s.expected));
        }
        s.expected = "end".to_string();
        s.close_line()?;
        return Ok(false);
    }
    rs.last = take_later(s, st, rs, w)?;
    let precipitation = take_reading(s, st.unit, &NEW_PRECIPITATION)?;
    let pe = take_reading(s, st.unit, &NEW_PE)?;
    s.close_line()?;
    if rs.months.len() < MOST_MONTHS {
        rs.months.push(Month { date: w, precipitation, pe });
    }
    Ok(true)
}

/// The whole file, too, before the library sees any of either.
fn read_repairs<'a>(text: &'a [u8], st: &Station) -> Result<Repairs<'a>, Stop> {
    let s = &mut Scanner::new(REPAIRS, text);
    read_same_unit(s, st)?;
    let mut rs = Repairs::default();
    while read_repair(s, st, &mut rs)? {}
    close_file(s)?;
    Ok(rs)
}

// ---- What the library refuses ---------------------------------------------------------------------------------

/// A number of the file that the library refuses at the start.
fn refuse_whole<T>(n: Whole, name: &str, number: u8, range: &str) -> Result<T, Stop> {
    let why = meaning(number);
    refuse(n.word.at, format!("{name} {} is refused ({number}: {why}), {name} is {range}", n.word.said()))
}

/// Asks again with ones for all constants but one: the one that is refused by itself is the place.
fn refuse_constant(st: &Station, calendar: i32, number: u8) -> Result<(), Stop> {
    for (i, constant) in st.section.constants.iter().enumerate() {
        let mut alone = [1; CONSTANTS];
        alone[i] = constant.value;
        let (capacity, surface, underlying) = (st.capacity.value, st.surface.value, st.underlying.value);
        if card::start(&alone, capacity, surface, underlying, calendar).number == number {
            return refuse_whole(*constant, CONSTANT[i % 5], number, CONSTANT_RANGE[i % 5]);
        }
    }
    Ok(())
}

/// Starts the run, in the calendar month of the first month.
fn start(st: &Station) -> Result<Run, Stop> {
    let constants: Vec<i32> = st.section.constants.iter().map(|constant| constant.value).collect();
    let (capacity, surface, underlying) = (st.capacity.value, st.surface.value, st.underlying.value);
    let calendar = (st.first % 12 + 1) as i32;
    let a = card::start(&constants, capacity, surface, underlying, calendar);
    match a.number {
        DONE => return Ok(a.run),
        CONSTANT_OUT | ZERO_K => refuse_constant(st, calendar, a.number)?,
        CAPACITY_OUT => return refuse_whole(st.capacity, "capacity", a.number, "100 to 30000"),
        // of the two storages, the one that is refused beside 0 for the other
        STORAGE_OUT => {
            if card::start(&constants, capacity, surface, 0, calendar).number == a.number {
                let range = "0 to 1000, or to capacity where that is less";
                return refuse_whole(st.surface, "surface", a.number, range);
            }
            if card::start(&constants, capacity, 0, underlying, calendar).number == a.number {
                let range = "0 to capacity - 1000, or 0 where capacity is below 1000";
                return refuse_whole(st.underlying, "underlying", a.number, range);
            }
        }
        _ => {}
    }
    stop(REFUSED, format!("the start is refused ({}: {})", a.number, meaning(a.number)))
}

/// Refuses a reading if it is the one that the number is about.
fn refuse_reading(st: &Station, m: &Measure, name: &str, number: u8) -> Result<(), Stop> {
    if card::read(m.reading).number != number {
        return Ok(());
    }
    let why = meaning(number);
    if number == MISSING_READING {
        return refuse(m.word.at, format!("{name} is missing ({number}: {why}); {}", m.kind.missing));
    }
    let range = match st.unit {
        Unit::Inches => "inches are 0 to 100",
        Unit::Millimetres => "millimetres are 0 to 2540",
    };
    let what = format!("is refused ({number}: {why}), {range}{}", m.kind.refused);
    refuse(m.word.at, format!("{name} {} {what}", m.word.said()))
}

/// Refuses a month for the number that an add or a repair answered.
fn refuse_month<T>(st: &Station, m: &Month, number: u8) -> Result<T, Stop> {
    if number == MISSING_READING || number == BAD_READING {
        refuse_reading(st, &m.precipitation, "precipitation", number)?;
        refuse_reading(st, &m.pe, "PE", number)?;
    }
    let what = format!("{} is refused ({number}: {})", m.date.said(), meaning(number));
    if number == FULL {
        return refuse(m.date.at, format!("{what}, a run holds {MOST_MONTHS}"));
    }
    refuse(Place { column: 0, ..m.date.at }, what)
}

// ---- The card -------------------------------------------------------------------------------------------------

/// What a call that added months came to; the figures are those of the last month that it added.
struct Step {
    added: u32,
    settled: u32,
    figures: Figures,
}

/// Adds the months one by one.
fn add_singly(st: &Station, columns: &mut Columns, mut run: Run) -> Result<(Run, Vec<Step>), Stop> {
    let mut steps = Vec::new();
    for m in &st.months {
        let a = card::add_water(run, m.precipitation.reading, m.pe.reading, columns);
        if a.number != DONE {
            return refuse_month(st, m, a.number);
        }
        steps.push(Step { added: 1, settled: a.settled, figures: a.figures });
        run = a.run;
    }
    Ok((run, steps))
}

/// A reading as a season's lists have it: whole thousandths, of a trace 0, or NO_READING. One that is not acceptable
/// becomes a number that is not, so that the season refuses it as a single add does.
fn listed(reading: Reading) -> i32 {
    let a = card::read(reading);
    match a.number {
        DONE => a.water as i32,
        MISSING_READING => card::NO_READING,
        _ => i32::MIN,
    }
}

/// Adds the months `most` at a time.
fn add_seasons(st: &Station, columns: &mut Columns, mut run: Run, most: usize) -> Result<(Run, Vec<Step>), Stop> {
    let mut steps = Vec::new();
    for months in st.months.chunks(most) {
        let p: Vec<i32> = months.iter().map(|m| listed(m.precipitation.reading)).collect();
        let pe: Vec<i32> = months.iter().map(|m| listed(m.pe.reading)).collect();
        let a = card::add_season(run, &p, &pe, columns);
        if a.number != DONE {
            return refuse_month(st, &months[a.added as usize], a.number);
        }
        steps.push(Step { added: a.added, settled: a.settled, figures: a.figures });
        run = a.run;
    }
    Ok((run, steps))
}

/// The rows of all months, as they stand after the last add: earlier ones may have been settled since.
fn look_back(columns: &Columns, run: Run) -> Result<Vec<Shown>, Stop> {
    let mut rows = Vec::new();
    for i in 0..run.months as usize {
        let row = card::row(run, i, columns);
        if row.number != DONE {
            return stop(REFUSED, format!("row {i} is refused ({}: {})", row.number, meaning(row.number)));
        }
        rows.push(row);
    }
    Ok(rows)
}

// ---- Input and output -----------------------------------------------------------------------------------------

/// Standard input, output or error as the file that it is. Rust's own take one that is closed for one that is
/// empty, or that takes everything.
fn standard(number: i32) -> ManuallyDrop<File> {
    // Of the file nothing is asked but that its number is 0, 1 or 2, and it is never closed here.
    ManuallyDrop::new(unsafe { File::from_raw_fd(number) })
}

/// Precipitation as it is printed: T for a trace, as observers write it. PE is worked out and not observed, and is
/// always a number.
fn rain(thousandths: i64, trace: bool) -> String {
    if trace {
        "T".to_string()
    } else {
        thousandths.to_string()
    }
}

/// A mark as it is printed.
fn letter(mark: i32) -> char {
    if mark == SETTLED.into() {
        'S'
    } else {
        'O'
    }
}

/// A row for each month, as its own add answered.
fn singly_text(steps: &[Step], first: usize) -> String {
    let mut text = "month P PE CAFEC Z percent index modified settled\n".to_string();
    for (i, step) in steps.iter().enumerate() {
        let (f, w) = (&step.figures, &step.figures.water);
        let p = rain(w.p.into(), w.kinds.p == TRACE);
        text += &format!("{} {p} {} {} ", date(first + i), w.pe, w.cafec);
        text += &format!("{} {} {} {} {}\n", f.z, f.percent, f.index, f.modified, step.settled);
    }
    text
}

/// A row for each call: the months that it added and settled, and both indexes of the last one.
fn seasons_text(steps: &[Step]) -> String {
    let mut text = "season added settled index modified\n".to_string();
    for (i, step) in steps.iter().enumerate() {
        let Figures { index, modified, .. } = step.figures;
        text += &format!("{} {} {} {index} {modified}\n", i + 1, step.added, step.settled);
    }
    text
}

/// A repair: its month, how many months it changed, and a row for each of these.
fn report_text(m: &Month, report: &[Change], first: usize) -> String {
    let mut text = format!("repair {} changed {}\n", m.date.said(), report.len());
    text += "month index_before index_after mark_before mark_after\n";
    for c in report {
        let (before, after) = (letter(c.mark_before), letter(c.mark_after));
        let when = date(first + c.row as usize);
        text += &format!("{when} {} {} {before} {after}\n", c.index_before, c.index_after);
    }
    text
}

/// A row for each month, as the columns have it in the end.
fn rows_text(rows: &[Shown], first: usize) -> String {
    let mut text = "month X1 X2 X3 index modified mark\n".to_string();
    for (i, r) in rows.iter().enumerate() {
        let mark = letter(r.mark.into());
        text += &format!("{} {} {} {} ", date(first + i), r.x1, r.x2, r.x3);
        text += &format!("{} {} {mark}\n", r.index, r.month.modified);
    }
    text
}

/// A row for each month: its water, and what the layers stored at its end. A month that was added as a Z had no
/// water.
fn water_text(rows: &[Shown], first: usize) -> String {
    let mut text = "month P PE ET R L RO surface underlying\n".to_string();
    for (i, Shown { month: m, .. }) in rows.iter().enumerate() {
        let p = rain(m.p.into(), m.kind == TRACE.into());
        let water = match m.water {
            HAD_WATER => format!("{p} {} {} {} {} {}", m.pe, m.et, m.r, m.l, m.ro),
            _ => "- - - - - -".to_string(),
        };
        text += &format!("{} {water} {} {}\n", date(first + i), m.surface, m.underlying);
    }
    text
}

/// The head of station.c has it at more length.
fn help_text() -> String {
    format!(
        "station [MONTHS] <FILE\n\
        station --repair REPAIRS <FILE\n\
        station --constants <FILE\n\
        station --send STATE DIVISION FOLDER <FILE\n\
        \n\
        Reads a station file from standard input, adds its months to a run and prints what the card shows.\n\
        MONTHS, 1 to {MOST_MONTHS}: adds so many months in a call, as a card that was offline; else one by one.\n\
        With --repair it then repairs the months of the file REPAIRS, one after another.\n\
        With --constants it works the constants out of the months. The file may then have weights in their place.\n\
        With --send it writes the months' indexes and Z to FOLDER, as lines of STATE and DIVISION, one or two digits.\n\
        \n\
        Printed are three tables; water, Z, X and both indexes in thousandths:\n\
        \x20 month P PE CAFEC Z percent index modified settled   each month as it was added, and how many that\n\
        \x20                                                     settled; with MONTHS each call, as\n\
        \x20                                                     season added settled index modified\n\
        \x20 month X1 X2 X3 index modified mark                  each month as it stands in the end, S settled\n\
        \x20                                                     or O open\n\
        \x20 month P PE ET R L RO surface underlying             its water, and the soil at its end\n\
        With --repair stands in place of the first, for each repair, its month, how many months it changed, as\n\
        repair YYYY-MM changed COUNT, and a table of these:\n\
        \x20 month index_before index_after mark_before mark_after\n\
        With --constants stands in place of all three what the constants were made from, and they; sums and D in\n\
        thousandths of an inch:\n\
        \x20 years COUNT FIRST to LAST                           the whole years, January to December\n\
        \x20 month ET PE R PR RO PRO L PL                        each calendar month's sums over these years\n\
        \x20 month D weight product                              D, the mean size of P - CAFEC, and D x weight;\n\
        \x20                                                     then sum SUM, of the products\n\
        \x20 constants alpha beta gamma delta K                  thirteen lines, as a station file has them\n\
        With --send FOLDER has then index.txt, z.txt and modified.txt, a line a year in the nClimDiv layout, open months\n\
        held back; files that had these names are replaced, and where anything fails none is. Printed is one line:\n\
        \x20 years COUNT FIRST to LAST index MONTHS open MONTHS z MONTHS modified MONTHS\n\
        \n\
        T for a month's precipitation, in the file and as P, is a trace: rain too little to measure, which\n\
        counts as 0. PE is always a number. With MONTHS a trace is printed 0: such a call cannot tell it.\n\
        \n\
        Status: 0 done; 1 a file or a month in it is refused; 2 wrong arguments, or input that cannot be\n\
        read; 3 output that cannot be written. What is wrong is said on standard error, in one line.\n\
        \n\
        The format of the file stands in the head of samples/western-kansas-station.txt and in README.md, that of\n\
        a file of repairs in the head of samples/western-kansas-repairs.txt, that of weights in the head of\n\
        samples/thirty-years-station.txt.\n"
    )
}

/// How many months are added in a call, by the program's argument.
fn months_in_a_call(argument: &[u8]) -> Result<usize, Stop> {
    let w = Word { text: argument, at: Place { file: "", line: 0, column: 0 } };
    let end = w.after_digits(0);
    let add = |n: usize, &digit: &u8| if n <= MOST_MONTHS { 10 * n + usize::from(digit - b'0') } else { n };
    let n = w.text[..end].iter().fold(0, add);
    if end < w.text.len() || !(1..=MOST_MONTHS).contains(&n) {
        let what = format!("is no number of months; expected: 1 to {MOST_MONTHS}, digits only");
        return stop(NOT_READ, format!("\"{}\" {what}", w.said()));
    }
    Ok(n)
}

/// The whole of an input.
fn read_input(from: Option<&File>, input: &str, file: &str) -> Result<Vec<u8>, Stop> {
    let mut text = Vec::new();
    match from.map(|from| from.take(MOST_BYTES as u64 + 1).read_to_end(&mut text)) {
        Some(Ok(_)) => {}
        _ => return stop(NOT_READ, format!("{input} cannot be read")),
    }
    if text.len() > MOST_BYTES {
        return stop(REFUSED, format!("{file} is larger than {MOST_BYTES} bytes"));
    }
    Ok(text)
}

fn read_standard_input() -> Result<Vec<u8>, Stop> {
    read_input(Some(&standard(0)), "standard input", "the file")
}

fn read_file_of_repairs(name: &OsStr) -> Result<Vec<u8>, Stop> {
    read_input(File::open(name).ok().as_ref(), "the file of repairs", "the file of repairs")
}

// ---- Repairs --------------------------------------------------------------------------------------------------

/// A reading of a repair: for a = the recorded one, as its kind is.
fn new_reading(st: &Station, m: &Measure, recorded: i32, kind: i32) -> Reading {
    if !m.word.is("=") {
        return m.reading;
    }
    if kind == TRACE.into() {
        st.unit.reading(SMALLEST)
    } else {
        Reading::whole(recorded)
    }
}

/// Repairs the months one after another.
fn repair_months(
    st: &Station,
    rs: &Repairs,
    columns: &mut Columns,
    mut run: Run,
    printing: bool,
) -> Result<Run, Stop> {
    let mut report = vec![Change::default(); MOST_MONTHS];
    for repair in &rs.months {
        let mut m = *repair;
        let row = date_of(m.date).unwrap_or(st.next) - st.first;
        let recorded = card::row(run, row, columns).month;
        m.precipitation.reading = new_reading(st, &m.precipitation, recorded.p, recorded.kind);
        m.pe.reading = new_reading(st, &m.pe, recorded.pe, NONE.into());
        let a = card::repair(run, row, m.precipitation.reading, m.pe.reading, columns, &mut report);
        if a.number != DONE {
            return refuse_month(st, &m, a.number);
        }
        if printing {
            print(&report_text(&m, &report[..a.changed as usize], st.first))?;
        }
        run = a.run;
    }
    Ok(run)
}

/// Once every repair was found good: all from the start again, and each report is printed as it comes. There may be
/// too many to hold back.
fn print_reports(st: &Station, rs: &Repairs, columns: &mut Columns) -> Result<(), Stop> {
    let (run, _) = add_singly(st, columns, start(st)?)?;
    repair_months(st, rs, columns, run, true)?;
    Ok(())
}

// ---- The constants worked out ---------------------------------------------------------------------------------

/// Each weight twelve times, of a run without months: the library asks for the weights before it asks for years.
fn ask_weights(st: &Station, columns: &Columns, fresh: Run) -> Result<(), Stop> {
    for weight in &st.section.weights {
        if card::work_out(fresh, &[weight.value; WEIGHTS], columns).number == CONSTANT_OUT {
            return refuse_whole(*weight, "weight", CONSTANT_OUT, "0 to 100000");
        }
    }
    Ok(())
}

/// The year of the first January.
fn first_year(st: &Station) -> usize {
    (st.first + 11) / 12
}

/// Too few years, or a month among them that had no water.
fn refuse_years(st: &Station, number: u8) -> Result<(), Stop> {
    let (first, last) = (date(st.first), date(st.next - 1));
    let years = (st.next / 12).saturating_sub(first_year(st));
    let s = if years == 1 { "" } else { "s" };
    let why = if years < 10 { "ten are needed" } else { "a month of them had no water" };
    let what = format!("{first} to {last} has {years} whole year{s}, January to December, and {why}");
    stop(REFUSED, format!("the constants are refused ({number}: {}), {what}", meaning(number)))
}

/// The first gamma that is out of its range.
fn refuse_gamma(columns: &Columns, run: Run, number: u8) -> Result<(), Stop> {
    for (m, name) in CALENDAR.iter().enumerate() {
        let s = card::sum_month(run, m as i32 + 1, columns).sums;
        let (ro, pro) = (u64::from(s.ro), u64::from(s.pro));
        let gamma = if pro == 0 { 0 } else { (20000 * ro + pro) / (2 * pro) };
        if gamma > 50000 {
            let why = meaning(number);
            let what = format!("10000 x RO {ro} / PRO {pro} is {gamma}, and gamma is 0 to 50000");
            let more = "the capacity may be too small";
            return stop(REFUSED, format!("the gamma of {name} is refused ({number}: {why}), {what}; {more}"));
        }
    }
    Ok(())
}

/// A K of 0: if there is one, that of the smallest weight is.
fn refuse_zero_k(st: &Station, number: u8) -> Result<(), Stop> {
    let weights = st.section.weights.iter().zip(CALENDAR);
    match weights.min_by_key(|(weight, _)| weight.value) {
        Some((least, name)) => {
            let weight = if st.section.lost { "weight" } else { "K" };
            let why = format!("is refused ({number}: {})", meaning(number));
            let what = "comes to 0: no weight is to be 0, or very small beside the others";
            refuse(least.word.at, format!("{weight} {} {why}, the K of {name} {what}", least.word.said()))
        }
        None => Ok(()),
    }
}

/// Says why no constants were worked out.
fn refuse_constants<T>(st: &Station, columns: &Columns, run: Run, number: u8) -> Result<T, Stop> {
    match number {
        FEW_YEARS => refuse_years(st, number)?,
        BAD_GAMMA => refuse_gamma(columns, run, number)?,
        ZERO_K => refuse_zero_k(st, number)?,
        _ => {}
    }
    let what = match number {
        BAD_K => {
            ", every D x weight is 0, or a K is above 100000: the years hardly differ, or a weight is \
            very large beside the others"
        }
        _ => "",
    };
    stop(REFUSED, format!("the constants are refused ({number}: {}){what}", meaning(number)))
}

/// The years and the sums of each calendar month.
fn sums_text(st: &Station, months: &[Summed]) -> String {
    let (first, years) = (first_year(st), months[0].years as usize);
    let mut text = format!("years {years} {first:04} to {:04}\n", first + years - 1);
    text += "month ET PE R PR RO PRO L PL\n";
    for (name, Summed { sums: s, .. }) in CALENDAR.iter().zip(months) {
        text += &format!("{name} {} {} {} {} {} {} {} {}\n", s.et, s.pe, s.r, s.pr, s.ro, s.pro, s.l, s.pl);
    }
    text
}

/// What each K was made from.
fn departures_text(st: &Station, a: &WorkedOut) -> String {
    let mut sum = 0;
    let mut text = "month D weight product\n".to_string();
    for ((name, d), weight) in CALENDAR.iter().zip(a.departures).zip(&st.section.weights) {
        let product = i64::from(d) * i64::from(weight.value);
        text += &format!("{name} {d} {} {product}\n", weight.value);
        sum += product;
    }
    text + &format!("sum {sum}\n")
}

/// The constants, as a station file has them.
fn constants_text(a: &WorkedOut) -> String {
    let mut text = format!("constants {}\n", CONSTANT.join(" "));
    for (name, k) in CALENDAR.iter().zip(a.constants.chunks(5)) {
        text += &format!("{name} {} {} {} {} {}\n", k[0], k[1], k[2], k[3], k[4]);
    }
    text
}

/// Works the constants out of the months: what is printed is they, below what they were made from.
fn work_out(st: &Station, columns: &Columns, run: Run) -> Result<String, Stop> {
    let weights: Vec<i32> = st.section.weights.iter().map(|weight| weight.value).collect();
    let a = card::work_out(run, &weights, columns);
    if a.number != DONE {
        return refuse_constants(st, columns, run, a.number);
    }
    let months: Vec<Summed> = (1..=12).map(|month| card::sum_month(run, month, columns)).collect();
    if let Some(month) = months.iter().find(|month| month.number != DONE) {
        return refuse_constants(st, columns, run, month.number);
    }
    Ok(sums_text(st, &months) + &departures_text(st, &a) + &constants_text(&a))
}

// ---- The record sent out --------------------------------------------------------------------------------------

/// One of the three elements, and its file.
struct Element {
    name: &'static str,
    sent: fn(&Shown) -> Option<i32>, // what is sent of a month, in thousandths, if anything is
    write: fn(Run, u32, u32, u32, u32, &Columns, &mut [u8]) -> u8,
    file: &'static str,
    part: &'static str,  // its name until all three are whole,
    aside: &'static str, // and that of the file in whose place it comes, until all three are in theirs
}

const ELEMENTS: usize = 3;
const ELEMENT: [Element; ELEMENTS] = [
    Element {
        name: "index",
        sent: |row| Some(row.index).filter(|_| row.mark == SETTLED),
        write: card::write_index_line,
        file: "index.txt",
        part: "index.txt.part",
        aside: "index.txt.aside",
    },
    Element {
        name: "Z",
        sent: |row| Some(row.month.z),
        write: card::write_z_line,
        file: "z.txt",
        part: "z.txt.part",
        aside: "z.txt.aside",
    },
    Element {
        name: "modified index",
        sent: |row| Some(row.month.modified),
        write: card::write_modified_line,
        file: "modified.txt",
        part: "modified.txt.part",
        aside: "modified.txt.aside",
    },
];

/// What was done about a file.
#[derive(Default)]
struct Done {
    made_part: bool,
    made_aside: bool, // empty at first, so that nothing but a file can be moved there
    moved: bool,      // whether there was a file of its name, which is now aside
    placed: bool,
}

/// What was done about each file. Where it is dropped before `forget`, the folder is as it was.
#[derive(Default)]
struct Folder {
    done: [Done; ELEMENTS],
}

impl Drop for Folder {
    fn drop(&mut self) {
        // what cannot be undone either stays, and the status tells
        for (e, done) in ELEMENT.iter().zip(&self.done) {
            if done.moved {
                let _ = std::fs::rename(e.aside, e.file);
            } else if done.placed {
                let _ = std::fs::remove_file(e.file);
            }
            if done.made_aside && !done.moved {
                let _ = std::fs::remove_file(e.aside);
            }
            if done.made_part && !done.placed {
                let _ = std::fs::remove_file(e.part);
            }
        }
    }
}

/// A state or a division, by the program's argument.
fn two_digits(argument: &OsStr, name: &str) -> Result<u32, Stop> {
    match argument.as_bytes() {
        [b @ b'0'..=b'9'] => Ok(u32::from(b - b'0')),
        [a @ b'0'..=b'9', b @ b'0'..=b'9'] => Ok(10 * u32::from(a - b'0') + u32::from(b - b'0')),
        other => stop(NOT_READ, format!("\"{}\" is no {name}; expected: one or two digits", shown(other))),
    }
}

/// From here on names are those of its files.
fn enter_folder(name: &OsStr) -> Result<(), Stop> {
    std::env::set_current_dir(name).or_else(|_| {
        let what = "cannot be entered; expected: a FOLDER that is there";
        stop(NOT_READ, format!("\"{}\" {what}", shown(name.as_bytes())))
    })
}

/// Says why a line was refused: the first month of its element that does not fit. The years come in order, so it is of
/// this one.
fn refuse_line<T>(st: &Station, rows: &[Shown], e: &Element, year: usize, number: u8) -> Result<T, Stop> {
    for (m, row) in st.months.iter().zip(rows) {
        let sent = (e.sent)(row).unwrap_or(0);
        let n = (sent + if sent < 0 { -5 } else { 5 }) / 10;
        if n == -9999 || !(-99999..=999999).contains(&n) {
            let why = format!("is refused ({number}: {})", meaning(number));
            let what = "and -99999 to 999999 are sent but for -9999, the mark of a missing month";
            let what = format!("the {} of {} {why}, it comes to {n} hundredths, {what}", e.name, m.date.said());
            return refuse(Place { column: 0, ..m.date.at }, what);
        }
    }
    stop(REFUSED, format!("the {} of the year {year:04} is refused ({number}: {})", e.name, meaning(number)))
}

/// Of a file that cannot be written. What was done about it and the others is undone where the folder is dropped.
fn no_file<T>(e: &Element) -> Result<T, Stop> {
    let what = "cannot be written in the folder, and none of the three files is";
    stop(NOT_WRITTEN, format!("{} {what}", e.file))
}

/// Makes a file that is not there yet.
fn make(e: &Element, name: &str, made: &mut bool) -> Result<File, Stop> {
    match File::options().write(true).create_new(true).open(name) {
        Ok(to) => {
            *made = true;
            Ok(to)
        }
        Err(why) if why.kind() == ErrorKind::AlreadyExists => {
            let what = "is in the folder already; if no other --send is at work there, remove it";
            stop(NOT_WRITTEN, format!("{name} {what}"))
        }
        Err(_) => no_file(e),
    }
}

/// Writes the three files under other names, and then puts them in their places. Nobody ends the program meanwhile, and a
/// file that may grow no further is then a write that fails.
fn write_files(folder: &mut Folder, text: &[Vec<u8>]) -> Result<(), Stop> {
    for number in [SIGHUP, SIGINT, SIGTERM, SIGXFSZ] {
        unsafe { signal(number, SIG_IGN) };
    }
    for ((e, done), text) in ELEMENT.iter().zip(&mut folder.done).zip(text) {
        if make(e, e.part, &mut done.made_part)?.write_all(text).is_err() {
            return no_file(e);
        }
        make(e, e.aside, &mut done.made_aside)?;
    }
    for (e, done) in ELEMENT.iter().zip(&mut folder.done) {
        match std::fs::rename(e.file, e.aside) {
            Ok(()) => done.moved = true,
            Err(why) if why.kind() == ErrorKind::NotFound => {}
            Err(_) => return no_file(e),
        }
        done.placed = std::fs::rename(e.part, e.file).is_ok();
        if !done.placed {
            return no_file(e);
        }
    }
    Ok(())
}

/// All is done: of what stood in the places nothing is kept, and nothing is undone.
fn forget(folder: Folder) {
    for e in &ELEMENT {
        let _ = std::fs::remove_file(e.aside);
    }
    std::mem::forget(folder);
}

/// Writes the station's record to the folder, and prints what it has: every line before the first file.
fn send_record(
    st: &Station,
    rows: &[Shown],
    columns: &Columns,
    run: Run,
    state: u32,
    division: u32,
) -> Result<(), Stop> {
    let (first, years) = (st.first / 12, (st.next - 1) / 12 - st.first / 12 + 1);
    let mut text = Vec::new();
    for e in &ELEMENT {
        let mut lines = Vec::new();
        for i in 0..years {
            let mut line = [b'\n'; LINE + 1];
            let number = (e.write)(run, state, division, first as u32, i as u32, columns, &mut line[..LINE]);
            if number != DONE {
                return refuse_line(st, rows, e, first + i, number);
            }
            lines.extend(line);
        }
        text.push(lines);
    }
    let [index, z, modified] = ELEMENT.map(|e| rows.iter().filter_map(e.sent).count());
    let mut folder = Folder::default();
    write_files(&mut folder, &text)?;
    let (last, open) = (first + years - 1, rows.len() - index);
    let counts = format!("index {index} open {open} z {z} modified {modified}");
    print(&format!("years {years} {first:04} to {last:04} {counts}\n"))?;
    forget(folder);
    Ok(())
}

/// What the arguments ask for.
enum Asked {
    Help,
    Months(usize), // so many in a call; 0 is one by one
    Repair(OsString),
    Constants,
    Send(u32, u32), // of a state and a division, to the folder that was entered
}

fn asked() -> Result<Asked, Stop> {
    let arguments: Vec<OsString> = std::env::args_os().skip(1).collect();
    match &arguments[..] {
        [] => Ok(Asked::Months(0)),
        [repair, file] if repair == "--repair" => Ok(Asked::Repair(file.clone())),
        [repair, more @ ..] if repair == "--repair" => {
            let what = "arguments more; expected: --repair and the name of a file";
            stop(NOT_READ, format!("--repair and {} {what}", more.len()))
        }
        [constants] if constants == "--constants" => Ok(Asked::Constants),
        [constants, more @ ..] if constants == "--constants" => {
            let what = "more; expected: --constants alone";
            stop(NOT_READ, format!("--constants and {} {what}", more.len()))
        }
        [send, state, division, folder] if send == "--send" => {
            let (state, division) = (two_digits(state, "STATE")?, two_digits(division, "DIVISION")?);
            enter_folder(folder)?;
            Ok(Asked::Send(state, division))
        }
        [send, more @ ..] if send == "--send" => {
            let what = "arguments more; expected: --send, a STATE, a DIVISION and a FOLDER";
            stop(NOT_READ, format!("--send and {} {what}", more.len()))
        }
        [help] if help == "--help" => Ok(Asked::Help),
        [months] => Ok(Asked::Months(months_in_a_call(months.as_bytes())?)),
        more => {
            let what = "arguments; expected: none, or how many months are added in a call";
            stop(NOT_READ, format!("{} {what}", more.len()))
        }
    }
}

/// All that is printed.
fn station() -> Result<(), Stop> {
    let asked = asked()?;
    let most = match asked {
        Asked::Help => return print(&help_text()),
        Asked::Months(most) => most,
        Asked::Repair(_) | Asked::Constants | Asked::Send(..) => 0,
    };
    let working_out = matches!(asked, Asked::Constants);
    let text = read_standard_input()?;
    let of_repairs = match &asked {
        Asked::Repair(name) => Some(read_file_of_repairs(name)?),
        _ => None,
    };
    let st = read_station(&text, working_out)?;
    let rs = match &of_repairs {
        Some(text) => read_repairs(text, &st)?,
        None => Repairs::default(),
    };
    let [mut x1, mut x2, mut x3, mut index] = [(); 4].map(|()| vec![0; MOST_MONTHS]);
    let mut mark = vec![0; MOST_MONTHS];
    let mut records = vec![Record::default(); MOST_MONTHS];
    let mut v = vec![0; MOST_MONTHS];
    let columns = &mut Columns {
        x1: &mut x1,
        x2: &mut x2,
        x3: &mut x3,
        index: &mut index,
        mark: &mut mark,
        records: &mut records,
        v: &mut v,
    };
    let run = start(&st)?;
    if working_out {
        ask_weights(&st, columns, run)?;
    }
    let (run, steps) =
        if most == 0 { add_singly(&st, columns, run)? } else { add_seasons(&st, columns, run, most)? };
    if working_out {
        return print(&work_out(&st, columns, run)?);
    }
    let run = repair_months(&st, &rs, columns, run, false)?;
    let rows = look_back(columns, run)?;
    if let Asked::Send(state, division) = asked {
        return send_record(&st, &rows, columns, run, state, division);
    }
    let first = match asked {
        Asked::Repair(_) => {
            print_reports(&st, &rs, columns)?;
            String::new()
        }
        _ if most == 0 => singly_text(&steps, st.first),
        _ => seasons_text(&steps),
    };
    print(&(first + &rows_text(&rows, st.first) + &water_text(&rows, st.first)))
}

/// Prints a text, or says that it cannot: standard output may be closed, full, or a pipe that nobody reads. No
/// buffer stands in between that would have to be flushed.
fn print(text: &str) -> Result<(), Stop> {
    match (&*standard(1)).write_all(text.as_bytes()) {
        Ok(()) => Ok(()),
        Err(_) => stop(NOT_WRITTEN, "standard output cannot be written".to_string()),
    }
}

extern "C" {
    fn signal(number: i32, handler: usize) -> usize;
}
const SIGHUP: i32 = 1;
const SIGINT: i32 = 2;
const SIGPIPE: i32 = 13;
const SIGTERM: i32 = 15;
const SIGXFSZ: i32 = 25;
const SIG_IGN: usize = 1;

#[no_mangle]
pub extern "C" fn main() -> i32 {
    // a pipe that nobody reads is then a write that fails, and is said
    unsafe { signal(SIGPIPE, SIG_IGN) };
    match station() {
        Ok(()) => 0,
        Err(stop) => {
            // where standard error cannot be written either, the status still tells
            let _ = (&*standard(2)).write_all(stop.line.as_bytes());
            stop.status
        }
    }
}
