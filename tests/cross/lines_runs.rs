//! Lines of runs from their start on: every year of a run is written, and read back by the library. What a line must say is
//! worked out of what card_row shows of the months, by walking the calendar forward, with no reference.

use crate::add::Add;
use crate::add_z::{pick_z, STYLES};
use crate::card::{self, Columns, LineFigures, Reading, Run};
use crate::check::{differ, Call, Check};
use crate::lines::ELEMENTS;
use crate::lists::{Fill, Lists};
use crate::random::Random;
use crate::reference::lines::{Element, Sent, LINE};
use crate::reference::MOST_MONTHS;
use crate::runs::{good_constants, good_soil};

/// A run from its start on, and the calendar month that it started in.
struct Station {
    start: i32,
    run: Run,
    lists: Lists,
}

/// Z of all sizes: ordinary, so that X comes near the mark or either end of what fits, and so that Z itself does.
const ABOUT: [[i64; 2]; 9] = [
    [-3_000, 3_000],
    [-30_000, 30_000],
    [-30_900, -30_890],
    [-100_010, -99_970],
    [-309_010, -308_990],
    [-1_000_010, -999_980],
    [3_089_980, 3_090_010],
    [3_000_000, 4_000_000],
    [-4_000_000, 4_000_000],
];

/// How a run's months are added: for some months with Z about the same, then about others.
struct Way {
    change: u64,
    about: [i64; 2],
    style: Option<usize>,
    water: bool,
}

impl Way {
    fn new(random: &mut Random) -> Way {
        let change = random.pick(&[4, 20, 60, 1_000_000]);
        let style = random.below(2 * STYLES.len() as u64) as usize;
        let style = Some(style).filter(|style| *style < STYLES.len());
        Way { change, about: random.pick(&ABOUT), style, water: random.one_in(6) }
    }

    fn month(&mut self, random: &mut Random, run: &Run) -> Add {
        if random.one_in(self.change) {
            *self = Way { change: self.change, ..Way::new(random) };
        }
        if self.water {
            return Add::Water(Reading::whole(random.within(0, 6_000) as i32), Reading::whole(2_000));
        }
        let [least, most] = self.about;
        let z = random.within(least, most) as i32;
        Add::Z(self.style.map_or(z, |style| pick_z(random, STYLES[style], &run.values)))
    }
}

fn add_months(c: &mut Check, run: &mut Run, k: &mut Columns, count: usize) {
    let mut way = Way::new(&mut c.random);
    for _ in 0..count {
        let month = way.month(&mut c.random, run);
        *run = month.library(run, k).run;
    }
}

/// The nearest hundredth, by Rust's own rounding: a half of a whole number is exact in binary, and goes away from zero.
fn hundredths(thousandths: i32) -> i32 {
    (f64::from(thousandths) / 10.0).round() as i32
}

fn fits(hundredths: &i32) -> bool {
    (-99_999..=999_999).contains(hundredths) && *hundredths != -9_999
}

impl Station {
    fn new(c: &mut Check, start: i32, count: usize, room: usize) -> Station {
        let ([capacity, surface, underlying, _], constants) =
            (good_soil(&mut c.random), good_constants(&mut c.random));
        let mut run = card::start(&constants, capacity, surface, underlying, start).run;
        let mut seven = Lists::new(&mut c.random, [count + room; 7], Fill::AnyBits).library;
        add_months(c, &mut run, &mut seven.lend(), count);
        Station { start, run, lists: Lists::of(seven) }
    }

    /// Adds more months, which settle some that were open.
    fn go_on(&mut self, c: &mut Check, count: usize) {
        let mut seven = std::mem::take(&mut self.lists.library);
        add_months(c, &mut self.run, &mut seven.lend(), count);
        self.lists = Lists::of(seven);
    }

    /// The hundredths of each of the run's years, January first, none where a month has nothing to send. The last year may have
    /// no month.
    fn years(&mut self, element: Element) -> Vec<[Option<i32>; 12]> {
        let (mut years, mut month) = (vec![[None; 12]], self.start as usize - 1);
        for row in 0..self.run.months as usize {
            let shown = card::row(self.run, row, &self.lists.library.lend());
            let value = match element {
                Element::Index => Some(shown.index).filter(|_| shown.mark == card::SETTLED),
                Element::Z => Some(shown.month.z),
                Element::Modified => Some(shown.month.modified),
            };
            years.last_mut().into_iter().for_each(|year| year[month] = value.map(hundredths));
            month += 1;
            if month == 12 {
                years.push([None; 12]);
                month = 0;
            }
        }
        years
    }

    /// Writes every year of each element, and some after the last, and reads them back.
    fn hold(&mut self, c: &mut Check) {
        c.lines.round += 1;
        for element in ELEMENTS {
            let mut years = self.years(element);
            years.resize(years.len() + 2, [None; 12]);
            let latest = 10_000 - years.len() as i64;
            let any = c.random.within(0, latest);
            let year = c.random.pick(&[0, latest, latest.min(1_895), any, any]) as u32;
            let [state, division] = [(); 2].map(|()| c.random.within(0, 99) as u32);
            for (which, values) in (0..).zip(years) {
                let sent = Sent { element, state, division, year, which };
                let room = c.random.pick(&[LINE, LINE, LINE + 1, LINE + 40]);
                let (number, mut line) = c.write_line(&sent, &self.run, &mut self.lists, room);
                let wanted = if values.iter().flatten().all(fits) { card::DONE } else { card::UNFIT };
                if number != wanted {
                    differ(Call::WriteIndex, &(sent, self.run, self.start, values), &number, &wanted);
                }
                if number == card::DONE {
                    line.truncate(LINE);
                    read_back(c, &sent, &line, &values);
                }
            }
        }
        c.untouched(&self.run, &mut self.lists);
    }
}

/// "Reading back what was written gives the hundredths and the missing months."
fn read_back(c: &mut Check, sent: &Sent, line: &[u8], values: &[Option<i32>; 12]) {
    let mut wanted =
        LineFigures { number: 0, hundredths: values.map(|value| value.unwrap_or(0)), ..LineFigures::default() };
    for (month, value) in values.iter().enumerate() {
        wanted.present |= u32::from(value.is_some()) << month;
    }
    wanted.count = wanted.present.count_ones();
    wanted.first_missing = (wanted.present.trailing_ones() + 1) % 13;
    let asked = [sent.state, sent.division, sent.year + sent.which];
    let told = c.read_line(sent.element, line, asked);
    if told != wanted || c.year_and_fault(line) != [asked[2], 0] {
        differ(Call::ReadIndex, &(sent, String::from_utf8_lossy(line)), &told, &wanted);
    }
}

/// Runs from every calendar month on, short and long, some with more months added after their lines were written.
pub fn runs(c: &mut Check, times: u64) {
    c.kind("lines of runs");
    for start in 1..=12 {
        for count in [0, 1, 5, 11, 12, 13, 30, 240] {
            for number in 0..12 * times {
                let room = c.random.within(1, 30) as usize;
                let mut station = Station::new(c, start, count, room);
                station.hold(c);
                if number % 4 == 0 {
                    station.go_on(c, room);
                    station.hold(c);
                }
            }
        }
    }
    c.kind("lines of runs, 12,000 months");
    for start in [1, 2, 12] {
        Station::new(c, start, MOST_MONTHS, 0).hold(c);
        Station::new(c, start, MOST_MONTHS - 1, 1).hold(c);
    }
}
