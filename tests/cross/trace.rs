//! Trace rain. The kinds of every month that is added anywhere in the cross-check are held to the exact computation
//! (`Check::account`). Here are readings that are chosen for it: both ends of what is a trace and their neighbours, alone and
//! in every place of an add; months with traces beside the same months with a whole 0; months of a Z and seasons, which never
//! have one; and columns whose records hold any kind.

use crate::add::Add;
use crate::add_water::pick_reading;
use crate::add_z::{pick_z, Style};
use crate::card::{self, Added, Answer, Figures, MonthInches, MonthKinds, Reading, Record, Run};
use crate::check::{differ, Call, Check};
use crate::conversion::{told, Unit, UNITS};
use crate::ends::{each_call, standing, PLACES};
use crate::lists::{Fill, Lists, Seven};
use crate::random::Random;
use crate::runs::{any_good_run, good_constants, good_soil};
use crate::season::Months;

/// The least pattern of each unit that is measured: the least number not below 0.0005 inch, and not below 0.0127 millimetres.
/// The largest trace is the one before. Worked out in fractions; `traces` holds the exact computation to them.
const LEAST: [u32; 2] = [0x3a03_126f, 0x3c50_13aa];

const MINUS: u32 = 0x8000_0000;

// ---- By the request's words --------------------------------------------------------------------------------

/// How often a reading was told as none, as a trace and as measured: alone, as precipitation and as PE.
#[derive(Default)]
pub struct Told {
    alone: [u64; 3],
    p: [u64; 3],
    pe: [u64; 3],
}

impl Told {
    /// Counts an answer that was compared. What is refused is counted by its number.
    pub fn alone(&mut self, answer: &Answer) {
        if answer.number == 0 {
            self.alone[answer.kind as usize] += 1;
        }
    }

    pub fn print(&self) {
        let words = [self.alone, self.p, self.pe]
            .map(|[none, trace, measured]| format!("none {none}, trace {trace}, measured {measured}"));
        println!("readings alone {}; as precipitation {}; as PE {}", words[0], words[1], words[2]);
    }
}

/// The kinds of what is added. "A whole-number reading of 0 is none, as is a Z-only month."
fn kinds(what: &Add) -> MonthKinds {
    let [p, pe] = match what {
        Add::Water(p, pe) => [told(p), told(pe)],
        Add::Inches(month) => [month.p, month.pe].map(|x| UNITS[0].told(x)),
        Add::Z(_) => [card::NONE; 2],
    };
    MonthKinds { p, pe }
}

/// Holds what an add answered to it.
pub fn hold(counts: &mut Told, what: &Add, run: &Run, added: &Added) {
    let wanted = kinds(what);
    if added.figures.water.kinds != wanted {
        let inputs = (what, what.measures(), run, "the kinds of its readings");
        differ(what.call(), &inputs, &added.figures, &wanted);
    }
    if !matches!(what, Add::Z(_)) {
        counts.p[wanted.p as usize] += 1;
        counts.pe[wanted.pe as usize] += 1;
    }
}

// ---- Readings chosen for it --------------------------------------------------------------------------------

/// A trace of this unit: from the smallest number that there is, or next to the largest trace.
fn trace(random: &mut Random, unit: usize) -> f32 {
    let most = i64::from(LEAST[unit]) - 1;
    let (any, near) = (random.within(1, most), most - random.within(0, 3));
    f32::from_bits(random.pick(&[any, any, near, 1]) as u32)
}

/// Inches that come to no water: a trace, or a zero of either sign.
pub fn no_inches(random: &mut Random) -> f32 {
    let trace = trace(random, 0);
    random.pick(&[trace, trace, 0.0, -0.0])
}

/// A reading that comes to no water: a trace or a zero, in any unit.
pub fn no_water(random: &mut Random) -> Reading {
    let (inches, mm) = (no_inches(random), trace(random, 1));
    let mm = random.pick(&[mm, mm, 0.0, -0.0]);
    random.pick(&[Reading::inches(inches), Reading::millimetres(mm), Reading::whole(0)])
}

const fn answer(number: u8, kind: u8, water: u32) -> Answer {
    Answer { number, kind, water }
}

const NONE: Answer = answer(0, card::NONE, 0);
const TRACE: Answer = answer(0, card::TRACE, 0);
const ONE: Answer = answer(0, card::MEASURED, 1);
const MISSING: Answer = answer(8, card::NONE, 0);
const BAD: Answer = answer(9, card::NONE, 0);

/// Patterns at and beside both ends of what is a trace of a unit, and what each answers.
fn patterns(unit: usize) -> Vec<(u32, Answer)> {
    let (least, top) = (LEAST[unit], UNITS[unit].top.to_bits());
    // the least number of all, subnormal ones to the largest, and from the least that is not
    let mut found =
        [1, 2, 0x0040_0000, 0x007f_ffff, 0x0080_0000, least - 2, least - 1].map(|bits| (bits, TRACE)).to_vec();
    found.extend([0, MINUS].map(|bits| (bits, NONE)));
    found.extend([least, least + 1].map(|bits| (bits, ONE)));
    found.extend([1, 0x007f_ffff, least - 1, least].map(|bits| (MINUS | bits, BAD)));
    found.extend([top + 1, 0x7f80_0000, 0x7f80_0001, 0x7fc0_0000, 0xffc0_0000].map(|bits| (bits, BAD)));
    found
}

/// Readings at and beside both ends of what is a trace, and what each answers.
fn chosen() -> Vec<(Reading, Answer)> {
    let mut found = vec![(Reading::whole(0), NONE), (Reading::whole(1), ONE), (Reading::missing(), MISSING)];
    found.extend([-1, 100_001].map(|whole| (Reading::whole(whole), BAD)));
    // no kind of reading, and a missing one that has a trace beside it
    found.push((Reading { kind: 4, whole: 0, measure: 0.0001 }, BAD));
    found.push((Reading { kind: card::MISSING, whole: 0, measure: 0.0001 }, MISSING));
    // a whole 0 and a whole 1 beside a trace
    found.push((Reading { kind: card::WHOLE, whole: 0, measure: 0.0001 }, NONE));
    found.push((Reading { kind: card::WHOLE, whole: 1, measure: 0.0001 }, ONE));
    for (place, unit) in UNITS.iter().enumerate() {
        found.extend(patterns(place).into_iter().map(|(bits, told)| (unit.reading(f32::from_bits(bits)), told)));
    }
    found
}

pub fn traces(c: &mut Check, times: u64) {
    for (unit, least) in UNITS.iter().zip(LEAST) {
        assert_eq!(unit.least(1), least);
    }
    alone(c, times);
    in_water(c);
    in_inches(c);
    beside_none(c, times);
    of_z(c);
    in_seasons(c);
    held(c);
    let Told { alone, p, pe } = &c.told;
    assert!([alone, p, pe].iter().all(|kinds| kinds.iter().all(|cases| *cases > 0)));
}

/// Each by itself; the ends of every binary exponent, and all patterns near the largest trace; and any trace.
fn alone(c: &mut Check, times: u64) {
    c.kind("traces, alone");
    for (reading, wanted) in chosen() {
        expect(Call::Read, &reading, c.read(reading), wanted);
    }
    for (unit, least) in UNITS.iter().zip(LEAST) {
        for exponent in 1..=least >> 23 {
            for bits in [(exponent << 23) - 1, exponent << 23, (exponent << 23) + 1] {
                both(c, unit, bits);
            }
        }
        for bits in least - 10_000..least + 10_000 {
            both(c, unit, bits);
        }
    }
    for _ in 0..100_000 * times {
        for (place, unit) in UNITS.iter().enumerate() {
            let x = trace(&mut c.random, place);
            both(c, unit, x.to_bits());
        }
    }
}

/// A reading by the reference and by the exact computation.
fn both(c: &mut Check, unit: &Unit, bits: u32) {
    c.read(unit.reading(f32::from_bits(bits)));
    c.read_exactly(unit, bits);
}

fn expect<T: PartialEq + std::fmt::Debug>(call: Call, inputs: &dyn std::fmt::Debug, held: T, wanted: T) {
    if held != wanted {
        differ(call, &(inputs, "by its kind"), &held, &wanted);
    }
}

// ---- Months ------------------------------------------------------------------------------------------------

/// An add of two readings that answer so, on a run with room or in full columns: its number; where it is not refused P, PE and
/// both kinds, precipitation's in the record and in the row; and otherwise zeros.
fn add(c: &mut Check, what: Add, run: &Run, lists: &mut Lists, [p, pe]: [Answer; 2]) {
    let month = run.months as usize;
    let full = if month == lists.lengths()[0] { 10 } else { 0 };
    let number = [p.number, pe.number, full].into_iter().find(|number| *number != 0).unwrap_or(0);
    let added = c.add(what, run, lists);
    let w = added.figures.water;
    if number != 0 {
        expect(what.call(), &(what, run), (added.number, added.figures), (number, Figures::default()));
        return;
    }
    let held = [answer(added.number, w.kinds.p, w.p), answer(added.number, w.kinds.pe, w.pe)];
    expect(what.call(), &(what, run), held, [p, pe]);
    let shown = c.row(&added.run, month, lists).month;
    let records = [lists.library.lend().records[month], shown].map(|month| (month.p, month.kind));
    expect(Call::Row, &(what, run), records, [(p.water as i32, i32::from(p.kind)); 2]);
}

/// Runs in the middle of columns of any content, one without a month and one with no room left.
fn runs(c: &mut Check) -> Vec<(Run, Lists)> {
    [(0, 3), (1, 3), (2, 3), (3, 3)].map(|(months, length)| standing(c, months, length)).into()
}

/// Each as precipitation beside each as PE, and so each as both.
fn in_water(c: &mut Check) {
    c.kind("traces in adds of water");
    for (run, mut lists) in runs(c) {
        for (p, p_told) in chosen() {
            for (pe, pe_told) in chosen() {
                add(c, Add::Water(p, pe), &run, &mut lists, [p_told, pe_told]);
            }
            let other = answer(0, card::MEASURED, 700);
            add(c, Add::Water(p, Reading::whole(700)), &run, &mut lists, [p_told, other]);
            add(c, Add::Water(Reading::whole(700), p), &run, &mut lists, [other, p_told]);
        }
    }
}

fn in_inches(c: &mut Check) {
    c.kind("traces in adds of inches");
    for (run, mut lists) in runs(c) {
        for (p, p_told) in patterns(0) {
            for (pe, pe_told) in patterns(0) {
                let month = MonthInches { p: f32::from_bits(p), pe: f32::from_bits(pe) };
                add(c, Add::Inches(month), &run, &mut lists, [p_told, pe_told]);
            }
        }
    }
}

/// "A trace counts as no water": the same add with a whole 0 for each trace.
fn without(what: Add) -> Add {
    let none = |reading: Reading| match told(&reading) {
        card::TRACE => Reading::whole(0),
        _ => reading,
    };
    match what {
        Add::Water(p, pe) => Add::Water(none(p), none(pe)),
        Add::Inches(month) => Add::Water(none(Reading::inches(month.p)), none(Reading::inches(month.pe))),
        Add::Z(_) => what,
    }
}

/// An answer and columns but for the kinds.
fn but_kinds(added: Added, k: &Seven) -> (Added, Seven) {
    let mut added = added;
    added.figures.water.kinds = MonthKinds::default();
    let mut k = k.clone();
    k.records.iter_mut().for_each(|record| record.kind = 0);
    (added, k)
}

/// Runs month by month with traces beside the same with zeros: run, columns and figures are the same but for the kinds, and
/// these are a trace there and none here.
fn beside_none(c: &mut Check, times: u64) {
    c.kind("months with traces beside none");
    for _ in 0..1_500 * times {
        let length = c.random.pick(&[1, 6, 12, 24]);
        let (constants, soil) = (good_constants(&mut c.random), good_soil(&mut c.random));
        let mut run = c.start(&constants, soil).run;
        let mut traced = Lists::new(&mut c.random, [length; 7], Fill::AnyBits);
        let mut dry = Lists::of(traced.library.clone());
        while (run.months as usize) < length {
            let what = month(&mut c.random, &run);
            run = side_by_side(c, what, &run, &mut traced, &mut dry);
        }
        for row in 0..length {
            let [traced, dry] = [&mut traced, &mut dry].map(|lists| c.row(&run, row, lists));
            let same = Record { kind: dry.month.kind, ..traced.month };
            expect(Call::Row, &(row, run), same, dry.month);
        }
    }
}

/// A month with a trace or a zero in one reading or in both, or a Z.
fn month(random: &mut Random, run: &Run) -> Add {
    let most = random.pick(&[300, 4_000, 9_000]);
    let (none, other) = (no_water(random), pick_reading(random, most));
    match random.below(5) {
        0 => Add::Water(none, other),
        1 => Add::Water(other, none),
        2 => Add::Water(none, no_water(random)),
        3 => Add::Inches(MonthInches { p: no_inches(random), pe: no_inches(random) }),
        _ => Add::Z(pick_z(random, Style::Ordinary, &run.values)),
    }
}

fn side_by_side(c: &mut Check, what: Add, run: &Run, traced: &mut Lists, dry: &mut Lists) -> Run {
    let (with, without) = (c.add(what, run, traced), c.add(without(what), run, dry));
    let place = run.months as usize;
    let held = [traced.library.lend().records[place], dry.library.lend().records[place]].map(|month| month.kind);
    let wanted = i32::from(kinds(&what).p);
    let right = held == [wanted, if wanted == 1 { 0 } else { wanted }];
    if !right || but_kinds(with, &traced.library) != but_kinds(without, &dry.library) {
        let inputs = (what, what.measures(), run, "beside the same month without a trace");
        differ(what.call(), &inputs, &(with, held), &without);
    }
    without.run
}

/// Z after months of every kind, in columns of any content: both kinds of its figures are none, and so is its record's.
fn of_z(c: &mut Check) {
    c.kind("months of a Z, their kinds");
    for (reading, _) in chosen() {
        for z in [-4_000_000, -1_000, 0, 1, 4_000_000] {
            let mut lists = Lists::new(&mut c.random, [3; 7], Fill::AnyBits);
            let first = Run { months: 0, opens: 0, ..any_good_run(&mut c.random, 0) };
            let mut run = c.add(Add::Water(reading, reading), &first, &mut lists).run;
            for _ in 0..2 {
                let month = run.months as usize;
                let added = c.add(Add::Z(z), &run, &mut lists);
                run = added.run;
                let shown = c.row(&run, month, &mut lists).month;
                let held = (added.figures.water.kinds, lists.library.lend().records[month].kind, shown.kind);
                expect(Call::AddZ, &(reading, z), held, (MonthKinds::default(), 0, 0));
            }
        }
    }
}

/// Seasons of zeros and others after a month without water, often one of traces: each month's record has none or measured,
/// and the figures have the kinds of the last month that the season added. Where it added no month both are none.
fn in_seasons(c: &mut Check) {
    c.kind("seasons, their kinds");
    for number in 0..6_000 {
        let length = c.random.within(1, 9) as usize;
        let mut lists = Lists::new(&mut c.random, [length; 7], Fill::AnyBits);
        let first = Run { months: 0, opens: 0, ..any_good_run(&mut c.random, 0) };
        let what = Add::Water(no_water(&mut c.random), no_water(&mut c.random));
        let run = c.add(what, &first, &mut lists).run;
        let [p, pe] =
            [(); 2].map(|()| (0..number % 8).map(|_| c.random.pick(&[0, 0, 1, 2, 700, 100_000])).collect());
        let mut months = Months { p, pe };
        // one that is refused, in either list
        if c.random.one_in(3) {
            let place = c.random.below(8) as usize;
            let list = if c.random.one_in(2) { &mut months.p } else { &mut months.pe };
            list.iter_mut().skip(place).take(1).for_each(|reading| *reading = -1);
        }
        one_season(c, &months, &run, &mut lists);
    }
}

fn one_season(c: &mut Check, months: &Months, run: &Run, lists: &mut Lists) {
    let season = c.season(months, run, lists);
    let added = season.added as usize;
    let kind = |reading: i32| if reading > 0 { card::MEASURED } else { card::NONE };
    let last = added.checked_sub(1).map_or(MonthKinds::default(), |last| {
        let (p, pe) = (kind(months.p[last]), kind(months.pe[last]));
        MonthKinds { p, pe }
    });
    expect(Call::AddSeason, &(months, run), season.figures.water.kinds, last);
    for (month, &p) in months.p[..added].iter().enumerate() {
        let row = run.months as usize + month;
        let shown = c.row(&season.run, row, lists).month;
        let held = [lists.library.lend().records[row].kind, shown.kind];
        expect(Call::AddSeason, &(months, run, row), held, [i32::from(kind(p)); 2]);
    }
}

// ---- Columns -----------------------------------------------------------------------------------------------

/// What a record may hold for a kind: one of the three, a number that is one of them in 8 binary digits, and others.
const HELD: [i32; 11] = [0, 1, 2, 3, -1, 255, 256, 257, 258, i32::MIN, i32::MAX];

/// Columns whose records hold any number for a kind, in the last month and in all places: no call asks for it, none changes
/// it but for the month that is added, and a row shows it as it stands. Long columns are tried in `ends`.
fn held(c: &mut Check) {
    c.kind("kinds in the columns, any");
    for (months, length) in PLACES.into_iter().filter(|(_, length)| *length < 100) {
        for kind in HELD {
            let (run, mut lists) = standing(c, months, length);
            lists.change(months - 1, |last| last.kind = kind);
            each_call(c, &run, &mut lists, false);
            for place in 0..length {
                lists.change(place, |record| record.kind = kind);
            }
            each_call(c, &run, &mut lists, false);
            for row in 0..months {
                expect(Call::Row, &(row, run), c.row(&run, row, &mut lists).month.kind, kind);
            }
            let after =
                lists.library.lend().records[(months + 1).min(length)..].iter().all(|record| record.kind == kind);
            expect(Call::Row, &(run, "the places after its months"), after, true);
        }
    }
}
