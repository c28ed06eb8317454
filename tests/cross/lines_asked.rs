//! Lines that are read, what they say and what is asked: lines of precipitation, every set of missing months, lines asked for as
//! they are and as others, and any lines.

use crate::card;
use crate::check::{differ, Call, Check};
use crate::lines::{ELEMENTS, GOOD_ONE};
use crate::lines_read::{all_months, expect, with_value};
use crate::random::Random;
use crate::reference::lines::LINE;

pub fn lines(c: &mut Check, times: u64) {
    rain(c);
    missing(c);
    asked(c);
    any_lines(c, times);
}

/// "14 .. precipitation neither the mark nor 0 to 100 inches", whatever is asked for; of the other elements nobody asks it.
fn rain(c: &mut Check) {
    c.kind("lines read, precipitation");
    let taken: [&[u8; 7]; 9] = [
        b"  -9.99", b"   0.00", b"  -0.00", b"   -.00", b"    .01", b"  99.99", b" 100.00", b"   9.99", b"   7.03",
    ];
    let not: [&[u8; 7]; 9] = [
        b"  -9.98", b" -10.00", b"  -0.01", b"   -.01", b" 100.01", b" -99.99", b" -99.90", b"9999.99", b"-999.99",
    ];
    for (value, good) in taken.map(|value| (value, true)).into_iter().chain(not.map(|value| (value, false))) {
        for (month, element) in (0..12).flat_map(|month| [0, 1, 2, 6, 10, 11, 99].map(|element| (month, element)))
        {
            let line = with_value(&all_months(element, b"   3.96"), month, value);
            let number = if element == 1 && !good { card::MALFORMED } else { card::OTHER_LINE };
            for asked in [GOOD_ONE, [1, 4, 1934], [32, 4, 1]] {
                expect(c, &line, asked, [number; 3]);
            }
            let (fault, wanted) =
                (c.year_and_fault(&line)[1], if number == 14 { 11 + 7 * month as u32 } else { 0 });
            if fault != wanted {
                differ(Call::LineFault, &String::from_utf8_lossy(&line), &fault, &wanted);
            }
        }
    }
}

/// Every set of missing months.
fn missing(c: &mut Check) {
    c.kind("lines read, missing months");
    for (set, element) in (0..1 << 12).flat_map(|set: u32| ELEMENTS.map(|element| (set, element))) {
        let mut line = all_months(element as u8, b" -99.99");
        for month in (0..12).filter(|month| set >> month & 1 == 1) {
            line = with_value(&line, month, format!("{:7.2}", -0.03 * month as f64).as_bytes());
        }
        let told = c.read_line(element, &line, GOOD_ONE);
        if told.present != set {
            differ(Call::ReadIndex, &String::from_utf8_lossy(&line), &told, &set);
        }
    }
}

/// State, division, element and year as they are and as others, some of them good if they are cut; also of a malformed line.
fn asked(c: &mut Check) {
    c.kind("lines read, asked for");
    let others = |own: u32, digits: u32| {
        let over = 10u32.pow(digits);
        [
            own,
            own + 1,
            own - 1,
            own + over,
            own + (1 << 8),
            own + (1 << 16),
            own + (1 << 31),
            own * 10,
            0,
            u32::MAX,
        ]
    };
    let [state, division, year] = GOOD_ONE;
    for element in [5, 7, 8, 1, 0, 6, 50, 70, 15, 58] {
        let good = all_months(element, b"   1.00");
        let bad = with_value(&good, 11, b"   1.0 ");
        for (state, division) in
            others(state, 2).into_iter().flat_map(|s| others(division, 2).map(move |d| (s, d)))
        {
            for year in others(year, 4) {
                let wanted = ELEMENTS.map(|own| match () {
                    () if own as u8 != element || [state, division] != GOOD_ONE[..2] => card::OTHER_LINE,
                    () if year != GOOD_ONE[2] => card::NOT_THE_YEAR,
                    () => 0,
                });
                expect(c, &good, [state, division, year], wanted);
            }
            expect(c, &bad, [state, division, year], [card::MALFORMED; 3]);
        }
    }
    for heading in ["000000", "990799", "000500", "999908"] {
        for year in [0, 1, 999, 1_000, 9_998, 9_999] {
            let line = [format!("{heading}{year:04}").as_bytes(), &b" -99.99".repeat(12)].concat();
            let [state, division] = [&heading[..2], &heading[2..4]].map(|digits| digits.parse().unwrap_or(100));
            c.told(&line, [state, division, year]);
        }
    }
}

// ---- Any lines ---------------------------------------------------------------------------------------------

fn any_value(random: &mut Random) -> Vec<u8> {
    let size = random.pick(&[100, 1_000, 10_000, 99_999]);
    let most = random.pick(&[size, 999_999]);
    let value = random.within(-size, most) as f64 / 100.0;
    let text = format!("{value:7.2}");
    let text = if random.one_in(3) { text.replace(" 0.", "  .").replace(" -0.", "  -.") } else { text };
    if random.one_in(6) {
        b" -99.99".to_vec()
    } else {
        text.into_bytes()
    }
}

/// Lines of any values, some of them damaged in up to three places, of any heading, asked for by it or nearly.
fn any_lines(c: &mut Check, times: u64) {
    c.kind("lines read, any");
    for _ in 0..20_000 * times {
        let [state, division] = [(); 2].map(|()| c.random.within(0, 99) as u32);
        let (element, year) = (c.random.pick(&[5, 7, 8, 1, 2]), c.random.within(0, 9_999) as u32);
        let mut line = format!("{state:02}{division:02}{element:02}{year:04}").into_bytes();
        (0..12).for_each(|_| line.extend(any_value(&mut c.random)));
        line.resize(LINE + c.random.pick(&[0, 0, 1, 4]), b' ');
        for _ in 0..c.random.pick(&[0, 0, 1, 1, 2, 3]) {
            let (place, any) = (c.random.below(line.len() as u64) as usize, c.random.bits() as u8);
            line[place] = c.random.pick(&[b' ', b' ', b'-', b'.', b'0', b'1', b'9', any]);
        }
        let near = |random: &mut Random, own: u32| if random.one_in(8) { own ^ 1 } else { own };
        let asked = [state, division, year].map(|own| near(&mut c.random, own));
        c.told(&line, asked);
    }
}
