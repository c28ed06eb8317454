//! The deepest stack of each of the library's calls, its return address included: a probe notes the stack pointer
//! on the way into the call; the stack below was painted before; what is no longer painted was written to.

use super::*;
use std::arch::{asm, global_asm};
use std::sync::atomic::{AtomicUsize, Ordering};

const AREA: usize = 256 * 1024;
const PAINT: u64 = 0xa5c3_96e1_5a3c_691e;

#[no_mangle]
static PROBE_SP: AtomicUsize = AtomicUsize::new(0);

global_asm!(
    ".macro probe name",
    ".globl probe_\\name",
    "probe_\\name: mov qword ptr [rip + PROBE_SP], rsp",
    "jmp card_\\name",
    ".endm",
    "probe read",
    "probe start",
    "probe add_water",
    "probe add_inches",
    "probe add_z",
    "probe add_season",
    "probe repair",
    "probe row",
    "probe sum_month",
    "probe work_out",
    "probe write_index_line",
    "probe write_z_line",
    "probe write_modified_line",
    "probe read_index_line",
    "probe read_z_line",
    "probe read_modified_line",
    "probe whole_series",
);

#[rustfmt::skip]
extern "C" {
    fn probe_read(reading: Reading) -> card::Answer;
    fn probe_start(constants: *const i32, n: usize, capacity: i32, surface: i32, underlying: i32, month: i32) -> card::Started;
    fn probe_add_water(run: Run, p: Reading, pe: Reading, x1: *mut i32, n1: usize, x2: *mut i32, n2: usize, x3: *mut i32, n3: usize, index: *mut i32, ni: usize, mark: *mut u8, nm: usize, records: *mut card::Record, nr: usize, v: *mut i64, nv: usize) -> card::Added;
    fn probe_add_inches(run: Run, month: MonthInches, x1: *mut i32, n1: usize, x2: *mut i32, n2: usize, x3: *mut i32, n3: usize, index: *mut i32, ni: usize, mark: *mut u8, nm: usize, records: *mut card::Record, nr: usize, v: *mut i64, nv: usize) -> card::Added;
    fn probe_add_z(run: Run, z: i32, x1: *mut i32, n1: usize, x2: *mut i32, n2: usize, x3: *mut i32, n3: usize, index: *mut i32, ni: usize, mark: *mut u8, nm: usize, records: *mut card::Record, nr: usize, v: *mut i64, nv: usize) -> card::Added;
    fn probe_add_season(run: Run, p: *const i32, np: usize, pe: *const i32, npe: usize, x1: *mut i32, n1: usize, x2: *mut i32, n2: usize, x3: *mut i32, n3: usize, index: *mut i32, ni: usize, mark: *mut u8, nm: usize, records: *mut card::Record, nr: usize, v: *mut i64, nv: usize) -> card::Season;
    fn probe_repair(run: Run, row: usize, p: Reading, pe: Reading, x1: *mut i32, n1: usize, x2: *mut i32, n2: usize, x3: *mut i32, n3: usize, index: *mut i32, ni: usize, mark: *mut u8, nm: usize, records: *mut card::Record, nr: usize, v: *mut i64, nv: usize, report: *mut Change, nc: usize) -> card::Repaired;
    fn probe_row(run: Run, row: usize, x1: *const i32, n1: usize, x2: *const i32, n2: usize, x3: *const i32, n3: usize, index: *const i32, ni: usize, mark: *const u8, nm: usize, records: *const card::Record, nr: usize, v: *const i64, nv: usize) -> card::Shown;
    fn probe_sum_month(run: Run, month: i32, x1: *const i32, n1: usize, x2: *const i32, n2: usize, x3: *const i32, n3: usize, index: *const i32, ni: usize, mark: *const u8, nm: usize, records: *const card::Record, nr: usize, v: *const i64, nv: usize) -> card::Summed;
    fn probe_work_out(run: Run, weights: *const i32, nw: usize, x1: *const i32, n1: usize, x2: *const i32, n2: usize, x3: *const i32, n3: usize, index: *const i32, ni: usize, mark: *const u8, nm: usize, records: *const card::Record, nr: usize, v: *const i64, nv: usize) -> card::WorkedOut;
    fn probe_write_index_line(run: Run, state: u32, division: u32, year: u32, which: u32, x1: *const i32, n1: usize, x2: *const i32, n2: usize, x3: *const i32, n3: usize, index: *const i32, ni: usize, mark: *const u8, nm: usize, records: *const card::Record, nr: usize, v: *const i64, nv: usize, line: *mut u8, nl: usize) -> u8;
    fn probe_write_z_line(run: Run, state: u32, division: u32, year: u32, which: u32, x1: *const i32, n1: usize, x2: *const i32, n2: usize, x3: *const i32, n3: usize, index: *const i32, ni: usize, mark: *const u8, nm: usize, records: *const card::Record, nr: usize, v: *const i64, nv: usize, line: *mut u8, nl: usize) -> u8;
    fn probe_write_modified_line(run: Run, state: u32, division: u32, year: u32, which: u32, x1: *const i32, n1: usize, x2: *const i32, n2: usize, x3: *const i32, n3: usize, index: *const i32, ni: usize, mark: *const u8, nm: usize, records: *const card::Record, nr: usize, v: *const i64, nv: usize, line: *mut u8, nl: usize) -> u8;
    fn probe_read_index_line(line: *const u8, nl: usize, state: u32, division: u32, year: u32) -> card::LineFigures;
    fn probe_read_z_line(line: *const u8, nl: usize, state: u32, division: u32, year: u32) -> card::LineFigures;
    fn probe_read_modified_line(line: *const u8, nl: usize, state: u32, division: u32, year: u32) -> card::LineFigures;
    fn probe_whole_series(z: *const i32, nz: usize, index: *mut i32, ni: usize, mark: *mut u8, nm: usize) -> u8;
}

/// How deep the one probed call in `call` goes.
#[inline(never)]
fn depth(call: &mut dyn FnMut()) -> usize {
    let sp: usize;
    // All below the stack pointer is free: this function calls others, so it keeps nothing there.
    unsafe { asm!("mov {}, rsp", out(reg) sp, options(nomem, nostack)) };
    let bottom = (sp - AREA) as *mut u64;
    for place in 0..AREA / 8 {
        unsafe { bottom.add(place).write_volatile(PAINT) };
    }
    call();
    let painted = |place: &usize| unsafe { bottom.add(*place).read_volatile() } == PAINT;
    let lowest = bottom as usize + 8 * (0..AREA / 8).take_while(painted).count();
    (PROBE_SP.load(Ordering::Relaxed) + 8).saturating_sub(lowest)
}

#[derive(Clone, Copy)]
enum Call {
    Water(Reading, Reading),
    Inches(f32, f32),
    Z(i32),
    Season([i32; 6], [i32; 6]),
    Repair(usize, Reading, Reading),
    Row(usize),
    SumMonth(i32),
    WorkOut([i32; 13], usize),
    Line(Element, Asked, usize),
}

#[derive(Clone, Copy)]
enum Element {
    Index,
    Z,
    Modified,
}

/// State, division, the year of row 0 and which of the run's years.
type Asked = [u32; 4];

/// The most bytes that are lent for a line.
const ROOM: usize = 100;

/// How deep a call goes that takes a run; the marks are lent as `marks` long.
#[rustfmt::skip]
fn with_run(call: Call, run: &Run, lists: &mut Lists, marks: usize) -> (usize, Run) {
    let n = lists.mark.len();
    let k = lists.lend();
    let (x1, x2, x3, index, mark) = (k.x1.as_mut_ptr(), k.x2.as_mut_ptr(), k.x3.as_mut_ptr(), k.index.as_mut_ptr(), k.mark.as_mut_ptr());
    let (records, v) = (k.records.as_mut_ptr(), k.v.as_mut_ptr());
    let mut report = vec![Change::default(); n];
    let report = report.as_mut_ptr();
    let mut line = [0; ROOM];
    let line = line.as_mut_ptr();
    let mut next = *run;
    let depth = depth(&mut || unsafe {
        match call {
            Call::Water(p, pe) => next = probe_add_water(*run, p, pe, x1, n, x2, n, x3, n, index, n, mark, marks, records, n, v, n).run,
            Call::Inches(p, pe) => next = probe_add_inches(*run, MonthInches { p, pe }, x1, n, x2, n, x3, n, index, n, mark, marks, records, n, v, n).run,
            Call::Z(z) => next = probe_add_z(*run, z, x1, n, x2, n, x3, n, index, n, mark, marks, records, n, v, n).run,
            Call::Season(p, pe) => next = probe_add_season(*run, p.as_ptr(), 6, pe.as_ptr(), 6, x1, n, x2, n, x3, n, index, n, mark, marks, records, n, v, n).run,
            Call::Repair(row, p, pe) => next = probe_repair(*run, row, p, pe, x1, n, x2, n, x3, n, index, n, mark, marks, records, n, v, n, report, n).run,
            Call::Row(row) => _ = black_box(probe_row(*run, row, x1, n, x2, n, x3, n, index, n, mark, marks, records, n, v, n)),
            Call::SumMonth(month) => _ = black_box(probe_sum_month(*run, month, x1, n, x2, n, x3, n, index, n, mark, marks, records, n, v, n)),
            Call::WorkOut(weights, many) => _ = black_box(probe_work_out(*run, weights.as_ptr(), many, x1, n, x2, n, x3, n, index, n, mark, marks, records, n, v, n)),
            Call::Line(Element::Index, [state, division, year, which], nl) => _ = black_box(probe_write_index_line(*run, state, division, year, which, x1, n, x2, n, x3, n, index, n, mark, marks, records, n, v, n, line, nl)),
            Call::Line(Element::Z, [state, division, year, which], nl) => _ = black_box(probe_write_z_line(*run, state, division, year, which, x1, n, x2, n, x3, n, index, n, mark, marks, records, n, v, n, line, nl)),
            Call::Line(Element::Modified, [state, division, year, which], nl) => _ = black_box(probe_write_modified_line(*run, state, division, year, which, x1, n, x2, n, x3, n, index, n, mark, marks, records, n, v, n, line, nl)),
        }
    });
    (depth, next)
}

/// The deepest of a call over a run that grows until the columns are full, with months of all sorts, and of
/// its refusals all along. `call` gives a call, good or to be refused.
fn deepest_with_run(call: fn(&mut u64, bool) -> Call) -> usize {
    let (state, mut lists, mut run) = (&mut 7, Lists::new(300), fresh_run());
    let mut deepest = 0;
    for month in 0..=300 {
        let not_a_run = Run { calendar: 0, ..run };
        let z = if month % 60 < 40 { [12, -3, 0, 0][(month % 4) as usize] } else { random(state, -9_000, 9_000) };
        let (good, bad) = (call(state, false), call(state, true));
        let tries = [
            with_run(good, &run, &mut lists, 300).0,
            with_run(good, &run, &mut lists, 299).0,
            with_run(good, &not_a_run, &mut lists, 300).0,
            with_run(bad, &run, &mut lists, 300).0,
        ];
        deepest = tries.into_iter().fold(deepest, usize::max);
        run = card::add_z(run, z, &mut lists.lend()).run;
    }
    deepest
}

/// In inches.
const TRACE: f32 = 0.0001;

/// Precipitation and PE.
fn readings(state: &mut u64, refused: bool) -> (Reading, Reading) {
    let (whole, mm) = (random(state, 0, 9_000), random(state, 0, 300) as f32);
    let p = [Reading::whole(whole), Reading::millimetres(mm), Reading::inches(TRACE)];
    let pe = if refused { Reading::missing() } else { Reading::inches(random(state, 0, 9) as f32) };
    (p[random(state, 0, 2) as usize], pe)
}

fn water(state: &mut u64, refused: bool) -> Call {
    let (p, pe) = readings(state, refused);
    Call::Water(p, pe)
}

fn inches(state: &mut u64, refused: bool) -> Call {
    let p = [random(state, 0, 9) as f32, TRACE];
    Call::Inches(p[random(state, 0, 1) as usize], if refused { -1.0 } else { random(state, 0, 9) as f32 })
}

fn z(state: &mut u64, refused: bool) -> Call {
    Call::Z(if refused { i32::MAX } else { random(state, -9_000, 9_000) })
}

fn season(state: &mut u64, refused: bool) -> Call {
    let mut months = || [(); 6].map(|()| random(state, 0, 9_000));
    let (p, mut pe) = (months(), months());
    if refused {
        pe[random(state, 0, 5) as usize] = card::NO_READING;
    }
    Call::Season(p, pe)
}

fn row(state: &mut u64, refused: bool) -> Call {
    Call::Row(if refused { usize::MAX } else { random(state, 0, 299) as usize })
}

/// The deepest of a repair of any row of a run that grows until the columns are full, with months of water, of Z and left
/// open, and of its refusals all along.
fn deepest_repair() -> usize {
    let (state, mut lists, mut run) = (&mut 7, Lists::new(300), fresh_run());
    let mut deepest = 0;
    for month in 0..300 {
        let (z, p) = ([12, -3, 0, 0][month % 4], Reading::whole(random(state, 0, 9_000)));
        run = match month % 20 {
            0..=4 => card::add_z(run, z, &mut lists.lend()).run,
            _ => card::add_water(run, p, Reading::whole(3_000), &mut lists.lend()).run,
        };
        let row = random(state, 0, month as i32) as usize;
        let ((p, pe), (q, missing)) = (readings(state, false), readings(state, true));
        let (good, not_a_run) = (Call::Repair(row, p, pe), Run { calendar: 0, ..run });
        let refused = [
            with_run(good, &run, &mut lists, 299).0,
            with_run(good, &not_a_run, &mut lists, 300).0,
            with_run(Call::Repair(usize::MAX, p, pe), &run, &mut lists, 300).0,
            with_run(Call::Repair(row, q, missing), &run, &mut lists, 300).0,
        ];
        let (done, next) = with_run(good, &run, &mut lists, 300);
        (run, deepest) = (next, refused.into_iter().fold(deepest.max(done), usize::max));
    }
    deepest
}

fn sum_month(state: &mut u64, refused: bool) -> Call {
    Call::SumMonth(if refused { 13 } else { random(state, 1, 12) })
}

/// Weights for which all is worked out, one of them that is out of range, or one that leaves a K of 0, and at times thirteen.
fn work_out(state: &mut u64, refused: bool) -> Call {
    let mut weights = [(); 13].map(|()| random(state, 8_000, 25_000));
    weights[random(state, 0, 11) as usize] = if refused { [-1, 0][random(state, 0, 1) as usize] } else { 10_000 };
    Call::WorkOut(weights, if refused && random(state, 0, 2) == 0 { 13 } else { 12 })
}

/// The deepest of a call that only reads, over a run that grows until the columns are full, in a climate like that of the other
/// measurements and in one in which all runs off, and of its refusals all along. A month that no add gives comes last.
fn deepest_of_years(call: fn(&mut u64, bool) -> Call) -> usize {
    let (state, mut deepest) = (&mut 7, 0);
    for capacity in [6_000, 100] {
        let mut lists = Lists::new(300);
        let mut run = card::start(&CONSTANTS, capacity, 100, 0, 5).run;
        for month in 0..=300 {
            if month == 300 {
                lists.records[150].et += 1;
            }
            let not_a_run = Run { calendar: 0, ..run };
            let (good, bad) = (call(state, false), call(state, true));
            let tries = [
                with_run(good, &run, &mut lists, 300).0,
                with_run(good, &run, &mut lists, 299).0,
                with_run(good, &not_a_run, &mut lists, 300).0,
                with_run(bad, &run, &mut lists, 300).0,
            ];
            deepest = tries.into_iter().fold(deepest, usize::max);
            let (p, pe) = month_of_water(state, month);
            run = card::add_water(run, Reading::whole(p), Reading::whole(pe), &mut lists.lend()).run;
        }
    }
    deepest
}

/// The deepest of a line of any year of a run that grows until the columns are full, with open months and settled ones, of
/// years that are not the run's, and of its refusals all along. What does not fit in comes last.
fn deepest_line(element: Element) -> usize {
    let (state, mut deepest) = (&mut 7, 0);
    let mut lists = Lists::new(300);
    let mut run = card::start(&CONSTANTS, 6_000, 1_000, 0, 5).run;
    for month in 0..=300 {
        let which = random(state, 0, month / 12 + 1) as u32;
        let not_a_run = Run { calendar: 0, ..run };
        let (good, long) = ([14, 7, 1_900, which], [99, 0, 9_999 - which, which]);
        let bad = [[100, 7, 1_900, which], [14, 100, 1_900, which], [14, 7, 10_000 - which, which], [u32::MAX; 4]];
        let line = |asked, room| Call::Line(element, asked, room);
        let tries = [
            with_run(line(good, card::LINE), &run, &mut lists, 300).0,
            with_run(line(long, ROOM), &run, &mut lists, 300).0,
            with_run(line(good, card::LINE), &run, &mut lists, 299).0,
            with_run(line(good, card::LINE), &not_a_run, &mut lists, 300).0,
            with_run(line(bad[random(state, 0, 3) as usize], card::LINE), &run, &mut lists, 300).0,
            with_run(line(good, [0, card::LINE - 1][month as usize % 2]), &run, &mut lists, 300).0,
        ];
        deepest = tries.into_iter().fold(deepest, usize::max);
        let z = if month % 60 < 20 { [12, -3, 0, 0][month as usize % 4] } else { random(state, -9_000, 9_000) };
        let (p, pe) = month_of_water(state, month as usize);
        run = match month % 3 {
            0 => card::add_water(run, Reading::whole(p), Reading::whole(pe), &mut lists.lend()).run,
            _ => card::add_z(run, z, &mut lists.lend()).run,
        };
    }
    for figure in [i32::MIN, -1_000_000, -999_990, -99_990, -99_980, 9_999_990, i32::MAX] {
        (lists.numbers[3][150], lists.mark[150]) = (figure, card::SETTLED);
        (lists.records[150].z, lists.records[150].modified) = (figure, figure);
        let call = Call::Line(element, [14, 7, 1_900, 12], card::LINE);
        deepest = deepest.max(with_run(call, &run, &mut lists, 300).0);
    }
    deepest
}

type ReadLine = unsafe extern "C" fn(*const u8, usize, u32, u32, u32) -> card::LineFigures;

/// Of lines of all three elements and of precipitation, of every damage of one byte, of lines that are too short, and of those
/// with something after them.
fn deepest_read_line(read: ReadLine) -> usize {
    let values = b"   0.05  -0.05 -99.99 100.00-999.999999.99    .73   -.05  -9.99  -0.00  12.34 -12.34";
    let rain = b"   0.05   7.03  -9.99 100.00   0.00   2.96    .73   1.44  -9.99  -0.00  12.34   3.66";
    let line = |element: &[u8], values: &[u8], after: &[u8]| [b"1407", element, b"1932", values, after].concat();
    let mut lines = vec![line(b"01", rain, b""), line(b"01", values, b"")];
    for element in [b"05", b"07", b"08"] {
        let whole = line(element, values, b"");
        lines.extend([line(element, rain, b"    "), line(element, values, b" \r"), Vec::new()]);
        lines.extend([1, 10, card::LINE - 1].map(|length| whole[..length].to_vec()));
        for place in 0..card::LINE {
            for byte in [b' ', b'-', b'0', b'9', b'.', b'x'] {
                let mut damaged = whole.clone();
                damaged[place] = byte;
                lines.push(damaged);
            }
        }
        lines.push(whole);
    }
    let mut deepest = 0;
    for line in &lines {
        for [state, division, year] in [[14, 7, 1_932], [14, 8, 1_932], [14, 7, 1_933]] {
            let mut call = || _ = black_box(unsafe { read(line.as_ptr(), line.len(), state, division, year) });
            deepest = deepest.max(depth(&mut call));
        }
    }
    deepest
}

fn deepest_read() -> usize {
    let measures = [0.0, -0.0, 1e-40, 1e-5, 0.0625, 7.9375, 100.0, 2_540.0, 1e9, -1.0, f32::NAN, f32::INFINITY];
    let readings =
        (0..5).flat_map(|kind| measures.map(|measure| Reading { kind, whole: measure as i32, measure }));
    let deep = |reading| depth(&mut || _ = black_box(unsafe { probe_read(reading) }));
    readings.map(deep).fold(0, usize::max)
}

fn deepest_start() -> usize {
    let constants = fresh_run().constants;
    let (bad, zero_k) = ([-1; 60], [0; 60]);
    let tries = [
        (&constants, 60, 6_000, 0, 1),
        (&constants, 59, 6_000, 0, 1),
        (&bad, 60, 6_000, 0, 1),
        (&zero_k, 60, 6_000, 0, 1),
        (&constants, 60, 99, 0, 1),
        (&constants, 60, 6_000, -1, 1),
        (&constants, 60, 6_000, 0, 13),
    ];
    let deep = |(list, n, capacity, surface, month): (&[i32; 60], usize, i32, i32, i32)| {
        depth(&mut || _ = black_box(unsafe { probe_start(list.as_ptr(), n, capacity, surface, 0, month) }))
    };
    tries.map(deep).into_iter().fold(0, usize::max)
}

/// Of ordinary months, of months left open to the end, of such months that the last one settles, and of refused ones.
fn deepest_whole_series() -> usize {
    let Inputs { z, open, mut lists, .. } = Inputs::new(MOST_MONTHS);
    let settled = |last| [&open[..MOST_MONTHS - 1], &[last]].concat();
    let (wet, dry, refused) = (settled(3_000), settled(-3_000), vec![i32::MAX; MOST_MONTHS]);
    let k = lists.lend();
    let mut deepest = 0;
    for z in [&z, &open, &wet, &dry, &refused] {
        for n in [0, 1, 2, 10, 100, 1_000, MONTHS, MOST_MONTHS] {
            let mut call = || {
                let (index, mark) = (k.index.as_mut_ptr(), k.mark.as_mut_ptr());
                black_box(unsafe { probe_whole_series(z.as_ptr(), n, index, n, mark, n) });
            };
            deepest = deepest.max(depth(&mut call));
        }
    }
    deepest
}

fn measure() {
    let found = [
        ("read", deepest_read()),
        ("start", deepest_start()),
        ("add water", deepest_with_run(water)),
        ("add inches", deepest_with_run(inches)),
        ("add Z", deepest_with_run(z)),
        ("season", deepest_with_run(season)),
        ("repair", deepest_repair()),
        ("row", deepest_with_run(row)),
        ("sum month", deepest_of_years(sum_month)),
        ("work out", deepest_of_years(work_out)),
        ("whole series", deepest_whole_series()),
        ("write index line", deepest_line(Element::Index)),
        ("write Z line", deepest_line(Element::Z)),
        ("write modified line", deepest_line(Element::Modified)),
        ("read index line", deepest_read_line(probe_read_index_line)),
        ("read Z line", deepest_read_line(probe_read_z_line)),
        ("read modified line", deepest_read_line(probe_read_modified_line)),
    ];
    for (name, deepest) in found {
        println!("{name:<20}{deepest:>7}");
    }
}

/// In a thread, whose stack is there as a whole.
pub fn print() {
    let thread = std::thread::Builder::new().stack_size(8 * AREA).spawn(measure);
    if !thread.is_ok_and(|thread| thread.join().is_ok()) {
        println!("bench: the stack was not measured");
        std::process::exit(1);
    }
}
