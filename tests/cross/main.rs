//! Calls the library and the reference on the same inputs and compares everything: every field of the answer, the
//! run handed back, and every place of every list lent, with some places before and after it that nobody lent; the
//! records and V of long columns not all of them each time (`Lists::agree_after`). A season is compared with the
//! library's single adds of its months as well, a repair with a fresh run over the corrected months, constants worked out with
//! the adds that they are worked out of, readings are held to the exact computation, and so are the kinds of those that are
//! added, modified indexes to one in 128 bits, and lines of a division file to the rows and to Rust's own decimals. At the first
//! difference it prints the call, its inputs and the outcomes, and ends with status 1. An argument multiplies the random cases.

mod add;
mod add_inches;
mod add_water;
mod add_z;
mod all_calls;
#[path = "../../host/card.rs"]
mod card;
mod check;
mod constants;
mod constants_asked;
mod constants_exact;
mod constants_refusals;
mod constants_rows;
mod constants_runs;
mod conversion;
mod ends;
mod lines;
mod lines_asked;
mod lines_read;
mod lines_refusals;
mod lines_rows;
mod lines_runs;
mod lists;
mod longer;
mod mirror;
mod modified;
mod random;
mod read;
mod reference;
mod repair;
mod repair_refusals;
mod repair_rows;
mod repair_runs;
mod row;
mod runs;
mod season;
mod series;
mod start;
mod thin;
mod trace;
mod water;
mod whole_series;
mod worked;
mod zero_k;

use check::Check;

fn main() {
    let times = match std::env::args().nth(1).map(|text| text.parse::<u64>()) {
        None => 1,
        Some(Ok(times)) if times > 0 => times,
        Some(_) => {
            eprintln!("cross: the argument is a whole number above 0");
            std::process::exit(2);
        }
    };
    let mut check = Check::new(0x5eed_0001);
    worked::worked_months(&mut check);
    ends::ends(&mut check);
    water::records(&mut check, times);
    modified::modified_indexes(&mut check, times);
    trace::traces(&mut check, times);
    read::readings(&mut check, times);
    read::readings_exactly(&mut check);
    start::starts(&mut check, times);
    series::series(&mut check, times);
    series::open_to_the_last(&mut check, times);
    whole_series::whole_lists(&mut check, times);
    all_calls::spoiled_runs(&mut check);
    all_calls::any_runs(&mut check, times);
    add_z::thresholds(&mut check);
    all_calls::refusals(&mut check);
    season::seasons(&mut check, times);
    add_water::readings_in_adds(&mut check);
    add_water::water_at_ends(&mut check);
    add_water::constants_in_use(&mut check);
    thin::thin_soils(&mut check);
    zero_k::zero_k(&mut check);
    add_inches::edges_in_inches(&mut check);
    add_z::ties(&mut check);
    add_z::ends_for_years(&mut check);
    mirror::turned_series(&mut check, times);
    row::rows(&mut check);
    all_calls::two_fields(&mut check);
    all_calls::lengths(&mut check);
    all_calls::long_columns(&mut check, times);
    all_calls::most_v(&mut check);
    longer::longer_columns(&mut check, times);
    repair_runs::repairs(&mut check, times);
    repair_rows::rows(&mut check, times);
    repair_refusals::refusals(&mut check, times);
    constants_runs::runs(&mut check, times);
    constants_rows::rows(&mut check, times);
    constants_asked::asked(&mut check);
    constants_exact::exact(&mut check);
    constants_refusals::refusals(&mut check);
    lines_runs::runs(&mut check, times);
    lines_rows::rows(&mut check, times);
    lines_read::lines(&mut check);
    lines_asked::lines(&mut check, times);
    lines_refusals::refusals(&mut check);
    check.worked.assert_many();
    check.lines.assert_many();
    check.print();
}
