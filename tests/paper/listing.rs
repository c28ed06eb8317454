//! What is told of the comparison: each figure that is off by more than is allowed, and how many agree.

use crate::tables::When;

/// What is gone through in one go: a table's months, or years of spells.
pub struct Part {
    name: &'static str,
    lines: Vec<String>,
    compared: u32,
    agree: u32,
    /// How many differ in their sign alone.
    sign: u32,
}

/// Thousandths, with their point.
fn amount(n: i32) -> String {
    let (sign, size) = (if n < 0 { "-" } else { "" }, n.unsigned_abs());
    format!("{sign}{}.{:03}", size / 1000, size % 1000)
}

impl Part {
    pub fn new(name: &'static str) -> Part {
        Part { name, lines: Vec::new(), compared: 0, agree: 0, sign: 0 }
    }

    /// Holds a figure to the printed one, both in thousandths.
    pub fn hold(&mut self, when: When, figure: &str, printed: i32, ours: i32, allowed: i32) {
        self.compared += 1;
        if (printed - ours).abs() <= allowed {
            self.agree += 1;
            return;
        }
        let turned = (printed + ours).abs() <= allowed;
        self.sign += u32::from(turned);
        let (name, printed, ours) = (self.name, amount(printed), amount(ours));
        self.lines.push(format!("{name} {when} {figure} {printed} {ours}{}", if turned { " sign" } else { "" }));
    }

    fn tally(&self) -> String {
        let Part { name, compared, agree, sign, .. } = self;
        format!("{name}: {compared} compared, {agree} agree, {sign} but for the sign")
    }
}

/// How many figures of each part and of all agree.
pub fn tallies(parts: &[Part]) -> Vec<String> {
    let sum = |count: fn(&Part) -> u32| parts.iter().map(count).sum::<u32>();
    let (compared, agree, sign) = (sum(|part| part.compared), sum(|part| part.agree), sum(|part| part.sign));
    let differ = compared - agree - sign;
    let all = format!("all: {compared} compared, {agree} agree, {sign} but for the sign, {differ} differ");
    parts.iter().map(Part::tally).chain([all]).collect()
}

/// The whole listing: what is off in each part, with its tally, and the tally of all.
pub fn listing(parts: &[Part]) -> Vec<String> {
    let mut lines = Vec::new();
    for (part, tally) in parts.iter().zip(tallies(parts)) {
        lines.extend(part.lines.iter().cloned().chain([tally]));
    }
    lines.extend(tallies(parts).pop());
    lines
}
