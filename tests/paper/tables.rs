//! The paper's tables, as tests/paper/tables.txt has them. Its head says how they stand there.

use std::fmt;

/// What went wrong, in words, and the status that the program ends with.
pub struct Fault {
    pub words: String,
    pub status: i32,
}

/// Status 1: the tables are not such as can be compared, or the library refuses one of their months.
pub fn bad(words: String) -> Fault {
    Fault { words, status: 1 }
}

/// Status 2: a file cannot be read.
pub fn unreadable(path: &str, error: std::io::Error) -> Fault {
    Fault { words: format!("{path} cannot be read: {error}"), status: 2 }
}

pub const MONTHS: [&str; 12] =
    ["Jan", "Feb", "Mar", "Apr", "May", "Jun", "Jul", "Aug", "Sep", "Oct", "Nov", "Dec"];

/// A month of a year, January being 1. A row of a year alone has month 0, and one of a month alone has year 0.
#[derive(Clone, Copy, PartialEq, Eq)]
pub struct When {
    pub year: u32,
    pub month: u32,
}

impl When {
    pub const fn new(year: u32, month: u32) -> When {
        When { year, month }
    }

    /// So many months from this one on.
    pub fn and_on(self, months: u32) -> impl Iterator<Item = When> {
        (self.month - 1..self.month - 1 + months).map(move |m| When::new(self.year + m / 12, m % 12 + 1))
    }
}

impl fmt::Display for When {
    fn fmt(&self, f: &mut fmt::Formatter) -> fmt::Result {
        write!(f, "{} {}", self.year, self.month)
    }
}

/// A row's figures in ten-thousandths, the finest that the paper prints, or none.
struct Row {
    when: When,
    figures: Vec<Option<i32>>,
}

pub struct Table {
    name: String,
    /// The columns that say which row it is, year or month or both, come first.
    columns: Vec<String>,
    keys: usize,
    rows: Vec<Row>,
}

pub struct Tables(Vec<Table>);

/// "-.47" as -4,700 ten-thousandths.
fn decimal(text: &str) -> Option<i32> {
    let (sign, digits) = text.strip_prefix('-').map_or((1, text), |rest| (-1, rest));
    let (whole, part) = digits.split_once('.').unwrap_or((digits, ""));
    let all = format!("{whole}{part:0<4}");
    if digits.is_empty() || digits == "." || whole.len() > 4 || part.len() > 4 {
        return None;
    }
    if all.bytes().all(|byte| byte.is_ascii_digit()) {
        all.parse::<i32>().ok().map(|n| sign * n)
    } else {
        None
    }
}

impl Table {
    /// The table's columns, where they are such as can be.
    fn head(&mut self, cells: &[&str]) -> Result<(), String> {
        self.keys = cells.iter().take_while(|cell| ["year", "month"].contains(cell)).count();
        if self.keys == 0 {
            return Err("the columns of a table begin with year, month or both".to_string());
        }
        self.columns = cells.iter().map(|cell| cell.to_string()).collect();
        Ok(())
    }

    fn row(&mut self, cells: &[&str]) -> Result<(), String> {
        if cells.len() != self.columns.len() {
            return Err(format!("{} cells where the table has {} columns", cells.len(), self.columns.len()));
        }
        let mut when = When::new(0, 0);
        for (column, &cell) in self.columns.iter().zip(&cells[..self.keys]) {
            let month = MONTHS.iter().position(|month| *month == cell).map(|place| place as u32 + 1);
            match (column.as_str(), cell.parse()) {
                ("year", Ok(year @ 1800..=1999)) => when.year = year,
                ("month", _) if month.is_some() => when.month = month.unwrap_or(0),
                _ => return Err(format!("{cell} is no {column}")),
            }
        }
        if self.rows.iter().any(|row| row.when == when) {
            return Err("this row stands in the table already".to_string());
        }
        let mut figures = Vec::new();
        for &cell in &cells[self.keys..] {
            figures.push(match (cell, decimal(cell)) {
                ("-", _) => None,
                (_, Some(figure)) => Some(figure),
                _ => return Err(format!("{cell} is no figure")),
            });
        }
        self.rows.push(Row { when, figures });
        Ok(())
    }

    /// The figure of a row in a column, in ten-thousandths, if one is there.
    fn cell(&self, when: When, column: &str) -> Result<Option<i32>, Fault> {
        let row = self.rows.iter().find(|row| row.when == when);
        let place = self.columns.iter().skip(self.keys).position(|name| name == column);
        match (row, place) {
            (None, _) => Err(bad(format!("[{}] has no row {when}", self.name))),
            (_, None) => Err(bad(format!("[{}] has no column {column}", self.name))),
            (Some(row), Some(place)) => Ok(row.figures[place]),
        }
    }

    fn needed(&self, figure: Option<i32>, when: When, column: &str) -> Result<i32, Fault> {
        figure.ok_or_else(|| bad(format!("[{}] has no figure for {when}, {column}", self.name)))
    }

    /// A figure in ten-thousandths, as constants are.
    pub fn constant(&self, when: When, column: &str) -> Result<i32, Fault> {
        self.needed(self.cell(when, column)?, when, column)
    }

    /// A figure in thousandths, if one is there.
    pub fn printed(&self, when: When, column: &str) -> Result<Option<i32>, Fault> {
        match self.cell(when, column)? {
            Some(figure) if figure % 100 != 0 => {
                Err(bad(format!("[{}], {when}, {column}: the paper prints hundredths", self.name)))
            }
            figure => Ok(figure.map(|figure| figure / 10)),
        }
    }

    /// A figure in thousandths, which must be there.
    pub fn figure(&self, when: When, column: &str) -> Result<i32, Fault> {
        self.needed(self.printed(when, column)?, when, column)
    }

    /// A month's figure in thousandths, in a table that has a row a year.
    pub fn of_month(&self, when: When) -> Result<i32, Fault> {
        self.figure(When::new(when.year, 0), MONTHS[when.month as usize - 1])
    }

    /// Whether the table has such a row.
    pub fn has(&self, when: When) -> bool {
        self.rows.iter().any(|row| row.when == when)
    }
}

impl Tables {
    pub fn read(path: &str) -> Result<Tables, Fault> {
        let text = std::fs::read_to_string(path).map_err(|error| unreadable(path, error))?;
        let mut tables = Tables(Vec::new());
        for (number, line) in text.lines().enumerate() {
            tables.take(line.trim()).map_err(|words| bad(format!("{path}, line {}: {words}", number + 1)))?;
        }
        Ok(tables)
    }

    fn take(&mut self, line: &str) -> Result<(), String> {
        if line.is_empty() || line.starts_with('#') {
            return Ok(());
        }
        if let Some(heading) = line.strip_prefix('[') {
            let name = heading.split_once(']').ok_or("a table's name ends with ]")?.0.to_string();
            if self.0.iter().any(|table| table.name == name) {
                return Err(format!("[{name}] stands here a second time"));
            }
            self.0.push(Table { name, columns: Vec::new(), keys: 0, rows: Vec::new() });
            return Ok(());
        }
        let table = self.0.last_mut().ok_or("this stands before the first table")?;
        let cells: Vec<&str> = line.split_whitespace().collect();
        if table.columns.is_empty() {
            table.head(&cells)
        } else {
            table.row(&cells)
        }
    }

    pub fn find(&self, name: &str) -> Result<&Table, Fault> {
        self.0.iter().find(|table| table.name == name).ok_or_else(|| bad(format!("the tables have no [{name}]")))
    }
}
