//! The numbers that a table gives to its rows: AUTO_INCREMENT, counted as InnoDB does.
//!
//! A table's next number belongs to no transaction: what an INSERT has taken is never given again, also if it is
//! refused or rolled back. So two branches that insert don't wait for each other's numbers.
use super::refused;
use super::table::{Row, Table};
use super::value::{Number, Place, Type, Value};
use crate::answers::Refusal;

/// The numbers of one INSERT.
pub struct Numbers<'a> {
    table: &'a Table,
    /// Whether a 0 is kept as it is: NO_AUTO_VALUE_ON_ZERO.
    keeps_zero: bool,
    /// How many rows the statement has.
    rows: i128,
    /// How many rows have numbers taken for them that aren't processed yet, and how often numbers were taken.
    left: i128,
    times: u32,
    /// The next number, and the one behind the last that was taken.
    next: i128,
    end: i128,
    /// The first number that was given to a row that is written, and the number of the last row if any is written.
    pub first: Option<u64>,
    last: Option<u64>,
}

impl<'a> Numbers<'a> {
    pub fn new(table: &'a Table, rows: usize, keeps_zero: bool) -> Numbers<'a> {
        let rows = rows as i128;
        Numbers { table, keeps_zero, rows, left: 0, times: 0, next: 0, end: 0, first: None, last: None }
    }

    /// Gives a row its number, if it has none; whether it did.
    pub fn fill(&mut self, row: &mut Row, place: &Place) -> Result<bool, Refusal> {
        let table = self.table;
        if !table.is_numbered() {
            return Ok(false);
        }
        let own = match &row[table.key] {
            Value::Number(own) => own.digits,
            _ => 0,
        };
        let is_given = row[table.key] == Value::Null || own == 0 && !self.keeps_zero;
        if is_given {
            let number = self.give(place)?;
            row[table.key] = Value::Number(Number::whole(number));
        } else if self.next > 0 && own >= self.next {
            self.next = own + 1;
        }
        self.left = (self.left - 1).max(0);
        Ok(is_given)
    }

    /// The first numbers are taken for all rows, then two, four and so on: as many as InnoDB takes.
    fn give(&mut self, place: &Place) -> Result<i128, Refusal> {
        if self.next >= self.end {
            if self.left == 0 {
                self.left = if self.times == 0 { self.rows } else { 1 << self.times.min(15) };
            }
            self.next = self.table.take_numbers(self.left);
            self.end = self.next + self.left;
            self.times += 1;
        }
        let (number, most) = (self.next, self.table.most_number());
        if number > most {
            let name = &self.table.columns[self.table.key].name;
            return Err(refused(
                167,
                "22003",
                format!("Out of range value for column '{}' at row {}", name, place.row),
            ));
        }
        self.next += 1;
        Ok(number)
    }

    /// A row is written: as a new one, in another's place, or as a change of the one that there is.
    pub fn has_written(&mut self, row: &Row, is_given: bool) {
        if let (true, Value::Number(number)) = (self.table.is_numbered(), &row[self.table.key]) {
            self.table.has_number(number.digits);
            self.last = Some(number.digits as u64);
            if is_given {
                self.first = self.first.or(self.last);
            }
        }
    }

    /// What the client is told: the first number that was given, or the last one that it has given itself.
    pub fn told(&self) -> u64 {
        let told = self.first.or(self.last).unwrap_or(0);
        if self.table.has_key() {
            told
        } else {
            0
        }
    }
}

/// The greatest number of a column's type.
pub fn most(kind: Type) -> i128 {
    match kind {
        Type::Whole { bytes, is_unsigned, .. } => (1 << (8 * bytes - u32::from(!is_unsigned))) - 1,
        _ => 0,
    }
}
