//! What a SELECT gives of its rows.
use super::answer::begin;
use super::change::Rows;
use super::define::table_of;
use super::filter::Scope;
use super::grammar::{Item, Lock, Of, Select};
use super::table::{Row, Table};
use super::value::{Column, Number, Type, Value};
use super::{refused, untaken, Done};
use crate::answers::{self, Refusal};
use crate::packets::{self, flag, kind};
use std::cmp::Ordering;
use std::time::Duration;

/// What stands in a column of the answer.
enum Shown {
    Column(usize),
    /// How many rows there are, or how many have a value in a column.
    Count(Option<usize>),
    Sum(usize),
    Number(i64),
    Null,
}

pub struct Projection {
    shown: Vec<Shown>,
    pub columns: Vec<packets::Column>,
    /// By which columns the rows are ordered, and whether down.
    order: Vec<(usize, bool)>,
}

impl Projection {
    pub fn new(scope: &Scope, select: &Select) -> Result<Projection, Refusal> {
        let mut it = Projection { shown: Vec::new(), columns: Vec::new(), order: Vec::new() };
        for item in &select.items {
            it.add(scope, item)?;
        }
        let is_mixed = it.is_of_all() && it.shown.iter().any(|shown| matches!(shown, Shown::Column(_)));
        if is_mixed {
            return Err(untaken("a column beside COUNT or SUM", "either of them"));
        }
        for (of, is_down) in &select.order {
            it.order.push((it.ordered(scope, select, of)?, *is_down));
        }
        Ok(it)
    }

    /// The column that ORDER BY names: what it is called in the answer comes before what it is called in the table.
    fn ordered(&self, scope: &Scope, select: &Select, of: &Of) -> Result<usize, Refusal> {
        let is_meant = |item: &&Item| match item {
            Item::Column(_, name) => of.table.is_none() && name.eq_ignore_ascii_case(&of.name),
            _ => false,
        };
        match select.items.iter().find(is_meant) {
            Some(Item::Column(of, _)) => scope.find(of, "ORDER BY"),
            _ => scope.find(of, "ORDER BY"),
        }
    }

    /// Orders rows that come in the order of their keys.
    fn sort(&self, table: &Table, rows: &mut [Row]) {
        rows.sort_by(|one, two| {
            let compare = |(index, is_down): &(usize, bool)| {
                let found = table.columns[*index].kind.compare(&one[*index], &two[*index]);
                if *is_down {
                    found.reverse()
                } else {
                    found
                }
            };
            self.order.iter().map(compare).find(|it| it.is_ne()).unwrap_or(Ordering::Equal)
        });
    }

    fn add(&mut self, scope: &Scope, item: &Item) -> Result<(), Refusal> {
        let find = |of| scope.find(of, "SELECT");
        match item {
            Item::All(table) => {
                if let Some(name) = table.as_ref().filter(|name| *name != scope.name) {
                    return Err(refused(1051, "42S02", format!("Unknown table '{}.{}'", scope.database, name)));
                }
                for (index, column) in scope.table.named().iter().enumerate() {
                    self.push(Shown::Column(index), column.wire(&column.name, index == scope.table.key));
                }
            }
            Item::Column(of, name) => {
                let index = find(of)?;
                let column = scope.table.columns[index].wire(name, index == scope.table.key);
                self.push(Shown::Column(index), column);
            }
            Item::Count(of, name) => {
                let index = of.as_ref().map(find).transpose()?;
                self.push(Shown::Count(index), count_column(name));
            }
            Item::Sum(of, name) => {
                let index = find(of)?;
                self.push(Shown::Sum(index), sum_column(&scope.table.columns[index], name)?);
            }
            Item::Null(name) => self.push(Shown::Null, null_column(name)),
            Item::Number(number, name) => {
                let length = number.to_string().len() as u32;
                self.push(
                    Shown::Number(*number),
                    packets::Column { kind: kind::LONG, length, ..packets::Column::number(name) },
                );
            }
        }
        Ok(())
    }

    fn push(&mut self, shown: Shown, column: packets::Column) {
        self.shown.push(shown);
        self.columns.push(column);
    }

    /// Whether all rows make one of the answer.
    fn is_of_all(&self) -> bool {
        self.shown.iter().any(|it| matches!(it, Shown::Count(_) | Shown::Sum(_)))
    }

    fn rows(&self, table: &Table, rows: &[Row]) -> Result<Vec<Vec<packets::Value>>, Refusal> {
        if self.is_of_all() {
            let values: Result<Vec<packets::Value>, Refusal> = self.shown.iter().map(|it| of_all(it, rows)).collect();
            return Ok(vec![values?]);
        }
        let value = |it: &Shown, row: &Row| match it {
            Shown::Column(index) => row[*index].wire(table.columns[*index].kind),
            Shown::Number(number) => packets::Value::Number(*number),
            _ => packets::Value::Null,
        };
        Ok(rows.iter().map(|row| self.shown.iter().map(|it| value(it, row)).collect()).collect())
    }
}

/// A sum is a DECIMAL.
fn sum_column(column: &Column, name: &str) -> Result<packets::Column, Refusal> {
    let (length, scale) = match column.kind {
        Type::Whole { bytes, .. } => (if bytes == 8 { 41 } else { 33 }, 0),
        Type::Decimal { precision, scale } => (precision + 24, scale),
        _ => return Err(untaken("SUM of texts", "SUM of a column of numbers")),
    };
    let (decimals, flags) = (scale as u8, flag::BINARY);
    Ok(packets::Column { kind: kind::NEWDECIMAL, flags, decimals, ..packets::Column::text(name, length) })
}

fn of_all(shown: &Shown, rows: &[Row]) -> Result<packets::Value, Refusal> {
    let values = |index: usize| rows.iter().map(move |row| &row[index]).filter(|it| **it != Value::Null);
    Ok(match shown {
        Shown::Count(None) => packets::Value::Number(rows.len() as i64),
        Shown::Count(Some(index)) => packets::Value::Number(values(*index).count() as i64),
        Shown::Number(number) => packets::Value::Number(*number),
        Shown::Column(_) | Shown::Null => packets::Value::Null,
        Shown::Sum(index) => {
            let mut sum: Option<Number> = None;
            for value in values(*index) {
                if let Value::Number(number) = value {
                    let so_far = sum.unwrap_or(Number { digits: 0, scale: number.scale });
                    let next = so_far.plus(*number);
                    sum = Some(next.ok_or_else(|| refused(1690, "22003", "DECIMAL value is out of range in 'sum'"))?);
                }
            }
            sum.map_or(packets::Value::Null, |it| packets::Value::Text(it.text().into_bytes()))
        }
    })
}

/// How many rows a SELECT gives that stands in the place of a table.
fn counted(rows: &mut Rows, it: &Select, inner: &Select) -> Done<answers::Table> {
    let count = select(rows, inner)?.rows.len();
    Ok(answers::Table { columns: counted_columns(it), rows: vec![vec![packets::Value::Number(count as i64)]] })
}

pub fn counted_columns(it: &Select) -> Vec<packets::Column> {
    let count = |item: &Item| match item {
        Item::Count(_, name) => Some(count_column(name)),
        _ => None,
    };
    it.items.iter().filter_map(count).collect()
}

fn null_column(name: &str) -> packets::Column {
    packets::Column { kind: kind::NULL, flags: flag::BINARY, ..packets::Column::text(name, 0) }
}

fn count_column(name: &str) -> packets::Column {
    packets::Column { length: 21, ..packets::Column::number(name) }
}

pub fn select(rows: &mut Rows, it: &Select) -> Done<answers::Table> {
    if let Some(inner) = &it.inner {
        return counted(rows, it, inner);
    }
    let table = table_of(rows, &it.table)?;
    let scope = Scope::new(&table, &it.table, rows.database);
    let (projection, filter) = (Projection::new(&scope, it)?, scope.filter(&it.filter)?);
    rows.patience = it.wait.map(Duration::from_secs);
    begin(rows)?;
    let found = if rows.guest.is_within() || it.lock == Lock::None {
        rows.select(&table, &filter, it.lock)?
    } else {
        rows.alone(|rows| rows.select(&table, &filter, it.lock))?
    };
    answered(&table, projection, found, it)
}

/// The rows of an answer in their order, as many as are asked for.
fn answered(table: &Table, projection: Projection, mut found: Vec<Row>, it: &Select) -> Done<answers::Table> {
    projection.sort(table, &mut found);
    let (offset, count) = it.limit.unwrap_or((0, u64::MAX));
    let range = |length: usize| {
        let begin = usize::try_from(offset).unwrap_or(usize::MAX).min(length);
        let end = begin.saturating_add(usize::try_from(count).unwrap_or(usize::MAX)).min(length);
        begin..end
    };
    let rows = if projection.is_of_all() {
        let rows = projection.rows(table, &found)?;
        rows[range(rows.len())].to_vec()
    } else {
        projection.rows(table, &found[range(found.len())])?
    };
    Ok(answers::Table { columns: projection.columns, rows })
}
