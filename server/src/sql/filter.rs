//! Columns of a statement found in its table, and its conditions.
use super::grammar::{Compare, Condition, Named, Of, Test};
use super::refused;
use super::table::Table;
use super::value::Value;
use crate::answers::Refusal;
use std::cmp::Ordering;

/// A table under the name that a statement gives it, where columns are looked for.
pub struct Scope<'a> {
    pub table: &'a Table,
    pub name: &'a str,
    pub database: &'a str,
}

/// A condition on a column of the table. NULL fulfils none but IS NULL.
enum Check {
    Compared(Compare, Value),
    In(Vec<Value>),
    IsNull(bool),
    Never,
}

/// The conditions of a WHERE, which all have to hold.
pub struct Filter {
    checks: Vec<(usize, Check)>,
    /// The keys that a row may have to fulfil it; without these it may be any.
    pub keys: Option<Vec<Vec<u8>>>,
}

impl<'a> Scope<'a> {
    pub fn new(table: &'a Table, named: &'a Named, database: &'a str) -> Scope<'a> {
        Scope { table, name: named.alias.as_deref().unwrap_or(&table.name), database }
    }

    /// A column's place in the table, looked for in a part of the statement that the refusal names.
    pub fn find(&self, of: &Of, part: &str) -> Result<usize, Refusal> {
        let is_here = of.table.as_deref().map_or(true, |it| it == self.name);
        self.table.column(&of.name).filter(|_| is_here).ok_or_else(|| {
            let table = of.table.as_ref().map_or(String::new(), |it| format!("{}.", it));
            refused(1054, "42S22", format!("Unknown column '{}{}' in '{}'", table, of.name, part))
        })
    }

    /// As `find`, of an INSERT's own list, which has no names of tables.
    pub fn find_name(&self, name: &str, part: &str) -> Result<usize, Refusal> {
        self.find(&Of { table: None, name: name.to_string() }, part)
    }

    pub fn filter(&self, conditions: &[Condition]) -> Result<Filter, Refusal> {
        let mut filter = Filter { checks: Vec::new(), keys: None };
        for it in conditions {
            let index = self.find(&it.column, "WHERE")?;
            let check = self.check(index, &it.test)?;
            if index == self.table.key && filter.keys.is_none() {
                filter.keys = self.keys(&check);
            }
            filter.checks.push((index, check));
        }
        Ok(filter)
    }

    fn check(&self, index: usize, test: &Test) -> Result<Check, Refusal> {
        let column = &self.table.columns[index];
        Ok(match test {
            Test::IsNull(is_null) => Check::IsNull(*is_null),
            Test::Compared(compare, value) => {
                column.comparable(value)?.map_or(Check::Never, |value| Check::Compared(*compare, value))
            }
            Test::In(values) => {
                let found: Result<Vec<Option<Value>>, Refusal> =
                    values.iter().map(|it| column.comparable(it)).collect();
                Check::In(found?.into_iter().flatten().collect())
            }
        })
    }

    /// The keys of the rows that a condition on the primary key leaves.
    fn keys(&self, check: &Check) -> Option<Vec<Vec<u8>>> {
        let keys = |values: &[Value]| values.iter().filter_map(|it| self.table.key_for(it)).collect::<Vec<_>>();
        let mut found = match check {
            Check::Compared(Compare::Equal, value) => keys(std::slice::from_ref(value)),
            Check::In(values) => keys(values),
            Check::Never => Vec::new(),
            _ => return None,
        };
        found.sort_unstable();
        found.dedup();
        Some(found)
    }
}

impl Filter {
    pub fn holds(&self, table: &Table, row: &[Value]) -> bool {
        self.checks.iter().all(|(index, check)| {
            let compare = |value: &Value| match &row[*index] {
                Value::Null => None,
                own => Some(table.columns[*index].kind.compare(own, value)),
            };
            match check {
                Check::Never => false,
                Check::IsNull(is_null) => (row[*index] == Value::Null) == *is_null,
                Check::In(values) => values.iter().any(|it| compare(it) == Some(Ordering::Equal)),
                Check::Compared(wanted, value) => compare(value).map_or(false, |found| wanted.fits(found)),
            }
        })
    }
}

impl Compare {
    fn fits(self, found: Ordering) -> bool {
        match self {
            Compare::Equal => found.is_eq(),
            Compare::Unequal => found.is_ne(),
            Compare::Less => found.is_lt(),
            Compare::LessOrEqual => found.is_le(),
            Compare::Greater => found.is_gt(),
            Compare::GreaterOrEqual => found.is_ge(),
        }
    }
}
