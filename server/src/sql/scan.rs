//! Reads of many rows that see one state.
use super::change::{Change, Rows};
use super::filter::Filter;
use super::grammar::Lock;
use super::table::{Row, Table};
use super::{Done, Stop};
use crate::answers::Answer;
use crate::channel::End;
use std::time::Duration;

/// How often rows are read without locks before they are locked.
const TRIES: usize = 8;
/// Keys without rows are forgotten when there are more of them than this, and than rows.
const GONE: usize = 64;

/// Rows of a table, and the keys that have none.
#[derive(Default)]
struct Found {
    rows: Vec<Row>,
    gone: Vec<Vec<u8>>,
}

impl Found {
    fn add(&mut self, key: Vec<u8>, row: Option<Row>) {
        match row {
            Some(row) => self.rows.push(row),
            None => self.gone.push(key),
        }
    }
}

impl Rows<'_> {
    /// The rows that a filter leaves, in the order of the primary key.
    pub fn select(&mut self, table: &Table, filter: &Filter, lock: Lock) -> Done<Vec<Row>> {
        let mut rows = match (self.guest.is_within(), lock) {
            (false, Lock::None) => self.committed(table, filter)?,
            (_, Lock::Update) => self.exclusive(table, filter)?,
            _ => self.shared(table, filter)?.rows,
        };
        rows.retain(|row| filter.holds(table, row));
        let kind = table.key_type();
        rows.sort_by(|one, two| kind.compare(&one[table.key], &two[table.key]));
        Ok(rows)
    }

    /// The rows of a filter's keys, or all, which the branch shares from now on, and with all the set of keys.
    fn shared(&mut self, table: &Table, filter: &Filter) -> Done<Found> {
        let keys = match &filter.keys {
            Some(keys) => keys.clone(),
            None => self.shared_keys(table)?,
        };
        let mut found = Found::default();
        for key in keys {
            let row = self.row(table, &key)?;
            found.add(key, row);
        }
        self.is_there(table)?;
        Ok(found)
    }

    /// The keys of all rows, of which none is added as long as the branch shares the stripes.
    pub fn shared_keys(&mut self, table: &Table) -> Done<Vec<Vec<u8>>> {
        for stripe in table.stripes() {
            self.get(&stripe)?;
        }
        Ok(table.keys_in_order())
    }

    /// The rows of a filter's keys, or all; those that it leaves are locked exclusively.
    fn exclusive(&mut self, table: &Table, filter: &Filter) -> Done<Vec<Row>> {
        let keys = match &filter.keys {
            Some(keys) => keys.clone(),
            None => self.shared_keys(table)?,
        };
        let mut rows = Vec::new();
        for key in keys {
            let mut found = None;
            self.change(table, &key, 1, |row| {
                found = row.filter(|row| filter.holds(table, row)).cloned();
                Ok(if found.is_some() { Change::Lock } else { Change::Keep })
            })?;
            rows.extend(found);
        }
        self.is_there(table)?;
        Ok(rows)
    }

    /// Committed rows, outside of a branch: without locks as long as nothing is logged between the first and the last
    /// of them, and otherwise, or if the table has many keys without rows, in a branch of the server's own.
    fn committed(&mut self, table: &Table, filter: &Filter) -> Done<Vec<Row>> {
        let mut seen = None;
        for _ in 0..TRIES {
            if let Some(found) = self.try_snapshot(table, filter)? {
                if found.gone.len() <= GONE || found.gone.len() <= found.rows.len() || filter.keys.is_some() {
                    return Ok(found.rows);
                }
                seen = Some(found.rows);
                break;
            }
        }
        // (rows that are seen needn't be waited for)
        let patience = self.patience.replace(Duration::ZERO);
        if seen.is_none() {
            self.patience = patience;
        }
        let tidied = self.alone(|it| it.tidied(table, filter));
        self.patience = patience;
        match (tidied, seen) {
            (Err(Stop::Refused(_)), Some(rows)) => Ok(rows),
            (result, _) => result,
        }
    }

    fn tidied(&mut self, table: &Table, filter: &Filter) -> Done<Vec<Row>> {
        let found = self.shared(table, filter)?;
        if filter.keys.is_none() {
            table.forget_keys(&found.gone);
        }
        Ok(found.rows)
    }

    /// Reads rows without locks; none where something was logged meanwhile, so that they may be of several states. All
    /// keys that had a row when the first one was read are known by then.
    fn try_snapshot(&mut self, table: &Table, filter: &Filter) -> Done<Option<Found>> {
        let is_one = filter.keys.as_ref().map_or(false, |keys| keys.len() <= 1);
        if !is_one {
            // (any row of the store shows how long the history is)
            self.get(&table.stripe(0))?;
        }
        let before = self.guest.entries();
        let keys = filter.keys.clone().unwrap_or_else(|| table.keys());
        let mut found = Found::default();
        for key in keys {
            let row = self.row(table, &key)?;
            found.add(key, row);
        }
        self.is_there(table)?;
        Ok(Some(found).filter(|_| is_one || self.guest.entries() == before))
    }

    /// Has something done in a branch of its own, which is committed in one phase, or rolled back where it is refused.
    pub fn alone<T>(&mut self, inner: impl FnOnce(&mut Self) -> Done<T>) -> Done<T> {
        if let Some(refused) = self.guest.begin_alone()? {
            return Err(refusal_of(refused));
        }
        match inner(self) {
            Ok(found) => match self.guest.commit()? {
                answer if answer.is_ok() => Ok(found),
                refused => Err(refusal_of(refused)),
            },
            Err(stop) => {
                if let Stop::Refused(_) = stop {
                    self.guest.roll_back()?;
                }
                Err(stop)
            }
        }
    }
}

/// What a refused answer says; the server's own branches are refused nothing but for want of memory or of a session.
fn refusal_of(answer: Answer) -> Stop {
    match answer {
        Answer::Refused(it) => Stop::Refused(it),
        _ => Stop::End(End::Wrong("a branch isn't started or ended".to_string())),
    }
}
