//! Reads and writes of rows for a statement, in the branch that it runs in.
use super::table::{Row, Table};
use super::{refused, Done, Stop};
use crate::answers::{Answer, Refusal};
use crate::channel::End;
use crate::guest::{too_late, Guest};
use crate::store::Store;
use std::sync::Arc;
use std::time::Duration;

/// What becomes of a row.
pub enum Change {
    /// It stays, and is locked in share, as it was read.
    Keep,
    /// It stays, and is locked exclusively.
    Lock,
    Put(Row),
    Delete,
}

/// What was asked of a row, or that another branch is in the way.
enum Got<T> {
    Is(T),
    Held,
}

pub struct Rows<'a> {
    pub guest: &'a mut Guest,
    pub store: Arc<Store>,
    /// The database that refusals name.
    pub database: &'a str,
    /// How long the statement waits for each row that it needs, if not for as long as the connection has set.
    pub patience: Option<Duration>,
}

/// The answer of a store as what it means here.
fn got(answer: Answer) -> Done<Got<Answer>> {
    match answer {
        Answer::Refused(it) if it.number == 3572 => Ok(Got::Held),
        Answer::Refused(it) => Err(it.into()),
        other => Ok(Got::Is(other)),
    }
}

pub fn no_table(table: &str, database: &str) -> Refusal {
    refused(1146, "42S02", format!("Table '{}.{}' doesn't exist", database, table))
}

impl<'a> Rows<'a> {
    pub fn new(guest: &'a mut Guest, database: &'a str) -> Rows<'a> {
        let store = guest.store();
        Rows { guest, store, database, patience: None }
    }

    fn patience(&self) -> Duration {
        self.patience.unwrap_or_else(|| self.guest.lock_wait())
    }

    /// Another branch holds a row that the statement needs, or others wait for it: queues up for it, unless it has.
    /// Whether it did so just now, so that the row is tried once more.
    fn queue_up(&mut self, key: &[u8], alone: bool) -> Done<bool> {
        if self.patience().is_zero() {
            return Err(too_late().into());
        }
        Ok(self.guest.queue_up_for(key, alone))
    }

    /// Sleeps until the row may be free, unless it is to be tried at once. Nothing is latched now.
    fn sleep(&mut self, is_new: bool) -> Done<()> {
        let patience = self.patience();
        self.guest.sleep(is_new, patience)?.map_or(Ok(()), |refused| Err(refused.into()))
    }

    fn wait_for(&mut self, key: &[u8], alone: bool) -> Done<()> {
        let is_new = self.queue_up(key, alone)?;
        self.sleep(is_new)
    }

    // single rows of the store

    fn try_get(&mut self, key: &[u8]) -> Done<Got<Option<Vec<u8>>>> {
        Ok(match got(self.guest.get(key)?)? {
            Got::Is(Answer::Value(found)) => Got::Is(found),
            Got::Is(_) => return Err(Stop::End(End::Wrong("a GET isn't answered by a value".to_string()))),
            Got::Held => Got::Held,
        })
    }

    fn try_change(&mut self, key: &[u8], old: Option<&[u8]>, new: Option<&[u8]>) -> Done<Got<()>> {
        Ok(match got(self.guest.change(key, old, new)?)? {
            Got::Is(_) => Got::Is(()),
            Got::Held => Got::Held,
        })
    }

    /// Reads a row of the store, and shares it where there is a branch.
    pub fn get(&mut self, key: &[u8]) -> Done<Option<Vec<u8>>> {
        loop {
            self.guest.begin_try();
            match self.try_get(key)? {
                Got::Is(value) => return Ok(value),
                Got::Held => self.wait_for(key, false)?,
            }
        }
    }

    // rows of a table

    /// A row by its key, shared where there is a branch.
    pub fn row(&mut self, table: &Table, key: &[u8]) -> Done<Option<Row>> {
        match self.get(&table.row_key(key))? {
            Some(value) => Ok(Some(table.read(key, &value)?)),
            None => Ok(None),
        }
    }

    /// Changes a row as a function of what it is says. Of two statements that change the same row one comes after the
    /// other: neither reads it before the other has written it.
    pub fn change(
        &mut self,
        table: &Table,
        key: &[u8],
        number: usize,
        mut decide: impl FnMut(Option<&Row>) -> Done<Change>,
    ) -> Done<()> {
        let row_key = table.row_key(key);
        let mut read = None;
        loop {
            let store = Arc::clone(&self.store);
            let latch = store.tables.latch(&row_key);
            self.guest.begin_try();
            if read.is_none() {
                if let Got::Is(old) = self.try_get(&row_key)? {
                    read = Some(old);
                }
            }
            let held = match &read {
                None => Some(row_key.clone()),
                Some(old) => {
                    self.is_there(table)?;
                    let row = old.as_ref().map(|value| table.read(key, value)).transpose()?;
                    let change = decide(row.as_ref())?;
                    self.try_to(table, key, number, old.as_deref(), change)?
                }
            };
            // (whoever has the latch next finds it in the queue, and doesn't share the row)
            let is_new = held.map(|held| self.queue_up(&held, true)).transpose()?;
            drop(latch);
            match is_new {
                None => break,
                Some(is_new) => self.sleep(is_new)?,
            }
            // (who shares a row needn't read it again)
            read = read.filter(|_| self.guest.keeps_rows());
        }
        self.guest.end_turn();
        Ok(())
    }

    /// Makes a change; the key that another branch holds, if one does.
    fn try_to(
        &mut self,
        table: &Table,
        key: &[u8],
        number: usize,
        old: Option<&[u8]>,
        change: Change,
    ) -> Done<Option<Vec<u8>>> {
        let row_key = table.row_key(key);
        let new = match change {
            Change::Keep => return Ok(None),
            Change::Lock => old.map(<[u8]>::to_vec),
            Change::Delete => None,
            Change::Put(row) => Some(table.write(&row, number)?.1),
        };
        if old.is_none() && new.is_some() {
            let stripe = table.stripe_of(key);
            if !self.guest.holds(&stripe) {
                if let Got::Held = self.try_change(&stripe, None, None)? {
                    return Ok(Some(stripe));
                }
            }
            // (who drops a table holds all stripes)
            self.is_there(table)?;
            table.add_key(key.to_vec());
        }
        Ok(match self.try_change(&row_key, old, new.as_deref())? {
            Got::Is(()) => None,
            Got::Held => Some(row_key),
        })
    }

    /// Whether a table is still there, of which the statement knows since it began.
    pub fn is_there(&self, table: &Table) -> Done<()> {
        if table.is_dropped() {
            return Err(no_table(&table.name, self.database).into());
        }
        Ok(())
    }

    /// Holds all stripes and rows of a table alone, and deletes its rows; the keys that it had.
    pub fn clear(&mut self, table: &Table) -> Done<Vec<Vec<u8>>> {
        table.stripes().iter().try_for_each(|stripe| self.delete(stripe))?;
        self.is_there(table)?;
        let keys = table.keys();
        keys.iter().try_for_each(|key| self.delete(&table.row_key(key)))?;
        Ok(keys)
    }

    fn delete(&mut self, key: &[u8]) -> Done<()> {
        loop {
            self.guest.begin_try();
            match self.try_change(key, None, None)? {
                Got::Is(()) => return Ok(()),
                Got::Held => self.wait_for(key, true)?,
            }
        }
    }
}
