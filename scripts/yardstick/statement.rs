//! Statements, as values.
use crate::text::{Text, Xid};

#[derive(Clone, Copy)]
pub enum Statement {
    Start(Xid),
    End(Xid),
    Prepare(Xid),
    Commit(Xid, bool),
    Rollback(Xid),
    Get(Text),
    Put(Text, Text),
    Delete(Text),
}

/// The five statements of a branch that one thread starts, writes a row in, ends, prepares and commits, as a client
/// writes them.
pub fn cycle_texts(thread: usize, turn: usize, key: &str) -> [String; 5] {
    let xid = format!("'g{thread}_{turn}','b',1");
    [
        format!("XA START {xid}"),
        format!("PUT '{key}','v{turn}'"),
        format!("XA END {xid}"),
        format!("XA PREPARE {xid}"),
        format!("XA COMMIT {xid}"),
    ]
}
