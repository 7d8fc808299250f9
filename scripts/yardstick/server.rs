//! A server of plain Rust: branches in order, rows in a hash table, locks and writes as the rules of docs/STATEMENTS.md
//! have them, but for shared locks: here a GET in a branch locks its row exclusively.
use crate::statement::Statement;
use crate::text::{Text, Xid};
use std::collections::{BTreeMap, HashMap};

#[derive(Clone, Copy, PartialEq)]
enum Phase {
    Active,
    Idle,
    Prepared,
}

struct Branch {
    phase: Phase,
    writes: Vec<(Text, Option<Text>)>,
}

#[derive(Default)]
struct Row {
    value: Option<Text>,
    holder: Option<Xid>,
}

#[derive(Default)]
pub struct Server {
    branches: BTreeMap<Xid, Branch>,
    rows: HashMap<Text, Row>,
    open: [Option<Xid>; 17],
}

pub enum Reply {
    Done,
    /// The value of a row, which nobody reads here.
    #[allow(dead_code)]
    Value(Option<Text>),
    Refused(u16),
}

impl Reply {
    /// Ends the program where the statement was refused: nothing that is measured is.
    pub fn expect(self) {
        if let Reply::Refused(number) = self {
            panic!("refused with {number}");
        }
        std::hint::black_box(&self);
    }
}

impl Server {
    pub fn apply(&mut self, session: usize, statement: &Statement) -> Reply {
        let own = self.open[session];
        let phase = own.map(|xid| self.branches[&xid].phase);
        match statement {
            Statement::Start(xid) => self.start(session, own, xid),
            Statement::End(xid) => self.advance(own, phase, xid, Phase::Active, Phase::Idle),
            Statement::Prepare(xid) => {
                let reply = self.advance(own, phase, xid, Phase::Idle, Phase::Prepared);
                if matches!(reply, Reply::Done) {
                    self.open[session] = None;
                }
                reply
            }
            Statement::Commit(xid, one_phase) => self.finish(session, own, phase, xid, true, *one_phase),
            Statement::Rollback(xid) => self.finish(session, own, phase, xid, false, own.is_some()),
            Statement::Get(key) => self.get(own, phase, key),
            Statement::Put(key, value) => self.write(own, phase, key, Some(*value)),
            Statement::Delete(key) => self.write(own, phase, key, None),
        }
    }

    fn start(&mut self, session: usize, own: Option<Xid>, xid: &Xid) -> Reply {
        if own.is_some() {
            return Reply::Refused(1399);
        }
        if self.branches.contains_key(xid) {
            return Reply::Refused(1440);
        }
        self.branches.insert(*xid, Branch { phase: Phase::Active, writes: Vec::new() });
        self.open[session] = Some(*xid);
        Reply::Done
    }

    /// Brings a session's own branch from one phase to the next.
    fn advance(&mut self, own: Option<Xid>, phase: Option<Phase>, xid: &Xid, from: Phase, to: Phase) -> Reply {
        if phase != Some(from) {
            return Reply::Refused(1399);
        }
        if own != Some(*xid) {
            return Reply::Refused(1397);
        }
        self.branches.get_mut(xid).unwrap().phase = to;
        Reply::Done
    }

    /// Ends a branch: a PREPARED one in two phases, or a session's own, which is IDLE, in one.
    fn finish(
        &mut self,
        session: usize,
        own: Option<Xid>,
        phase: Option<Phase>,
        xid: &Xid,
        commits: bool,
        one_phase: bool,
    ) -> Reply {
        if own.is_some() {
            if phase == Some(Phase::Active) || own != Some(*xid) || !one_phase {
                return Reply::Refused(1399);
            }
            self.open[session] = None;
        } else if self.branches.get(xid).map(|branch| branch.phase) != Some(Phase::Prepared) {
            return Reply::Refused(1397);
        } else if one_phase {
            return Reply::Refused(1399);
        }
        for (key, value) in self.branches.remove(xid).unwrap().writes {
            let row = self.rows.get_mut(&key).unwrap();
            row.holder = None;
            if commits {
                row.value = value;
            }
        }
        Reply::Done
    }

    fn get(&mut self, own: Option<Xid>, phase: Option<Phase>, key: &Text) -> Reply {
        let (Some(xid), Some(Phase::Active)) = (own, phase) else {
            return match phase {
                None => Reply::Value(self.rows.get(key).and_then(|row| row.value)),
                Some(_) => Reply::Refused(1399),
            };
        };
        let row = self.rows.entry(*key).or_default();
        if row.holder.is_some_and(|holder| holder != xid) {
            return Reply::Refused(3572);
        }
        let branch = self.branches.get_mut(&xid).unwrap();
        if row.holder.is_none() {
            row.holder = Some(xid);
            branch.writes.push((*key, row.value));
        }
        Reply::Value(branch.writes.iter().rev().find(|write| write.0 == *key).and_then(|write| write.1))
    }

    fn write(&mut self, own: Option<Xid>, phase: Option<Phase>, key: &Text, value: Option<Text>) -> Reply {
        if phase == Some(Phase::Idle) {
            return Reply::Refused(1399);
        }
        let row = self.rows.entry(*key).or_default();
        if row.holder.is_some() && row.holder != own {
            return Reply::Refused(3572);
        }
        match own {
            None => row.value = value,
            Some(xid) => {
                row.holder = Some(xid);
                self.branches.get_mut(&xid).unwrap().writes.push((*key, value));
            }
        }
        Reply::Done
    }
}
