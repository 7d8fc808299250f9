//! A statement waits for a row that another branch holds.
//!
//! A branch that has rows keeps its session meanwhile, and so does one of the client's own. Any other has nothing yet
//! that it could lose: it is given up with its session, and begins anew when the statement's turn has come.
use super::{Guest, State};
use crate::answers::{refusal, refusal_with, wrong_state, Answer, Refusal};
use crate::channel::End;
use crate::pool::Need;
use crate::sql::Value;
use crate::statements::{self, write_literal, Kind, Statement};
use crate::store::lock;
use crate::variables::LOCK_WAIT;
use crate::waits::Fate;
use std::time::Duration;

/// The refusal of a statement that has waited for long enough.
pub fn too_late() -> Refusal {
    refusal_with(1205, "Lock wait timeout exceeded; try restarting transaction".to_string())
}

/// The refusal of a branch that was rolled back, so that others don't wait for ever.
fn deadlock() -> Refusal {
    refusal_with(1213, "Deadlock found when trying to get lock; try restarting transaction".to_string())
}

fn is_held(answer: &Answer) -> bool {
    matches!(answer, Answer::Refused(it) if it.number == 3572)
}

impl Guest {
    /// A statement of the client's for a row, which waits for it if that is wanted, and keeps what undoes it behind a
    /// savepoint.
    pub(super) fn wait_for_row(&mut self, it: &Statement) -> Result<Answer, End> {
        let kept = self.undo.len();
        let answer = self.have_row(it, kept)?;
        if matches!(answer, Answer::Refused(_)) {
            self.undo.truncate(kept);
        }
        Ok(answer)
    }

    fn have_row(&mut self, it: &Statement, kept: usize) -> Result<Answer, End> {
        let mut patience = self.store.lock_wait;
        if it.kind == Kind::Get && !self.is_within() {
            patience = Duration::ZERO;
        }
        loop {
            self.begin_try();
            let answer = self.try_row(it, kept, !patience.is_zero())?;
            if !is_held(&answer) || patience.is_zero() {
                return Ok(answer);
            }
            let is_new = self.queue_up(it.subject(), it.kind != Kind::Get);
            if let Some(refused) = self.sleep(is_new, patience)? {
                return Ok(refused.into());
            }
            if self.is_fresh {
                // (a branch that is given up has read nothing)
                self.undo.truncate(kept);
            }
        }
    }

    /// Asks for a row, and before that for what undoes the change, unless that is kept already.
    fn try_row(&mut self, it: &Statement, kept: usize, waits: bool) -> Result<Answer, End> {
        let reads_first = self.keeps_undo(it) && self.undo.len() == kept;
        let get = Some(it).filter(|_| reads_first).map(|it| statements::of_row(Kind::Get, &it.key(), b""));
        if waits && self.would_pass(it) {
            return Ok(self.leave_unasked(get.as_ref().unwrap_or(it)));
        }
        if let Some(get) = &get {
            if let refused @ Answer::Refused(_) = self.remember(get)? {
                return Ok(refused);
            }
        }
        self.ask_for_row(it)
    }

    /// Has a statement wait, since others wait for its row whom it would pass.
    pub(super) fn leave_unasked(&mut self, it: &Statement) -> Answer {
        if self.store.record.is_some() {
            self.unasked = Some(it.text.clone());
        }
        refusal(3572).into()
    }

    /// How long a statement of SQL waits for a row.
    pub fn lock_wait(&self) -> Duration {
        match self.variables.get(LOCK_WAIT) {
            Some(Value::Number(seconds)) => Duration::from_secs(u64::try_from(seconds.digits).unwrap_or(0)),
            _ => Duration::ZERO,
        }
    }

    /// A statement tries to have a row. If it has tried before, rows that it has by that don't count.
    pub fn begin_try(&mut self) {
        if self.turn.is_none() {
            self.is_fresh = !self.is_within() || self.own.is_some() && lock(&self.connection.look).rows.is_empty();
        }
    }

    /// Whether others wait for a statement's row whom it would pass.
    pub(super) fn would_pass(&self, it: &Statement) -> bool {
        let (key, alone) = (it.subject(), it.kind != Kind::Get);
        match &self.turn {
            Some(turn) if turn.is_for(key) => !turn.has_come(),
            _ => self.store.waits.would_pass(&self.connection, key, alone),
        }
    }

    /// Queues up for a row, unless it has; whether it did so now.
    pub(super) fn queue_up(&mut self, subject: &[u8], alone: bool) -> bool {
        if self.turn.as_ref().map_or(false, |turn| turn.is_for(subject)) {
            return false;
        }
        // (who waits for another row now doesn't keep its place)
        self.turn = None;
        self.turn = Some(self.store.waits.queue_up(&self.connection, subject, alone, !self.is_fresh));
        true
    }

    /// The same, by a key.
    pub fn queue_up_for(&mut self, key: &[u8], alone: bool) -> bool {
        let mut subject = Vec::new();
        write_literal(&mut subject, key);
        self.queue_up(&subject, alone)
    }

    /// The branch has a row, which who watches sees. If the statement has waited for it, that is over.
    pub(super) fn has_row(&mut self, subject: &[u8], alone: bool) {
        *lock(&self.connection.look).rows.entry(subject.to_vec()).or_insert(false) |= alone;
        match self.turn.take() {
            Some(turn) if turn.is_for(subject) && turn.is_alone() == alone => turn.end_with_row(),
            other => self.turn = other,
        }
    }

    /// The statement has done with its row, whether or not its branch has it.
    pub fn end_turn(&mut self) {
        self.turn = None;
    }

    /// Sleeps until the row may be free, unless it has queued up just now; the refusal where it waits no longer.
    pub fn sleep(&mut self, is_new: bool, patience: Duration) -> Result<Option<Refusal>, End> {
        if is_new {
            return Ok(None);
        }
        let had_own = self.own.is_some();
        if self.is_fresh {
            self.step_back()?;
        } else {
            self.open_call();
        }
        match self.turn.as_ref().map_or(Fate::Called, |turn| turn.sleep(patience)) {
            Fate::Left => Err(End::Left("while it waited for a row")),
            Fate::Over => Err(End::Over),
            Fate::Late => {
                self.turn = None;
                Ok(Some(too_late()))
            }
            Fate::Interrupted => {
                self.turn = None;
                Ok(Some(refusal(1317)))
            }
            Fate::Deadlock => {
                self.turn = None;
                self.give_up()?;
                Ok(Some(deadlock()))
            }
            _ if self.is_fresh && had_own => self.step_forward(),
            _ => Ok(None),
        }
    }

    /// The record has a wait as one call, also if the store wasn't asked yet.
    fn open_call(&mut self) {
        let unasked = self.unasked.take();
        if let (Some(record), Some(lent), Some(text)) = (&self.store.record, &self.lent, unasked) {
            record.wait(lent.number, &text);
        }
    }

    /// The statement asks no more for its row.
    pub(super) fn end_call(&mut self) {
        self.unasked = None;
        if let (Some(record), Some(lent)) = (&self.store.record, &self.lent) {
            record.end(lent.number);
        }
    }

    /// Whether the branch keeps its rows while its statement waits.
    pub fn keeps_rows(&self) -> bool {
        !self.is_fresh
    }

    /// Gives up a branch that has nothing, and its session.
    fn step_back(&mut self) -> Result<(), End> {
        if self.own.take().is_some() {
            self.disconnect()?;
        }
        self.give_back();
        Ok(())
    }

    /// Begins such a branch anew, maybe by the session that is kept for statements: others wait for its end.
    fn step_forward(&mut self) -> Result<Option<Refusal>, End> {
        let refused = self.start_own(Need::Statement)?.and_then(Answer::refusal);
        if refused.is_some() {
            self.turn = None;
        }
        Ok(refused)
    }

    /// Rolls back what is open, in a deadlock. Of a branch of the client's own the client has to hear.
    fn give_up(&mut self) -> Result<(), End> {
        if self.state != State::Active {
            return self.roll_back().map(drop);
        }
        let xid = lock(&self.connection.look).branch.take().map(|(xid, _)| xid);
        self.forget_savepoints();
        self.disconnect()?;
        self.state = State::RollbackOnly;
        lock(&self.store.rolled_back).extend(xid.clone());
        self.rolled_back = xid;
        Ok(())
    }

    /// A statement of the store in the state ROLLBACK ONLY.
    pub(super) fn answer_rolled_back(&mut self, it: &Statement) -> Answer {
        let is_own = self.rolled_back.as_deref() == Some(it.subject());
        match it.kind {
            Kind::Commit | Kind::OnePhase | Kind::Rollback if is_own => {
                self.forget_rolled_back();
                self.state = State::Free;
                let text = "XA_RBDEADLOCK: Transaction branch was rolled back: deadlock was detected";
                let refused = refusal_with(1614, text.to_string());
                Some(refused).filter(|_| it.kind != Kind::Rollback).map_or(Answer::Ok(0), Answer::Refused)
            }
            _ => wrong_state(self.state.name()).into(),
        }
    }

    pub(super) fn forget_rolled_back(&mut self) {
        if let Some(xid) = self.rolled_back.take() {
            lock(&self.store.rolled_back).remove(&xid);
        }
    }

    /// Gives the session back, and calls those who wait for the branch's rows.
    pub(super) fn give_back(&mut self) {
        self.end_call();
        if self.lent.take().is_none() {
            return;
        }
        let mut look = lock(&self.connection.look);
        if look.branch.is_some() || !look.rows.is_empty() {
            look.branch = None;
            look.session = None;
            let rows = std::mem::take(&mut look.rows);
            drop(look);
            self.store.waits.call(&rows, &self.connection);
        }
    }
}
