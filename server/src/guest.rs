//! A store as one client sees it: the client's branch and its state, status flags, and local transactions.
//!
//! A local transaction is a branch of the server's own, which begins with its first row statement and is committed in
//! one phase.
use crate::answers::{self, refusal, refusal_with, wrong_state, Answer, Refusal, OK};
use crate::channel::End;
use crate::chatter::{Change, Other, Settings};
use crate::login;
use crate::packets::status;
use crate::pool::{Lent, Need};
use crate::sql;
use crate::statements::{self, canonical, write_literal, Kind, Shape, Statement};
use crate::status::table_of;
use crate::store::{lock, Connection, Prepared, Store};
use crate::variables::Variables;
use crate::waits::Turn;
use nigbaru::{Error, Reply, Statement as Asked, Xid};
use std::sync::Arc;
use std::time::{Duration, Instant};

mod waiting;

pub use waiting::too_late;

/// How often a branch is tried to be rolled back for which there is no memory, and how long is waited between.
const TRIES: usize = 100;
const BREATH: Duration = Duration::from_millis(50);

/// Where the client's branch stands; a prepared one is nobody's.
#[derive(Clone, Copy, Debug, PartialEq, Eq)]
enum State {
    Free,
    Active,
    Idle,
    /// The store has rolled it back, and the client hasn't yet.
    RollbackOnly,
}

impl State {
    fn name(self) -> &'static str {
        match self {
            State::Free => "NON-EXISTING",
            State::Active => "ACTIVE",
            State::Idle => "IDLE",
            State::RollbackOnly => "ROLLBACK ONLY",
        }
    }
}

fn no_savepoint(name: &str) -> Refusal {
    Refusal { number: 1305, sqlstate: "42000", text: format!("SAVEPOINT {} does not exist", name) }
}

pub struct Guest {
    store: Arc<Store>,
    connection: Arc<Connection>,
    /// The session, while the client has a branch that isn't prepared.
    lent: Option<Lent>,
    /// Where the session lay that it had last.
    place: usize,
    state: State,
    pub autocommit: bool,
    /// Whether transactions read alone, and whether the next one does, if that was said.
    pub is_read_only: bool,
    next: Option<bool>,
    /// What the client has set without an effect on the store.
    pub variables: Arc<Variables>,
    /// The first number that its last INSERT was given that was given any: LAST_INSERT_ID().
    pub last_number: u64,
    /// Of a transaction that has begun, whether it reads alone.
    access: Option<bool>,
    /// Whether a local transaction was asked for.
    has_begun: bool,
    /// The identifier of the local transaction's branch.
    own: Option<Xid>,
    /// With what these identifiers begin, which nobody can foresee, and how many there were.
    names: Option<[u8; 20]>,
    named: u64,
    /// What undoes the changes since the first savepoint, or since a statement of SQL began, the last one first.
    undo: Vec<Statement>,
    /// Savepoints, each with the number of changes that came before it.
    savepoints: Vec<(String, usize)>,
    /// The statement's place among those who wait for a row, while it does.
    turn: Option<Turn>,
    /// Whether nothing is lost if the branch, or what there is in its place, is given up that tries to have a row.
    is_fresh: bool,
    /// What the store wasn't asked, since others wait for its row, for the record.
    unasked: Option<Vec<u8>>,
    /// The identifier of the client's branch that was rolled back.
    rolled_back: Option<Vec<u8>>,
}

impl Guest {
    pub fn new(store: Arc<Store>, connection: Arc<Connection>) -> Guest {
        Guest {
            store,
            connection,
            lent: None,
            place: 0,
            state: State::Free,
            autocommit: true,
            is_read_only: false,
            next: None,
            variables: Arc::default(),
            last_number: 0,
            access: None,
            has_begun: false,
            own: None,
            names: None,
            named: 0,
            undo: Vec::new(),
            savepoints: Vec::new(),
            turn: None,
            is_fresh: false,
            unasked: None,
            rolled_back: None,
        }
    }

    /// The flags of an answer that is given now.
    pub fn status(&self) -> u16 {
        let autocommit = if self.autocommit { status::AUTOCOMMIT } else { status::NONE };
        let is_within = matches!(self.state, State::Active | State::Idle) || self.is_local();
        autocommit | if is_within { status::IN_TRANSACTION } else { status::NONE }
    }

    fn is_local(&self) -> bool {
        self.has_begun || self.own.is_some()
    }

    fn is_free(&self) -> bool {
        self.state == State::Free && !self.is_local()
    }

    /// A transaction begins, and has the access that was asked for: of itself, of the next one, or of all.
    fn set_access(&mut self, asked: Option<bool>) {
        let next = self.next.take();
        self.access = asked.or(next).or(Some(self.is_read_only));
    }

    // the store

    /// A session: the one that the client has, or one that is free soon enough. The refusal where all are lent.
    fn borrow(&mut self, need: Need) -> Result<Result<Lent, Refusal>, End> {
        if let Some(lent) = self.lent.take() {
            return Ok(Ok(lent));
        }
        match self.store.pool.take(self.place, self.store.wait, need) {
            Ok(Some(lent)) => {
                self.place = lent.place;
                Ok(Ok(lent))
            }
            Ok(None) if self.store.stop.is_over() => Err(End::Over),
            Ok(None) => Ok(Err(self.crowded())),
            Err(fault) => Ok(Err(refusal_with(1037, fault.to_string()))),
        }
    }

    fn crowded(&self) -> Refusal {
        let size = self.store.pool.size();
        let busy = format!(
            "Too many connections: each of the store's {} sessions has a branch that isn't prepared, \
             or answers a statement (SHOW NIGBARU STATUS lists them)",
            size
        );
        // (--wait 0 says that nothing waits)
        let wait = self.store.wait;
        refusal_with(
            1040,
            if wait.is_zero() {
                format!("{} (--wait 0)", busy)
            } else {
                format!("{}, and none was free for {} s (--wait)", busy, wait.as_secs_f64())
            },
        )
    }

    /// Asks the store for a statement of the client's, and answers. The refusal of a row names who holds it.
    fn ask_for(&mut self, it: &Statement) -> Result<Answer, End> {
        match self.ask(&it.text, it.asked(), Some(it.kind), it.shape)? {
            Answer::Refused(Refusal { number: 3572, .. }) => {
                Ok(crate::status::locked(&self.store, &self.connection, it).into())
            }
            answer => Ok(answer),
        }
    }

    /// Asks the store for a statement of the server's own, about its branch.
    fn ask_own(&mut self, verb: &str, asked: Asked, xid: &Xid, clause: &str) -> Result<Answer, End> {
        let kind = Some(Kind::Start).filter(|_| matches!(asked, Asked::Start(_)));
        let text = self.store.record.as_ref().map(|_| [verb.as_bytes(), &canonical(xid), clause.as_bytes()].concat());
        self.ask(&text.unwrap_or_default(), asked, kind, Shape::Raw)
    }

    /// Asks the store, and answers. The record has the statement's canonical text. A session that is borrowed is kept
    /// until `settle`.
    fn ask(&mut self, text: &[u8], asked: Asked, kind: Option<Kind>, shape: Shape) -> Result<Answer, End> {
        let need = if kind == Some(Kind::Start) { Need::Branch } else { Need::Statement };
        let mut lent = match self.borrow(need)? {
            Ok(lent) => lent,
            Err(refused) => return Ok(refused.into()),
        };
        self.unasked = None;
        let state =
            if kind == Some(Kind::OnePhase) && self.state == State::Free { "PREPARED" } else { self.state.name() };
        let reply = match self.hold_history(kind) {
            Err(fault) => Err(fault),
            Ok(()) => match &self.store.record {
                None => lent.ask(asked),
                Some(record) => record.ask(&mut lent, self.store.follower.as_ref(), text, asked, state),
            },
        };
        self.lent = Some(lent);
        if self.store.stop.is_over() && self.store.stop.why().is_some() {
            return Err(End::Over);
        }
        self.answer(reply, kind, shape, state)
    }

    /// Waits until what is logged and isn't kept yet is little enough for one statement more.
    fn hold_history(&self, kind: Option<Kind>) -> Result<(), Error> {
        let follower = match &self.store.follower {
            Some(follower) if kind != Some(Kind::Recover) => follower,
            _ => return Ok(()),
        };
        follower.before_a_call().map_err(|lost| {
            self.store.fail(lost);
            Error::NoMemory
        })
    }

    fn answer(
        &self,
        reply: Result<Reply, Error>,
        kind: Option<Kind>,
        shape: Shape,
        state: &str,
    ) -> Result<Answer, End> {
        let is_change = matches!(kind, Some(Kind::Put | Kind::Del));
        match reply {
            Ok(Reply::Ok) => Ok(Answer::Ok(u64::from(is_change))),
            Ok(Reply::Value(value)) => Ok(Answer::Value(Some(value))),
            Ok(Reply::NoRow) => Ok(Answer::Value(None)),
            Ok(Reply::List(xids)) => Ok(answers::branches(&xids, shape)),
            Err(Error::Refused(1399)) => Ok(wrong_state(state).into()),
            Err(Error::Refused(number)) => Ok(refusal(number as u16).into()),
            Err(Error::NoMemory) => Ok(refusal(1037).into()),
            Err(fault) => Err(End::Wrong(format!("the store says what it never says: {}", fault))),
        }
    }

    /// Rolls back what is open in the session. Without memory the branch would stay, and whoever has the session next
    /// would be in it, so that is tried again, and a session that can't be cleared is never lent again.
    fn disconnect(&mut self) -> Result<Answer, End> {
        let mut answer = self.ask(b"DISCONNECT", Asked::Disconnect, None, Shape::Raw)?;
        for _ in 0..TRIES {
            if answer.is_ok() {
                return Ok(answer);
            }
            std::thread::sleep(BREATH);
            answer = self.ask(b"DISCONNECT", Asked::Disconnect, None, Shape::Raw)?;
        }
        if !answer.is_ok() {
            self.store.log(self.connection.number, "its branch can't be rolled back, and its session is lost");
            std::mem::forget(self.lent.take());
        }
        Ok(answer)
    }

    /// Gives the session back where no branch needs it.
    fn settle(&mut self) {
        if self.is_free() {
            self.access = None;
        }
        self.turn = None;
        self.end_call();
        if !matches!(self.state, State::Active | State::Idle) && self.own.is_none() {
            self.give_back();
        }
    }

    // statements of the store

    /// A statement of the grammar, answered by the store, but for what a local transaction refuses.
    pub fn statement(&mut self, it: &Statement) -> Result<Answer, End> {
        let answer = if it.kind == Kind::Recover {
            self.ask_for(it)
        } else if self.state == State::RollbackOnly {
            Ok(self.answer_rolled_back(it))
        } else if it.kind.is_row() {
            self.row(it)
        } else if let Some(refused) = self.is_outside(it) {
            Ok(refused.into())
        } else {
            self.branch(it)
        };
        self.settle();
        answer
    }

    /// The refusal of a statement of XA, but RECOVER, by a local transaction, also by one that would begin here with
    /// autocommit off. Then a branch may still be ended that this connection has prepared: it is the client's own.
    fn is_outside(&self, it: &Statement) -> Option<Refusal> {
        let is_end = matches!(it.kind, Kind::Commit | Kind::OnePhase | Kind::Rollback);
        if self.is_local() {
            return Some(match it.kind {
                _ if it.is_unsupported() => refusal(1398),
                Kind::End | Kind::Prepare => wrong_state(State::Free.name()),
                _ => refusal(1400),
            });
        }
        let own = |known: &Prepared| known.connection == self.connection.number;
        if self.autocommit || self.state != State::Free || !is_end {
            return None;
        }
        let is_own = lock(&self.store.prepared).get(it.subject()).map_or(false, own);
        let why =
            "XAER_OUTSIDE autocommit is off: SET autocommit=1, or end the branch in the connection that prepared it";
        Some(refusal_with(1400, why.to_string())).filter(|_| !is_own)
    }

    fn row(&mut self, it: &Statement) -> Result<Answer, End> {
        if self.access.is_none() {
            self.set_access(None);
        }
        // (an IDLE branch takes no rows anyhow, and the store says so)
        if self.access == Some(true) && it.kind != Kind::Get && self.state != State::Idle {
            return Ok(refusal(1792).into());
        }
        match self.begin_own()? {
            Some(refused) => Ok(refused),
            None => self.wait_for_row(it),
        }
    }

    /// Whether what undoes a statement for a row is to be kept: behind a savepoint that of a PUT or DEL.
    fn keeps_undo(&self, it: &Statement) -> bool {
        !self.savepoints.is_empty() && it.kind != Kind::Get && self.is_within()
    }

    fn ask_for_row(&mut self, it: &Statement) -> Result<Answer, End> {
        let answer = self.ask_for(it)?;
        if self.is_within() && !matches!(answer, Answer::Refused(_)) {
            self.has_row(it.subject(), it.kind != Kind::Get);
        }
        Ok(answer)
    }

    /// XA but RECOVER.
    fn branch(&mut self, it: &Statement) -> Result<Answer, End> {
        if it.kind == Kind::Start && lock(&self.store.rolled_back).contains(it.subject()) {
            return Ok(refusal(1440).into());
        }
        if it.kind == Kind::Prepare && self.state == State::Idle {
            self.tell_prepared(it);
        }
        let answer = self.ask_for(it)?;
        if let Kind::Commit | Kind::Rollback = it.kind {
            if answer.is_ok() && self.state == State::Free {
                let known = lock(&self.store.prepared).remove(it.subject());
                known.iter().for_each(|known| self.store.waits.call(&known.rows, &self.connection));
            }
        }
        if answer.is_ok() {
            if it.kind == Kind::Prepare {
                // (whoever ends the branch calls those who wait for them)
                lock(&self.connection.look).rows.clear();
            }
            self.follow(it);
        }
        Ok(answer)
    }

    /// Tells who watches of the branch before it is prepared, since from then on any connection may end it, and then
    /// takes it off the list.
    fn tell_prepared(&self, it: &Statement) {
        let look = lock(&self.connection.look);
        if look.branch.as_ref().map_or(false, |(xid, _)| xid == it.subject()) {
            let known = Prepared { connection: self.connection.number, since: Instant::now(), rows: look.rows.clone() };
            lock(&self.store.prepared).insert(it.subject().to_vec(), known);
        }
    }

    /// What the client's branch is after a statement that the store has carried out.
    fn follow(&mut self, it: &Statement) {
        self.state = match it.kind {
            Kind::Start => State::Active,
            Kind::End => State::Idle,
            _ => State::Free,
        };
        if it.kind == Kind::Start {
            self.set_access(None);
        }
        if it.kind != Kind::End {
            self.forget_savepoints();
        }
        if self.state != State::Free {
            self.show(it.subject(), self.state.name(), it.kind == Kind::Start);
        }
    }

    /// Lets who watches see the branch.
    fn show(&self, xid: &[u8], state: &'static str, is_new: bool) {
        let mut look = lock(&self.connection.look);
        look.session = self.lent.as_ref().map(|it| it.number);
        look.branch = Some((xid.to_vec(), state));
        if is_new {
            look.since = Instant::now();
        }
    }

    // local transactions

    /// Starts the local transaction's branch where the next row statement belongs to one. The store's refusal, if it
    /// gives one.
    fn begin_own(&mut self) -> Result<Option<Answer>, End> {
        if self.state != State::Free || self.own.is_some() || self.autocommit && !self.has_begun {
            return Ok(None);
        }
        self.start_own(Need::Branch)
    }

    /// An identifier of a branch of the server's own.
    fn next_name(&mut self) -> Result<Xid, End> {
        let random = match self.names {
            Some(random) => random,
            None => login::scramble().map_err(|fault| End::Wrong(format!("no random name: {}", fault)))?,
        };
        self.names = Some(random);
        self.named += 1;
        let gtrid = [&b"local "[..], &random, &self.named.to_be_bytes()].concat();
        Ok(Xid { format_id: 1, gtrid, bqual: Vec::new() })
    }

    /// Starts a branch of the server's own. The store's refusal, if it gives one.
    fn start_own(&mut self, need: Need) -> Result<Option<Answer>, End> {
        match self.borrow(need)? {
            Ok(lent) => self.lent = Some(lent),
            Err(refused) => return Ok(Some(refused.into())),
        }
        let own = self.next_name()?;
        let answer = self.ask_own("XA START ", Asked::Start(&own), &own, "")?;
        if let Answer::Refused(_) = answer {
            return Ok(Some(answer));
        }
        self.show(&canonical(&own), "LOCAL", true);
        self.own = Some(own);
        Ok(None)
    }

    /// Commits the local transaction, if there is one. Where that is refused, it is rolled back.
    pub fn commit(&mut self) -> Result<Answer, End> {
        self.has_begun = false;
        self.forget_savepoints();
        let own = match self.own.take() {
            Some(own) => own,
            None => return Ok(OK),
        };
        let mut answer = self.ask_own("XA END ", Asked::End(&own), &own, "")?;
        if answer.is_ok() {
            answer = self.ask_own("XA COMMIT ", Asked::CommitOnePhase(&own), &own, " ONE PHASE")?;
        }
        if !answer.is_ok() {
            self.disconnect()?;
        }
        Ok(answer)
    }

    /// Rolls the local transaction back: no more of the session's is open than its branch.
    pub fn roll_back(&mut self) -> Result<Answer, End> {
        self.has_begun = false;
        self.forget_savepoints();
        match self.own.take() {
            Some(_) => self.disconnect(),
            None => Ok(OK),
        }
    }

    /// Begins a local transaction, and commits the one before it.
    fn begin(&mut self, asked: Option<bool>) -> Result<Answer, End> {
        let answer = self.commit()?;
        if answer.is_ok() {
            self.has_begun = true;
            self.set_access(asked);
        }
        Ok(answer)
    }

    fn set(&mut self, settings: Settings) -> Result<Answer, End> {
        if settings.next.is_some() && !self.is_free() {
            return Ok(refusal(1568).into());
        }
        let mut variables = Arc::clone(&self.variables);
        for change in &settings.changes {
            let variables = Arc::make_mut(&mut variables);
            let done = match change {
                Change::Variable(name, value) => variables.set(name, value.as_ref()),
                Change::User(name, value) => variables.set_user(name, value.clone()),
                Change::Names(charset, collation) => variables.set_names(charset, collation.as_deref()),
            };
            if let Err(refused) = done {
                return Ok(refused.into());
            }
        }
        let answer = match settings.autocommit {
            Some(value) => self.set_autocommit(value)?,
            None => OK,
        };
        if answer.is_ok() {
            self.variables = variables;
            self.next = settings.next.or(self.next);
            self.is_read_only = settings.usual.unwrap_or(self.is_read_only);
        }
        Ok(answer)
    }

    /// Switches autocommit; on commits what is open, which a branch of the client's own forbids.
    fn set_autocommit(&mut self, value: bool) -> Result<Answer, End> {
        let is_switched_on = value && !self.autocommit;
        if is_switched_on && self.state != State::Free {
            return Ok(wrong_state(self.state.name()).into());
        }
        let answer = if is_switched_on { self.commit()? } else { OK };
        self.autocommit = value;
        Ok(answer)
    }

    // SQL

    /// A statement of SQL that reads or writes rows begins: in the client's branch or local transaction, or in none.
    /// The refusal where it can't.
    pub fn begin_sql(&mut self) -> Result<Option<Answer>, End> {
        if self.access.is_none() {
            self.set_access(None);
        }
        self.begin_own()
    }

    /// A branch for one statement. The store's refusal, if it gives one.
    pub fn begin_alone(&mut self) -> Result<Option<Answer>, End> {
        self.start_own(Need::Statement)
    }

    /// A statement of SQL that belongs to no transaction begins: what is open is committed, unless it is a branch of
    /// the client's own.
    pub fn begin_definition(&mut self) -> Result<Option<Answer>, End> {
        if self.state != State::Free {
            return Ok(Some(wrong_state(self.state.name()).into()));
        }
        if self.is_read_only {
            return Ok(Some(sql::reads_alone().into()));
        }
        let answer = self.commit()?;
        Ok(if answer.is_ok() { None } else { Some(answer) })
    }

    /// A statement of SQL has ended.
    pub fn end_sql(&mut self) {
        if self.savepoints.is_empty() {
            self.undo.clear();
        }
        self.settle();
    }

    /// Whether rows are read and written in a branch now.
    pub fn is_within(&self) -> bool {
        self.state == State::Active || self.own.is_some()
    }

    /// Whether the branch is to read alone.
    pub fn reads_alone(&self) -> bool {
        self.access == Some(true)
    }

    pub fn store(&self) -> Arc<Store> {
        Arc::clone(&self.store)
    }

    /// How many entries of the history come before the last answer; none where no session is held.
    pub fn entries(&self) -> Option<u64> {
        self.lent.as_ref().map(Lent::entries)
    }

    /// Reads a row. Within a branch it passes nobody who waits for it.
    pub fn get(&mut self, key: &[u8]) -> Result<Answer, End> {
        self.ask_in_turn(&statements::of_row(Kind::Get, key, b""))
    }

    fn ask_in_turn(&mut self, it: &Statement) -> Result<Answer, End> {
        if self.is_within() && self.would_pass(it) {
            return Ok(self.leave_unasked(it));
        }
        self.ask_for_row(it)
    }

    /// Whether the branch holds a row exclusively.
    pub fn holds(&self, key: &[u8]) -> bool {
        let mut subject = Vec::new();
        write_literal(&mut subject, key);
        lock(&self.connection.look).rows.get(&subject) == Some(&true)
    }

    /// Writes a row in a branch, or deletes it, and keeps what undoes that: the value that it has now.
    pub fn change(&mut self, key: &[u8], old: Option<&[u8]>, new: Option<&[u8]>) -> Result<Answer, End> {
        let row = |value: Option<&[u8]>| match value {
            Some(value) => statements::of_row(Kind::Put, key, value),
            None => statements::of_row(Kind::Del, key, b""),
        };
        let answer = self.ask_in_turn(&row(new))?;
        if answer.is_ok() && old != new {
            self.undo.push(row(old));
        }
        Ok(answer)
    }

    /// How many changes can be undone.
    pub fn changes(&self) -> usize {
        self.undo.len()
    }

    /// Undoes all changes but so many. The branch holds their rows, so this isn't refused but for want of memory; then
    /// the connection ends, and its branch with it.
    pub fn undo_to(&mut self, count: usize) -> Result<(), End> {
        while self.undo.len() > count {
            if let Some(it) = self.undo.pop() {
                if !self.ask_for(&it)?.is_ok() {
                    return Err(End::Wrong("a statement can't be undone".to_string()));
                }
            }
        }
        Ok(())
    }

    /// Keeps what undoes a PUT or DEL of the client's: what a GET of its row answers. The refusal if the row is locked.
    fn remember(&mut self, get: &Statement) -> Result<Answer, End> {
        let answer = self.ask_for_row(get)?;
        if let Answer::Value(found) = &answer {
            let key = get.key();
            self.undo.push(match found {
                Some(value) => statements::of_row(Kind::Put, &key, value),
                None => statements::of_row(Kind::Del, &key, b""),
            });
        }
        Ok(answer)
    }

    // savepoints

    fn forget_savepoints(&mut self) {
        self.undo.clear();
        self.savepoints.clear();
    }

    fn savepoint(&self, name: &str) -> Option<usize> {
        self.savepoints.iter().rposition(|(it, _)| it.eq_ignore_ascii_case(name))
    }

    /// Whether savepoints have a meaning: outside of a transaction each is forgotten at once.
    fn has_savepoints(&self) -> bool {
        self.state == State::Active || self.is_local() || !self.autocommit
    }

    /// The refusal of whatever touches rows, where the work of the client's branch has ended.
    pub fn is_idle(&self) -> Option<Answer> {
        let has_ended = matches!(self.state, State::Idle | State::RollbackOnly);
        has_ended.then(|| wrong_state(self.state.name()).into())
    }

    pub fn set_savepoint(&mut self, name: String) -> Answer {
        if self.state == State::Idle {
            return wrong_state(self.state.name()).into();
        }
        if self.has_savepoints() {
            if let Some(index) = self.savepoint(&name) {
                self.savepoints.remove(index);
            }
            self.savepoints.push((name, self.undo.len()));
        }
        OK
    }

    pub fn release_savepoint(&mut self, name: &str) -> Answer {
        match self.savepoint(name) {
            None => no_savepoint(name).into(),
            Some(index) => {
                self.savepoints.truncate(index);
                OK
            }
        }
    }

    /// Undoes what came after a savepoint, which stays. Rows stay locked, as in MySQL.
    pub fn roll_back_to(&mut self, name: &str) -> Result<Answer, End> {
        match (self.savepoint(name), self.is_idle()) {
            (None, _) => Ok(no_savepoint(name).into()),
            (Some(_), Some(refused)) => Ok(refused),
            (Some(index), None) => {
                self.savepoints.truncate(index + 1);
                self.undo_to(self.savepoints[index].1)?;
                Ok(OK)
            }
        }
    }

    // other texts

    pub fn other(&mut self, it: Other) -> Result<Answer, End> {
        let is_transaction = matches!(it, Other::Begin(_) | Other::Commit | Other::RollBack);
        if is_transaction && self.state != State::Free {
            return Ok(wrong_state(self.state.name()).into());
        }
        let answer = match it {
            Other::Begin(asked) => self.begin(asked),
            Other::Commit => self.commit(),
            Other::RollBack => self.roll_back(),
            Other::Set(settings) => self.set(settings),
            Other::Use(_) | Other::Nothing => Ok(OK),
            Other::Refused(it) => Ok(it.into()),
            Other::Kill { connection, is_query } => Ok(self.store.kill(&self.connection, connection, is_query)),
            Other::ShutDown => Ok(self.shut_down()),
            Other::Status => Ok(Answer::Table(table_of(&self.store))),
        };
        self.settle();
        answer
    }

    /// Ends the server, unless anybody may come.
    fn shut_down(&self) -> Answer {
        if !self.store.has_account {
            let text = "Access denied; SHUTDOWN needs an account (--user and --password-file)";
            return refusal_with(1227, text.to_string()).into();
        }
        self.store.stop.end();
        OK
    }

    /// As if the client had just come: its branch is rolled back, unless it is prepared.
    pub fn reset(&mut self) -> Result<Answer, End> {
        self.forget_rolled_back();
        self.state = State::Free;
        self.autocommit = true;
        self.is_read_only = false;
        self.next = None;
        self.variables = Arc::default();
        self.last_number = 0;
        self.own = None;
        self.has_begun = false;
        self.forget_savepoints();
        let answer = if self.lent.is_some() { self.disconnect() } else { Ok(OK) };
        self.settle();
        answer
    }

    /// Writes a refusal into the record that the store didn't give, as the client saw it.
    pub fn record_wrong(&mut self, it: &Statement, wrong: &Refusal) -> Result<(), End> {
        if self.store.record.is_some() {
            if let Ok(lent) = self.borrow(Need::Statement)? {
                if let Some(record) = &self.store.record {
                    record.wrong(lent.number, &it.text, wrong.number, wrong.sqlstate, &wrong.text);
                }
                self.lent = Some(lent);
            }
            self.settle();
        }
        Ok(())
    }
}

impl Drop for Guest {
    /// Ends the client's part: a branch that isn't prepared is rolled back.
    fn drop(&mut self) {
        if self.lent.is_some() {
            let _ = self.reset();
        }
    }
}
