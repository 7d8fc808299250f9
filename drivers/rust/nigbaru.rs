//! A verified XA row store, called from plain Rust over its C interface (crates/nigbaru_c/include/nigbaru.h).
//!
//! A [`Store`] may be shared by threads; each [`Session`] is one thread's at a time, and may be sent to another. The
//! library takes no lock, but a session that is behind may try for as long as a stopped thread has what it needs:
//! docs/EMBEDDING.md#threads. What a statement is, and what it is answered: docs/STATEMENTS.md. The
//! library is proved, this file is tested.
use std::cell::UnsafeCell;
use std::ffi::c_void;
use std::fmt;
use std::os::raw::c_char;
use std::ptr;
use std::sync::atomic::{AtomicU8, Ordering};
use std::sync::Arc;

/// The handle of a store or of a session.
#[repr(C)]
struct Handle {
    at: *mut c_void,
}

impl Handle {
    const EMPTY: Handle = Handle { at: ptr::null_mut() };
}

// A handle is passed by `&mut` alone, and no call keeps anything of the thread that makes it.
unsafe impl Send for Handle {}

#[repr(C)]
struct RawAnswer {
    place: u64,
    length: u64,
    count: u64,
    error: u32,
    value: [u8; 64],
}

impl RawAnswer {
    const NONE: RawAnswer = RawAnswer { place: 0, length: 0, count: 0, error: 0, value: [0; 64] };
}

#[repr(C)]
#[derive(Clone)]
struct RawXid {
    format_id: i64,
    gtrid_length: i64,
    bqual_length: i64,
    data: [c_char; 128],
}

impl RawXid {
    const NONE: RawXid = RawXid { format_id: 0, gtrid_length: 0, bqual_length: 0, data: [0; 128] };

    /// What is too long is cut off; the library refuses its length.
    fn of(xid: &Xid) -> RawXid {
        let (gtrid_length, bqual_length) = (xid.gtrid.len() as i64, xid.bqual.len() as i64);
        let mut raw = RawXid { format_id: xid.format_id, gtrid_length, bqual_length, ..RawXid::NONE };
        for (to, from) in raw.data.iter_mut().zip(xid.gtrid.iter().chain(&xid.bqual)) {
            *to = *from as c_char;
        }
        raw
    }
}

/// How long the text of an entry is at most.
const LONGEST_TEXT: usize = 304;

#[repr(C)]
struct RawEntry {
    number: u64,
    length: u64,
    lost: u64,
    text: [u8; LONGEST_TEXT],
}

extern "C" {
    fn nigbaru_raw_open(rows: u64, sessions: u64, store: *mut Handle) -> u32;
    fn nigbaru_raw_take(store: *mut Handle, number: u64, session: *mut Handle) -> u32;
    fn nigbaru_raw_attempt(
        session: *mut Handle,
        text: *const u8,
        length: usize,
        answer: *mut RawAnswer,
        xids: *mut RawXid,
        room: usize,
    ) -> u32;
    fn nigbaru_raw_start(session: *mut Handle, xid: *const RawXid, answer: *mut RawAnswer) -> u32;
    fn nigbaru_raw_end(session: *mut Handle, xid: *const RawXid, answer: *mut RawAnswer) -> u32;
    fn nigbaru_raw_prepare(session: *mut Handle, xid: *const RawXid, answer: *mut RawAnswer) -> u32;
    fn nigbaru_raw_commit(session: *mut Handle, xid: *const RawXid, one_phase: bool, answer: *mut RawAnswer) -> u32;
    fn nigbaru_raw_rollback(session: *mut Handle, xid: *const RawXid, answer: *mut RawAnswer) -> u32;
    fn nigbaru_raw_recover(session: *mut Handle, answer: *mut RawAnswer, xids: *mut RawXid, room: usize) -> u32;
    fn nigbaru_raw_get(session: *mut Handle, key: *const u8, key_length: usize, answer: *mut RawAnswer) -> u32;
    fn nigbaru_raw_put(
        session: *mut Handle,
        key: *const u8,
        key_length: usize,
        value: *const u8,
        value_length: usize,
        answer: *mut RawAnswer,
    ) -> u32;
    fn nigbaru_raw_del(session: *mut Handle, key: *const u8, key_length: usize, answer: *mut RawAnswer) -> u32;
    fn nigbaru_raw_disconnect(session: *mut Handle, answer: *mut RawAnswer) -> u32;
    fn nigbaru_raw_follow(session: *mut Handle, entry: *mut RawEntry) -> u32;
    fn nigbaru_raw_leave(session: *mut Handle) -> u32;
    fn nigbaru_raw_close(store: *mut Handle) -> u32;
}

const OK: u32 = 0;
const VALUE: u32 = 1;
const NONE: u32 = 2;
const LIST: u32 = 3;
const REFUSED: u32 = 4;
const OVERTAKEN: u32 = 5;
const NO_MEMORY: u32 = 7;
const SYNTAX: u32 = 8;
const OUT_OF_RANGE: u32 = 10;
const BEHIND: u32 = 16;

/// The reply to a statement.
#[derive(Clone, Debug, PartialEq, Eq)]
pub enum Reply {
    /// It was carried out.
    Ok,
    /// `GET`: the row's value.
    Value(Vec<u8>),
    /// `GET`: there is no such row.
    NoRow,
    /// `XA RECOVER`: the prepared branches.
    List(Vec<Xid>),
}

/// An identifier of a branch.
#[derive(Clone, Debug, PartialEq, Eq, PartialOrd, Ord, Hash)]
pub struct Xid {
    pub format_id: i64,
    pub gtrid: Vec<u8>,
    pub bqual: Vec<u8>,
}

/// A statement, by its values or as a text.
#[derive(Clone, Copy, Debug, PartialEq, Eq)]
pub enum Statement<'a> {
    /// `XA START`
    Start(&'a Xid),
    /// `XA END`
    End(&'a Xid),
    /// `XA PREPARE`
    Prepare(&'a Xid),
    /// `XA COMMIT`
    Commit(&'a Xid),
    /// `XA COMMIT .. ONE PHASE`
    CommitOnePhase(&'a Xid),
    /// `XA ROLLBACK`
    Rollback(&'a Xid),
    /// `XA RECOVER`
    Recover,
    /// `GET` of this key
    Get(&'a [u8]),
    /// `PUT` of this key and this value
    Put(&'a [u8], &'a [u8]),
    /// `DEL` of this key
    Del(&'a [u8]),
    /// `DISCONNECT`: rolls the session's branch back, unless it is prepared
    Disconnect,
    /// Whatever the text spells
    Text(&'a [u8]),
}

impl Statement<'_> {
    fn xid(&self) -> Option<&Xid> {
        match self {
            Statement::Start(xid) | Statement::End(xid) | Statement::Prepare(xid) => Some(xid),
            Statement::Commit(xid) | Statement::CommitOnePhase(xid) | Statement::Rollback(xid) => Some(xid),
            _ => None,
        }
    }
}

/// Why a call did nothing.
#[derive(Clone, Copy, Debug, PartialEq, Eq)]
pub enum Error {
    /// The server refused the statement, with this number: 1397, 1398, 1399, 1440, or 3572 where the row is locked.
    Refused(u32),
    /// The text spells no statement: at this byte, counted from 0, it goes wrong.
    Syntax(u64),
    /// Rows, sessions, a session's number, a formatID, or the length of a gtrid, bqual, key or value is out of range.
    OutOfRange,
    /// The session is taken, or all are.
    NoSession,
    /// There was no memory. The session goes on, and the call may be made again.
    NoMemory,
    /// [`Session::attempt`]: another session added to the history first.
    Overtaken,
    /// [`Session::attempt`]: others have overwritten entries that the session needs, and no checkpoint brought it to
    /// the end of the history just then.
    Behind,
    /// A status that the call doesn't have.
    Unexpected(u32),
}

impl fmt::Display for Error {
    fn fmt(&self, f: &mut fmt::Formatter<'_>) -> fmt::Result {
        match self {
            Error::Refused(1397) => write!(f, "1397 XAER_NOTA: unknown xid"),
            Error::Refused(1398) => write!(f, "1398 XAER_INVAL: clause not supported"),
            Error::Refused(1399) => write!(f, "1399 XAER_RMFAIL: not in this state"),
            Error::Refused(1440) => write!(f, "1440 XAER_DUPID: xid already exists"),
            Error::Refused(3572) => write!(f, "3572: row locked by another branch"),
            Error::Refused(number) => write!(f, "refused with {}", number),
            Error::Syntax(place) => write!(f, "syntax fault at byte {}", place),
            Error::OutOfRange => write!(f, "out of range"),
            Error::NoSession => write!(f, "the session is taken, or all are"),
            Error::NoMemory => write!(f, "out of memory"),
            Error::Overtaken => write!(f, "overtaken by another session"),
            Error::Behind => write!(f, "behind: entries are overwritten"),
            Error::Unexpected(status) => write!(f, "unexpected status {}", status),
        }
    }
}

impl std::error::Error for Error {}

fn fault(status: u32, answer: &RawAnswer) -> Error {
    match status {
        REFUSED => Error::Refused(answer.error),
        OVERTAKEN => Error::Overtaken,
        NO_MEMORY => Error::NoMemory,
        SYNTAX => Error::Syntax(answer.place),
        OUT_OF_RANGE => Error::OutOfRange,
        BEHIND => Error::Behind,
        other => Error::Unexpected(other),
    }
}

/// What comes next in the history, after what a session has handed out.
#[derive(Clone, Debug, PartialEq, Eq)]
pub enum Next {
    /// The next entry: the number of the session that added it, and the statement in its canonical form.
    Entry { session: u64, text: Vec<u8> },
    /// So many entries were overwritten before they were handed out.
    Lost(u64),
    /// All that the history has was handed out.
    End,
}

/// The states of a place: free; given back by `leave`, maybe with a branch; given back when there was no memory for its
/// DISCONNECT; somebody's.
const FREE: u8 = 0;
const LEFT: u8 = 1;
const UNCLEAN: u8 = 2;
const TAKEN: u8 = 3;

/// How often all places are looked at for a free one, since others move meanwhile.
const ROUNDS: usize = 16;

/// A session of the library, and whose it is. A line of the cache of its own, so that no two threads' places share one.
#[repr(align(128))]
struct Place {
    state: AtomicU8,
    handle: UnsafeCell<Handle>,
}

// Only the `Session` that has brought the state to TAKEN uses the handle, until it brings it to another.
unsafe impl Sync for Place {}

impl Place {
    /// Takes the place, if it is in one of the states, and returns which.
    fn take(&self, states: &[u8]) -> Option<u8> {
        let taken =
            |state: &&u8| self.state.compare_exchange(**state, TAKEN, Ordering::AcqRel, Ordering::Relaxed).is_ok();
        states.iter().find(taken).copied()
    }
}

struct Shared {
    rows: u64,
    places: Vec<Place>,
}

impl Drop for Shared {
    fn drop(&mut self) {
        for place in &mut self.places {
            unsafe { nigbaru_raw_leave(place.handle.get_mut()) };
        }
    }
}

/// A store in memory. A clone is the same store; the memory is freed with the last clone and session.
#[derive(Clone)]
pub struct Store {
    shared: Arc<Shared>,
}

impl Store {
    /// Opens a store without rows: its ring keeps the last `rows` entries of its history, 1 to 65536, and it has 1 to
    /// 16 sessions.
    pub fn open(rows: u64, sessions: u64) -> Result<Store, Error> {
        let (mut store, mut shared) = (Handle::EMPTY, Shared { rows, places: Vec::new() });
        let mut status = unsafe { nigbaru_raw_open(rows, sessions, &mut store) };
        // All sessions are taken at once, since a store's handle has one call at a time. They keep the store, so its
        // own handle is closed.
        for number in 1..=sessions {
            if status != OK {
                break;
            }
            let mut handle = Handle::EMPTY;
            status = unsafe { nigbaru_raw_take(&mut store, number, &mut handle) };
            shared.places.push(Place { state: AtomicU8::new(FREE), handle: UnsafeCell::new(handle) });
        }
        unsafe { nigbaru_raw_close(&mut store) };
        match status {
            OK => Ok(Store { shared: Arc::new(shared) }),
            status => Err(fault(status, &RawAnswer::NONE)),
        }
    }

    /// Takes a session that is free and has no branch, the one with the lowest number.
    pub fn session(&self) -> Result<Session, Error> {
        let places = self.shared.places.len();
        for index in (0..ROUNDS * places).map(|step| step % places) {
            if let Some(state) = self.shared.places[index].take(&[FREE, UNCLEAN]) {
                let mut session = self.session_at(index);
                if state == UNCLEAN {
                    session.disconnect()?;
                }
                return Ok(session);
            }
        }
        Err(Error::NoSession)
    }

    /// Takes the session of a number, from 1 on. It has the branch with which it was [left](Session::leave).
    pub fn take(&self, number: u64) -> Result<Session, Error> {
        if number < 1 || (self.shared.places.len() as u64) < number {
            return Err(Error::OutOfRange);
        }
        let index = (number - 1) as usize;
        self.shared.places[index].take(&[FREE, LEFT, UNCLEAN]).ok_or(Error::NoSession)?;
        Ok(self.session_at(index))
    }

    fn session_at(&self, index: usize) -> Session {
        Session { shared: Arc::clone(&self.shared), index, place: 0, yielded: 0, end: None }
    }
}

/// A session of a store. Dropped, it disconnects: a branch that isn't prepared is rolled back.
pub struct Session {
    shared: Arc<Shared>,
    index: usize,
    /// Of the last answer.
    place: u64,
    /// The place in the history at which it yielded its processor last.
    yielded: u64,
    /// The state in which it leaves its place. None until `leave`: a session that is dropped disconnects.
    end: Option<u8>,
}

impl Session {
    /// Its number, from 1 on.
    pub fn number(&self) -> u64 {
        self.index as u64 + 1
    }

    /// How many entries of the history come before its last answer.
    pub fn place(&self) -> u64 {
        self.place
    }

    fn handle(&mut self) -> *mut Handle {
        self.shared.places[self.index].handle.get()
    }

    /// Gives the session back with its branch, if it has one, for [`Store::take`].
    pub fn leave(mut self) {
        self.end = Some(LEFT);
    }

    /// Sees what other sessions have added, by an `XA RECOVER`. Each statement does so, too. Call this for sessions
    /// that idle, so that they aren't behind later, or before you measure how long a statement takes.
    pub fn catch_up(&mut self) -> Result<(), Error> {
        match self.answer(Statement::Recover, &mut [], true) {
            (LIST, _) => Ok(()),
            (status, answer) => Err(fault(status, &answer)),
        }
    }

    /// Hands out the next entry of the history. Each session hands out each entry once, in order, from the store's
    /// first on, also after it was given back and taken again. If it follows too slowly, entries are overwritten: it
    /// hands out the last three quarters of the ring then.
    pub fn follow(&mut self) -> Next {
        let mut entry = RawEntry { number: 0, length: 0, lost: 0, text: [0; LONGEST_TEXT] };
        match unsafe { nigbaru_raw_follow(self.handle(), &mut entry) } {
            OK => Next::Entry { session: entry.number, text: entry.text[..entry.length as usize].to_vec() },
            BEHIND => Next::Lost(entry.lost),
            _ => Next::End,
        }
    }

    /// Gives a keeper each entry that the history has now and this session hasn't handed out: the number of its
    /// session, and its text. Returns how many entries were lost.
    pub fn hand_over(&mut self, keeper: &mut dyn FnMut(u64, &[u8])) -> u64 {
        let mut lost = 0;
        loop {
            match self.follow() {
                Next::Entry { session, text } => keeper(session, &text),
                Next::Lost(count) => lost += count,
                Next::End => return lost,
            }
        }
    }

    /// Has the statement that a text spells answered, in as many tries as it takes. After an error nothing of it is in
    /// the store.
    pub fn execute(&mut self, text: impl AsRef<[u8]>) -> Result<Reply, Error> {
        self.ask(Statement::Text(text.as_ref()))
    }

    /// Tries once to have it answered.
    pub fn attempt(&mut self, text: impl AsRef<[u8]>) -> Result<Reply, Error> {
        self.ask_once(Statement::Text(text.as_ref()))
    }

    /// Has a statement answered, in as many tries as it takes. After an error nothing of it is in the store.
    pub fn ask(&mut self, statement: Statement) -> Result<Reply, Error> {
        self.reply(statement, true)
    }

    /// Tries once to have it answered.
    pub fn ask_once(&mut self, statement: Statement) -> Result<Reply, Error> {
        self.reply(statement, false)
    }

    fn reply(&mut self, statement: Statement, goes_on: bool) -> Result<Reply, Error> {
        let mut xids = Vec::new();
        loop {
            let (status, answer) = self.answer(statement, &mut xids, goes_on);
            return match status {
                OK => Ok(Reply::Ok),
                VALUE => Ok(Reply::Value(answer.value[..answer.length as usize].to_vec())),
                NONE => Ok(Reply::NoRow),
                LIST if answer.count as usize > xids.len() => {
                    xids = vec![RawXid::NONE; answer.count as usize];
                    continue;
                }
                LIST => Ok(Reply::List(xids[..answer.count as usize].iter().map(xid_of).collect())),
                status => Err(fault(status, &answer)),
            };
        }
    }

    /// The status of the first try; if `goes_on`, the first that is neither `OVERTAKEN` nor `BEHIND`. A session that is
    /// behind needs a checkpoint, which others make: it lets them go on.
    fn answer(&mut self, statement: Statement, xids: &mut [RawXid], goes_on: bool) -> (u32, RawAnswer) {
        let (mut answer, xid) = (RawAnswer::NONE, statement.xid().map_or(RawXid::NONE, RawXid::of));
        loop {
            match call(self.handle(), statement, &xid, &mut answer, xids) {
                OVERTAKEN if goes_on => (),
                BEHIND if goes_on => std::thread::yield_now(),
                status @ OK..=REFUSED => {
                    self.place = answer.place;
                    self.yield_in_time(goes_on);
                    return (status, answer);
                }
                status => return (status, answer),
            }
        }
    }
}

/// Has the library try a statement once; `xid` is its identifier, if it has one.
fn call(session: *mut Handle, statement: Statement, xid: &RawXid, answer: &mut RawAnswer, xids: &mut [RawXid]) -> u32 {
    let (list, room) = (xids.as_mut_ptr(), xids.len());
    unsafe {
        match statement {
            Statement::Start(_) => nigbaru_raw_start(session, xid, answer),
            Statement::End(_) => nigbaru_raw_end(session, xid, answer),
            Statement::Prepare(_) => nigbaru_raw_prepare(session, xid, answer),
            Statement::Commit(_) => nigbaru_raw_commit(session, xid, false, answer),
            Statement::CommitOnePhase(_) => nigbaru_raw_commit(session, xid, true, answer),
            Statement::Rollback(_) => nigbaru_raw_rollback(session, xid, answer),
            Statement::Recover => nigbaru_raw_recover(session, answer, list, room),
            Statement::Get(key) => nigbaru_raw_get(session, key.as_ptr(), key.len(), answer),
            Statement::Put(key, value) => {
                nigbaru_raw_put(session, key.as_ptr(), key.len(), value.as_ptr(), value.len(), answer)
            }
            Statement::Del(key) => nigbaru_raw_del(session, key.as_ptr(), key.len(), answer),
            Statement::Disconnect => nigbaru_raw_disconnect(session, answer),
            Statement::Text(text) => nigbaru_raw_attempt(session, text.as_ptr(), text.len(), answer, list, room),
        }
    }
}

/// Each statement by its values: nothing is spelled or read. Each is answered in as many tries as it takes.
impl Session {
    /// `XA START`
    pub fn start(&mut self, xid: &Xid) -> Result<(), Error> {
        self.ask(Statement::Start(xid)).map(drop)
    }

    /// `XA END`
    pub fn end(&mut self, xid: &Xid) -> Result<(), Error> {
        self.ask(Statement::End(xid)).map(drop)
    }

    /// `XA PREPARE`
    pub fn prepare(&mut self, xid: &Xid) -> Result<(), Error> {
        self.ask(Statement::Prepare(xid)).map(drop)
    }

    /// `XA COMMIT` of a prepared branch
    pub fn commit(&mut self, xid: &Xid) -> Result<(), Error> {
        self.ask(Statement::Commit(xid)).map(drop)
    }

    /// `XA COMMIT .. ONE PHASE`
    pub fn commit_one_phase(&mut self, xid: &Xid) -> Result<(), Error> {
        self.ask(Statement::CommitOnePhase(xid)).map(drop)
    }

    /// `XA ROLLBACK`
    pub fn rollback(&mut self, xid: &Xid) -> Result<(), Error> {
        self.ask(Statement::Rollback(xid)).map(drop)
    }

    /// `XA RECOVER`: the prepared branches
    pub fn recover(&mut self) -> Result<Vec<Xid>, Error> {
        match self.ask(Statement::Recover)? {
            Reply::List(xids) => Ok(xids),
            _ => Err(Error::Unexpected(OK)),
        }
    }

    /// `GET`: the row's value, if there is such a row
    pub fn get(&mut self, key: impl AsRef<[u8]>) -> Result<Option<Vec<u8>>, Error> {
        match self.ask(Statement::Get(key.as_ref()))? {
            Reply::Value(value) => Ok(Some(value)),
            _ => Ok(None),
        }
    }

    /// `PUT`
    pub fn put(&mut self, key: impl AsRef<[u8]>, value: impl AsRef<[u8]>) -> Result<(), Error> {
        self.ask(Statement::Put(key.as_ref(), value.as_ref())).map(drop)
    }

    /// `DEL`
    pub fn del(&mut self, key: impl AsRef<[u8]>) -> Result<(), Error> {
        self.ask(Statement::Del(key.as_ref())).map(drop)
    }

    /// `DISCONNECT`: rolls the session's branch back, unless it is prepared
    pub fn disconnect(&mut self) -> Result<(), Error> {
        self.ask(Statement::Disconnect).map(drop)
    }
}

impl Session {
    /// Yields the processor once for each quarter of the ring by which the history has grown, so that whoever waits
    /// for one gets it before the ring has gone round.
    fn yield_in_time(&mut self, goes_on: bool) {
        if goes_on && self.place >= self.yielded + self.shared.rows / 4 {
            self.yielded = self.place;
            std::thread::yield_now();
        }
    }
}

impl Drop for Session {
    fn drop(&mut self) {
        // Without memory the branch stays until the session is taken again.
        let end = self.end.unwrap_or_else(|| if self.disconnect().is_ok() { FREE } else { UNCLEAN });
        self.shared.places[self.index].state.store(end, Ordering::Release);
    }
}

fn xid_of(raw: &RawXid) -> Xid {
    let bytes: Vec<u8> = raw.data.iter().map(|byte| *byte as u8).collect();
    let (gtrid, bqual) = (raw.gtrid_length as usize, raw.bqual_length as usize);
    Xid { format_id: raw.format_id, gtrid: bytes[..gtrid].to_vec(), bqual: bytes[gtrid..gtrid + bqual].to_vec() }
}
