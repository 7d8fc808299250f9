//! What clients saw, as a record for `judge` (docs/HISTORIES.md), and what was logged, as a script for `run`.
use crate::answers::digits;
use crate::follower::{Follower, Keeper};
use crate::mirror::Mirror;
use crate::pool::Lent;
use crate::statements::write_literal;
use crate::stop::Stop;
use nigbaru::{Error, Reply, Statement};
use std::collections::BTreeMap;
use std::fs::{self, File};
use std::io::{self, BufWriter, Write};
use std::path::{Path, PathBuf};
use std::sync::atomic::{AtomicBool, Ordering};
use std::sync::{Arc, Mutex, MutexGuard, RwLock, RwLockReadGuard};

/// How a record goes on in pieces.
struct Pieces {
    /// How many bytes a piece has before the next one begins.
    size: u64,
    mirror: Arc<Mutex<Mirror>>,
}

/// The file that is written, as which piece of the record, how many bytes it has, and the call that each session has
/// open in it.
struct Piece {
    file: File,
    number: u64,
    length: u64,
    open: BTreeMap<u64, Call>,
}

/// A call that is open, and whether the store was asked since it is and has refused the row. Then its statement may
/// wait, and the store is asked again in the same call.
struct Call {
    text: Vec<u8>,
    is_refused: bool,
}

impl Piece {
    fn create(path: &Path, number: u64) -> io::Result<Piece> {
        Ok(Piece { file: File::create(path)?, number, length: 0, open: BTreeMap::new() })
    }
}

/// Calls and returns in the order in which they happened: each is written under the lock, a call before the store is
/// asked, a return after it has answered. So two calls overlap in the record if and only if they did, as the threads
/// saw it. The refusal of a row is returned when its statement asks no more for it.
pub struct Record {
    path: PathBuf,
    piece: Mutex<Piece>,
    pieces: Option<Pieces>,
    is_full: AtomicBool,
    /// Shared by all who write or ask the store, and taken alone to begin a piece: the calls that are open then are of
    /// statements that wait.
    gate: RwLock<()>,
    stop: Arc<Stop>,
    store: usize,
}

/// A path with something behind it.
fn behind(path: &Path, more: &str) -> PathBuf {
    let mut name = path.as_os_str().to_os_string();
    name.push(more);
    PathBuf::from(name)
}

/// The refusal of a row.
const HELD: u32 = 3572;

fn locked<T>(mutex: &Mutex<T>) -> MutexGuard<'_, T> {
    mutex.lock().unwrap_or_else(|poisoned| poisoned.into_inner())
}

impl Record {
    /// Begins a record. With a size it goes on in pieces; those of an earlier record aren't written over, since the
    /// last ones would be left among the new.
    pub fn create(path: &Path, size: Option<u64>, store: usize, stop: Arc<Stop>) -> io::Result<Record> {
        let first = behind(path, ".1");
        if size.is_some() && first.exists() {
            let why = format!("{} is there already: move the pieces of the earlier record away", first.display());
            return Err(io::Error::new(io::ErrorKind::AlreadyExists, why));
        }
        Ok(Record {
            path: path.to_path_buf(),
            piece: Mutex::new(Piece::create(path, 0)?),
            pieces: size.map(|size| Pieces { size, mirror: Arc::default() }),
            is_full: AtomicBool::new(false),
            gate: RwLock::new(()),
            stop,
            store,
        })
    }

    /// Who has to be given the store's entries, if the record goes on in pieces.
    pub fn keeper(&self) -> Option<Keeper> {
        let mirror = Arc::clone(&self.pieces.as_ref()?.mirror);
        Some(Box::new(move |session, text| locked(&mirror).apply(session, text)))
    }

    /// Asks the store, and writes call and return with the statement's canonical text. A refusal of the row stays open
    /// for who asks the same again, until `end`.
    pub fn ask(
        &self,
        session: &mut Lent,
        follower: Option<&Follower>,
        text: &[u8],
        asked: Statement,
        state: &str,
    ) -> Result<Reply, Error> {
        if self.is_full.load(Ordering::Relaxed) {
            self.go_on(follower);
        }
        let _open = self.gate();
        self.call(&mut locked(&self.piece), session.number, text);
        let reply = session.ask(asked);
        self.replied(&mut locked(&self.piece), session.number, &reply, state);
        reply
    }

    /// A statement waits to ask the store, since others wait for its row: its call is open from now on.
    pub fn wait(&self, session: u64, text: &[u8]) {
        let _open = self.gate();
        self.call(&mut locked(&self.piece), session, text);
    }

    /// A statement asks no more for its row: its call is returned, if it is open.
    pub fn end(&self, session: u64) {
        let _open = self.gate();
        self.end_in(&mut locked(&self.piece), session);
    }

    fn gate(&self) -> RwLockReadGuard<'_, ()> {
        self.gate.read().unwrap_or_else(|poisoned| poisoned.into_inner())
    }

    /// Begins the next piece, unless somebody else has: its state is what all entries of the history until now lead to.
    fn go_on(&self, follower: Option<&Follower>) {
        let _alone = self.gate.write().unwrap_or_else(|poisoned| poisoned.into_inner());
        let (pieces, follower) = match (&self.pieces, follower) {
            (Some(pieces), Some(follower)) if self.is_full.load(Ordering::Relaxed) => (pieces, follower),
            _ => return,
        };
        // (where something is lost, the server ends)
        if follower.hand_over().is_ok() {
            let state = locked(&pieces.mirror).text();
            if let Err(fault) = self.begin_piece(&state) {
                self.fail(&fault);
            }
        }
    }

    /// Calls of statements that wait are returned first: those are new calls when they ask again.
    fn begin_piece(&self, state: &[u8]) -> io::Result<()> {
        let mut piece = locked(&self.piece);
        let waiting: Vec<u64> = piece.open.keys().copied().collect();
        waiting.into_iter().for_each(|session| self.end_in(&mut piece, session));
        let number = piece.number + 1;
        let path = behind(&self.path, &format!(".{}", number));
        fs::write(behind(&path, ".state"), state)?;
        *piece = Piece::create(&path, number)?;
        self.is_full.store(false, Ordering::Relaxed);
        Ok(())
    }

    /// Writes a call, unless it is open.
    fn call(&self, piece: &mut Piece, session: u64, text: &[u8]) {
        if piece.open.get(&session).map_or(false, |it| it.text == text) {
            return;
        }
        self.end_in(piece, session);
        self.write(piece, &[session.to_string().as_bytes(), b" > ", text, b"\n"].concat());
        piece.open.insert(session, Call { text: text.to_vec(), is_refused: false });
    }

    fn replied(&self, piece: &mut Piece, session: u64, reply: &Result<Reply, Error>, state: &str) {
        if let (Err(Error::Refused(HELD)), Some(call)) = (reply, piece.open.get_mut(&session)) {
            call.is_refused = true;
            return;
        }
        let mut text = session.to_string().into_bytes();
        write_reply(&mut text, reply, state);
        piece.open.remove(&session);
        self.write(piece, &text);
    }

    /// Returns a call that is open with what the store has said of it: the row's refusal, or nothing if it wasn't
    /// asked.
    fn end_in(&self, piece: &mut Piece, session: u64) {
        if let Some(call) = piece.open.remove(&session) {
            let said = if call.is_refused { format!("< ERROR {}", HELD) } else { "? ERROR it had no turn".to_string() };
            self.write(piece, format!("{} {}\n", session, said).as_bytes());
        }
    }

    /// An answer that the store didn't give.
    pub fn wrong(&self, session: u64, text: &[u8], number: u16, sqlstate: &str, why: &str) {
        let mut piece = locked(&self.piece);
        self.call(&mut piece, session, text);
        piece.open.remove(&session);
        self.write(&mut piece, format!("{} < ERROR {} ({}): {}\n", session, number, sqlstate, why).as_bytes());
    }

    /// A comment.
    pub fn note(&self, text: &str) {
        self.write(&mut locked(&self.piece), format!("# {}\n", text).as_bytes());
    }

    fn write(&self, piece: &mut Piece, text: &[u8]) {
        if let Err(fault) = piece.file.write_all(text) {
            self.fail(&fault);
        }
        piece.length += text.len() as u64;
        if self.pieces.as_ref().map_or(false, |it| piece.length >= it.size) {
            self.is_full.store(true, Ordering::Relaxed);
        }
    }

    fn fail(&self, fault: &io::Error) {
        self.stop.fail(format!("store {}'s record can't be written: {}", self.store, fault));
    }
}

fn write_reply(to: &mut Vec<u8>, reply: &Result<Reply, Error>, state: &str) {
    match reply {
        Ok(Reply::Ok) => to.extend(b" < OK"),
        Ok(Reply::NoRow) => to.extend(b" < NONE"),
        Ok(Reply::Value(value)) => {
            to.extend(b" < VALUE ");
            write_literal(to, value);
        }
        Ok(Reply::List(xids)) => {
            to.extend(format!(" < ROWS {}", xids.len()).as_bytes());
            for xid in xids {
                to.extend(format!("\n{} {} {} ", xid.format_id, xid.gtrid.len(), xid.bqual.len()).as_bytes());
                to.extend(digits(&[&xid.gtrid[..], &xid.bqual[..]].concat()));
            }
        }
        Err(Error::Refused(1399)) => {
            to.extend(format!(" < ERROR 1399 (XAE07): XAER_RMFAIL state {}", state).as_bytes())
        }
        Err(Error::Refused(number)) => to.extend(format!(" < ERROR {}", number).as_bytes()),
        // Nothing of the statement is in the store then, and no refusal of the rules says so.
        Err(other) => to.extend(format!(" ? ERROR {}", other).as_bytes()),
    }
    to.push(b'\n');
}

/// A file that what was logged is written to, in the order of the store's one history.
#[derive(Clone)]
pub struct History {
    file: Arc<Mutex<BufWriter<File>>>,
    stop: Arc<Stop>,
    store: usize,
}

impl History {
    pub fn create(path: &Path, store: usize, stop: Arc<Stop>) -> io::Result<History> {
        Ok(History { file: Arc::new(Mutex::new(BufWriter::new(File::create(path)?))), stop, store })
    }

    /// Who is given the store's entries.
    pub fn keeper(&self) -> Keeper {
        let history = self.clone();
        Box::new(move |session, text| {
            history.with(|file| file.write_all(&[session.to_string().as_bytes(), b" ", text, b"\n"].concat()))
        })
    }

    pub fn flush(&self) {
        self.with(|file| file.flush());
    }

    fn with(&self, write: impl FnOnce(&mut BufWriter<File>) -> io::Result<()>) {
        let mut file = locked(&self.file);
        if let Err(fault) = write(&mut file) {
            self.stop.fail(format!("store {}'s history can't be written: {}", self.store, fault));
        }
    }
}

#[cfg(test)]
mod tests {
    use super::*;
    use nigbaru::Xid;

    #[test]
    fn replies_as_lines() {
        let line = |reply: Result<Reply, Error>| {
            let mut text = b"3".to_vec();
            write_reply(&mut text, &reply, "IDLE");
            String::from_utf8(text).unwrap()
        };
        assert_eq!(line(Ok(Reply::Ok)), "3 < OK\n");
        assert_eq!(line(Ok(Reply::NoRow)), "3 < NONE\n");
        assert_eq!(line(Ok(Reply::Value(vec![]))), "3 < VALUE X''\n");
        assert_eq!(line(Ok(Reply::Value(b"v".to_vec()))), "3 < VALUE 0x76\n");
        let xids = vec![
            Xid { format_id: 7, gtrid: b"a\n".to_vec(), bqual: b"b".to_vec() },
            Xid { format_id: 1, gtrid: vec![], bqual: vec![] },
        ];
        assert_eq!(line(Ok(Reply::List(xids))), "3 < ROWS 2\n7 2 1 0x610a62\n1 0 0 0x\n");
        assert_eq!(line(Err(Error::Refused(1399))), "3 < ERROR 1399 (XAE07): XAER_RMFAIL state IDLE\n");
        assert_eq!(line(Err(Error::NoMemory)), "3 ? ERROR out of memory\n");
    }
}
