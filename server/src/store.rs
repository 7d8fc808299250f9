//! A store, and what the server knows of its clients.
use crate::answers::{refusal, refusal_with, Answer, OK};
use crate::channel::Stream;
use crate::faults::{Fault, Faults, Plan, Point};
use crate::follower::{Follower, Keeper, Lost};
use crate::options::{path_of, Options};
use crate::pool::{Pool, SESSIONS};
use crate::record::{History, Record};
use crate::sql::Catalog;
use crate::statements::Kind;
use crate::stop::Stop;
use crate::waits::Waits;
use std::collections::{BTreeMap, BTreeSet, HashMap};
use std::io::Write;
use std::net::Shutdown;
use std::sync::atomic::{AtomicBool, AtomicU64, AtomicUsize, Ordering};
use std::sync::{Arc, Mutex, MutexGuard};
use std::time::{Duration, Instant};

/// Writes a line on the standard error, if anybody reads it.
pub fn say(text: &str) {
    let _ = std::io::stderr().write_all(format!("{}\n", text).as_bytes());
}

pub fn lock<T>(mutex: &Mutex<T>) -> MutexGuard<'_, T> {
    mutex.lock().unwrap_or_else(|poisoned| poisoned.into_inner())
}

/// How long sessions that idle are brought up to date at a time.
const REFRESHES: Duration = Duration::from_millis(1);

/// Which rows a branch holds, and whether exclusively.
pub type Rows = BTreeMap<Vec<u8>, bool>;

/// What a connection is doing, for who watches.
pub struct Look {
    pub session: Option<u64>,
    /// The branch that isn't prepared, and its state.
    pub branch: Option<(Vec<u8>, &'static str)>,
    /// When the branch began.
    pub since: Instant,
    pub rows: Rows,
}

/// What a connection is asked, for who lists them.
pub struct Doing {
    pub user: Vec<u8>,
    pub database: Option<Vec<u8>>,
    /// The text that is answered just now, or its beginning; of the last one where none is.
    text: Vec<u8>,
    is_asked: bool,
    /// When that came, or the last one was answered.
    pub since: Instant,
}

impl Doing {
    pub fn text(&self) -> Option<&[u8]> {
        Some(&self.text[..]).filter(|_| self.is_asked)
    }
}

/// How much of a text is listed.
const LISTED: usize = 1_024;

pub struct Connection {
    pub number: u64,
    /// Where it comes from.
    pub peer: String,
    pub stream: Arc<Stream>,
    pub has_logged_in: AtomicBool,
    pub look: Mutex<Look>,
    pub doing: Mutex<Doing>,
    pub counts: Counts,
}

impl Connection {
    /// A text comes, or none any more.
    pub fn does(&self, text: Option<&[u8]>) {
        let mut doing = lock(&self.doing);
        doing.is_asked = text.is_some();
        if let Some(text) = text {
            doing.text.clear();
            doing.text.extend(&text[..text.len().min(LISTED)]);
        }
        doing.since = Instant::now();
    }
}

/// How many statements of each kind were answered, and how many were refused with each number.
#[derive(Default)]
pub struct Counts {
    kinds: [AtomicU64; KINDS.len()],
    refusals: Mutex<BTreeMap<u16, u64>>,
}

pub const KINDS: [&str; 11] = [
    "XA START",
    "XA END",
    "XA PREPARE",
    "XA COMMIT",
    "ONE PHASE",
    "XA ROLLBACK",
    "XA RECOVER",
    "GET",
    "PUT",
    "DEL",
    "OTHER",
];

impl Counts {
    /// Counts a statement; none is one of the others.
    pub fn count(&self, kind: Option<Kind>) {
        self.kinds[kind.map_or(KINDS.len() - 1, |it| it as usize)].fetch_add(1, Ordering::Relaxed);
    }

    pub fn count_refusal(&self, number: u16) {
        *lock(&self.refusals).entry(number).or_insert(0) += 1;
    }

    pub fn add_to(&self, kinds: &mut [u64; KINDS.len()], refusals: &mut BTreeMap<u16, u64>) {
        for (sum, count) in kinds.iter_mut().zip(&self.kinds) {
            *sum += count.load(Ordering::Relaxed);
        }
        for (number, count) in lock(&self.refusals).iter() {
            *refusals.entry(*number).or_insert(0) += count;
        }
    }

    /// Takes over what a connection counted that has ended.
    fn take_over(&self, other: &Counts) {
        for (sum, count) in self.kinds.iter().zip(&other.kinds) {
            sum.fetch_add(count.load(Ordering::Relaxed), Ordering::Relaxed);
        }
        for (number, count) in lock(&other.refusals).iter() {
            *lock(&self.refusals).entry(*number).or_insert(0) += count;
        }
    }
}

/// What is known of a prepared branch; that it is one only the store says.
pub struct Prepared {
    pub connection: u64,
    pub since: Instant,
    pub rows: Rows,
}

pub struct Store {
    pub name: String,
    pub began: Instant,
    pub pool: Pool,
    /// How many of the last entries of its history it keeps.
    rows: u64,
    pub record: Option<Record>,
    history: Option<History>,
    /// Who hands out what is logged, if that is kept anywhere.
    pub follower: Option<Follower>,
    pub stop: Arc<Stop>,
    pub wait: Duration,
    /// Whether its clients log in with a password. Only then may one of them end the server.
    pub has_account: bool,
    /// Whether values of rows are texts, and not bytes.
    pub has_texts: bool,
    /// How long GET, PUT and DEL wait for a row.
    pub lock_wait: Duration,
    /// Who waits for rows.
    pub waits: Arc<Waits>,
    faults: Mutex<Faults>,
    has_faults: AtomicBool,
    pub connections: Mutex<HashMap<u64, Arc<Connection>>>,
    last: AtomicU64,
    pub logged_in: AtomicUsize,
    pub strangers: AtomicUsize,
    pub prepared: Mutex<HashMap<Vec<u8>, Prepared>>,
    /// Branches that were rolled back in a deadlock, as long as their clients have them.
    pub rolled_back: Mutex<BTreeSet<Vec<u8>>>,
    pub past: Counts,
    /// The tables of SQL.
    pub tables: Catalog,
    /// Until when the store is out, if it is.
    outage: Mutex<Option<Instant>>,
}

impl Store {
    /// Opens a store, with the files that the options name.
    pub fn open(number: usize, options: &Options, stop: &Arc<Stop>) -> Result<Store, String> {
        let path = |it: &std::path::PathBuf| path_of(it, number, options.stores);
        let told = |path: &std::path::Path, fault: std::io::Error| format!("{}: {}", path.display(), fault);
        let record = match options.record.as_ref().map(path) {
            Some(path) => Some(
                Record::create(&path, options.record_size, number, Arc::clone(stop))
                    .map_err(|fault| told(&path, fault))?,
            ),
            None => None,
        };
        let history = match options.history.as_ref().map(path) {
            Some(path) => Some(History::create(&path, number, Arc::clone(stop)).map_err(|fault| told(&path, fault))?),
            None => None,
        };
        let store = nigbaru::Store::open(options.rows, SESSIONS as u64).map_err(|fault| fault.to_string())?;
        let pool = Pool::new(store, SESSIONS);
        let keepers: Vec<Keeper> =
            history.as_ref().map(History::keeper).into_iter().chain(record.as_ref().and_then(Record::keeper)).collect();
        let follower = if keepers.is_empty() {
            None
        } else {
            let last = pool.session(SESSIONS - 1).map_err(|fault| fault.to_string())?;
            Some(Follower::new(last, keepers, options.rows))
        };
        let waits = Waits::open(pool.clone()).map_err(|fault| format!("nobody can wait for rows: {}", fault))?;
        Ok(Store {
            name: format!("store {}", number),
            began: Instant::now(),
            pool,
            rows: options.rows,
            record,
            history,
            follower,
            stop: Arc::clone(stop),
            wait: options.wait,
            has_account: options.account.is_some(),
            has_texts: options.text_values,
            lock_wait: options.lock_wait,
            waits,
            faults: Mutex::default(),
            has_faults: AtomicBool::new(false),
            connections: Mutex::default(),
            last: AtomicU64::new(0),
            logged_in: AtomicUsize::new(0),
            strangers: AtomicUsize::new(0),
            prepared: Mutex::default(),
            rolled_back: Mutex::default(),
            past: Counts::default(),
            tables: Catalog::default(),
            outage: Mutex::new(None),
        })
    }

    pub fn log(&self, connection: u64, text: &str) {
        say(&format!("{}, connection {}: {}", self.name, connection, text));
    }

    /// Says what is done on purpose, on the standard error and in the record.
    pub fn note(&self, connection: u64, text: &str) {
        if let Some(record) = &self.record {
            record.note(&format!("connection {}: {}", connection, text));
        }
        self.log(connection, text);
    }

    // connections

    pub fn greet(&self, peer: String, stream: Arc<Stream>) -> Arc<Connection> {
        let number = self.last.fetch_add(1, Ordering::Relaxed) + 1;
        let connection = Arc::new(Connection {
            number,
            peer,
            stream,
            has_logged_in: AtomicBool::new(false),
            look: Mutex::new(Look { session: None, branch: None, since: Instant::now(), rows: Rows::new() }),
            doing: Mutex::new(Doing {
                user: Vec::new(),
                database: None,
                text: Vec::new(),
                is_asked: false,
                since: Instant::now(),
            }),
            counts: Counts::default(),
        });
        lock(&self.connections).insert(number, Arc::clone(&connection));
        connection
    }

    pub fn forget(&self, connection: &Connection) {
        lock(&self.connections).remove(&connection.number);
        self.past.take_over(&connection.counts);
    }

    /// Ends a connection, as if its client had gone; its own has the answer still. KILL QUERY ends the wait of
    /// a statement for a row; any other is answered to its end.
    pub fn kill(&self, asker: &Connection, number: u64, is_query: bool) -> Answer {
        if number == asker.number {
            if !is_query {
                asker.stream.shutdown(Shutdown::Read);
            }
            return refusal(1317).into();
        }
        match lock(&self.connections).get(&number) {
            None => refusal_with(1094, format!("Unknown thread id: {}", number)).into(),
            Some(_) if is_query => {
                self.waits.interrupt(number);
                OK
            }
            Some(it) => {
                it.stream.shutdown(Shutdown::Both);
                OK
            }
        }
    }

    /// How many statements were answered, over all connections.
    pub fn statements(&self) -> u64 {
        let (mut kinds, mut refusals) = ([0; KINDS.len()], BTreeMap::new());
        self.past.add_to(&mut kinds, &mut refusals);
        lock(&self.connections).values().for_each(|it| it.counts.add_to(&mut kinds, &mut refusals));
        kinds.iter().sum()
    }

    pub fn shut_all(&self, how: Shutdown) {
        lock(&self.connections).values().for_each(|it| it.stream.shutdown(how));
    }

    // faults

    /// Puts other faults in the place of those that were; all counts begin anew.
    pub fn set_faults(&self, plan: &Plan) {
        let faults = Faults::new(plan);
        self.has_faults.store(!faults.is_empty(), Ordering::Relaxed);
        *lock(&self.faults) = faults;
        if let Some(seconds) = plan.outage {
            self.begin_outage(seconds, "it is told so");
        }
    }

    /// The fault that is meant for what comes now, if there is one.
    pub fn fault_at(&self, point: Point) -> Option<Fault> {
        if !self.has_faults.load(Ordering::Relaxed) {
            return None;
        }
        lock(&self.faults).next(point)
    }

    // outages

    /// The store goes out: whoever is connected is cut, and its ports close until it is back.
    pub fn begin_outage(&self, seconds: f64, why: &str) {
        let text = format!("out for {} seconds: {}", seconds, why);
        if let Some(record) = &self.record {
            record.note(&text);
        }
        say(&format!("{} is {}", self.name, text));
        *lock(&self.outage) = Some(Instant::now() + Duration::from_secs_f64(seconds));
        self.shut_all(Shutdown::Both);
    }

    /// Until when the store is out, if it is.
    pub fn outage(&self) -> Option<Instant> {
        *lock(&self.outage)
    }

    /// Ends an outage whose time is over; whether it is over.
    pub fn has_come_back(&self) -> bool {
        let mut outage = lock(&self.outage);
        if outage.map_or(false, |until| until <= Instant::now()) {
            *outage = None;
        }
        outage.is_none()
    }

    // history

    /// Hands out what was logged to who keeps it. If something is lost, the server ends, since its files would be
    /// wrong.
    pub fn hand_over(&self) {
        if let Some(Err(lost)) = self.follower.as_ref().map(Follower::hand_over) {
            self.fail(lost);
        }
    }

    pub fn fail(&self, lost: Lost) {
        self.stop.fail(format!("{}'s history has lost {} entries", self.name, lost.0));
    }

    /// Brings sessions up to date that idle.
    pub fn refresh(&self) {
        self.pool.refresh(self.rows, REFRESHES);
    }

    /// Has the history in its file.
    pub fn write_history(&self) {
        self.hand_over();
        if let Some(history) = &self.history {
            history.flush();
        }
    }
}
