//! What a store does just now, for who watches: as a table of SHOW NIGBARU STATUS, and in JSON.
use crate::answers::{refusal_with, Refusal, Table};
use crate::packets::{Column, Value};
use crate::pool::Need;
use crate::statements::{canonical, read, Kind, Statement};
use crate::store::{lock, Connection, Rows, Store, KINDS};
use crate::waits::Waiter;
use nigbaru::Reply;
use serde_json::{json, Value as Json};
use std::collections::BTreeMap;
use std::fmt::Write;
use std::sync::atomic::Ordering;
use std::time::{Duration, Instant};

/// How many rows of a branch the table shows, since a packet has room for 16 MiB.
const SHOWN: usize = 1_000;

struct Branch {
    xid: String,
    state: &'static str,
    connection: Option<u64>,
    peer: Option<String>,
    session: Option<u64>,
    age: Option<Duration>,
    rows: Rows,
}

pub struct Seen {
    connections: usize,
    strangers: usize,
    lent: usize,
    waiting: usize,
    entries: u64,
    is_out: bool,
    branches: Vec<Branch>,
    waits: Vec<Wait>,
    statements: [u64; KINDS.len()],
    refusals: BTreeMap<u16, u64>,
}

/// A statement that waits for a row.
struct Wait {
    connection: u64,
    key: Vec<u8>,
    holder: String,
    age: Duration,
}

fn text(bytes: &[u8]) -> String {
    String::from_utf8_lossy(bytes).into_owned()
}

/// Looks at a store. Prepared branches are those that it lists; if all sessions are lent, those that connections have
/// prepared and nobody has ended.
pub fn look(store: &Store) -> Seen {
    let (lent, waiting) = store.pool.lent();
    let (mut statements, mut refusals) = ([0; KINDS.len()], BTreeMap::new());
    store.past.add_to(&mut statements, &mut refusals);
    let mut branches = Vec::new();
    let connections: Vec<_> = lock(&store.connections).values().cloned().collect();
    for it in connections {
        it.counts.add_to(&mut statements, &mut refusals);
        let look = lock(&it.look);
        if let Some((xid, state)) = &look.branch {
            let age = Some(look.since.elapsed());
            branches.push(Branch {
                xid: text(xid),
                state,
                connection: Some(it.number),
                peer: Some(it.peer.clone()),
                session: look.session,
                age,
                rows: look.rows.clone(),
            });
        }
    }
    branches.extend(prepared(store));
    branches.sort_by(|one, other| one.xid.cmp(&other.xid));
    Seen {
        connections: store.logged_in.load(Ordering::Relaxed),
        strangers: store.strangers.load(Ordering::Relaxed),
        lent,
        waiting,
        entries: store.pool.entries(),
        is_out: store.outage().is_some(),
        branches,
        waits: store.waits.all().iter().map(|it| wait_of(store, it)).collect(),
        statements,
        refusals,
    }
}

fn wait_of(store: &Store, it: &Waiter) -> Wait {
    let holder = holder_of(store, &it.connection, &it.key, it.alone);
    Wait { connection: it.connection.number, key: it.key.clone(), holder, age: it.since.elapsed() }
}

fn prepared(store: &Store) -> Vec<Branch> {
    let listed = match store.pool.take(0, Duration::ZERO, Need::Statement) {
        Ok(Some(mut lent)) => match lent.ask(nigbaru::Statement::Recover) {
            Ok(Reply::List(xids)) => Some(xids.iter().map(canonical).collect::<Vec<_>>()),
            _ => None,
        },
        _ => None,
    };
    let known = lock(&store.prepared);
    let xids = listed.unwrap_or_else(|| known.keys().cloned().collect());
    let now = Instant::now();
    let branch = |xid: Vec<u8>| {
        let it = known.get(&xid);
        let age = it.map(|it| now.saturating_duration_since(it.since));
        let rows = it.map_or_else(Rows::new, |it| it.rows.clone());
        Branch {
            xid: text(&xid),
            state: "PREPARED",
            connection: it.map(|it| it.connection),
            peer: None,
            session: None,
            age,
            rows,
        }
    };
    xids.into_iter().map(branch).collect()
}

/// A key, or an identifier, in quotes where all bytes are plain signs of ASCII.
fn readable(verb: &str, canonical: &[u8]) -> String {
    match read(&[verb.as_bytes(), canonical].concat()) {
        Ok(it) => text(&it.readable_subject()),
        Err(_) => text(canonical),
    }
}

fn readable_key(key: &[u8]) -> String {
    readable("GET ", key)
}

/// What holds a row that somebody wants. A holder that has had its row for no time may not have told yet.
fn holder_of(store: &Store, asker: &Connection, key: &[u8], alone: bool) -> String {
    let is_in_the_way = |rows: &Rows| rows.get(key).map_or(false, |it| *it || alone);
    let mut holders = BTreeMap::new();
    for (xid, known) in lock(&store.prepared).iter().filter(|(_, known)| is_in_the_way(&known.rows)) {
        holders.insert(xid.clone(), ("PREPARED", known.connection));
    }
    for other in lock(&store.connections).values().filter(|other| other.number != asker.number) {
        let look = lock(&other.look);
        if let Some((xid, state)) = look.branch.as_ref().filter(|_| is_in_the_way(&look.rows)) {
            holders.insert(xid.clone(), (state, other.number));
        }
    }
    let told = |(xid, (state, connection)): (&Vec<u8>, &(&str, u64))| match *state {
        "LOCAL" => format!("the local transaction of connection {}", connection),
        state => format!("{} ({}, connection {})", readable("XA END ", xid), state, connection),
    };
    let others = match holders.len() {
        0 | 1 => String::new(),
        count => format!(" and {} more", count - 1),
    };
    holders.iter().next().map_or("another branch".to_string(), told) + &others
}

/// A row is refused: which, and what holds it.
pub fn locked(store: &Store, asker: &Connection, it: &Statement) -> Refusal {
    let holder = holder_of(store, asker, it.subject(), it.kind != Kind::Get);
    let key = readable_key(it.subject());
    let what = "roll back, or send it again when that has ended";
    refusal_with(3572, format!("row locked by another branch: {} is held by {}; {}", key, holder, what))
}

impl Branch {
    fn told(&self) -> String {
        let mut told = self.state.to_string();
        if let Some(connection) = self.connection {
            let _ = write!(told, ", connection {}", connection);
        }
        if let Some(peer) = &self.peer {
            let _ = write!(told, " from {}", peer);
        }
        if let Some(session) = self.session {
            let _ = write!(told, ", session {}", session);
        }
        if let Some(age) = self.age {
            let _ = write!(told, ", {:.1} s", age.as_secs_f64());
        }
        for (key, is_exclusive) in self.rows.iter().take(SHOWN) {
            let _ = write!(told, ", {} {}", if *is_exclusive { "holds" } else { "shares" }, readable_key(key));
        }
        if self.rows.len() > SHOWN {
            let _ = write!(told, ", and {} rows more", self.rows.len() - SHOWN);
        }
        told
    }
}

/// The table of SHOW NIGBARU STATUS.
pub fn table_of(store: &Store) -> Table {
    let seen = look(store);
    let mut rows = Vec::new();
    let mut row = |name: &str, of: &str, value: String| {
        rows.push(vec![Value::from(name), Value::from(of), Value::from(value.as_str())])
    };
    row("connections", "logged in", seen.connections.to_string());
    row("connections", "not logged in", seen.strangers.to_string());
    row("sessions", "lent", seen.lent.to_string());
    row("sessions", "waited for", seen.waiting.to_string());
    row("history", "entries", seen.entries.to_string());
    for (kind, count) in KINDS.iter().zip(seen.statements) {
        row("statements", kind, count.to_string());
    }
    for (number, count) in &seen.refusals {
        row("refusals", &number.to_string(), count.to_string());
    }
    for branch in &seen.branches {
        row("branch", &readable("XA END ", branch.xid.as_bytes()), branch.told());
    }
    for it in &seen.waits {
        let told = format!("for {}, held by {}, {:.1} s", readable_key(&it.key), it.holder, it.age.as_secs_f64());
        row("waits", &format!("connection {}", it.connection), told);
    }
    Table { columns: vec![Column::said("name", 64), Column::said("of", 512), Column::said("value", 4096)], rows }
}

/// A store as an object of JSON.
pub fn json_of(store: &Store) -> Json {
    let seen = look(store);
    json!({
        "name": store.name,
        "out": seen.is_out,
        "connections": seen.connections,
        "strangers": seen.strangers,
        "lent": seen.lent,
        "waiting": seen.waiting,
        "entries": seen.entries,
        "statements": KINDS.into_iter().zip(seen.statements).collect::<BTreeMap<_, _>>(),
        "refusals": seen.refusals,
        "branches": seen.branches.iter().map(branch_json).collect::<Vec<_>>(),
        "waits": seen.waits.iter().map(wait_json).collect::<Vec<_>>(),
    })
}

fn seconds(age: Duration) -> f64 {
    age.as_millis() as f64 / 1e3
}

fn wait_json(it: &Wait) -> Json {
    json!({ "connection": it.connection, "key": text(&it.key), "holder": it.holder, "age": seconds(it.age) })
}

fn branch_json(it: &Branch) -> Json {
    let rows = it.rows.iter().map(|(key, is_exclusive)| (text(key), if *is_exclusive { "HOLDS" } else { "SHARES" }));
    json!({
        "xid": it.xid,
        "state": it.state,
        "connection": it.connection,
        "session": it.session,
        "age": it.age.map(seconds),
        "rows": rows.collect::<BTreeMap<_, _>>(),
    })
}
