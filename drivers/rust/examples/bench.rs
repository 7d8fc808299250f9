//! Measures the store from Rust in the steady state, with the words and the modes of drivers/c/bench.c, but for `lost`,
//! which isn't counted, and `slept`:
//!
//!     bench MODE[,MODE..] THREADS SECONDS ROWS
//!     bench times|times-all THREADS STATEMENTS ROWS
//!
//! The ring has 16,384 rows, or as many as BENCH_RING says.
use nigbaru::{Reply, Session, Store};
use std::env;
use std::process;
use std::sync::atomic::{AtomicBool, Ordering::Relaxed};
use std::sync::Arc;
use std::thread;
use std::time::{Duration, Instant};

const TURNS: usize = 100;
const RING: u64 = 16384;
/// Where the digits of a row's number begin in a text, and where they end.
const DIGITS: (usize, usize) = (8, 15);

/// The texts of a thread: those of its branches, and those that read its rows.
struct Texts {
    thread: u64,
    cycles: Vec<[Vec<u8>; 5]>,
    gets: Vec<Vec<u8>>,
    /// How many threads use any of how many rows; none if each uses its hundred.
    all: Option<(u64, u64)>,
    random: u64,
}

/// The same text, about this row.
fn about(text: &mut [u8], mut row: u64) {
    for digit in text[DIGITS.0..DIGITS.1].iter_mut().rev() {
        *digit = b'0' + (row % 10) as u8;
        row /= 10;
    }
}

impl Texts {
    fn of(thread: u64, all: Option<(u64, u64)>) -> Texts {
        let key = |turn: usize| match all {
            Some(_) => format!("row{:07}", 0),
            None => format!("k{}_{}", thread, turn),
        };
        let cycle = |turn: usize| {
            let xid = format!("'g{}_{}','b',1", thread, turn);
            [
                format!("XA START {}", xid),
                format!("PUT '{}','v{}'", key(turn), turn),
                format!("XA END {}", xid),
                format!("XA PREPARE {}", xid),
                format!("XA COMMIT {}", xid),
            ]
            .map(String::into_bytes)
        };
        let get = |turn: usize| format!("GET '{}'", key(turn)).into_bytes();
        Texts {
            thread,
            cycles: (0..TURNS).map(cycle).collect(),
            gets: (0..TURNS).map(get).collect(),
            all,
            random: 88172645463325252 ^ (thread * 7919),
        }
    }

    fn next_number(&mut self) -> u64 {
        self.random ^= self.random << 13;
        self.random ^= self.random >> 7;
        self.random ^= self.random << 17;
        self.random
    }

    /// The text of a statement of cycles. No two threads write the same row.
    fn of_cycle(&mut self, cycle: usize, index: usize) -> &[u8] {
        if let (Some((threads, rows)), 1) = (self.all, index) {
            let row = (self.next_number() >> 20) % (rows / threads) * threads + self.thread - 1;
            about(&mut self.cycles[cycle % TURNS][1], row);
        }
        &self.cycles[cycle % TURNS][index]
    }

    /// The text of a `PUT` or a `GET`, about a row that a number says.
    fn of_mix(&mut self, number: u64, writes: bool) -> &[u8] {
        let turn = (number >> 20) as usize % TURNS;
        let text = if writes { &mut self.cycles[turn][1] } else { &mut self.gets[turn] };
        if let Some((_, rows)) = self.all {
            about(text, (number >> 20) % rows);
        }
        text
    }
}

fn ok(session: &mut Session, text: &[u8]) {
    assert_eq!(session.execute(text), Ok(Reply::Ok), "{}", String::from_utf8_lossy(text));
}

fn value(session: &mut Session, text: &[u8]) {
    assert!(matches!(session.execute(text), Ok(Reply::Value(_))), "{}", String::from_utf8_lossy(text));
}

fn put_rows(session: &mut Session, texts: &Texts) {
    if texts.all.is_none() {
        texts.cycles.iter().for_each(|cycle| ok(session, &cycle[1]));
    }
}

fn cycle(session: &mut Session, texts: &mut Texts, stops: &AtomicBool) -> u64 {
    let mut done = 0;
    while !stops.load(Relaxed) {
        (0..5).for_each(|index| ok(session, texts.of_cycle(done as usize, index)));
        done += 1;
    }
    done
}

fn get(session: &mut Session, texts: &mut Texts, stops: &AtomicBool) -> u64 {
    put_rows(session, texts);
    let mut done = 0;
    while !stops.load(Relaxed) {
        value(session, &texts.gets[done as usize % TURNS]);
        done += 1;
    }
    done
}

fn mix5(session: &mut Session, texts: &mut Texts, stops: &AtomicBool) -> u64 {
    put_rows(session, texts);
    let mut done = 0;
    while !stops.load(Relaxed) {
        let number = texts.next_number();
        if number % 100 < 5 {
            ok(session, texts.of_mix(number, true));
        } else {
            value(session, texts.of_mix(number, false));
        }
        done += 1;
    }
    done
}

/// How long each of so many statements takes, in nanoseconds.
fn timed(session: &mut Session, texts: &mut Texts, count: usize) -> Vec<u64> {
    let mut times = Vec::with_capacity(count);
    for done in 0..count {
        let text = texts.of_cycle(done / 5, done % 5);
        let begun = Instant::now();
        ok(session, text);
        times.push(begun.elapsed().as_nanos() as u64);
    }
    times
}

/// A store with so many rows, and sessions that have seen them.
fn opened(threads: u64, rows: u64) -> Vec<Session> {
    let ring = env::var("BENCH_RING").map_or(RING, |rows| rows.parse().unwrap());
    let store = Store::open(ring, threads).unwrap();
    let mut sessions = vec![store.session().unwrap()];
    for row in 0..rows {
        ok(&mut sessions[0], format!("PUT 'row{:07}','value{}'", row, row).as_bytes());
    }
    sessions.extend((1..threads).map(|_| store.session().unwrap()));
    // Whoever was idle meanwhile sees the rows now, and not while the time is taken.
    sessions.iter_mut().for_each(|session| ok(session, b"PUT 'k0_0','v'"));
    sessions
}

/// Has each session do something on a thread of its own. Returns the sessions, and what they did.
fn on_threads<R: Send + 'static>(
    sessions: Vec<Session>,
    all: Option<(u64, u64)>,
    work: impl Fn(&mut Session, &mut Texts) -> R + Clone + Send + 'static,
    meanwhile: impl FnOnce(),
) -> (Vec<Session>, Vec<R>) {
    let running: Vec<_> = sessions
        .into_iter()
        .map(|mut session| {
            let work = work.clone();
            thread::spawn(move || {
                let mut texts = Texts::of(session.number(), all);
                let done = work(&mut session, &mut texts);
                (session, done)
            })
        })
        .collect();
    meanwhile();
    running.into_iter().map(|thread| thread.join().unwrap()).unzip()
}

type Work = fn(&mut Session, &mut Texts, &AtomicBool) -> u64;

/// What threads do a second.
fn print_rate(name: &str, work: Work, sessions: Vec<Session>, seconds: f64, all: Option<(u64, u64)>) -> Vec<Session> {
    let (threads, stops, begun) = (sessions.len(), Arc::new(AtomicBool::new(false)), Instant::now());
    let theirs = Arc::clone(&stops);
    let (sessions, done) = on_threads(
        sessions,
        all,
        move |session, texts| work(session, texts, &theirs),
        || {
            thread::sleep(Duration::from_secs_f64(seconds));
            stops.store(true, Relaxed);
        },
    );
    let done: u64 = done.into_iter().sum();
    println!("{} threads={} per_s={:.0} done={}", name, threads, done as f64 / begun.elapsed().as_secs_f64(), done);
    sessions
}

fn print_times(name: &str, sessions: Vec<Session>, statements: usize, all: Option<(u64, u64)>) -> Vec<Session> {
    let threads = sessions.len();
    // So that no branch is left open.
    let each = statements / threads / 5 * 5;
    let (sessions, times) = on_threads(sessions, all, move |session, texts| timed(session, texts, each), || ());
    let mut times: Vec<u64> = times.into_iter().flatten().collect();
    times.sort_unstable();
    let last = times.len() - 1;
    println!("{} threads={} p999_ns={} longest_ns={}", name, threads, times[last - times.len() / 1000], times[last]);
    sessions
}

fn main() {
    let words: Vec<String> = env::args().skip(1).collect();
    let (threads, rows) = match words.len() {
        4 => (words[1].parse().unwrap_or(0), words[3].parse().unwrap_or(0)),
        _ => (0, 0),
    };
    if !(1..=16).contains(&threads) {
        eprintln!("bench MODE[,MODE..] THREADS SECONDS ROWS, or bench times|times-all THREADS STATEMENTS ROWS");
        process::exit(2);
    }
    let mut sessions = opened(threads, rows);
    for name in words[0].split(',') {
        let all = if name.ends_with("-all") { Some((threads, rows)) } else { None };
        let work: Work = match name.trim_end_matches("-all") {
            "cycle" => cycle,
            "get" => get,
            "mix5" => mix5,
            "times" => {
                sessions = print_times(name, sessions, words[2].parse().unwrap(), all);
                continue;
            }
            _ => panic!("there is no mode {}", name),
        };
        sessions = print_rate(name, work, sessions, words[2].parse().unwrap(), all);
    }
}
