//! Plain Rust programs of the same work as the store's, to measure it beside. Only rustc is needed:
//!
//!     rustc --edition 2021 -O -o yardstick scripts/yardstick/main.rs
//!
//!     yardstick MODE[,MODE..] THREADS SECONDS [ROWS]       writes for each: MODE threads=T per_s=N
//!     yardstick times|times-all THREADS STATEMENTS [ROWS]  writes MODE threads=T p999_ns=N longest_ns=N
//!     yardstick echo                             answers each line with itself, at once
//!     yardstick trips SECONDS PROGRAM..          the round trips a second of a client over pipes of the program
//!
//! | Mode | What is done | What is counted |
//! |---|---|---|
//! | `lib-text` | cycles on one server behind a lock; the statements are texts that are read first | cycles |
//! | `mix-text` | statements outside branches on one server behind a lock, likewise; of a hundred five write, the others read | statements |
//! | `times` | the statements of `lib-text`: how long one takes but for one of a thousand, and the longest | |
//! | `lib-text-all`, `mix-text-all`, `times-all` | the same; each statement uses any of the ROWS rows | |
//!
//! A server behind a lock begins with ROWS rows, none where the word is missing. But for the last modes nobody touches
//! these, and each thread uses a hundred others.
mod reader;
mod server;
mod statement;
mod text;
mod trips;

use reader::Reader;
use server::Server;
use statement::cycle_texts;
use statement::Statement;
use std::hint::black_box;
use std::sync::atomic::{AtomicBool, Ordering::Relaxed};
use std::sync::Mutex;
use std::time::{Duration, Instant};
use text::Text;

/// How many branches, or rows, a thread uses in turn.
const TURNS: usize = 100;

/// What is done a second by threads that count what they do, until they are told to stop.
fn rate(threads: usize, seconds: f64, stop: impl Fn(), work: impl Fn(usize) -> u64 + Sync) -> f64 {
    let begun = Instant::now();
    let work = &work;
    let done: u64 = std::thread::scope(|scope| {
        let running: Vec<_> = (1..=threads).map(|thread| scope.spawn(move || work(thread))).collect();
        std::thread::sleep(Duration::from_secs_f64(seconds));
        stop();
        running.into_iter().map(|thread| thread.join().unwrap()).sum()
    });
    done as f64 / begun.elapsed().as_secs_f64()
}

/// Numbers that look random.
struct Numbers(u64);

impl Numbers {
    fn next(&mut self) -> u64 {
        self.0 ^= self.0 << 13;
        self.0 ^= self.0 >> 7;
        self.0 ^= self.0 << 17;
        self.0
    }
}

/// Where the digits of a row's number are in a text.
const DIGITS: std::ops::Range<usize> = 8..15;

/// The texts of a thread: those of its branches, and those that read its rows.
struct Texts {
    thread: usize,
    cycles: Vec<[Vec<u8>; 5]>,
    gets: Vec<Vec<u8>>,
    /// How many threads use any of how many rows; none if each uses its hundred.
    all: Option<(usize, usize)>,
    numbers: Numbers,
}

/// The same text, about this row.
fn about(text: &mut [u8], mut row: usize) {
    for digit in text[DIGITS].iter_mut().rev() {
        *digit = b'0' + (row % 10) as u8;
        row /= 10;
    }
}

impl Texts {
    fn new(thread: usize, all: Option<(usize, usize)>) -> Texts {
        let key = |turn: usize| match all {
            Some(_) => format!("row{:07}", 0),
            None => format!("k{thread}_{turn}"),
        };
        let of_turn = |turn: usize| cycle_texts(thread, turn, &key(turn)).map(String::into_bytes);
        let get = |turn: usize| format!("GET '{}'", key(turn)).into_bytes();
        Texts {
            thread,
            cycles: (0..TURNS).map(of_turn).collect(),
            gets: (0..TURNS).map(get).collect(),
            all,
            numbers: Numbers(88172645463325252 ^ (thread as u64 * 7919)),
        }
    }

    /// The text of a statement of cycles. No two threads write the same row.
    fn of_cycle(&mut self, cycle: usize, index: usize) -> &[u8] {
        if let (Some((threads, rows)), 1) = (self.all, index) {
            let row = (self.numbers.next() >> 20) as usize % (rows / threads) * threads + self.thread - 1;
            about(&mut self.cycles[cycle % TURNS][1], row);
        }
        &self.cycles[cycle % TURNS][index]
    }

    /// The next text outside branches: of a hundred five write.
    fn of_mix(&mut self) -> &[u8] {
        let number = self.numbers.next();
        let chosen = (number >> 20) as usize;
        let text = if number % 100 < 5 { &mut self.cycles[chosen % TURNS][1] } else { &mut self.gets[chosen % TURNS] };
        if let Some((_, rows)) = self.all {
            about(text, chosen % rows);
        }
        text
    }
}

/// A server with so many rows.
fn filled(rows: usize) -> Mutex<Server> {
    let mut server = Server::default();
    for row in 0..rows {
        let (key, value) = (format!("row{row:07}"), format!("value{row}"));
        server.apply(1, &Statement::Put(Text::of(key.as_bytes()), Text::of(value.as_bytes()))).expect();
    }
    Mutex::new(server)
}

/// Reads a statement, and has the server carry it out.
fn say(server: &Mutex<Server>, thread: usize, text: &[u8]) {
    let statement = Reader::read(black_box(text)).unwrap();
    server.lock().unwrap().apply(thread, &statement).expect();
}

fn cycles(server: &Mutex<Server>, texts: &mut Texts, stops: &AtomicBool) -> u64 {
    let mut done = 0;
    while !stops.load(Relaxed) {
        for index in 0..5 {
            say(server, texts.thread, texts.of_cycle(done as usize, index));
        }
        done += 1;
    }
    done
}

fn mixed(server: &Mutex<Server>, texts: &mut Texts, stops: &AtomicBool) -> u64 {
    let mut done = 0;
    if texts.all.is_none() {
        texts.cycles.iter().for_each(|cycle| say(server, texts.thread, &cycle[1]));
    }
    while done % 64 != 0 || !stops.load(Relaxed) {
        say(server, texts.thread, texts.of_mix());
        done += 1;
    }
    done
}

/// Prints how long a statement of `lib-text` takes, but for one of a thousand, and the longest.
fn print_times(mode: &str, server: &Mutex<Server>, threads: usize, statements: usize, all: Option<(usize, usize)>) {
    let each = statements / threads / 5 * 5;
    let mut times: Vec<u64> = std::thread::scope(|scope| {
        let timed = |thread: usize| move || timed(server, &mut Texts::new(thread, all), each);
        let running: Vec<_> = (1..=threads).map(|thread| scope.spawn(timed(thread))).collect();
        running.into_iter().flat_map(|thread| thread.join().unwrap()).collect()
    });
    times.sort_unstable();
    let last = times.len() - 1;
    println!("{mode} threads={threads} p999_ns={} longest_ns={}", times[last - times.len() / 1000], times[last]);
}

fn timed(server: &Mutex<Server>, texts: &mut Texts, count: usize) -> Vec<u64> {
    let mut times = Vec::with_capacity(count);
    for done in 0..count {
        let thread = texts.thread;
        let text = texts.of_cycle(done / 5, done % 5);
        let begun = Instant::now();
        say(server, thread, text);
        times.push(begun.elapsed().as_nanos() as u64);
    }
    times
}

/// What a mode measures, printed.
fn print_mode(mode: &str, server: &Mutex<Server>, threads: usize, much: f64, rows: usize) {
    let all = if mode.ends_with("-all") { Some((threads, rows)) } else { None };
    let work = match mode.trim_end_matches("-all") {
        "lib-text" => cycles,
        "mix-text" => mixed,
        "times" => return print_times(mode, server, threads, much as usize, all),
        _ => panic!("there is no mode {mode}"),
    };
    let stops = AtomicBool::new(false);
    let of_thread = |thread| work(server, &mut Texts::new(thread, all), &stops);
    let per_second = rate(threads, much, || stops.store(true, Relaxed), of_thread);
    println!("{mode} threads={threads} per_s={per_second:.0}");
}

fn main() {
    let words: Vec<String> = std::env::args().skip(1).collect();
    let words: Vec<&str> = words.iter().map(String::as_str).collect();
    match words[..] {
        ["echo"] => trips::echo(),
        ["trips", seconds, ref program @ ..] => {
            println!("trips threads=1 per_s={:.0}", trips::trips(seconds.parse().unwrap(), program));
        }
        [modes, threads, much, ref rows @ ..] => {
            let rows = rows.first().map_or(0, |rows| rows.parse().unwrap());
            let server = filled(rows);
            for mode in modes.split(',') {
                print_mode(mode, &server, threads.parse().unwrap(), much.parse().unwrap(), rows);
            }
        }
        _ => panic!("yardstick MODE THREADS SECONDS [ROWS]"),
    }
}
