//! Threads race, and what they were answered is written in the history's order: race THREADS ENTRIES ROWS SCRIPT
//! ANSWERS
//!
//! Each thread adds about ENTRIES entries: branches that write a row of its own and, if nobody holds it, count in a row
//! that all share, ended in three ways. The first also follows the history, and the others wait where it would lose an
//! entry. Afterwards each row is what its thread knows. The history and the statements that didn't enter, each in front
//! of the entry at its place, are written to SCRIPT, one `session statement` a line, and what was answered to ANSWERS;
//! of a refusal only its number.
use nigbaru::{Error, Reply, Session, Store};
use std::collections::VecDeque;
use std::fs::File;
use std::io::{BufWriter, Write};
use std::sync::atomic::{AtomicU64, Ordering::SeqCst};
use std::{env, thread};

/// What was answered at a place.
struct Told {
    place: u64,
    text: String,
    answer: String,
}

struct Teller<'a> {
    session: Session,
    told: VecDeque<Told>,
    followed: &'a AtomicU64,
    rows: u64,
    own: u64,
    counted: u64,
    /// What it has followed: the first alone.
    history: Vec<(u64, String)>,
}

fn hex(bytes: &[u8]) -> String {
    bytes.iter().fold("0x".to_string(), |text, byte| format!("{}{:02x}", text, byte))
}

fn answer_of(reply: &Result<Reply, Error>) -> String {
    match reply {
        Ok(Reply::Ok) => "OK".to_string(),
        Ok(Reply::Value(bytes)) => format!("VALUE {}", hex(bytes)),
        Ok(Reply::NoRow) => "NONE".to_string(),
        Err(Error::Refused(number)) => format!("ERROR {}", number),
        other => panic!("{:?}", other),
    }
}

impl Teller<'_> {
    fn say(&mut self, text: String) -> Result<Reply, Error> {
        let reply = self.session.execute(&text);
        let place = self.session.place();
        self.told.push_back(Told { place, text, answer: answer_of(&reply) });
        if self.session.number() == 1 {
            self.follow();
        }
        while place > self.followed.load(SeqCst) + self.rows / 2 {
            thread::yield_now();
        }
        reply
    }

    fn follow(&mut self) {
        let history = &mut self.history;
        assert_eq!(
            self.session
                .hand_over(&mut |session, text| history.push((session, String::from_utf8(text.to_vec()).unwrap()))),
            0
        );
        self.followed.store(self.history.len() as u64, SeqCst);
    }

    /// Runs its cycles, and the first goes on to follow until so many others are done.
    fn run(&mut self, entries: u64, running: &AtomicU64) {
        (0..entries / 6).for_each(|turn| self.cycle(turn));
        running.fetch_sub(1, SeqCst);
        while self.session.number() == 1 && running.load(SeqCst) > 0 {
            self.follow();
            thread::yield_now();
        }
    }

    fn ok(&mut self, text: String) {
        assert_eq!(self.say(text.clone()), Ok(Reply::Ok), "{}", text);
    }

    fn number(&mut self, key: &str) -> u64 {
        match self.say(format!("GET {}", hex(key.as_bytes()))) {
            Ok(Reply::Value(digits)) => String::from_utf8(digits).unwrap().parse().unwrap(),
            Ok(Reply::NoRow) => 0,
            other => panic!("{:?}", other),
        }
    }

    fn put(&mut self, key: &str, number: u64) -> Result<Reply, Error> {
        self.say(format!("PUT {},{}", hex(key.as_bytes()), hex(number.to_string().as_bytes())))
    }

    fn cycle(&mut self, turn: u64) {
        let (row, xid) = (self.row(), format!("0x{:02x}{:08x},0x62,1", self.session.number(), turn));
        self.ok(format!("XA START {}", xid));
        assert_eq!(self.put(&row, turn + 1), Ok(Reply::Ok));
        let counts = self.put("lock", 1).is_ok();
        if counts {
            let next = self.number("count") + 1;
            assert_eq!(self.put("count", next), Ok(Reply::Ok));
        }
        let is_kept = turn % 4 != 3;
        if turn % 8 == 7 {
            self.ok("DISCONNECT".to_string());
        } else {
            self.ok(format!("XA END {}", xid));
            if turn % 4 == 1 {
                self.ok(format!("XA COMMIT {} ONE PHASE", xid));
            } else {
                self.ok(format!("XA PREPARE {}", xid));
                self.ok(format!("XA {} {}", if is_kept { "COMMIT" } else { "ROLLBACK" }, xid));
            }
        }
        if is_kept {
            self.own = turn + 1;
            self.counted += counts as u64;
        }
        assert_eq!(self.number(&row), self.own);
    }

    fn row(&self) -> String {
        format!("own{}", self.session.number())
    }
}

/// All answers in the history's order: at each place first those that didn't enter, and then the entry's, which is its
/// session's last there.
fn write_order(
    tellers: &mut [Teller],
    history: &[(u64, String)],
    script: &mut dyn Write,
    answers: &mut dyn Write,
) -> std::io::Result<()> {
    let mut line = |session: u64, told: &Told| {
        writeln!(script, "{} {}", session, told.text)?;
        writeln!(answers, "{} {}", session, told.answer)
    };
    for place in 0..=history.len() as u64 {
        let mut entering = None;
        for teller in tellers.iter_mut() {
            let number = teller.session.number();
            while teller.told.front().map_or(false, |told| told.place == place) {
                let told = teller.told.pop_front().unwrap();
                let is_last = teller.told.front().map_or(true, |next| next.place != place);
                if is_last && history.get(place as usize).map_or(false, |entry| entry.0 == number) {
                    entering = Some((number, told));
                } else {
                    line(number, &told)?;
                }
            }
        }
        if let Some(entry) = history.get(place as usize) {
            let (number, told) = entering.expect("whoever added the entry was answered there");
            assert_eq!((number, &told.text), (entry.0, &entry.1));
            line(number, &told)?;
        }
    }
    assert!(tellers.iter().all(|teller| teller.told.is_empty()));
    Ok(())
}

fn main() -> std::io::Result<()> {
    let words: Vec<String> = env::args().skip(1).collect();
    let [threads, entries, rows]: [u64; 3] = [0, 1, 2].map(|index: usize| words[index].parse().unwrap());
    let store = Store::open(rows, threads).unwrap();
    let (followed, running) = (AtomicU64::new(0), AtomicU64::new(threads));
    let teller = |_| Teller {
        session: store.session().unwrap(),
        told: VecDeque::new(),
        followed: &followed,
        rows,
        own: 0,
        counted: 0,
        history: Vec::new(),
    };
    let mut tellers: Vec<Teller> = (0..threads).map(teller).collect();
    thread::scope(|scope| {
        for teller in &mut tellers {
            let running = &running;
            scope.spawn(move || teller.run(entries, running));
        }
    });
    let sum: u64 = tellers.iter().map(|teller| teller.counted).sum();
    assert!(sum > 0);
    assert_eq!(tellers[0].number("count"), sum);
    for index in 0..tellers.len() {
        let (row, own) = (tellers[index].row(), tellers[index].own);
        assert_eq!(tellers[0].number(&row), own);
    }
    let history = std::mem::take(&mut tellers[0].history);
    let (mut script, mut answers) =
        (BufWriter::new(File::create(&words[3])?), BufWriter::new(File::create(&words[4])?));
    write_order(&mut tellers, &history, &mut script, &mut answers)?;
    script.flush()?;
    answers.flush()?;
    println!("{} entries, {} rounds of the ring", history.len(), history.len() as u64 / rows);
    Ok(())
}
