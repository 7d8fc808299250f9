//! Loads a server that speaks MySQL's protocol, and counts what it answers; or is an echo, which answers each packet
//! with an OK.
//!
//!     load cycles|puts|gets CONNECTIONS SECONDS PORT [sql]
//!     load moves|selects|hot CONNECTIONS SECONDS PORT
//!     load echo PORT
//!
//! A cycle is five statements: XA START, a write, XA END, XA PREPARE, XA COMMIT. With the word `sql` it writes and reads
//! a table db.t. The second line's are statements of SQL over db.account(id, balance): cycles whose write is an UPDATE
//! of the connection's own balance, SELECTs of it, and transactions that update one balance, which all connections want.
//! Prints how many there were in a second; of `hot` only those that committed.
use std::io::{Read, Write};
use std::net::{TcpListener, TcpStream};
use std::sync::atomic::{AtomicBool, AtomicU64, Ordering};
use std::sync::{Arc, Barrier};
use std::time::{Duration, Instant};

const CAN: u32 = 0x1 | 0x4 | 0x8 | 0x200 | 0x2000 | 0x8000 | 0x80000;

struct Client {
    stream: TcpStream,
    held: Vec<u8>,
}

impl Client {
    fn connect(port: u16) -> Client {
        let stream = TcpStream::connect(("127.0.0.1", port)).expect("it listens");
        stream.set_nodelay(true).unwrap();
        let mut it = Client { stream, held: Vec::new() };
        it.packet();
        let mut login = CAN.to_le_bytes().to_vec();
        login.extend((1u32 << 24).to_le_bytes());
        login.push(45);
        login.extend([0; 23]);
        login.extend(b"root\0\0db\0mysql_native_password\0");
        it.send(&login, 1);
        assert_eq!(it.packet()[0], 0, "it lets root in");
        it
    }

    fn send(&mut self, payload: &[u8], number: u8) {
        let mut packet = (payload.len() as u32).to_le_bytes()[..3].to_vec();
        packet.push(number);
        packet.extend(payload);
        self.stream.write_all(&packet).unwrap();
    }

    fn packet(&mut self) -> Vec<u8> {
        loop {
            if self.held.len() >= 4 {
                let length = 4
                    + usize::from(self.held[0])
                    + (usize::from(self.held[1]) << 8)
                    + (usize::from(self.held[2]) << 16);
                if self.held.len() >= length {
                    return self.held.drain(..length).skip(4).collect();
                }
            }
            let mut piece = [0; 4096];
            let length = self.stream.read(&mut piece).unwrap();
            assert!(length > 0, "the server closed the connection");
            self.held.extend(&piece[..length]);
        }
    }

    /// Asks, and passes over the answer; whether it is no error.
    fn ask(&mut self, text: &str) -> bool {
        self.send(&[b"\x03", text.as_bytes()].concat(), 0);
        let first = self.packet();
        match first[0] {
            0 => true,
            0xff => false,
            _ => {
                for _ in 0..2 {
                    while {
                        let it = self.packet();
                        !(it[0] == 0xfe && it.len() < 9)
                    } {}
                }
                true
            }
        }
    }
}

fn must(client: &mut Client, text: &str) {
    assert!(client.ask(text), "{} is refused", text);
}

/// A transaction that updates the balance which all want; whether it was committed.
fn hot(client: &mut Client) -> bool {
    must(client, "START TRANSACTION");
    let is_done = client.ask("UPDATE db.account SET balance = balance + 1 WHERE id = 'row 0'");
    client.ask(if is_done { "COMMIT" } else { "ROLLBACK" }) && is_done
}

/// Does what is asked once; whether it counts.
fn turn(client: &mut Client, what: &str, is_sql: bool, number: usize, turn: u64) -> bool {
    let write = if what == "moves" {
        format!("UPDATE db.account SET balance = balance + 1 WHERE id = 'row {}'", number)
    } else if is_sql {
        format!("REPLACE INTO db.t VALUES ('row {}','{}')", number, turn)
    } else {
        format!("PUT 'row {}','{}'", number, turn)
    };
    match what {
        "cycles" | "moves" => {
            let xid = format!("'{} {}'", number, turn);
            for text in [
                &format!("XA START {}", xid),
                &write,
                &format!("XA END {}", xid),
                &format!("XA PREPARE {}", xid),
                &format!("XA COMMIT {}", xid),
            ] {
                must(client, text);
            }
        }
        "puts" => must(client, &write),
        "selects" => must(client, &format!("SELECT balance FROM db.account WHERE id = 'row {}'", number)),
        "hot" => return hot(client),
        "gets" if is_sql => must(client, &format!("SELECT v FROM db.t WHERE k='row {}'", number)),
        _ => must(client, &format!("GET 'row {}'", number)),
    }
    true
}

fn echo(port: u16) {
    let listener = TcpListener::bind(("127.0.0.1", port)).unwrap();
    for stream in listener.incoming().flatten() {
        std::thread::spawn(move || answer(stream));
    }
}

/// A greeting, and an OK for each packet.
fn answer(mut stream: TcpStream) -> std::io::Result<()> {
    stream.set_nodelay(true)?;
    stream.write_all(b"\x01\0\0\0\x0a")?;
    let mut piece = [0; 4096];
    let mut number = 2;
    while stream.read(&mut piece)? > 0 {
        stream.write_all(&[7, 0, 0, number, 0, 0, 0, 2, 0, 0, 0])?;
        number = 1;
    }
    Ok(())
}

const USAGE: &str = "usage: load cycles|puts|gets CONNECTIONS SECONDS PORT [sql]\n       \
                     load moves|selects|hot CONNECTIONS SECONDS PORT\n       load echo PORT";

/// A number among the words. If there is none, it prints the usage, and ends with status 2.
fn number<T: std::str::FromStr>(words: &[String], at: usize) -> T {
    words.get(at).and_then(|it| it.parse().ok()).unwrap_or_else(|| {
        eprintln!("{}", USAGE);
        std::process::exit(2)
    })
}

fn main() {
    let words: Vec<String> = std::env::args().skip(1).collect();
    if words.first().map_or(false, |it| it == "echo") {
        return echo(number(&words, 1));
    }
    let (connections, seconds, port): (usize, u64, u16) = (number(&words, 1), number(&words, 2), number(&words, 3));
    let is_sql = words.get(4).map_or(false, |it| it == "sql");
    let (done, is_over, start) =
        (Arc::new(AtomicU64::new(0)), Arc::new(AtomicBool::new(false)), Arc::new(Barrier::new(connections + 1)));
    let run = std::process::id();
    let threads: Vec<_> = (0..connections)
        .map(|number| {
            let (done, is_over, start, what) =
                (Arc::clone(&done), Arc::clone(&is_over), Arc::clone(&start), words[0].clone());
            std::thread::spawn(move || {
                let mut client = Client::connect(port);
                start.wait();
                let (mut tried, mut count) = (0, 0);
                while !is_over.load(Ordering::Relaxed) {
                    count += u64::from(turn(&mut client, &what, is_sql, number, (u64::from(run) << 32) + tried));
                    tried += 1;
                }
                done.fetch_add(count, Ordering::Relaxed);
            })
        })
        .collect();
    start.wait();
    let began = Instant::now();
    std::thread::sleep(Duration::from_secs(seconds));
    is_over.store(true, Ordering::Relaxed);
    threads.into_iter().for_each(|it| it.join().unwrap());
    println!("{:.0}", done.load(Ordering::Relaxed) as f64 / began.elapsed().as_secs_f64());
}
