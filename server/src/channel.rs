//! A client's connection: whole packets in, packets out. What comes in is bounded, and half a packet is waited for only
//! so long.
use crate::options::{number, seconds};
use crate::packets::{length_in, Malformed, Out, HEADER};
use crate::system;
use crate::tls::{Keys, Tls};
use clap::Args;
use std::io::{self, ErrorKind, Read, Write};
use std::net::{Shutdown, TcpStream};
use std::os::unix::io::{AsRawFd, RawFd};
use std::os::unix::net::UnixStream;
use std::sync::Arc;
use std::time::{Duration, Instant};

/// Of a packet; a longer text goes on in further ones.
const MOST: usize = 0xff_ffff;
/// How much is read at once.
const PIECE: usize = 4096;

/// Why a connection is over.
#[derive(Debug)]
pub enum End {
    /// The client said goodbye.
    Quit,
    /// It is gone without a goodbye; the text says where.
    Left(&'static str),
    /// It is cut on purpose.
    Cut,
    /// It isn't let in, and has been told so; the text is for the log.
    Refused(String),
    /// A packet of more bytes than may be, which isn't taken; and whether the text ends with it.
    TooLong(bool),
    /// It said what is no packet, or nothing where something was due.
    Wrong(String),
    /// The server ends.
    Over,
}

impl From<Malformed> for End {
    fn from(it: Malformed) -> End {
        End::Wrong(it.0)
    }
}

pub enum Stream {
    Tcp(TcpStream),
    Unix(UnixStream),
}

impl AsRawFd for Stream {
    fn as_raw_fd(&self) -> RawFd {
        match self {
            Stream::Tcp(it) => it.as_raw_fd(),
            Stream::Unix(it) => it.as_raw_fd(),
        }
    }
}

impl Stream {
    /// Without delay, and with a limit to how long is waited for a client that takes no answers.
    pub fn prepare(&self, patience: Duration) -> io::Result<()> {
        match self {
            Stream::Tcp(it) => {
                system::keep_alive(it);
                it.set_nodelay(true).and(it.set_write_timeout(Some(patience)))
            }
            Stream::Unix(it) => it.set_write_timeout(Some(patience)),
        }
    }

    pub fn shutdown(&self, how: Shutdown) {
        // (where the other side was faster there is nothing left to shut)
        let _ = match self {
            Stream::Tcp(it) => it.shutdown(how),
            Stream::Unix(it) => it.shutdown(how),
        };
    }

    fn set_read_timeout(&self, limit: Option<Duration>) -> io::Result<()> {
        match self {
            Stream::Tcp(it) => it.set_read_timeout(limit),
            Stream::Unix(it) => it.set_read_timeout(limit),
        }
    }

    pub fn read(&self, to: &mut [u8]) -> io::Result<usize> {
        match self {
            Stream::Tcp(it) => (&*it).read(to),
            Stream::Unix(it) => (&*it).read(to),
        }
    }

    pub fn write(&self, bytes: &[u8]) -> io::Result<usize> {
        match self {
            Stream::Tcp(it) => (&*it).write(bytes),
            Stream::Unix(it) => (&*it).write(bytes),
        }
    }

    fn write_all(&self, bytes: &[u8]) -> io::Result<()> {
        match self {
            Stream::Tcp(it) => (&*it).write_all(bytes),
            Stream::Unix(it) => (&*it).write_all(bytes),
        }
    }
}

/// How long is waited, and how long a packet may be.
#[derive(Clone, Copy, Debug, Args)]
pub struct Limits {
    /// How long a login, the rest of a packet, and a client that takes no answers are waited for
    #[arg(long, value_name = "SECONDS", default_value = "10", value_parser = seconds(0.1))]
    pub patience: Duration,
    /// How long the next command is waited for; 0: for ever
    #[arg(long, value_name = "SECONDS", default_value = "0", value_parser = seconds(0.0))]
    pub idle: Duration,
    /// The longest packet that is read, 1024 to 16777214
    #[arg(long = "max-packet", value_name = "BYTES", default_value = "65536")]
    #[arg(value_parser = number::<usize>(1_024, 16_777_214))]
    pub longest: usize,
}

pub struct Channel {
    stream: Arc<Stream>,
    /// Once the client has asked for it.
    tls: Option<Tls>,
    limits: Limits,
    /// What was read, and how much of it was taken.
    held: Vec<u8>,
    taken: usize,
    /// Where a read puts its bytes; kept, so that it is cleared once.
    piece: Vec<u8>,
    /// What the socket waits at most, so that it is told only of changes.
    waits: Option<Duration>,
    /// Until when the login has to be there.
    login: Option<Instant>,
    pub out: Out,
}

enum Came {
    Bytes,
    Nothing,
}

impl Channel {
    pub fn new(stream: Arc<Stream>, limits: Limits) -> Channel {
        let login = Some(Instant::now() + limits.patience);
        Channel {
            stream,
            tls: None,
            limits,
            held: Vec::new(),
            taken: 0,
            piece: vec![0; PIECE],
            waits: None,
            login,
            out: Out::new(),
        }
    }

    /// From now on the client has all the time it wants for its next command.
    pub fn has_logged_in(&mut self) {
        self.login = None;
    }

    /// From now on all is TLS's. What is held came behind the client's request for it.
    pub fn start_tls(&mut self, keys: &Keys) -> Result<(), End> {
        let early = self.held.split_off(self.taken);
        self.held.clear();
        self.taken = 0;
        self.tls = Some(Tls::new(keys, early).map_err(End::Wrong)?);
        Ok(())
    }

    /// Version and cipher of TLS, if the client has asked for it.
    pub fn agreed(&self) -> Option<(String, String)> {
        self.tls.as_ref()?.agreed()
    }

    fn read(&mut self) -> io::Result<usize> {
        match &mut self.tls {
            Some(tls) => tls.read(&self.stream, &mut self.piece),
            None => self.stream.read(&mut self.piece),
        }
    }

    fn left(&self) -> End {
        End::Left(if self.held.len() > self.taken { "in the middle of a packet" } else { "between packets" })
    }

    /// Waits for the next packet, and puts its payload in place of what stood there.
    pub fn receive(&mut self, packet: &mut Vec<u8>) -> Result<(), End> {
        let mut deadline = self.login;
        let mut is_half = false;
        while !self.take_whole(packet)? {
            let has_begun = self.held.len() > self.taken;
            if self.login.is_none() && (deadline.is_none() || has_begun && !is_half) {
                is_half = has_begun;
                let wait = if has_begun { self.limits.patience } else { self.limits.idle };
                deadline = Some(Instant::now() + wait).filter(|_| !wait.is_zero());
            }
            if let Came::Nothing = self.fill(deadline)? {
                return Err(End::Wrong(self.silence(is_half)));
            }
        }
        Ok(())
    }

    fn silence(&self, is_half: bool) -> String {
        let patience = self.limits.patience.as_secs_f64();
        match (self.login, is_half) {
            (Some(_), _) => format!("silent for {} seconds", patience),
            (None, true) => format!("half a packet, and nothing more for {} seconds", patience),
            (None, false) => format!("no command for {} seconds", self.limits.idle.as_secs_f64()),
        }
    }

    /// Takes a packet from what is held, if it is whole.
    fn take_whole(&mut self, packet: &mut Vec<u8>) -> Result<bool, End> {
        let held = &self.held[self.taken..];
        if held.len() < HEADER {
            return Ok(false);
        }
        let end = HEADER + length_in(held);
        self.out.number = held[3].wrapping_add(1);
        if end > HEADER + self.limits.longest {
            return Err(End::TooLong(length_in(held) < MOST));
        }
        if held.len() < end {
            return Ok(false);
        }
        packet.clear();
        packet.extend(&held[HEADER..end]);
        self.taken += end;
        if self.taken == self.held.len() {
            self.taken = 0;
            self.held.clear();
            self.held.shrink_to(PIECE);
        }
        Ok(true)
    }

    /// Reads what has come, or waits for it until the deadline.
    fn fill(&mut self, deadline: Option<Instant>) -> Result<Came, End> {
        loop {
            let wait = match deadline.map(|it| it.saturating_duration_since(Instant::now())) {
                Some(wait) if wait.is_zero() => return Ok(Came::Nothing),
                wait => wait,
            };
            if self.waits != wait {
                self.stream.set_read_timeout(wait).map_err(|_| self.left())?;
                self.waits = wait;
            }
            match self.read() {
                Ok(0) => return Err(self.left()),
                Ok(length) => {
                    self.held.drain(..self.taken);
                    self.taken = 0;
                    self.held.extend(&self.piece[..length]);
                    return Ok(Came::Bytes);
                }
                Err(fault) => match fault.kind() {
                    ErrorKind::WouldBlock | ErrorKind::TimedOut | ErrorKind::Interrupted => (),
                    ErrorKind::InvalidData => return Err(End::Wrong(format!("no TLS: {}", fault))),
                    _ => return Err(self.left()),
                },
            }
        }
    }

    /// Sends the packets that were written, numbered after the last one that came.
    pub fn send(&mut self) -> Result<(), End> {
        let sent = match &mut self.tls {
            Some(tls) => tls.write_all(&self.stream, self.out.bytes()),
            None => self.stream.write_all(self.out.bytes()),
        };
        self.out.clear();
        match sent {
            Ok(()) => Ok(()),
            Err(fault) if matches!(fault.kind(), ErrorKind::WouldBlock | ErrorKind::TimedOut) => Err(End::Wrong(
                format!("answers that it didn't take for {} seconds", self.limits.patience.as_secs_f64()),
            )),
            Err(_) => Err(End::Left("before it had its answer")),
        }
    }

    /// Waits. A client that leaves meanwhile has left; what it says meanwhile is kept.
    pub fn pause(&mut self, seconds: f64) -> Result<(), End> {
        let deadline = Instant::now() + Duration::from_secs_f64(seconds);
        while Instant::now() < deadline {
            if self.held.len() > 2 * self.limits.longest {
                std::thread::sleep(Duration::from_millis(50).min(deadline.saturating_duration_since(Instant::now())));
            } else if self.fill(Some(deadline)).is_err() {
                return Err(End::Left("while its statement was held"));
            }
        }
        Ok(())
    }

    /// Passes over a text that is too long, so that the client reads its refusal instead of a broken connection. One of
    /// 16 MiB and more comes in several packets; what is sent then is numbered after the last of them.
    pub fn pass_over(&mut self) {
        let deadline = Instant::now() + self.limits.patience;
        loop {
            while self.held.len() < self.taken + HEADER {
                if !matches!(self.fill(Some(deadline)), Ok(Came::Bytes)) {
                    return;
                }
            }
            let header = &self.held[self.taken..];
            let length = length_in(header);
            self.out.number = header[3].wrapping_add(1);
            self.taken += HEADER;
            if !self.skip(length, deadline) || length < MOST {
                return;
            }
        }
    }

    /// Passes over so many bytes; whether they have come.
    fn skip(&mut self, mut rest: usize, deadline: Instant) -> bool {
        loop {
            let here = rest.min(self.held.len() - self.taken);
            self.taken += here;
            rest -= here;
            if rest == 0 {
                return true;
            }
            if !matches!(self.fill(Some(deadline)), Ok(Came::Bytes)) {
                return false;
            }
        }
    }
}
