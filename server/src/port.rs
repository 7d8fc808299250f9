//! Where a store listens, and what becomes of each client that comes.
use crate::answers::refusal_with;
use crate::channel::{Channel, End, Stream};
use crate::conversation::{refuse, too_long, Conversation};
use crate::options::Options;
use crate::store::{say, Connection, Store};
use crate::system;
use std::fs;
use std::io::{self, ErrorKind};
use std::net::{Shutdown, SocketAddr, TcpListener, TcpStream};
use std::os::unix::fs::FileTypeExt;
use std::os::unix::net::{UnixListener, UnixStream};
use std::panic::{self, AssertUnwindSafe};
use std::path::{Path, PathBuf};
use std::sync::atomic::{AtomicBool, AtomicUsize, Ordering};
use std::sync::Arc;
use std::thread;
use std::time::{Duration, Instant};

/// Of a connection's thread; what isn't touched of it takes no memory.
const STACK: usize = 512 * 1024;
/// How long is slept before something is tried again or looked at again.
const NAP: Duration = Duration::from_millis(20);
/// How long one connection too many waits for a place.
const GRACE: Duration = Duration::from_secs(1);

/// Where clients come.
#[derive(Clone)]
pub enum Address {
    Tcp(SocketAddr),
    Unix(PathBuf),
}

impl std::fmt::Display for Address {
    fn fmt(&self, f: &mut std::fmt::Formatter<'_>) -> std::fmt::Result {
        match self {
            Address::Tcp(it) => write!(f, "{}", it),
            Address::Unix(it) => write!(f, "{}", it.display()),
        }
    }
}

pub enum Listener {
    Tcp(TcpListener),
    Unix(UnixListener),
}

impl Listener {
    pub fn tcp(host: &str, port: u16) -> io::Result<(Listener, Address)> {
        let listener = TcpListener::bind((host, port))?;
        system::lengthen_queue(&listener);
        let address = Address::Tcp(listener.local_addr()?);
        Ok((Listener::Tcp(listener), address))
    }

    pub fn unix(path: PathBuf) -> io::Result<(Listener, Address)> {
        let listener = match UnixListener::bind(&path) {
            Err(fault) if fault.kind() == ErrorKind::AddrInUse && is_left(&path) => {
                fs::remove_file(&path)?;
                UnixListener::bind(&path)?
            }
            other => other?,
        };
        system::lengthen_queue(&listener);
        Ok((Listener::Unix(listener), Address::Unix(path)))
    }

    fn again(address: &Address) -> io::Result<Listener> {
        match address {
            Address::Tcp(it) => Listener::tcp(&it.ip().to_string(), it.port()).map(|(listener, _)| listener),
            Address::Unix(it) => Listener::unix(it.clone()).map(|(listener, _)| listener),
        }
    }

    fn accept(&self) -> io::Result<(Stream, String)> {
        match self {
            Listener::Tcp(it) => it.accept().map(|(stream, peer)| (Stream::Tcp(stream), peer.to_string())),
            Listener::Unix(it) => it.accept().map(|(stream, _)| (Stream::Unix(stream), "unix socket".to_string())),
        }
    }
}

/// Whether a socket lies there at which nobody listens: a server's that was killed. Any other file is left alone.
fn is_left(path: &Path) -> bool {
    let is_socket = fs::symlink_metadata(path).map_or(false, |it| it.file_type().is_socket());
    is_socket && UnixStream::connect(path).map_or_else(|fault| fault.kind() == ErrorKind::ConnectionRefused, |_| false)
}

/// Accepts clients of a store until the server ends.
pub struct Port {
    pub store: Arc<Store>,
    pub options: Arc<Options>,
    pub address: Address,
    /// Whether it listens. Where nobody does, a connection to it could meet itself.
    pub is_open: AtomicBool,
}

impl Port {
    pub fn listen(self: Arc<Port>, listener: Listener) -> thread::JoinHandle<()> {
        thread::spawn(move || {
            let mut listener = Some(listener);
            while let Some(it) = listener.take() {
                listener = self.turn(it);
            }
            self.clean();
        })
    }

    /// Wakes the thread that accepts, so that it sees what has changed.
    pub fn wake(&self) {
        if !self.is_open.load(Ordering::SeqCst) {
            return;
        }
        let _ = match &self.address {
            Address::Tcp(it) => TcpStream::connect_timeout(it, NAP).map(drop),
            Address::Unix(it) => UnixStream::connect(it).map(drop),
        };
    }

    fn clean(&self) {
        if let Address::Unix(path) = &self.address {
            let _ = fs::remove_file(path);
        }
    }

    /// Accepts one client, or sits an outage out. Gives where to listen further, unless the server ends.
    fn turn(self: &Arc<Port>, listener: Listener) -> Option<Listener> {
        let accepted = listener.accept();
        if self.store.stop.is_over() {
            return None;
        }
        if self.store.outage().is_some() {
            self.is_open.store(false, Ordering::SeqCst);
            drop((accepted, listener));
            return self.sit_out();
        }
        match accepted {
            Ok((stream, peer)) => self.take_in(stream, peer),
            Err(fault) => {
                // (as without a free file: who comes waits in the system's queue meanwhile)
                say(&format!("{} can't take in who comes: {}", self.store.name, fault));
                thread::sleep(10 * NAP);
            }
        }
        Some(listener)
    }

    fn sit_out(&self) -> Option<Listener> {
        self.clean();
        // (who was let in just before it began)
        self.store.shut_all(Shutdown::Both);
        while !self.store.has_come_back() {
            thread::sleep(NAP);
            if self.store.stop.is_over() {
                return None;
            }
        }
        loop {
            match Listener::again(&self.address) {
                Ok(listener) => {
                    self.is_open.store(true, Ordering::SeqCst);
                    say(&format!("{} is back, and listens on {}", self.store.name, self.address));
                    return Some(listener);
                }
                Err(fault) if fault.kind() == ErrorKind::AddrInUse && !self.store.stop.is_over() => thread::sleep(NAP),
                Err(fault) => {
                    self.store.stop.fail(format!("{} can't come back: {}", self.store.name, fault));
                    return None;
                }
            }
        }
    }

    /// Gives a client a thread, or refuses it.
    fn take_in(self: &Arc<Port>, stream: Stream, peer: String) {
        let stream = Arc::new(stream);
        if stream.prepare(self.options.limits.patience).is_err() {
            return;
        }
        let connection = self.store.greet(peer, Arc::clone(&stream));
        let mut channel = Channel::new(stream, self.options.limits);
        let place = match Count::of(&self.store, |it| &it.strangers, self.options.logins()) {
            Some(place) => place,
            None => {
                let text = "Too many connections that haven't logged in (--max-logins; SHOW NIGBARU STATUS counts)";
                let _ = refuse(&mut channel, refusal_with(1040, text.to_string()));
                self.store.log(connection.number, "refused: too many that haven't logged in");
                return self.store.forget(&connection);
            }
        };
        let (port, kept) = (Arc::clone(self), Arc::clone(&connection));
        let begun = thread::Builder::new().stack_size(STACK).spawn(move || {
            // (a fault of the server's own is told by the panic's message, and ends this connection alone)
            let _ = panic::catch_unwind(AssertUnwindSafe(|| port.serve(channel, &connection, place)));
            port.store.forget(&connection);
        });
        if let Err(fault) = begun {
            self.store.log(kept.number, &format!("refused: no thread for it: {}", fault));
            self.store.forget(&kept);
        }
    }

    /// A client from its coming to its going. Whatever it does wrong is its own end alone.
    fn serve(&self, channel: Channel, connection: &Arc<Connection>, place: Count) {
        let log = |text: String| self.store.log(connection.number, &text);
        let mut conversation =
            match Conversation::new(Arc::clone(&self.store), Arc::clone(connection), channel, &self.options) {
                Ok(conversation) => conversation,
                Err(_) => return log("closed: no random numbers".to_string()),
            };
        let end = self.meet(&mut conversation, connection, place);
        // The client's branch is rolled back before the connection's end is seen or told.
        conversation.leave();
        match end {
            End::Quit | End::Over => (),
            End::Cut => connection.stream.shutdown(Shutdown::Both),
            End::Left(place) => log(format!("closed {}, without a goodbye", place)),
            End::Refused(why) => log(format!("refused: {}", why)),
            End::Wrong(why) => log(format!("closed: {}", why)),
            End::TooLong(is_whole) => self.refuse_long(conversation.channel(), connection, is_whole),
        }
    }

    /// Refuses a packet that is too long, at once if no others belong to it: its client may wait for the answer.
    fn refuse_long(&self, channel: &mut Channel, connection: &Connection, is_whole: bool) {
        let longest = self.options.limits.longest;
        self.store.log(connection.number, &format!("closed: a packet of more than {} bytes", longest));
        if !is_whole {
            channel.pass_over();
        }
        let _ = refuse(channel, too_long(longest));
        connection.stream.shutdown(Shutdown::Write);
        if is_whole {
            channel.pass_over();
        }
    }

    /// Logs a client in, and answers it.
    fn meet(&self, conversation: &mut Conversation, connection: &Connection, place: Count) -> End {
        if let Err(end) = conversation.log_in() {
            return end;
        }
        drop(place);
        let _place = match Count::soon(&self.store, |it| &it.logged_in, self.options.connections) {
            Some(place) => place,
            None => {
                let text = format!(
                    "Too many connections: {} are let in (--max-connections; SHOW NIGBARU STATUS counts)",
                    self.options.connections
                );
                let _ = refuse(conversation.channel(), refusal_with(1040, text));
                return End::Refused(format!("{} are connected", self.options.connections));
            }
        };
        connection.has_logged_in.store(true, Ordering::Relaxed);
        conversation.hold()
    }
}

/// One of so many that there may be at a time.
struct Count {
    store: Arc<Store>,
    of: fn(&Store) -> &AtomicUsize,
}

impl Count {
    fn of(store: &Arc<Store>, of: fn(&Store) -> &AtomicUsize, most: usize) -> Option<Count> {
        let next = |count: usize| Some(count + 1).filter(|it| *it <= most);
        of(store).fetch_update(Ordering::Relaxed, Ordering::Relaxed, next).ok()?;
        Some(Count { store: Arc::clone(store), of })
    }

    /// The same, and waits a little: a client that has closed one connection and opens the next may be heard before the
    /// first one's end.
    fn soon(store: &Arc<Store>, of: fn(&Store) -> &AtomicUsize, most: usize) -> Option<Count> {
        let deadline = Instant::now() + GRACE;
        loop {
            let found = Count::of(store, of, most);
            if found.is_some() || Instant::now() >= deadline || store.stop.is_over() {
                return found;
            }
            thread::sleep(NAP);
        }
    }
}

impl Drop for Count {
    fn drop(&mut self) {
        (self.of)(&self.store).fetch_sub(1, Ordering::Relaxed);
    }
}

/// Opens a store's ports, and says where they are.
pub fn open(store: &Arc<Store>, number: usize, options: &Arc<Options>) -> Result<Vec<(Arc<Port>, Listener)>, String> {
    let port = if options.port == 0 { 0 } else { options.port + number as u16 - 1 };
    let mut found =
        vec![Listener::tcp(&options.host, port).map_err(|fault| format!("{}:{}: {}", options.host, port, fault))?];
    if let Some(path) = &options.socket {
        let path = crate::options::path_of(path, number, options.stores);
        found.push(Listener::unix(path.clone()).map_err(|fault| format!("{}: {}", path.display(), fault))?);
    }
    let port = |(listener, address): (Listener, Address)| {
        say(&format!("{} listens on {}", store.name, address));
        (
            Arc::new(Port {
                store: Arc::clone(store),
                options: Arc::clone(options),
                address,
                is_open: AtomicBool::new(true),
            }),
            listener,
        )
    };
    Ok(found.into_iter().map(port).collect())
}
