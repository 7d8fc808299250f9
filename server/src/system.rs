//! What the standard library doesn't offer of the system: as many open files as may be, a longer queue of those who
//! come at the same moment, and connections whose other side is asked now and then whether it is there.
//!
//! Where the system refuses one of these, it stays as it was.
use nix::sys::resource::{getrlimit, setrlimit, Resource};
use nix::sys::socket::{listen, setsockopt, sockopt};
use std::net::TcpStream;
use std::os::unix::io::AsRawFd;

const QUEUE: usize = 4096;

/// Raises the soft limit of open files to the hard one, since each connection is a file.
pub fn allow_open_files() {
    let files = Resource::RLIMIT_NOFILE;
    let _ = getrlimit(files).and_then(|(_, hard)| setrlimit(files, hard, hard));
}

/// Lets as many wait to be accepted as the system allows; the standard library asks for 128.
pub fn lengthen_queue(listener: &impl AsRawFd) {
    // (the socket listens already, so this changes its queue alone)
    let _ = listen(listener.as_raw_fd(), QUEUE);
}

/// Has the system ask a client after a minute of silence whether it is there, and again after each 10 seconds. One
/// whose machine is gone is noticed after a minute and a half, and its branch rolled back.
pub fn keep_alive(stream: &TcpStream) {
    let socket = stream.as_raw_fd();
    let _ = setsockopt(socket, sockopt::KeepAlive, &true)
        .and_then(|()| setsockopt(socket, sockopt::TcpKeepIdle, &60))
        .and_then(|()| setsockopt(socket, sockopt::TcpKeepInterval, &10))
        .and_then(|()| setsockopt(socket, sockopt::TcpKeepCount, &3));
}
