//! Who waits for rows that branches hold, in the order of coming.
//!
//! A statement that is refused for a row queues up, tries once more, since the row may have become free meanwhile, and
//! sleeps. Whoever ends a branch wakes those whose turn has come for its rows. A statement has its turn if nobody who
//! came earlier waits for the same row in its way, and others for whom it isn't free yet don't pass those who wait.
//!
//! Of a circle of branches that wait for each other one has to give up: whichever has the fewest rows, of equals the
//! one that came last. Its last member finds the circle, since all others wait by then and have told which rows they
//! have.
use crate::pool::Pool;
use crate::store::{lock, Connection, Rows};
use nix::sys::epoll::{epoll_create1, epoll_ctl, epoll_wait, EpollCreateFlags, EpollEvent, EpollFlags, EpollOp};
use std::io;
use std::os::unix::io::{AsRawFd, RawFd};
use std::sync::atomic::{AtomicBool, AtomicUsize, Ordering};
use std::sync::{Arc, Mutex, MutexGuard};
use std::thread::{self, Thread};
use std::time::{Duration, Instant};

/// How many clients that leave are told of at once.
const EVENTS: usize = 64;

/// How a waiter fares.
#[derive(Clone, Copy, Debug, PartialEq, Eq)]
pub enum Fate {
    /// It tries, or is about to sleep.
    Awake,
    Asleep,
    /// Its turn has come, or may have.
    Called,
    /// It waited for as long as it may.
    Late,
    /// It is to give up, so that others go on.
    Deadlock,
    /// KILL QUERY.
    Interrupted,
    /// Its client has left.
    Left,
    /// The server ends.
    Over,
}

/// A statement that waits for a row.
pub struct Waiter {
    pub connection: Arc<Connection>,
    /// In canonical form.
    pub key: Vec<u8>,
    /// Whether it wants the row exclusively.
    pub alone: bool,
    /// Whether its branch has the row already, shared: then it passes those who wait for it.
    has_share: bool,
    /// Whether it keeps its session.
    is_bound: bool,
    pub since: Instant,
    thread: Thread,
    /// Written under the queue's lock.
    fate: Mutex<Fate>,
}

impl Waiter {
    fn fate(&self) -> Fate {
        *lock(&self.fate)
    }

    /// Wakes it with a fate, unless it has one that lasts.
    fn call(&self, fate: Fate) {
        let mut own = lock(&self.fate);
        if let Fate::Awake | Fate::Asleep | Fate::Called = *own {
            *own = fate;
            self.thread.unpark();
        }
    }

    /// How many rows its branch has.
    fn weight(&self) -> usize {
        lock(&self.connection.look).rows.len()
    }
}

/// All that wait for rows of a store.
pub struct Waits {
    queue: Mutex<Vec<Arc<Waiter>>>,
    /// How many these are, which each statement looks at.
    count: AtomicUsize,
    is_closed: AtomicBool,
    /// Is told while somebody waits, and has so many sessions.
    pool: Pool,
    /// Has the connections of those who wait, so that a client that leaves is noticed.
    watch: RawFd,
}

impl Waits {
    pub fn open(pool: Pool) -> io::Result<Arc<Waits>> {
        let watch = epoll_create1(EpollCreateFlags::EPOLL_CLOEXEC)?;
        let (count, is_closed) = (AtomicUsize::new(0), AtomicBool::new(false));
        let waits = Arc::new(Waits { queue: Mutex::default(), count, is_closed, pool, watch });
        let watching = Arc::clone(&waits);
        thread::Builder::new().spawn(move || watching.watch())?;
        Ok(waits)
    }

    /// Calls those whose client has left. Ends with the process.
    fn watch(&self) {
        let mut events = [EpollEvent::empty(); EVENTS];
        loop {
            let count = epoll_wait(self.watch, &mut events, -1).unwrap_or(0);
            let queue = self.queue();
            let is_meant = |it: &Arc<Waiter>| events[..count].iter().any(|one| one.data() == it.connection.number);
            queue.iter().filter(|it| is_meant(it)).for_each(|it| it.call(Fate::Left));
        }
    }

    fn queue(&self) -> MutexGuard<'_, Vec<Arc<Waiter>>> {
        lock(&self.queue)
    }

    /// Whether somebody else waits for a row whom a statement would pass that wants it now.
    pub fn would_pass(&self, connection: &Connection, key: &[u8], alone: bool) -> bool {
        if self.count.load(Ordering::SeqCst) == 0 || lock(&connection.look).rows.contains_key(key) {
            return false;
        }
        let is_passed = |it: &Arc<Waiter>| it.key == key && (alone || it.alone);
        self.queue().iter().any(is_passed)
    }

    /// Queues a statement up that is refused for a row. Without a session it has no branch either.
    pub fn queue_up(self: &Arc<Waits>, connection: &Arc<Connection>, key: &[u8], alone: bool, is_bound: bool) -> Turn {
        let waiter = Arc::new(Waiter {
            connection: Arc::clone(connection),
            key: key.to_vec(),
            alone,
            has_share: is_bound && lock(&connection.look).rows.contains_key(key),
            is_bound,
            since: Instant::now(),
            thread: thread::current(),
            fate: Mutex::new(Fate::Awake),
        });
        let mut queue = self.queue();
        queue.push(Arc::clone(&waiter));
        if self.count.fetch_add(1, Ordering::SeqCst) == 0 {
            self.pool.keep_one(true);
        }
        if self.is_closed.load(Ordering::SeqCst) {
            waiter.call(Fate::Over);
        }
        break_circles(&queue);
        drop(queue);
        // (EPOLLRDHUP: also behind what the client has sent meanwhile. One that can't be watched waits for its time)
        let mut event = EpollEvent::new(EpollFlags::EPOLLRDHUP | EpollFlags::EPOLLONESHOT, connection.number);
        let _ = epoll_ctl(self.watch, EpollOp::EpollCtlAdd, connection.stream.as_raw_fd(), &mut event);
        Turn { waits: Arc::clone(self), waiter, has_row: false }
    }

    /// A branch of a connection has ended that had these rows: calls those who may have them next. Where the connection
    /// waits itself, for a row that its branch shared, that was in the way of others alone.
    pub fn call(&self, rows: &Rows, by: &Connection) {
        if !rows.is_empty() && self.count.load(Ordering::SeqCst) != 0 {
            call_next(&self.queue(), |it| rows.contains_key(&it.key) && it.connection.number != by.number);
        }
    }

    /// Ends the wait of a connection's statement, if it waits.
    pub fn interrupt(&self, connection: u64) {
        let is_meant = |it: &&Arc<Waiter>| it.connection.number == connection;
        self.queue().iter().filter(is_meant).for_each(|it| it.call(Fate::Interrupted));
    }

    /// The server ends: nobody waits any more.
    pub fn close(&self) {
        let queue = self.queue();
        self.is_closed.store(true, Ordering::SeqCst);
        queue.iter().for_each(|it| it.call(Fate::Over));
    }

    /// Who waits, in the order of coming.
    pub fn all(&self) -> Vec<Arc<Waiter>> {
        self.queue().clone()
    }

    /// Whether all sessions are kept by branches that wait. Then none is left to commit a prepared one by.
    fn are_all_bound(&self, queue: &[Arc<Waiter>]) -> bool {
        queue.iter().filter(|it| it.is_bound && it.fate() == Fate::Asleep).count() >= self.pool.size()
    }
}

/// Whether nobody who came earlier is in the way of a waiter.
fn has_turn(queue: &[Arc<Waiter>], index: usize) -> bool {
    let it = &queue[index];
    it.has_share || !queue[..index].iter().any(|other| other.key == it.key && (other.alone || it.alone))
}

fn call_next(queue: &[Arc<Waiter>], is_meant: impl Fn(&Waiter) -> bool) {
    let next = |index: &usize| is_meant(&queue[*index]) && has_turn(queue, *index);
    (0..queue.len()).filter(next).for_each(|index| queue[index].call(Fate::Called));
}

/// Whether a waiter doesn't go on before another has: the other's branch has the row in its way, or the other came
/// earlier and is in its way. Those who have no branch are no link of a circle, but may stand between two that share.
fn waits_for(queue: &[Arc<Waiter>], index: usize, other: usize) -> bool {
    let (it, of) = (&queue[index], &queue[other]);
    let is_behind = |from: usize| {
        it.alone || !it.has_share && queue[from..index].iter().any(|between| between.alone && between.key == it.key)
    };
    let row = lock(&of.connection.look).rows.get(&it.key).copied();
    let is_earlier = other < index && of.key == it.key && !it.has_share;
    row.map_or(false, |alone| alone || is_behind(0)) || is_earlier && (of.alone || is_behind(other + 1))
}

/// Whether a way leads from a waiter to the last one; the way is what is found.
fn finds(queue: &[Arc<Waiter>], links: &[usize], way: &mut Vec<usize>, seen: &mut Vec<usize>) -> bool {
    let (end, index) = (queue.len() - 1, way[way.len() - 1]);
    for other in links.iter().copied().filter(|other| *other != index && waits_for(queue, index, *other)) {
        if other == end {
            return true;
        }
        if !seen.contains(&other) {
            seen.push(other);
            way.push(other);
            if finds(queue, links, way, seen) {
                return true;
            }
            way.pop();
        }
    }
    false
}

/// Has somebody give up of each circle that the last one closes.
fn break_circles(queue: &[Arc<Waiter>]) {
    let last = queue.len() - 1;
    while queue[last].is_bound && queue[last].fate() != Fate::Deadlock {
        let is_link = |index: &usize| {
            let it = &queue[*index];
            it.is_bound && matches!(it.fate(), Fate::Awake | Fate::Asleep | Fate::Called)
        };
        let links: Vec<usize> = (0..queue.len()).filter(is_link).collect();
        let mut way = vec![last];
        if !finds(queue, &links, &mut way, &mut Vec::new()) {
            return;
        }
        if let Some(victim) = way.into_iter().min_by_key(|index| (queue[*index].weight(), *index != last)) {
            queue[victim].call(Fate::Deadlock);
        }
    }
}

/// A statement's place in the queue, until it has its row or waits no longer.
pub struct Turn {
    waits: Arc<Waits>,
    waiter: Arc<Waiter>,
    has_row: bool,
}

impl Turn {
    pub fn is_for(&self, key: &[u8]) -> bool {
        self.waiter.key == key
    }

    /// Whether it is to have the row exclusively.
    pub fn is_alone(&self) -> bool {
        self.waiter.alone
    }

    /// Whether it may try to have its row now.
    pub fn has_come(&self) -> bool {
        let queue = self.waits.queue();
        queue.iter().position(|it| Arc::ptr_eq(it, &self.waiter)).map_or(true, |index| has_turn(&queue, index))
    }

    /// Its branch has the row: others are called when that ends.
    pub fn end_with_row(mut self) {
        self.has_row = true;
    }

    /// Sleeps until it is called. It waits for so long at most since it has queued up.
    pub fn sleep(&self, patience: Duration) -> Fate {
        let mut is_first = true;
        loop {
            let left = patience.saturating_sub(self.waiter.since.elapsed());
            if let Some(fate) = self.look(left, is_first) {
                return fate;
            }
            is_first = false;
            thread::park_timeout(left);
        }
    }

    /// What has become of it; none if it is to sleep.
    fn look(&self, left: Duration, is_first: bool) -> Option<Fate> {
        let queue = self.waits.queue();
        let mut fate = lock(&self.waiter.fate);
        match *fate {
            Fate::Awake | Fate::Asleep => (),
            Fate::Called => {
                *fate = Fate::Awake;
                return Some(Fate::Called);
            }
            other => return Some(other),
        }
        if left.is_zero() {
            return Some(Fate::Late);
        }
        *fate = Fate::Asleep;
        drop(fate);
        let is_stuck = is_first && self.waiter.is_bound && self.waits.are_all_bound(&queue);
        Some(Fate::Deadlock).filter(|_| is_stuck)
    }
}

impl Drop for Turn {
    fn drop(&mut self) {
        const NO_EVENT: Option<&mut EpollEvent> = None;
        let _ = epoll_ctl(self.waits.watch, EpollOp::EpollCtlDel, self.waiter.connection.stream.as_raw_fd(), NO_EVENT);
        let mut queue = self.waits.queue();
        queue.retain(|it| !Arc::ptr_eq(it, &self.waiter));
        if !self.has_row {
            call_next(&queue, |it| it.key == self.waiter.key);
        }
        if self.waits.count.fetch_sub(1, Ordering::SeqCst) == 1 {
            self.waits.pool.keep_one(false);
        }
    }
}
