//! The sessions of a store, lent to connections.
//!
//! A connection needs a session while it has a branch that isn't prepared, and otherwise for one statement, since every
//! free session gives the same answers. Between statements a session lies in its place, and whoever had it last finds
//! it there again by an operation on a word of its own: no thread is woken, and the copy of the store that the session
//! keeps is still in that processor's memory. Others look from the first place on, so that few sessions are used where
//! few are needed.
//!
//! A session that is lent lies behind a lock of its own, which its connection takes for each statement. So others can
//! use it between two statements for what changes nothing: to see how the history goes on.
use nigbaru::{Error, Reply, Session, Statement, Store};
use std::collections::VecDeque;
use std::sync::atomic::{fence, AtomicBool, AtomicUsize, Ordering};
use std::sync::{Arc, Mutex, MutexGuard};
use std::thread::{self, Thread};
use std::time::{Duration, Instant};

/// Of each store.
pub const SESSIONS: usize = 16;

pub type Shared = Arc<Mutex<Session>>;

struct Place {
    /// None until somebody has needed it.
    session: Option<Shared>,
    is_lent: bool,
    /// How many entries the history had when the session was last brought up to date in passing.
    seen: u64,
}

struct Inner {
    store: Store,
    places: Vec<Mutex<Place>>,
    /// How many threads wait for a session, which who gives one back looks at.
    waiting: AtomicUsize,
    /// How many are lent for branches, and whether one is kept for statements.
    branches: AtomicUsize,
    keeps_one: AtomicBool,
    /// Whether nobody waits any more.
    is_closed: AtomicBool,
    queue: Mutex<Queue>,
}

/// For how long a session is needed.
#[derive(Clone, Copy, Debug, PartialEq, Eq)]
pub enum Need {
    /// For one statement.
    Statement,
    /// For a branch that begins.
    Branch,
}

/// A thread that waits.
struct Waiter {
    thread: Thread,
    need: Need,
}

/// How many statements at most come before a branch that waits to begin.
const BEFORE_A_BRANCH: usize = 16;

/// Who waits, each in the order of coming: first those who need a session for a statement, since they give it back at
/// once, and a statement that ends a branch isn't to wait behind all that begin one. But after so many of them one of
/// the others has its turn.
#[derive(Default)]
struct Queue {
    short: VecDeque<Arc<Waiter>>,
    long: VecDeque<Arc<Waiter>>,
    /// How many had one for a statement since one had it for a branch.
    passed: usize,
}

impl Queue {
    fn push(&mut self, waiter: &Arc<Waiter>) {
        self.of(waiter.need).push_back(Arc::clone(waiter));
    }

    fn of(&mut self, need: Need) -> &mut VecDeque<Arc<Waiter>> {
        match need {
            Need::Statement => &mut self.short,
            Need::Branch => &mut self.long,
        }
    }

    fn next(&self, may_begin: bool) -> Option<&Arc<Waiter>> {
        let is_their_turn =
            self.short.is_empty() || may_begin && self.passed >= BEFORE_A_BRANCH && !self.long.is_empty();
        (if is_their_turn { &self.long } else { &self.short }).front()
    }

    /// Takes out who has a session now, or waits no longer.
    fn remove(&mut self, waiter: &Arc<Waiter>, has_one: bool) {
        self.of(waiter.need).retain(|it| !Arc::ptr_eq(it, waiter));
        if has_one {
            self.passed = if waiter.need == Need::Branch { 0 } else { self.passed + 1 };
        }
    }
}

/// A store's sessions. A clone is the same pool.
#[derive(Clone)]
pub struct Pool {
    inner: Arc<Inner>,
}

fn lock<T>(mutex: &Mutex<T>) -> MutexGuard<'_, T> {
    mutex.lock().unwrap_or_else(|poisoned| poisoned.into_inner())
}

impl Pool {
    pub fn new(store: Store, sessions: usize) -> Pool {
        let places = (0..sessions).map(|_| Mutex::new(Place { session: None, is_lent: false, seen: 0 })).collect();
        let inner = Inner {
            store,
            places,
            waiting: AtomicUsize::new(0),
            branches: AtomicUsize::new(0),
            keeps_one: AtomicBool::new(false),
            is_closed: AtomicBool::new(false),
            queue: Mutex::default(),
        };
        Pool { inner: Arc::new(inner) }
    }

    /// The session of a place, lent or not.
    pub fn session(&self, place: usize) -> Result<Shared, Error> {
        self.session_of(place, &mut lock(&self.inner.places[place]))
    }

    /// Places count from 0, and sessions' numbers from 1.
    fn session_of(&self, index: usize, place: &mut Place) -> Result<Shared, Error> {
        if place.session.is_none() {
            place.session = Some(Arc::new(Mutex::new(self.inner.store.take(index as u64 + 1)?)));
        }
        place.session.clone().ok_or(Error::NoSession)
    }

    /// A session, that of a place if it is free; none if all are lent for so long.
    pub fn take(&self, place: usize, patience: Duration, need: Need) -> Result<Option<Lent>, Error> {
        match self.free(place, need)? {
            Some(lent) => Ok(Some(lent)),
            None if patience.is_zero() => Ok(None),
            None => self.wait(place, patience, need),
        }
    }

    fn free(&self, first: usize, need: Need) -> Result<Option<Lent>, Error> {
        let most = self.branches();
        let next = |count: usize| Some(count + 1).filter(|it| *it <= most);
        let branches = &self.inner.branches;
        if need == Need::Branch && branches.fetch_update(Ordering::SeqCst, Ordering::SeqCst, next).is_err() {
            return Ok(None);
        }
        let found = self.free_place(first, need);
        if need == Need::Branch && !matches!(found, Ok(Some(_))) {
            branches.fetch_sub(1, Ordering::SeqCst);
        }
        found
    }

    /// For how many branches sessions may be lent.
    fn branches(&self) -> usize {
        self.size() - usize::from(self.inner.keeps_one.load(Ordering::SeqCst))
    }

    fn free_place(&self, first: usize, need: Need) -> Result<Option<Lent>, Error> {
        let count = self.inner.places.len();
        for place in std::iter::once(first % count).chain(0..count) {
            let mut found = lock(&self.inner.places[place]);
            if !found.is_lent {
                let session = self.session_of(place, &mut found)?;
                found.is_lent = true;
                return Ok(Some(Lent { session, number: place as u64 + 1, place, need, pool: self.clone() }));
            }
        }
        Ok(None)
    }

    /// While it is so the last session is lent for no branch, but for statements alone: so those that wait for rows
    /// keep nobody from ending a prepared branch.
    pub fn keep_one(&self, is_so: bool) {
        self.inner.keeps_one.store(is_so, Ordering::SeqCst);
        self.wake();
    }

    /// Waits in a queue. Whoever gives a session back wakes who is next. Until that thread runs anybody may take the
    /// session: where many threads share few processors, it would idle otherwise.
    fn wait(&self, place: usize, patience: Duration, need: Need) -> Result<Option<Lent>, Error> {
        let deadline = Instant::now() + patience;
        let waiter = Arc::new(Waiter { thread: thread::current(), need });
        self.queue().push(&waiter);
        self.inner.waiting.fetch_add(1, Ordering::SeqCst);
        loop {
            // Either who gives back sees that somebody waits, or this thread sees the session that was given back.
            fence(Ordering::SeqCst);
            let found = self.free(place, need);
            let left = deadline.saturating_duration_since(Instant::now());
            if !matches!(found, Ok(None)) || left.is_zero() || self.inner.is_closed.load(Ordering::SeqCst) {
                self.leave(&waiter, matches!(found, Ok(Some(_))));
                return found;
            }
            thread::park_timeout(left);
        }
    }

    /// Waits no longer. If several sessions were given back, this thread was woken for all of them, and wakes the next.
    fn leave(&self, waiter: &Arc<Waiter>, has_one: bool) {
        let mut queue = self.queue();
        queue.remove(waiter, has_one);
        self.inner.waiting.fetch_sub(1, Ordering::SeqCst);
        if let Some(next) = queue.next(self.may_begin()) {
            if self.inner.places.iter().any(|it| !lock(it).is_lent) {
                next.thread.unpark();
            }
        }
    }

    fn may_begin(&self) -> bool {
        self.inner.branches.load(Ordering::SeqCst) < self.branches()
    }

    fn queue(&self) -> MutexGuard<'_, Queue> {
        lock(&self.inner.queue)
    }

    fn give_back(&self, place: usize, need: Need) {
        lock(&self.inner.places[place]).is_lent = false;
        if need == Need::Branch {
            self.inner.branches.fetch_sub(1, Ordering::SeqCst);
        }
        self.wake();
    }

    fn wake(&self) {
        fence(Ordering::SeqCst);
        if self.inner.waiting.load(Ordering::SeqCst) > 0 {
            if let Some(next) = self.queue().next(self.may_begin()) {
                next.thread.unpark();
            }
        }
    }

    /// From now on nobody waits: who finds all lent is told so at once.
    pub fn close(&self) {
        self.inner.is_closed.store(true, Ordering::SeqCst);
        let queue = self.queue();
        queue.short.iter().chain(&queue.long).for_each(|waiter| waiter.thread.unpark());
    }

    /// How many are lent, and how many threads wait for one.
    pub fn lent(&self) -> (usize, usize) {
        let lent = self.inner.places.iter().filter(|it| lock(it).is_lent).count();
        (lent, self.inner.waiting.load(Ordering::Relaxed))
    }

    pub fn size(&self) -> usize {
        self.inner.places.len()
    }

    /// How many entries the store's history has at least, as its sessions have seen it.
    pub fn entries(&self) -> u64 {
        self.seen().iter().map(|(_, _, seen)| *seen).max().unwrap_or(0)
    }

    /// The sessions that somebody has needed, each with its place and how much of the history it has seen.
    fn seen(&self) -> Vec<(usize, Shared, u64)> {
        let one = |(index, place): (usize, &Mutex<Place>)| {
            let (session, seen) = {
                let place = lock(place);
                (place.session.clone()?, place.seen)
            };
            let answered = lock(&session).place();
            Some((index, session, answered.max(seen)))
        };
        self.inner.places.iter().enumerate().filter_map(one).collect()
    }

    /// Brings sessions up to date that idle, before the entries are overwritten that they haven't seen: the last `rows`
    /// are kept. One that misses most of these, or more, is left alone until somebody needs it, since it would go on
    /// from a checkpoint now as well as then. Ends when it has taken as long as it may.
    pub fn refresh(&self, rows: u64, most: Duration) {
        let began = Instant::now();
        let seen = self.seen();
        let newest = seen.iter().map(|(_, _, seen)| *seen).max().unwrap_or(0);
        for (index, session, seen) in seen {
            let behind = newest - seen;
            if behind <= rows / 8 || behind > rows / 4 * 3 {
                continue;
            }
            if began.elapsed() > most {
                return;
            }
            // (without memory it stays behind)
            if lock(&session).catch_up().is_ok() {
                lock(&self.inner.places[index]).seen = newest;
            }
        }
    }
}

/// A session while a connection has it. Dropped, it is given back; no branch may be open in it then.
pub struct Lent {
    session: Shared,
    pub number: u64,
    pub place: usize,
    need: Need,
    pool: Pool,
}

impl Lent {
    /// Has a statement answered.
    pub fn ask(&mut self, statement: Statement) -> Result<Reply, Error> {
        lock(&self.session).ask(statement)
    }

    /// How many entries of the history come before the last answer.
    pub fn entries(&self) -> u64 {
        lock(&self.session).place()
    }
}

impl Drop for Lent {
    fn drop(&mut self) {
        if std::thread::panicking() {
            let _ = self.ask(Statement::Disconnect);
        }
        self.pool.give_back(self.place, self.need);
    }
}

#[cfg(test)]
mod tests {
    use super::*;

    fn pool(sessions: usize) -> Pool {
        Pool::new(Store::open(64, sessions as u64).unwrap(), sessions)
    }

    fn take(pool: &Pool, place: usize) -> Option<Lent> {
        pool.take(place, Duration::ZERO, Need::Statement).unwrap()
    }

    #[test]
    fn who_had_a_session_last_has_it_again() {
        let pool = pool(3);
        assert_eq!(take(&pool, 2).unwrap().place, 2);
        assert_eq!(take(&pool, 2).unwrap().place, 2);
        let held = take(&pool, 2).unwrap();
        assert_eq!(take(&pool, 2).unwrap().place, 0);
        assert_eq!(pool.lent(), (1, 0));
        drop(held);
        assert_eq!(pool.lent(), (0, 0));
    }

    #[test]
    fn when_all_are_lent_one_is_waited_for() {
        let pool = pool(2);
        let held = [take(&pool, 0).unwrap(), take(&pool, 0).unwrap()];
        assert!(take(&pool, 0).is_none());
        let began = Instant::now();
        assert!(pool.take(0, Duration::from_millis(50), Need::Branch).unwrap().is_none());
        assert!(began.elapsed() >= Duration::from_millis(50));
        let waiting = {
            let pool = pool.clone();
            thread::spawn(move || pool.take(0, Duration::from_secs(30), Need::Branch).unwrap().is_some())
        };
        while pool.lent().1 == 0 {
            thread::yield_now();
        }
        drop(held);
        assert!(waiting.join().unwrap());
        assert_eq!(pool.lent(), (0, 0));
    }

    /// After so many statements a branch has its turn, however many wait.
    #[test]
    fn a_branch_has_its_turn() {
        let mut queue = Queue::default();
        for need in std::iter::repeat(Need::Statement).take(40).chain([Need::Branch; 2]) {
            queue.push(&Arc::new(Waiter { thread: thread::current(), need }));
        }
        let mut order = Vec::new();
        while let Some(next) = queue.next(true).cloned() {
            queue.remove(&next, true);
            order.push(next.need);
        }
        let turns: Vec<usize> = (0..order.len()).filter(|at| order[*at] == Need::Branch).collect();
        assert_eq!((turns, order.len()), (vec![16, 33], 42));
    }

    /// The last session is kept for statements while that is wanted, and lent for a branch when it isn't any more.
    #[test]
    fn one_is_kept_for_statements() {
        let pool = pool(2);
        let take = |need| pool.take(0, Duration::ZERO, need).unwrap();
        pool.keep_one(true);
        let branch = take(Need::Branch).unwrap();
        assert!(take(Need::Branch).is_none());
        drop(take(Need::Statement).unwrap());
        let waiting = {
            let pool = pool.clone();
            thread::spawn(move || pool.take(0, Duration::from_secs(30), Need::Branch).unwrap().is_some())
        };
        while pool.lent().1 == 0 {
            thread::yield_now();
        }
        assert!(take(Need::Statement).is_some());
        assert_eq!(pool.lent(), (1, 1));
        pool.keep_one(false);
        assert!(waiting.join().unwrap());
        drop(branch);
        pool.keep_one(true);
        assert!(take(Need::Branch).is_some());
    }

    /// Whoever came first has it first, but those who need it for a statement come before those who begin a branch.
    #[test]
    fn who_is_next() {
        let pool = pool(1);
        let held = take(&pool, 0).unwrap();
        let waiting = |pool: &Pool| {
            let queue = pool.queue();
            queue.short.len() + queue.long.len()
        };
        let order = Arc::new(Mutex::new(Vec::new()));
        let needs = [Need::Branch, Need::Branch, Need::Statement, Need::Statement];
        let threads: Vec<_> = needs
            .into_iter()
            .enumerate()
            .map(|(number, need)| {
                let (pool, order) = (pool.clone(), Arc::clone(&order));
                let begun = thread::spawn({
                    let pool = pool.clone();
                    move || {
                        let lent = pool.take(0, Duration::from_secs(30), need).unwrap().unwrap();
                        order.lock().unwrap().push(number);
                        drop(lent);
                    }
                });
                while waiting(&pool) <= number {
                    thread::yield_now();
                }
                begun
            })
            .collect();
        drop(held);
        threads.into_iter().for_each(|it| it.join().unwrap());
        assert_eq!(*order.lock().unwrap(), [2, 3, 0, 1]);
        assert_eq!(pool.lent(), (0, 0));
    }

    #[test]
    fn whoever_waits_is_sent_away_at_the_end() {
        let pool = pool(1);
        let _held = take(&pool, 0).unwrap();
        let waiting = {
            let pool = pool.clone();
            thread::spawn(move || pool.take(0, Duration::from_secs(600), Need::Branch).unwrap().is_none())
        };
        while pool.lent().1 == 0 {
            thread::yield_now();
        }
        pool.close();
        assert!(waiting.join().unwrap());
        assert!(pool.take(0, Duration::from_secs(600), Need::Branch).unwrap().is_none());
    }

    /// A session that idles is brought up to date, and one that is too far behind is left alone.
    #[test]
    fn sessions_that_idle() {
        let pool = pool(3);
        drop([take(&pool, 0).unwrap(), take(&pool, 1).unwrap()]);
        let put = Statement::Put(b"k", b"v");
        let add = |count: usize| (0..count).for_each(|_| drop(take(&pool, 0).unwrap().ask(put).unwrap()));
        let seen = || pool.seen().iter().map(|(_, _, seen)| *seen).collect::<Vec<_>>();
        add(20);
        assert_eq!(seen()[1], 0);
        pool.refresh(64, Duration::from_secs(60));
        assert!(seen()[1] >= 19, "{:?}", seen());
        let before = seen()[1];
        add(60);
        pool.refresh(64, Duration::from_secs(60));
        assert_eq!(seen()[1], before);
        assert_eq!(take(&pool, 1).unwrap().ask(Statement::Get(b"k")).unwrap(), Reply::Value(b"v".to_vec()));
    }

    #[test]
    fn many_threads_share_few_sessions() {
        let pool = pool(2);
        let threads: Vec<_> = (0..8)
            .map(|number| {
                let pool = pool.clone();
                thread::spawn(move || {
                    for turn in 0..500 {
                        let mut lent = pool.take(number, Duration::from_secs(60), Need::Branch).unwrap().unwrap();
                        let key = format!("k{}", number);
                        lent.ask(Statement::Put(key.as_bytes(), turn.to_string().as_bytes())).unwrap();
                    }
                })
            })
            .collect();
        threads.into_iter().for_each(|it| it.join().unwrap());
        assert_eq!(pool.lent(), (0, 0));
    }
}
