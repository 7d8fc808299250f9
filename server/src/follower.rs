//! Hands out what a store has logged, entry by entry and in order, to the history's file and to the state of a record's
//! pieces.
//!
//! A store keeps only the last entries, as many as its ring has rows. So that none is lost, a statement that may be
//! logged waits while too many were called that aren't handed out yet: where the files are slow, the server is as slow
//! as they are.
use crate::pool::Shared;
use nigbaru::Next;
use std::sync::atomic::{AtomicU64, Ordering};
use std::sync::{Mutex, MutexGuard};

/// Who is given each entry once, in the history's order: the session's number, and the statement's text in canonical
/// form.
pub type Keeper = Box<dyn FnMut(u64, &[u8]) + Send>;

/// How many entries are taken from the store at once, so that the session's connection waits for no more than these.
const BATCH: usize = 64;

/// So many entries were gone before they were handed out, which doesn't happen as long as each statement is counted.
#[derive(Debug)]
pub struct Lost(pub u64);

pub struct Follower {
    /// The session by which the history is followed. It is lent last, and used for this between two statements of the
    /// connection that has it.
    session: Shared,
    keepers: Mutex<Vec<Keeper>>,
    /// How many statements were called that may be logged.
    called: AtomicU64,
    /// Of these, how many were called before everything was handed out last.
    handed: AtomicU64,
    /// How many of them there may be that aren't handed out.
    most: u64,
}

impl Follower {
    /// Follows a store whose ring has so many rows. A quarter of them may be called ahead: with a statement of each
    /// session that is counted and not logged yet, or logged and counted as handed out, that is less than a store of 64
    /// rows keeps.
    pub fn new(session: Shared, keepers: Vec<Keeper>, rows: u64) -> Follower {
        Follower {
            session,
            keepers: Mutex::new(keepers),
            called: AtomicU64::new(0),
            handed: AtomicU64::new(0),
            most: rows / 4,
        }
    }

    fn is_due(&self) -> bool {
        self.called.load(Ordering::SeqCst).saturating_sub(self.handed.load(Ordering::SeqCst)) > self.most
    }

    /// Counts a statement that is going to be called, and may be logged. It waits while too much isn't handed out.
    pub fn before_a_call(&self) -> Result<(), Lost> {
        self.called.fetch_add(1, Ordering::SeqCst);
        while self.is_due() {
            let mut keepers = self.lock();
            // (maybe somebody else has done it meanwhile)
            if self.is_due() {
                self.hand_out(&mut keepers)?;
            }
        }
        Ok(())
    }

    /// Hands out all that is logged.
    pub fn hand_over(&self) -> Result<(), Lost> {
        self.hand_out(&mut self.lock())
    }

    fn lock(&self) -> MutexGuard<'_, Vec<Keeper>> {
        self.keepers.lock().unwrap_or_else(|poisoned| poisoned.into_inner())
    }

    fn hand_out(&self, keepers: &mut [Keeper]) -> Result<(), Lost> {
        let called = self.called.load(Ordering::SeqCst);
        let mut batch = Vec::new();
        loop {
            let is_all = self.take(&mut batch)?;
            for (session, text) in batch.drain(..) {
                keepers.iter_mut().for_each(|keeper| keeper(session, &text));
            }
            if is_all {
                self.handed.store(called, Ordering::SeqCst);
                return Ok(());
            }
        }
    }

    /// Takes the next entries; whether there are no more.
    fn take(&self, batch: &mut Vec<(u64, Vec<u8>)>) -> Result<bool, Lost> {
        let mut session = self.session.lock().unwrap_or_else(|poisoned| poisoned.into_inner());
        while batch.len() < BATCH {
            match session.follow() {
                Next::Entry { session, text } => batch.push((session, text)),
                Next::End => return Ok(true),
                Next::Lost(count) => return Err(Lost(count)),
            }
        }
        Ok(false)
    }
}

#[cfg(test)]
mod tests {
    use super::*;
    use crate::pool::{Need, Pool};
    use nigbaru::Store;
    use std::sync::Arc;
    use std::thread;
    use std::time::Duration;

    /// What was handed out, as lines.
    type Said = Arc<Mutex<Vec<String>>>;

    fn followed(rows: u64) -> (Pool, Arc<Follower>, Said) {
        let pool = Pool::new(Store::open(rows, 16).unwrap(), 16);
        let said = Said::default();
        let kept = Arc::clone(&said);
        let keeper: Keeper = Box::new(move |session, text| {
            kept.lock().unwrap().push(format!("{} {}", session, String::from_utf8_lossy(text)))
        });
        let follower = Follower::new(pool.session(15).unwrap(), vec![keeper], rows);
        (pool, Arc::new(follower), said)
    }

    fn put(pool: &Pool, follower: &Follower, place: usize, text: &str) {
        let mut lent = pool.take(place, Duration::from_secs(60), Need::Statement).unwrap().unwrap();
        follower.before_a_call().unwrap();
        lent.ask(nigbaru::Statement::Text(text.as_bytes())).unwrap();
    }

    #[test]
    fn entries_in_their_order() {
        let (pool, follower, said) = followed(64);
        put(&pool, &follower, 0, "PUT 0x6b,0x31");
        put(&pool, &follower, 3, "GET 0x6b");
        put(&pool, &follower, 15, "DEL 0x6b");
        assert!(said.lock().unwrap().is_empty());
        follower.hand_over().unwrap();
        follower.hand_over().unwrap();
        let said = said.lock().unwrap();
        assert_eq!(*said, ["1 PUT 0x6b,0x31", "16 DEL 0x6b"]);
    }

    /// Sixteen threads go round the ring many times, and a slow keeper loses nothing.
    #[test]
    fn nothing_is_lost() {
        let (pool, follower, said) = followed(64);
        let threads: Vec<_> = (0..16)
            .map(|number| {
                let (pool, follower) = (pool.clone(), Arc::clone(&follower));
                thread::spawn(move || {
                    (0..100).for_each(|turn| put(&pool, &follower, number, &format!("PUT '{}','{}'", number, turn)))
                })
            })
            .collect();
        threads.into_iter().for_each(|it| it.join().unwrap());
        follower.hand_over().unwrap();
        let said = said.lock().unwrap();
        assert_eq!(said.len(), 1_600);
        let mut texts: Vec<&str> = said.iter().map(|it| it.split_once(' ').unwrap().1).collect();
        texts.sort_unstable();
        texts.dedup();
        assert_eq!(texts.len(), 1_600);
    }
}
