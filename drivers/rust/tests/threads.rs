//! The store from Rust: replies, errors, sessions that are given back, threads, and the history.
use nigbaru::{Error, Next, Reply, Session, Store, Xid};
use std::sync::atomic::{AtomicUsize, Ordering};
use std::thread;

fn ok(session: &mut Session, text: &str) {
    assert_eq!(session.execute(text), Ok(Reply::Ok), "{}", text);
}

fn value(session: &mut Session, text: &str) -> i64 {
    match session.execute(text) {
        Ok(Reply::Value(bytes)) => String::from_utf8(bytes).unwrap().parse().unwrap(),
        other => panic!("{}: {:?}", text, other),
    }
}

#[test]
fn each_reply_and_each_error() {
    fn is_error<E: std::error::Error + Send + Sync + 'static>(_: E) {}
    fn is_sent<T: Send>(_: &T) {}
    let store = Store::open(2, 2).unwrap();
    let (mut one, mut two) = (store.session().unwrap(), store.session().unwrap());
    is_sent(&one);
    assert_eq!((one.number(), two.number()), (1, 2));
    assert_eq!(store.session().err(), Some(Error::NoSession));
    for (rows, sessions) in [(0, 1), (65537, 1), (1, 0), (1, 17)] {
        assert_eq!(Store::open(rows, sessions).err(), Some(Error::OutOfRange));
    }
    assert_eq!(one.execute("GET 'k'"), Ok(Reply::NoRow));
    ok(&mut one, "XA START 'a','b',7");
    assert_eq!(two.execute("XA START 'a','b',7"), Err(Error::Refused(1440)));
    ok(&mut one, "PUT 'k',''");
    assert_eq!(two.execute("PUT 'k','v'"), Err(Error::Refused(3572)));
    assert_eq!(one.execute("XA PREPARE 'a','b',7"), Err(Error::Refused(1399)));
    assert_eq!(one.execute("XA END 'a','b'"), Err(Error::Refused(1397)));
    assert_eq!(one.execute("XA END 'a' SUSPEND"), Err(Error::Refused(1398)));
    assert_eq!(one.execute("XA RECOVER now"), Err(Error::Syntax(11)));
    assert_eq!(one.execute(b""), Err(Error::Syntax(0)));
    ok(&mut one, "XA END 'a','b',7");
    assert_eq!(one.execute("XA RECOVER"), Ok(Reply::List(vec![])));
    ok(&mut one, "XA PREPARE 'a','b',7");
    let xid = Xid { format_id: 7, gtrid: b"a".to_vec(), bqual: b"b".to_vec() };
    assert_eq!(two.execute("XA RECOVER"), Ok(Reply::List(vec![xid])));
    ok(&mut two, "XA COMMIT 'a','b',7");
    assert_eq!(one.execute("GET 'k'"), Ok(Reply::Value(vec![])));
    is_error(two.execute("XA COMMIT 'a'").unwrap_err());
    assert_eq!(Error::Refused(3572).to_string(), "3572: row locked by another branch");
}

#[test]
fn a_dropped_session_is_free_and_its_branch_rolled_back() {
    let store = Store::open(4, 1).unwrap();
    for _ in 0..20 {
        let mut session = store.session().unwrap();
        assert_eq!(session.execute("GET 'k'"), Ok(Reply::NoRow));
        ok(&mut session, "XA START 'a'");
        ok(&mut session, "PUT 'k','v'");
    }
    let mut session = store.session().unwrap();
    drop(store);
    ok(&mut session, "PUT 'k','v'");
    assert_eq!(thread::spawn(move || session.execute("GET 'k'")).join().unwrap(), Ok(Reply::Value(b"v".to_vec())));
}

/// Counts a row up, read under its lock; how often it could.
fn count_up(mut session: Session, turns: u64) -> i64 {
    let number = session.number();
    let mut counted = 0;
    for turn in 0..turns {
        let xid = format!("'{}','{}'", number, turn);
        ok(&mut session, &format!("XA START {}", xid));
        ok(&mut session, &format!("PUT 'own{}','{}'", number, turn));
        let is_held = match session.execute("PUT 'lock','x'") {
            Ok(Reply::Ok) => true,
            Err(Error::Refused(3572)) => false,
            other => panic!("{:?}", other),
        };
        if is_held {
            let next = value(&mut session, "GET 'count'") + 1;
            ok(&mut session, &format!("PUT 'count','{}'", next));
        }
        ok(&mut session, &format!("XA END {}", xid));
        if is_held {
            ok(&mut session, &format!("XA PREPARE {}", xid));
            ok(&mut session, &format!("XA COMMIT {}", xid));
            counted += 1;
            assert_eq!(value(&mut session, &format!("GET 'own{}'", number)), turn as i64);
        } else {
            ok(&mut session, &format!("XA ROLLBACK {}", xid));
        }
    }
    counted
}

#[test]
fn threads_over_rings_of_each_size() {
    for (rows, threads) in [(1, 4), (3, 4), (64, 4), (1024, 4), (64, 16), (1024, 1)] {
        let store = Store::open(rows, threads).unwrap();
        let mut sessions: Vec<Session> = (0..threads).map(|_| store.session().unwrap()).collect();
        ok(&mut sessions[0], "PUT 'count','0'");
        let running: Vec<_> =
            sessions.into_iter().map(|session| thread::spawn(move || count_up(session, 300))).collect();
        let counted: i64 = running.into_iter().map(|thread| thread.join().unwrap()).sum();
        assert!(counted > 0);
        assert_eq!(value(&mut store.session().unwrap(), "GET 'count'"), counted);
    }
}

#[test]
fn a_session_is_taken_by_its_number_with_the_branch_that_it_was_left_with() {
    let store = Store::open(16, 3).unwrap();
    assert_eq!(store.take(0).err(), Some(Error::OutOfRange));
    assert_eq!(store.take(4).err(), Some(Error::OutOfRange));
    let mut two = store.take(2).unwrap();
    assert_eq!(store.take(2).err(), Some(Error::NoSession));
    ok(&mut two, "XA START 'a'");
    ok(&mut two, "PUT 'k','v'");
    two.leave();
    let (mut one, three) = (store.session().unwrap(), store.session().unwrap());
    assert_eq!((one.number(), three.number()), (1, 3));
    assert_eq!(store.session().err(), Some(Error::NoSession));
    assert_eq!(one.execute("PUT 'k','w'"), Err(Error::Refused(3572)));
    for turn in 0..100 {
        ok(&mut one, &format!("PUT 'l','{}'", turn));
    }
    let there = store.clone();
    let ended = thread::spawn(move || {
        let mut two = there.take(2).unwrap();
        ok(&mut two, "XA END 'a'");
        ok(&mut two, "XA PREPARE 'a'");
    });
    ended.join().unwrap();
    ok(&mut one, "XA COMMIT 'a'");
    assert_eq!(one.execute("GET 'k'"), Ok(Reply::Value(b"v".to_vec())));
    assert_eq!(store.session().unwrap().number(), 2);
}

#[test]
fn many_threads_take_few_sessions() {
    let store = Store::open(32, 3).unwrap();
    let threads: Vec<_> = (0..9)
        .map(|number| {
            let store = store.clone();
            thread::spawn(move || {
                for turn in 1..=200 {
                    let mut session = loop {
                        match store.session() {
                            Ok(session) => break session,
                            Err(why) => assert_eq!(why, Error::NoSession),
                        }
                        thread::yield_now();
                    };
                    ok(&mut session, &format!("XA START '{}','{}'", number, turn));
                    ok(&mut session, &format!("PUT 'k{}','{}'", number, turn));
                    if turn % 2 == 0 {
                        ok(&mut session, &format!("XA END '{}','{}'", number, turn));
                        ok(&mut session, &format!("XA COMMIT '{}','{}' ONE PHASE", number, turn));
                    }
                }
            })
        })
        .collect();
    threads.into_iter().for_each(|it| it.join().unwrap());
    let mut session = store.session().unwrap();
    (0..9).for_each(|number| assert_eq!(value(&mut session, &format!("GET 'k{}'", number)), 200));
    assert_eq!(session.execute("XA RECOVER"), Ok(Reply::List(vec![])));
}

#[test]
fn each_entry_is_handed_out_once_or_counted_as_lost() {
    let store = Store::open(64, 3).unwrap();
    let (mut one, mut two, mut three) = (store.session().unwrap(), store.session().unwrap(), store.session().unwrap());
    let mut expected = Vec::new();
    let mut given = Vec::new();
    assert_eq!(three.follow(), Next::End);
    for turn in 0..300 {
        ok(&mut one, &format!("PUT 'k','{}'", turn));
        assert_eq!(one.place(), 2 * turn);
        ok(&mut two, "DEL 'l'");
        assert_eq!(two.execute("GET 'none'"), Ok(Reply::NoRow));
        let digits: String = turn.to_string().bytes().map(|digit| format!("{:02x}", digit)).collect();
        expected.extend([(1, format!("PUT 0x6b,0x{}", digits)), (2, "DEL 0x6c".to_string())]);
        if turn % 10 == 9 {
            assert_eq!(
                three.hand_over(&mut |session, text| given.push((session, String::from_utf8(text.to_vec()).unwrap()))),
                0
            );
            assert_eq!(given, expected);
        }
    }
    let mut late = Vec::new();
    let lost = two.hand_over(&mut |session, text| late.push((session, String::from_utf8(text.to_vec()).unwrap())));
    assert!(lost >= 600 - 64, "{}", lost);
    assert_eq!(lost as usize + late.len(), 600);
    assert_eq!(late.last(), expected.last());
    assert_eq!(two.follow(), Next::End);
    one.catch_up().unwrap();
    assert_eq!(one.place(), 600);
}

#[test]
fn a_try_that_fails_adds_nothing() {
    let store = Store::open(1024, 2).unwrap();
    let (mut one, mut two) = (store.session().unwrap(), store.session().unwrap());
    assert_eq!(one.attempt("PUT 'k','1'"), Ok(Reply::Ok));
    let failed = AtomicUsize::new(0);
    thread::scope(|scope| {
        for session in [&mut one, &mut two] {
            let failed = &failed;
            scope.spawn(move || {
                for _ in 0..20_000 {
                    match session.attempt("PUT 'k','2'") {
                        Ok(Reply::Ok) => (),
                        Err(Error::Overtaken | Error::Behind) => {
                            failed.fetch_add(1, Ordering::Relaxed);
                        }
                        other => panic!("{:?}", other),
                    }
                }
            });
        }
    });
    let entries = 40_001 - failed.load(Ordering::Relaxed);
    assert_eq!(one.execute("GET 'k'"), Ok(Reply::Value(b"2".to_vec())));
    assert_eq!(one.place() as usize, entries);
}

/// Threads count a row up while a session follows; the others wait where it would lose entries. What it handed out,
/// carried out again in another store, leaves the same rows.
#[test]
fn a_history_that_was_followed_leaves_the_same_rows() {
    const ROWS: u64 = 1024;
    for threads in [1, 4, 15] {
        let store = Store::open(ROWS, threads + 1).unwrap();
        let mut follower = store.take(threads + 1).unwrap();
        let followed = AtomicUsize::new(0);
        let running = AtomicUsize::new(threads as usize);
        let mut history = Vec::new();
        thread::scope(|scope| {
            for _ in 0..threads {
                let (mut session, followed, running) = (store.session().unwrap(), &followed, &running);
                scope.spawn(move || {
                    let number = session.number();
                    for turn in 0..60_000 / threads {
                        ok(&mut session, &format!("PUT 'k{}_{}','{}'", number, turn % 50, turn));
                        while session.place() as usize > followed.load(Ordering::SeqCst) + ROWS as usize / 2 {
                            thread::yield_now();
                        }
                    }
                    running.fetch_sub(1, Ordering::SeqCst);
                });
            }
            while running.load(Ordering::SeqCst) > 0 {
                assert_eq!(
                    follower.hand_over(&mut |_, text| history.push(String::from_utf8(text.to_vec()).unwrap())),
                    0
                );
                followed.store(history.len(), Ordering::SeqCst);
                thread::yield_now();
            }
        });
        assert_eq!(follower.hand_over(&mut |_, text| history.push(String::from_utf8(text.to_vec()).unwrap())), 0);
        assert_eq!(history.len() as u64, 60_000 / threads * threads);
        let again = Store::open(ROWS, 1).unwrap();
        let mut session = again.session().unwrap();
        history.iter().for_each(|text| ok(&mut session, text));
        for number in 1..=threads {
            for row in 0..50 {
                let get = format!("GET 'k{}_{}'", number, row);
                assert_eq!(session.execute(&get), follower.execute(&get));
                assert!(matches!(session.execute(&get), Ok(Reply::Value(_))));
            }
        }
    }
}
