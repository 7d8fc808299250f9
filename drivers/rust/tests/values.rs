//! Statements by values: the same replies and history as by text, and what is out of range.
use nigbaru::{Error, Next, Reply, Session, Statement, Store, Xid};

fn literal(bytes: &[u8]) -> String {
    format!("X'{}'", bytes.iter().map(|byte| format!("{:02x}", byte)).collect::<String>())
}

/// The text of a statement by values.
fn spelled(statement: Statement) -> String {
    let with = |verb: &str, xid: &Xid, clause: &str| {
        format!("XA {} {},{},{}{}", verb, literal(&xid.gtrid), literal(&xid.bqual), xid.format_id, clause)
    };
    match statement {
        Statement::Start(xid) => with("START", xid, ""),
        Statement::End(xid) => with("END", xid, ""),
        Statement::Prepare(xid) => with("PREPARE", xid, ""),
        Statement::Commit(xid) => with("COMMIT", xid, ""),
        Statement::CommitOnePhase(xid) => with("COMMIT", xid, " ONE PHASE"),
        Statement::Rollback(xid) => with("ROLLBACK", xid, ""),
        Statement::Recover => "XA RECOVER".to_string(),
        Statement::Get(key) => format!("GET {}", literal(key)),
        Statement::Put(key, value) => format!("PUT {},{}", literal(key), literal(value)),
        Statement::Del(key) => format!("DEL {}", literal(key)),
        Statement::Disconnect => "DISCONNECT".to_string(),
        Statement::Text(text) => String::from_utf8(text.to_vec()).unwrap(),
    }
}

fn xid(format_id: i64, gtrid: &[u8], bqual: &[u8]) -> Xid {
    Xid { format_id, gtrid: gtrid.to_vec(), bqual: bqual.to_vec() }
}

fn statement<'a>(verb: usize, xid: &'a Xid, key: &'a [u8], value: &'a [u8]) -> Statement<'a> {
    match verb {
        0 => Statement::Start(xid),
        1 => Statement::End(xid),
        2 => Statement::Prepare(xid),
        3 => Statement::Commit(xid),
        4 => Statement::CommitOnePhase(xid),
        5 => Statement::Rollback(xid),
        6 => Statement::Recover,
        7 => Statement::Get(key),
        8 => Statement::Put(key, value),
        9 => Statement::Del(key),
        _ => Statement::Disconnect,
    }
}

fn history(session: &mut Session) -> Vec<(u64, Vec<u8>)> {
    let mut entries = Vec::new();
    assert_eq!(session.hand_over(&mut |number, text| entries.push((number, text.to_vec()))), 0);
    entries
}

#[test]
fn each_statement_is_answered_as_its_text_is() {
    let bytes: Vec<u8> = (0..=255).collect();
    let xids = [
        xid(1, b"a", b"bc"),
        xid(1, b"ab", b"c"),
        xid(0, b"", b""),
        xid(i64::MAX, &bytes[..64], &bytes[192..]),
        xid(7, &bytes[100..164], b""),
    ];
    let keys: [&[u8]; 3] = [b"k", &bytes[..64], &bytes[192..]];
    let values: [&[u8]; 4] = [b"", b"v", &bytes[64..128], &bytes[128..192]];
    let (by_text, by_values) = (Store::open(65536, 3).unwrap(), Store::open(65536, 3).unwrap());
    let mut readers: Vec<Session> = (0..3).map(|_| by_text.session().unwrap()).collect();
    let mut givers: Vec<Session> = (0..3).map(|_| by_values.session().unwrap()).collect();
    let mut drawn: u64 = 1;
    let mut draw = |below: usize| {
        drawn = drawn.wrapping_mul(6364136223846793005).wrapping_add(1442695040888963407);
        (drawn >> 33) as usize % below
    };
    let mut kinds = std::collections::BTreeSet::new();
    for _ in 0..20000 {
        let given = statement(draw(11), &xids[draw(5)], keys[draw(3)], values[draw(4)]);
        let number = draw(3);
        let wanted = readers[number].execute(spelled(given));
        assert_eq!(givers[number].ask(given), wanted, "{:?}", given);
        assert_eq!(givers[number].place(), readers[number].place());
        kinds.insert(match wanted {
            Ok(Reply::Ok) => 0,
            Ok(Reply::Value(_)) => 1,
            Ok(Reply::NoRow) => 2,
            Ok(Reply::List(_)) => 3,
            Err(Error::Refused(number)) => number,
            Err(other) => panic!("{:?}: {}", given, other),
        });
    }
    assert_eq!(kinds.into_iter().collect::<Vec<_>>(), [0, 1, 2, 3, 1397, 1399, 1440, 3572]);
    assert_eq!(history(&mut givers[0]), history(&mut readers[0]));
}

#[test]
fn each_call() {
    let store = Store::open(16, 2).unwrap();
    let (mut one, mut two) = (store.session().unwrap(), store.session().unwrap());
    let (first, second) = (xid(7, b"a", b"b"), xid(7, b"a", b"c"));
    assert_eq!(one.start(&first), Ok(()));
    assert_eq!(two.start(&first), Err(Error::Refused(1440)));
    assert_eq!(one.put("k", "v"), Ok(()));
    assert_eq!(two.put("k", "w"), Err(Error::Refused(3572)));
    assert_eq!(one.end(&first), Ok(()));
    assert_eq!(one.prepare(&first), Ok(()));
    assert_eq!(two.recover(), Ok(vec![first.clone()]));
    assert_eq!(two.commit(&first), Ok(()));
    assert_eq!(two.get("k"), Ok(Some(b"v".to_vec())));
    assert_eq!(one.start(&second), Ok(()));
    assert_eq!(one.del(b"k"), Ok(()));
    assert_eq!(one.end(&second), Ok(()));
    assert_eq!(two.commit_one_phase(&second), Err(Error::Refused(1397)));
    assert_eq!(one.commit_one_phase(&second), Ok(()));
    assert_eq!(two.get("k"), Ok(None));
    assert_eq!(one.start(&second), Ok(()));
    assert_eq!(one.end(&second), Ok(()));
    assert_eq!(one.rollback(&second), Ok(()));
    assert_eq!(one.start(&second), Ok(()));
    assert_eq!(one.disconnect(), Ok(()));
    assert_eq!(two.start(&second), Ok(()));
    assert_eq!(two.ask_once(Statement::Get(b"k")), Ok(Reply::NoRow));
}

#[test]
fn nothing_is_done_out_of_range() {
    let store = Store::open(16, 1).unwrap();
    let mut session = store.session().unwrap();
    let long = [b'x'; 65];
    for bad in [xid(-1, b"a", b"b"), xid(i64::MIN, b"", b""), xid(1, &long, b""), xid(1, b"", &long)] {
        for verb in 0..6 {
            assert_eq!(session.ask(statement(verb, &bad, b"", b"")), Err(Error::OutOfRange), "{:?}", bad);
        }
    }
    for key in [&long[..0], &long[..]] {
        assert_eq!(session.get(key), Err(Error::OutOfRange));
        assert_eq!(session.put(key, "v"), Err(Error::OutOfRange));
        assert_eq!(session.del(key), Err(Error::OutOfRange));
    }
    assert_eq!(session.put("k", long), Err(Error::OutOfRange));
    assert_eq!(session.follow(), Next::End);
    assert_eq!(session.put(&long[..64], &long[..64]), Ok(()));
    assert_eq!(session.get(&long[..64]), Ok(Some(vec![b'x'; 64])));
}
