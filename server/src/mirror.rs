//! What a store holds, as its history says: kept beside a record that goes on in pieces, so that each piece can begin
//! with a state.
//!
//! The store has no list of its rows. Its history is the list of all statements that changed it, in one order, and none
//! of them is refused; so carrying them out needs no rule of who may do what.
use crate::statements::{self, Kind};
use std::collections::BTreeMap;

/// An identifier, by which branches are ordered: formatID, gtrid and bqual, these as canonical literals. An empty
/// literal is the empty text here, since `X''` stands behind `0x..`.
type Id = (u64, Vec<u8>, Vec<u8>);

/// How a branch holds a row.
enum Hold {
    Shares,
    Writes(Vec<u8>),
    Deletes,
}

#[derive(Default)]
struct Branch {
    /// The session that it belongs to until it is prepared, and whether its work has ended.
    owner: Option<(u64, bool)>,
    rows: BTreeMap<Vec<u8>, Hold>,
}

/// Keys and values are canonical literals.
#[derive(Default)]
pub struct Mirror {
    rows: BTreeMap<Vec<u8>, Vec<u8>>,
    branches: BTreeMap<Id, Branch>,
    /// The branch of each session that has one.
    owned: BTreeMap<u64, Id>,
}

fn id_of(text: &[u8]) -> Id {
    let plain = |it: &[u8]| if it == b"X''" { Vec::new() } else { it.to_vec() };
    let mut parts = text.split(|byte| *byte == b',');
    let (gtrid, bqual) = (plain(parts.next().unwrap_or(b"")), plain(parts.next().unwrap_or(b"")));
    let number = String::from_utf8_lossy(parts.next().unwrap_or(b"")).parse().unwrap_or(0);
    (number, gtrid, bqual)
}

impl Mirror {
    /// Carries out an entry of the history: the session's number, and the statement.
    pub fn apply(&mut self, session: u64, text: &[u8]) {
        match statements::read(text) {
            Ok(it) if it.kind.is_row() => self.row(session, it.kind, it.subject(), it.value()),
            Ok(it) => self.branch(session, it.kind, id_of(it.subject())),
            // The one entry that clients can't send.
            Err(_) => self.disconnect(session),
        }
    }

    fn disconnect(&mut self, session: u64) {
        if let Some(id) = self.owned.remove(&session) {
            self.branches.remove(&id);
        }
    }

    fn row(&mut self, session: u64, kind: Kind, key: &[u8], value: &[u8]) {
        let hold = match kind {
            Kind::Put => Hold::Writes(value.to_vec()),
            Kind::Del => Hold::Deletes,
            _ => Hold::Shares,
        };
        let branches = &mut self.branches;
        match self.owned.get(&session).and_then(|id| branches.get_mut(id)) {
            // What is held exclusively stays so when it is read.
            Some(branch) if kind == Kind::Get => drop(branch.rows.entry(key.to_vec()).or_insert(hold)),
            Some(branch) => drop(branch.rows.insert(key.to_vec(), hold)),
            None => self.change(key.to_vec(), hold),
        }
    }

    fn change(&mut self, key: Vec<u8>, hold: Hold) {
        match hold {
            Hold::Writes(value) => drop(self.rows.insert(key, value)),
            Hold::Deletes => drop(self.rows.remove(&key)),
            Hold::Shares => (),
        }
    }

    fn branch(&mut self, session: u64, kind: Kind, id: Id) {
        let owner = match kind {
            Kind::Start => Some((session, false)),
            Kind::End => Some((session, true)),
            Kind::Prepare => None,
            _ => return self.end(session, kind, &id),
        };
        match owner {
            Some(_) => self.owned.insert(session, id.clone()),
            None => self.owned.remove(&session),
        };
        self.branches.entry(id).or_default().owner = owner;
    }

    /// A branch is committed or rolled back, a prepared one by any session, which may have none of its own then.
    fn end(&mut self, session: u64, kind: Kind, id: &Id) {
        if self.owned.get(&session) == Some(id) {
            self.owned.remove(&session);
        }
        let ended = self.branches.remove(id).unwrap_or_default();
        if kind != Kind::Rollback {
            for (key, hold) in ended.rows {
                self.change(key, hold);
            }
        }
    }

    /// The state, as `xa_script show` lists it, with all rows that have a value.
    pub fn text(&self) -> Vec<u8> {
        let mut text = Vec::new();
        let literal = |it: &[u8]| if it.is_empty() { b"X''".to_vec() } else { it.to_vec() };
        for ((number, gtrid, bqual), branch) in &self.branches {
            let phase = match branch.owner {
                None => "PREPARED".to_string(),
                Some((session, false)) => format!("ACTIVE SESSION {}", session),
                Some((session, true)) => format!("IDLE SESSION {}", session),
            };
            text.extend(
                [
                    &b"  BRANCH "[..],
                    &literal(gtrid),
                    b",",
                    &literal(bqual),
                    format!(",{} {}\n", number, phase).as_bytes(),
                ]
                .concat(),
            );
            for (key, hold) in &branch.rows {
                text.extend(match hold {
                    Hold::Shares => [&b"    SHARES "[..], key, b"\n"].concat(),
                    Hold::Writes(value) => [&b"    HOLDS "[..], key, b" WRITES ", value, b"\n"].concat(),
                    Hold::Deletes => [&b"    HOLDS "[..], key, b" DELETES\n"].concat(),
                });
            }
        }
        for (key, value) in &self.rows {
            text.extend([&b"  ROW "[..], key, b" VALUE ", value, b"\n"].concat());
        }
        text
    }
}

#[cfg(test)]
mod tests {
    use super::*;

    fn state(entries: &[(u64, &str)]) -> String {
        let mut mirror = Mirror::default();
        entries.iter().for_each(|(session, text)| mirror.apply(*session, text.as_bytes()));
        String::from_utf8(mirror.text()).unwrap()
    }

    #[test]
    fn nothing_has_no_lines() {
        assert_eq!(state(&[]), "");
    }

    /// The order is that of formatID, gtrid and bqual, byte by byte, and a text that begins another comes before it.
    #[test]
    fn branches_and_rows_in_their_order() {
        let entries = [
            (9, "PUT 0x6c,0x31"),
            (1, "XA START 0x62,X'',1"),
            (2, "XA START 0x61,0x7a,2"),
            (3, "XA START X'',0x71,2"),
            (4, "XA START 0x61,X'',10"),
            (5, "XA START 0x6161,X'',1"),
            (6, "XA START 0x61,0x61,2"),
            (1, "PUT 0x6b6b,X''"),
            (1, "GET 0x6b"),
            (1, "GET 0x6b6b"),
            (1, "DEL 0x6c"),
            (1, "XA END 0x62,X'',1"),
            (1, "XA PREPARE 0x62,X'',1"),
            (1, "PUT 0x7a,X''"),
            (6, "XA END 0x61,0x61,2"),
        ];
        let expected = "  BRANCH 0x6161,X'',1 ACTIVE SESSION 5\n  BRANCH 0x62,X'',1 PREPARED\n    SHARES 0x6b\n    \
                        HOLDS 0x6b6b WRITES X''\n    HOLDS 0x6c DELETES\n  BRANCH X'',0x71,2 ACTIVE SESSION 3\n  \
                        BRANCH 0x61,0x61,2 IDLE SESSION 6\n  BRANCH 0x61,0x7a,2 ACTIVE SESSION 2\n  \
                        BRANCH 0x61,X'',10 ACTIVE SESSION 4\n  ROW 0x6c VALUE 0x31\n  ROW 0x7a VALUE X''\n";
        assert_eq!(state(&entries), expected);
    }

    #[test]
    fn how_branches_end() {
        let begun = [
            (1, "PUT 0x6b,0x31"),
            (1, "PUT 0x6c,0x31"),
            (1, "XA START 0x61,X'',1"),
            (1, "PUT 0x6b,0x32"),
            (1, "DEL 0x6c"),
            (1, "PUT 0x6d,0x33"),
        ];
        let ended = |entries: &[(u64, &'static str)]| state(&[&begun[..], entries].concat());
        let prepared = [(1, "XA END 0x61,X'',1"), (1, "XA PREPARE 0x61,X'',1")];
        let before = "  ROW 0x6b VALUE 0x31\n  ROW 0x6c VALUE 0x31\n";
        let after = "  ROW 0x6b VALUE 0x32\n  ROW 0x6d VALUE 0x33\n";
        assert_eq!(ended(&[(1, "DISCONNECT")]), before);
        assert_eq!(ended(&[(2, "DISCONNECT"), (1, "XA END 0x61,X'',1"), (1, "XA ROLLBACK 0x61,X'',1")]), before);
        assert_eq!(ended(&[(1, "XA END 0x61,X'',1"), (1, "XA COMMIT 0x61,X'',1 ONE PHASE")]), after);
        assert_eq!(ended(&[&prepared[..], &[(1, "DISCONNECT"), (2, "XA COMMIT 0x61,X'',1")]].concat()), after);
        assert_eq!(ended(&[&prepared[..], &[(2, "XA ROLLBACK 0x61,X'',1")]].concat()), before);
        // A session's next branch is its own, and its rows are its own outside of one.
        let next =
            [(1, "XA START 0x62,X'',1"), (1, "DEL 0x6c"), (2, "PUT 0x6e,0x34"), (1, "DISCONNECT"), (1, "DEL 0x6b")];
        let expected = "  BRANCH 0x61,X'',1 PREPARED\n    HOLDS 0x6b WRITES 0x32\n    HOLDS 0x6c DELETES\n    \
                        HOLDS 0x6d WRITES 0x33\n  ROW 0x6c VALUE 0x31\n  ROW 0x6e VALUE 0x34\n";
        assert_eq!(ended(&[&prepared[..], &next].concat()), expected);
    }
}
