//! What clients say beside statements of the store and of SQL: of their settings, of other connections, and of
//! transactions that aren't XA.
//!
//! Settings are kept and shown, without effect, except autocommit and READ ONLY: whatever character set is named the
//! bytes stay as they are, and whatever level is asked for is had, since every transaction is as isolated as
//! SERIALIZABLE asks. A name that isn't known is refused, so that a client learns of it.
use crate::answers::Refusal;
use crate::sql::{refused, At, Given, Number, Reader, Term, Value};
use crate::tokens::{quoted_at, Placed, Text, Word};
use crate::variables::Variables;
use std::borrow::Cow;
use std::sync::Arc;

/// A text that is read.
#[derive(Clone, Debug, PartialEq, Eq)]
pub enum Other {
    /// Of a transaction, and whether it is to read alone, if that is said.
    Begin(Option<bool>),
    Commit,
    RollBack,
    Set(Settings),
    /// `SHOW NIGBARU STATUS`.
    Status,
    /// A database is named, of which there is none; its name is all that is kept.
    Use(Vec<u8>),
    /// A connection is to end, or its statement.
    Kill {
        connection: u64,
        is_query: bool,
    },
    ShutDown,
    /// Nothing to do, and nothing to show.
    Nothing,
    Refused(Refusal),
}

/// A setting that is kept.
#[derive(Clone, Debug, PartialEq, Eq)]
pub enum Change {
    /// Without a value it is what it is usually.
    Variable(String, Option<Value>),
    User(String, Value),
    /// A character set, and maybe a collation.
    Names(String, Option<String>),
}

/// The settings that have an effect, with their new values, and all others.
#[derive(Clone, Debug, Default, PartialEq, Eq)]
pub struct Settings {
    pub autocommit: Option<bool>,
    /// Whether transactions read alone from now on.
    pub usual: Option<bool>,
    /// Whether the next transaction does.
    pub next: Option<bool>,
    pub changes: Vec<Change>,
}

/// What a text may ask for.
pub struct Facts {
    pub connection: u64,
    /// What the client has named, if it has.
    pub database: Option<Vec<u8>>,
    pub autocommit: bool,
    /// Whether transactions read alone.
    pub is_read_only: bool,
    pub longest: usize,
    /// Whether TLS may be asked for, and the version and cipher that this connection has agreed on.
    pub has_tls: bool,
    pub agreed: Option<(String, String)>,
    pub variables: Arc<Variables>,
    /// LAST_INSERT_ID().
    pub last_number: u64,
}

impl Facts {
    pub fn database(&self) -> Option<&str> {
        self.database.as_deref().and_then(|it| std::str::from_utf8(it).ok())
    }

    /// The database that a refusal names, and that tables are said to be in.
    pub fn database_name(&self) -> Cow<'_, str> {
        String::from_utf8_lossy(self.database.as_deref().unwrap_or(b"nigbaru"))
    }

    /// The value of a variable of the server's; none where there is no such one.
    pub fn setting(&self, name: &str) -> Option<Value> {
        let number = |it: usize| Some(Value::Number(Number::whole(it as i128)));
        match name.to_ascii_lowercase().as_str() {
            "autocommit" => number(self.autocommit.into()),
            "have_ssl" if self.has_tls => Some(Value::Text(b"YES".to_vec())),
            "transaction_read_only" | "tx_read_only" => number(self.is_read_only.into()),
            "max_allowed_packet" => number(self.longest),
            name => self.variables.get(name),
        }
    }

    /// Whether a column that is numbered keeps a 0, and isn't given the next number.
    pub fn keeps_zero(&self) -> bool {
        match self.setting("sql_mode") {
            Some(Value::Text(modes)) => modes.split(|byte| *byte == b',').any(|it| it == b"NO_AUTO_VALUE_ON_ZERO"),
            _ => false,
        }
    }

    /// The same as SHOW VARIABLES has it: a text, and of what is on or off this word.
    pub fn shown(&self, name: &str) -> Option<Value> {
        let switches = ["autocommit", "tx_read_only", "foreign_key_checks", "unique_checks", "sql_auto_is_null"];
        Some(match self.setting(name)? {
            Value::Number(number) if switches.contains(&name) => {
                Value::Text(if number.digits == 0 { b"OFF".to_vec() } else { b"ON".to_vec() })
            }
            Value::Number(number) => Value::Text(number.text().into_bytes()),
            value => value,
        })
    }
}

/// Words of a text, taken from the left.
struct Words<'a> {
    text: &'a [u8],
    words: &'a [Placed<'a>],
    facts: &'a Facts,
    /// What is bound to the `?`; in a text that isn't prepared they are no terms.
    given: Option<&'a [Given]>,
    parameters: usize,
    /// Why it is refused, although it can be read.
    refusal: Option<Refusal>,
}

/// What a text is, and how many `?` it has; none if it is nothing that is known.
pub fn read(read: &Text, facts: &Facts, given: Option<&[Given]>) -> Option<(Other, usize)> {
    let (text, words) = (read.text, &read.words[..]);
    let mut it = Words { text, words, facts, given, parameters: 0, refusal: None };
    let other = match it.run()? {
        "set" => it.set()?,
        "show" if it.sees("nigbaru") && it.sees("status") => Other::Status,
        "begin" => it.begin()?,
        "start" if it.sees("transaction") => it.start()?,
        "commit" => it.ending().map(|()| Other::Commit)?,
        "rollback" => it.ending().map(|()| Other::RollBack)?,
        "do" => it.terms()?,
        "kill" => it.kill()?,
        "shutdown" => Other::ShutDown,
        "use" if it.words.len() == 1 => Other::Use(it.written()?),
        _ => return None,
    };
    let (refusal, parameters) = (it.refusal.take().map(Other::Refused), it.parameters);
    Some((refusal.unwrap_or(other), parameters)).filter(|_| it.words.is_empty())
}

impl<'a> Words<'a> {
    fn next(&mut self) -> Option<&'a Word<'a>> {
        let (first, rest) = self.words.split_first()?;
        self.words = rest;
        Some(&first.word)
    }

    /// A run comes next; it is taken.
    fn run(&mut self) -> Option<&'a str> {
        match self.words.first() {
            Some(Placed { word: Word::Run(run), .. }) => {
                self.next();
                Some(run)
            }
            _ => None,
        }
    }

    /// Whether this run comes next; it is taken.
    fn sees(&mut self, run: &str) -> bool {
        let sees = matches!(self.words.first(), Some(Placed { word: Word::Run(it), .. }) if it == run);
        if sees {
            self.next();
        }
        sees
    }

    /// A run that comes next, in the letters that it was written in; it is taken.
    fn written(&mut self) -> Option<Vec<u8>> {
        let first = self.words.first()?;
        self.run()?;
        let text = &self.text[first.begin..first.end];
        Some(if text[0] == b'`' { quoted_at(text, 0)?.0 } else { text.to_vec() })
    }

    fn sees_sign(&mut self, sign: u8) -> bool {
        let sees = matches!(self.words.first(), Some(Placed { word: Word::Sign(it), .. }) if *it == sign);
        if sees {
            self.next();
        }
        sees
    }

    // terms

    fn term(&mut self) -> Option<Term> {
        let mut it = Reader::new(self.text, self.words, self.given);
        it.parameters = self.parameters;
        let term = it.term().ok()?;
        (self.words, self.parameters) = (it.words(), it.parameters);
        Some(term)
    }

    /// The value of a term, or NULL and a refusal that is kept.
    fn value(&mut self, term: &Term, part: &'static str) -> Value {
        let at = At { facts: self.facts, database: self.facts.database(), tables: &[], rows: &[], part };
        let none = |_: &Term| Err(refused(1111, "HY000", "Invalid use of group function"));
        term.value(&at, &none).unwrap_or_else(|refusal| {
            self.refusal.get_or_insert(refusal);
            Value::Null
        })
    }

    fn refuse(&mut self, refusal: Refusal) {
        self.refusal.get_or_insert(refusal);
    }

    /// What stands behind DO.
    fn terms(&mut self) -> Option<Other> {
        loop {
            let term = self.term()?;
            self.value(&term, "DO");
            if !self.sees_sign(b',') {
                return Some(Other::Nothing);
            }
        }
    }

    fn kill(&mut self) -> Option<Other> {
        let _ = self.sees("hard") || self.sees("soft");
        let is_query = self.sees("query");
        if !is_query {
            self.sees("connection");
        }
        let term = self.term()?;
        let connection = match self.value(&term, "KILL") {
            Value::Number(number) => u64::try_from(number.digits).unwrap_or(0),
            _ => 0,
        };
        Some(Other::Kill { connection, is_query })
    }

    // transactions

    fn begin(&mut self) -> Option<Other> {
        self.sees("work");
        Some(Other::Begin(None))
    }

    fn start(&mut self) -> Option<Other> {
        let mut is_read_only = None;
        if self.words.is_empty() {
            return Some(Other::Begin(None));
        }
        loop {
            if self.sees("read") {
                // (a transaction isn't both)
                is_read_only = Some(self.access().filter(|_| is_read_only.is_none())?);
            } else if !(self.sees("with") && self.sees("consistent") && self.sees("snapshot")) {
                return None;
            }
            if !self.sees_sign(b',') {
                return Some(Other::Begin(is_read_only));
            }
        }
    }

    /// What stands behind READ; whether it is ONLY.
    fn access(&mut self) -> Option<bool> {
        let is_read_only = self.sees("only");
        Some(is_read_only).filter(|it| *it || self.sees("write"))
    }

    /// What may stand behind COMMIT and ROLLBACK. Chains aren't had.
    fn ending(&mut self) -> Option<()> {
        self.sees("work");
        if self.sees("and") && !(self.sees("no") && self.sees("chain")) {
            return None;
        }
        if self.sees("no") && !self.sees("release") {
            return None;
        }
        Some(())
    }

    // settings

    fn set(&mut self) -> Option<Other> {
        let mut settings = Settings::default();
        loop {
            if self.is_names() {
                let change = self.names()?;
                settings.changes.push(change);
            } else {
                let is_session = self.sees("session") || self.sees("local");
                if self.sees("global") {
                    self.refuse_global();
                }
                if self.sees("transaction") {
                    return self.characteristics(is_session);
                }
                self.assignment(is_session, &mut settings)?;
            }
            if !self.sees_sign(b',') {
                return Some(Other::Set(settings));
            }
        }
    }

    fn refuse_global(&mut self) {
        let text = "This server doesn't take SET GLOBAL; it takes SET of the connection's own variables";
        self.refuse(refused(1235, "42000", text));
    }

    /// Whether NAMES, CHARSET, CHARACTER SET or CHAR SET come next; they are taken.
    fn is_names(&mut self) -> bool {
        self.sees("names") || self.sees("charset") || (self.sees("character") || self.sees("char")) && self.sees("set")
    }

    /// The name of a character set, and maybe of a collation, quoted or not.
    fn names(&mut self) -> Option<Change> {
        self.sees_sign(b'=');
        let charset = self.name()?;
        let collation = if self.sees("collate") { Some(self.name()?) } else { None };
        Some(Change::Names(charset, collation))
    }

    fn name(&mut self) -> Option<String> {
        match self.next()? {
            Word::Run(run) => Some(run.trim_matches('`').to_string()),
            Word::Quoted(data) => Some(String::from_utf8_lossy(data).into_owned()),
            Word::Sign(_) => None,
        }
    }

    /// What may stand behind SET TRANSACTION, which is about the next one, or SET SESSION TRANSACTION.
    fn characteristics(&mut self, is_session: bool) -> Option<Other> {
        let mut settings = Settings::default();
        loop {
            if self.sees("isolation") && self.sees("level") {
                let level = self.level()?;
                if is_session {
                    let value = Some(Value::Text(level.as_bytes().to_vec()));
                    settings.changes.push(Change::Variable("tx_isolation".to_string(), value));
                }
            } else if self.sees("read") {
                let access = Some(self.access()?);
                *(if is_session { &mut settings.usual } else { &mut settings.next }) = access;
            } else {
                return None;
            }
            if !self.sees_sign(b',') {
                return Some(Other::Set(settings));
            }
        }
    }

    fn level(&mut self) -> Option<&'static str> {
        match self.run()? {
            "serializable" => Some("SERIALIZABLE"),
            "repeatable" if self.sees("read") => Some("REPEATABLE-READ"),
            "read" if self.sees("committed") => Some("READ-COMMITTED"),
            "read" if self.sees("uncommitted") => Some("READ-UNCOMMITTED"),
            _ => None,
        }
    }

    /// `name = value`. What is `@@transaction_read_only` without SESSION is the next transaction's.
    fn assignment(&mut self, is_session: bool, settings: &mut Settings) -> Option<()> {
        let (mut is_users, mut is_next) = (false, false);
        if !is_session && self.sees_sign(b'@') {
            is_users = !self.sees_sign(b'@');
            let is_global = !is_users && self.sees("global");
            if is_global {
                self.refuse_global();
            }
            is_next = !self.sees("session") && !self.sees("local") && !is_global;
            if !is_users && !is_next && !self.sees_sign(b'.') {
                return None;
            }
        }
        let name = self.name()?;
        self.sees_sign(b':');
        if !self.sees_sign(b'=') {
            return None;
        }
        if is_users {
            let term = self.term()?;
            let value = self.value(&term, "SET");
            settings.changes.push(Change::User(name, value));
            return Some(());
        }
        let value = self.setting()?;
        match name.as_str() {
            "autocommit" => settings.autocommit = self.switch(&name, value, true),
            "transaction_read_only" | "tx_read_only" => {
                let access = self.switch(&name, value, false);
                *(if is_next { &mut settings.next } else { &mut settings.usual }) = access;
            }
            _ => settings.changes.push(Change::Variable(name, value)),
        }
        Some(())
    }

    /// What a variable is set to: a term, a word, or nothing for DEFAULT.
    fn setting(&mut self) -> Option<Option<Value>> {
        if self.sees("default") {
            return Some(None);
        }
        if self.sees("on") {
            return Some(Some(Value::Text(b"ON".to_vec())));
        }
        match self.term()? {
            Term::Column(of) if of.table.is_none() => Some(Some(Value::Text(of.name.into_bytes()))),
            term => Some(Some(self.value(&term, "SET"))),
        }
    }

    /// A value that is on or off; `usual` stands for DEFAULT.
    fn switch(&mut self, name: &str, value: Option<Value>, usual: bool) -> Option<bool> {
        let is = |text: &[u8], words: [&str; 2]| words.iter().any(|it| text.eq_ignore_ascii_case(it.as_bytes()));
        let said = match value {
            None => return Some(usual),
            Some(Value::Text(text)) if is(&text, ["on", "true"]) => return Some(true),
            Some(Value::Text(text)) if is(&text, ["off", "false"]) => return Some(false),
            Some(Value::Number(number)) if number == Number::whole(1) => return Some(true),
            Some(Value::Number(number)) if number == Number::whole(0) => return Some(false),
            Some(Value::Text(text)) => String::from_utf8_lossy(&text).into_owned(),
            Some(Value::Number(number)) => number.text(),
            Some(Value::Null) => "NULL".to_string(),
        };
        self.refuse(refused(1231, "42000", format!("Variable '{}' can't be set to the value of '{}'", name, said)));
        None
    }
}

/// Whether a name fits a pattern of LIKE. It goes back to the last `%` alone, so no pattern takes long.
pub fn is_like(name: &[u8], pattern: &[u8]) -> bool {
    let (mut at, mut place) = (0, 0);
    let mut back = None;
    while at < name.len() {
        let (wanted, length) = match pattern.get(place) {
            Some(b'\\') if place + 1 < pattern.len() => (Some(pattern[place + 1]), 2),
            Some(b'_') => (Some(name[at]), 1),
            byte => (byte.copied(), 1),
        };
        if length == 1 && pattern.get(place) == Some(&b'%') {
            back = Some((at, place));
            place += 1;
        } else if wanted == Some(name[at]) {
            at += 1;
            place += length;
        } else if let Some((from, percent)) = back {
            back = Some((from + 1, percent));
            at = from + 1;
            place = percent + 1;
        } else {
            return false;
        }
    }
    pattern[place..].iter().all(|byte| *byte == b'%')
}

#[cfg(test)]
mod tests {
    use super::*;

    fn facts() -> Facts {
        Facts {
            connection: 7,
            database: None,
            autocommit: true,
            is_read_only: false,
            longest: 65_536,
            has_tls: false,
            agreed: None,
            variables: Arc::default(),
            last_number: 0,
        }
    }

    fn heard(text: &str, given: Option<&[Given]>) -> Option<(Other, usize)> {
        read(&Text::new(text.as_bytes(), &text.to_ascii_lowercase()), &facts(), given)
    }

    /// What a text is; of settings those that have an effect.
    fn said(text: &str) -> Option<Other> {
        match heard(text, None) {
            Some((Other::Set(settings), 0)) => Some(Other::Set(Settings { changes: Vec::new(), ..settings })),
            found => found.map(|(other, _)| other),
        }
    }

    fn refused(text: &str) -> u16 {
        match heard(text, None) {
            Some((Other::Refused(it), _)) => it.number,
            other => panic!("{}: {:?}", text, other),
        }
    }

    fn set(settings: Settings) -> Option<Other> {
        Some(Other::Set(settings))
    }

    #[test]
    fn settings_that_drivers_send() {
        for text in [
            "SET NAMES utf8mb4",
            "set names 'utf8mb4'",
            "SET NAMES \"latin1\" COLLATE 'latin1_swedish_ci'",
            "SET NAMES utf8 COLLATE utf8_bin;",
            "SET NAMES DEFAULT",
            "SET CHARACTER SET utf8",
            "SET CHARACTER SET 'anything'",
            "SET CHARSET x",
            "SET TRANSACTION ISOLATION LEVEL READ COMMITTED",
            "SET SESSION TRANSACTION ISOLATION LEVEL REPEATABLE READ",
            "SET NAMES `utf8`",
            "SET NAMES utf8mb4, time_zone = '+00:00'",
            "SET sql_mode='', NAMES 'utf8' COLLATE utf8_bin, SESSION wait_timeout = 1",
            "SET CHAR SET utf8, CHARSET latin1, CHARACTER SET 'x'",
            "SET character_set_results = NULL",
            "SET sql_mode='STRICT_TRANS_TABLES', time_zone = '+00:00'",
            "SET @@session.wait_timeout=28800",
            "SET @x := concat(1, 2)",
            "SET SQL_AUTO_IS_NULL = 0",
            "SET SESSION sql_mode=(SELECT CONCAT(@@sql_mode,',x'))",
        ] {
            assert_eq!(said(text), set(Settings::default()), "{}", text);
        }
    }

    #[test]
    fn who_reads_alone() {
        for (text, usual, next) in [
            ("set session transaction read only", Some(true), None),
            ("SET LOCAL TRANSACTION READ WRITE", Some(false), None),
            ("SET TRANSACTION READ WRITE, ISOLATION LEVEL SERIALIZABLE", None, Some(false)),
            ("SET TRANSACTION ISOLATION LEVEL READ COMMITTED, READ ONLY", None, Some(true)),
            ("SET tx_read_only = 1", Some(true), None),
            ("SET SESSION transaction_read_only=ON", Some(true), None),
            ("SET @@session.transaction_read_only=DEFAULT", Some(false), None),
            ("SET @@transaction_read_only = 1", None, Some(true)),
            ("SET @transaction_read_only = 1", None, None),
        ] {
            assert_eq!(said(text), set(Settings { usual, next, ..Settings::default() }), "{}", text);
        }
        for text in ["SET TRANSACTION READ", "SET SESSION TRANSACTION READ ONLY,"] {
            assert_eq!(said(text), None, "{}", text);
        }
    }

    #[test]
    fn autocommit_in_every_form() {
        for (word, value) in [
            ("1", true),
            ("ON", true),
            ("true", true),
            ("default", true),
            ("0", false),
            ("off", false),
            ("FALSE", false),
        ] {
            for form in [
                "SET autocommit={}",
                "set SESSION autocommit = {}",
                "SET @@autocommit={}",
                "SET @@session.autocommit={}",
                "SET autocommit={}, sql_mode = concat(@@sql_mode,',STRICT_TRANS_TABLES')",
                "SET sql_mode='', autocommit={}",
            ] {
                let settings = Settings { autocommit: Some(value), ..Settings::default() };
                assert_eq!(said(&form.replace("{}", word)), set(settings), "{}", form);
            }
        }
        for text in [
            "SET autocommit",
            "SET autocommit=",
            "SET autocommit=0; BEGIN",
            "SET",
            "SET NAMES",
            "SET TRANSACTION",
            "SET x = (1",
        ] {
            assert_eq!(said(text), None, "{}", text);
        }
        for (text, number) in [
            ("SET autocommit=2", 1231),
            ("SET tx_read_only = 2", 1231),
            ("SET GLOBAL autocommit=1", 1235),
            ("SET GLOBAL TRANSACTION READ ONLY", 1235),
            ("DO nothing", 1054),
        ] {
            assert_eq!(refused(text), number, "{}", text);
        }
    }

    #[test]
    fn transactions() {
        for (text, is_read_only) in [
            ("BEGIN", None),
            ("begin work", None),
            ("START TRANSACTION", None),
            ("START TRANSACTION READ ONLY", Some(true)),
            ("START TRANSACTION READ WRITE", Some(false)),
            ("start transaction with consistent snapshot, read only", Some(true)),
        ] {
            assert_eq!(said(text), Some(Other::Begin(is_read_only)), "{}", text);
        }
        for (text, other) in [
            ("COMMIT", Other::Commit),
            ("commit work and no chain no release;", Other::Commit),
            ("ROLLBACK", Other::RollBack),
            ("rollback work", Other::RollBack),
        ] {
            assert_eq!(said(text), Some(other), "{}", text);
        }
        for text in [
            "COMMIT AND CHAIN",
            "ROLLBACK TO x",
            "START",
            "START SLAVE",
            "START TRANSACTION READ",
            "START TRANSACTION READ ONLY,",
            "START TRANSACTION READ ONLY READ WRITE",
            "START TRANSACTION READ ONLY, READ WRITE",
            "BEGIN; COMMIT",
        ] {
            assert_eq!(said(text), None, "{}", text);
        }
    }

    #[test]
    fn patterns() {
        for (name, pattern) in [
            ("a", "a"),
            ("a", "%"),
            ("", ""),
            ("", "%%"),
            ("abc", "a%c"),
            ("abc", "_b_"),
            ("a_c", "a\\_c"),
            ("abcabd", "%ab%d"),
            ("a%", "a\\%"),
            ("aaab", "%a%b"),
        ] {
            assert!(is_like(name.as_bytes(), pattern.as_bytes()), "{} {}", name, pattern);
        }
        for (name, pattern) in [
            ("a", ""),
            ("a", "b"),
            ("abc", "a\\_c"),
            ("abc", "a%d"),
            ("", "_"),
            ("ab", "a"),
            ("abc", "%b"),
            ("abc", "a\\%"),
        ] {
            assert!(!is_like(name.as_bytes(), pattern.as_bytes()), "{} {}", name, pattern);
        }
        assert!(!is_like(&[b'a'; 1_000], "%a".repeat(30_000).as_bytes()));
    }

    #[test]
    fn what_is_kept() {
        let kept = |text: &str| match heard(text, None) {
            Some((Other::Set(settings), 0)) => settings.changes,
            other => panic!("{}: {:?}", text, other),
        };
        let text = |it: &str| Value::Text(it.as_bytes().to_vec());
        let number = |it| Value::Number(Number::whole(it));
        assert_eq!(
            kept("SET @a = 1 + 2, sql_mode = concat(@@sql_mode, ',x'), NAMES latin1 COLLATE 'y', wait_timeout=DEFAULT"),
            [
                Change::User("a".to_string(), number(3)),
                Change::Variable("sql_mode".to_string(), Some(text("STRICT_TRANS_TABLES,x"))),
                Change::Names("latin1".to_string(), Some("y".to_string())),
                Change::Variable("wait_timeout".to_string(), None),
            ]
        );
        assert_eq!(kept("SET sql_mode = ANSI"), [Change::Variable("sql_mode".to_string(), Some(text("ANSI")))]);
        let bound = [Given { value: Some(b"v".to_vec()), is_number: false }];
        match heard("SET @a = ?", Some(&bound)) {
            Some((Other::Set(it), 1)) => assert_eq!(it.changes, [Change::User("a".to_string(), text("v"))]),
            other => panic!("{:?}", other),
        }
        assert_eq!(heard("DO ?, 1, ?", Some(&[])), Some((Other::Nothing, 2)));
        assert_eq!(heard("DO ?", None), None);
    }

    #[test]
    fn other_texts() {
        assert_eq!(said("DO 1"), Some(Other::Nothing));
        for (text, connection, is_query) in
            [("KILL 7", 7, false), ("kill connection 8;", 8, false), ("KILL QUERY CONNECTION_ID()", 7, true)]
        {
            assert_eq!(said(text), Some(Other::Kill { connection, is_query }), "{}", text);
        }
        for (text, name) in [("USE Db", "Db"), ("use `my ``Db`", "my `Db"), ("/* c */ use db;", "db")] {
            assert_eq!(said(text), Some(Other::Use(name.as_bytes().to_vec())), "{}", text);
        }
        assert_eq!((said("USE"), said("USE 'db'"), said("USE a b"), said("KILL")), (None, None, None, None));
        assert_eq!(said("show nigbaru status"), Some(Other::Status));
    }
}
