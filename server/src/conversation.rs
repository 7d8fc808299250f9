//! A conversation with a client: its login, and then one command after another until it leaves.
use crate::answers::{self, branch_columns, refusal, refusal_with, syntax, value_columns, Answer, Refusal, OK};
use crate::channel::{Channel, End};
use crate::chatter::{self, Facts, Other};
use crate::faults::{Fault, Point, What};
use crate::guest::Guest;
use crate::login::{self, Account};
use crate::options::Options;
use crate::packets::{self, command, Column, Kind as Type, Malformed, Takes};
use crate::sql::{self, Asked, Sql};
use crate::statements::{self, Kind, Statement};
use crate::store::{lock, Connection, Store};
use crate::tls::Keys;
use crate::tokens::{self, Text};
use std::collections::HashMap;
use std::sync::atomic::Ordering;
use std::sync::Arc;

/// How many statements a connection may keep prepared, how many bytes each may have, and all of them.
const PREPARED: usize = 1024;
const LONGEST_PREPARED: usize = 4096;
const ALL_PREPARED: usize = 256 * 1024;
/// How many bytes a database's name may have: 64 signs of 4 bytes, as in MySQL.
const LONGEST_NAME: usize = 256;

/// What a prepared text is.
#[derive(Clone, Copy, Debug, PartialEq, Eq)]
enum Form {
    /// A statement of the store.
    Statement,
    Sql,
    /// One of the other texts.
    Other,
}

/// A prepared text, and what was sent for its `?` ahead of its execution.
struct Prepared {
    text: Vec<u8>,
    parameters: usize,
    form: Form,
    kinds: Vec<Type>,
    long: Vec<Option<Vec<u8>>>,
}

pub struct Conversation {
    channel: Channel,
    guest: Guest,
    store: Arc<Store>,
    connection: Arc<Connection>,
    account: Option<Account>,
    /// The plugin that the greeting names.
    auth: &'static str,
    longest: usize,
    scramble: [u8; 20],
    tls: Option<Keys>,
    /// What the client said at its login that it can do.
    can: u32,
    /// The database that it has named.
    database: Option<Vec<u8>>,
    prepared: HashMap<u32, Prepared>,
    last: u32,
}

/// Sends a refusal of the server's own before there is a session.
pub fn refuse(channel: &mut Channel, refused: Refusal) -> Result<(), End> {
    Answer::Refused(refused).write(&mut channel.out, packets::status::NONE, false, false);
    channel.send()
}

fn point_of(kind: Kind) -> Point {
    match kind {
        Kind::Start => Point::Start,
        Kind::End => Point::End,
        Kind::Prepare => Point::Prepare,
        Kind::Commit => Point::Commit,
        Kind::OnePhase => Point::OnePhase,
        Kind::Rollback => Point::Rollback,
        Kind::Recover => Point::Recover,
        Kind::Get => Point::Get,
        Kind::Put => Point::Put,
        Kind::Del => Point::Del,
    }
}

fn columns_of(store: &Store, kind: Kind) -> Vec<Column> {
    match kind {
        Kind::Get => value_columns(store.has_texts),
        Kind::Recover => branch_columns(),
        _ => Vec::new(),
    }
}

impl Conversation {
    pub fn new(
        store: Arc<Store>,
        connection: Arc<Connection>,
        channel: Channel,
        options: &Options,
    ) -> Result<Conversation, End> {
        let scramble = login::scramble().map_err(|fault| End::Wrong(format!("no scramble: {}", fault)))?;
        Ok(Conversation {
            channel,
            guest: Guest::new(Arc::clone(&store), Arc::clone(&connection)),
            store,
            connection,
            account: options.account.clone(),
            auth: options.auth,
            longest: options.limits.longest,
            scramble,
            tls: options.tls.clone(),
            can: 0,
            database: None,
            prepared: HashMap::new(),
            last: 0,
        })
    }

    pub fn channel(&mut self) -> &mut Channel {
        &mut self.channel
    }

    // login

    /// Greets the client, and hears who it is. It has no answer to that yet.
    pub fn log_in(&mut self) -> Result<(), End> {
        let before = self.store.fault_at(Point::Connect);
        self.before(before, "the greeting")?;
        let (number, scramble, auth) = (self.connection.number as u32, self.scramble, self.auth);
        let has_tls = self.tls.is_some();
        self.channel.out.packet(|it| packets::greeting(it, number, &scramble, auth, has_tls));
        self.channel.send()?;
        self.after(before, "the greeting")?;
        let mut packet = Vec::new();
        self.channel.receive(&mut packet)?;
        if let Some(keys) = self.tls.as_ref().filter(|_| packets::asks_for_tls(&packet)) {
            self.channel.start_tls(keys)?;
            self.channel.receive(&mut packet)?;
        }
        let login = packets::read_login(&packet)?;
        self.can = login.can;
        if login.can & packets::can::COMPRESS != 0 {
            let why = "This server takes no compression: switch it off in the client";
            refuse(&mut self.channel, refusal_with(1043, why.to_string()))?;
            return Err(End::Refused("it would compress".to_string()));
        }
        self.use_database(&login.database);
        lock(&self.connection.doing).user = login.user.clone();
        self.prove(&login)
    }

    fn prove(&mut self, login: &packets::Login) -> Result<(), End> {
        let fault = self.store.fault_at(Point::Login);
        self.before(fault, "the login")?;
        if !login::is_right(&mut self.channel, login, self.account.as_ref(), self.auth, &self.scramble)? {
            self.connection.counts.count_refusal(1045);
            refuse(&mut self.channel, refusal(1045))?;
            return Err(End::Refused("a wrong user or password".to_string()));
        }
        self.after(fault, "the login")
    }

    /// Answers commands until the client leaves.
    pub fn hold(&mut self) -> End {
        match self.commands() {
            Ok(()) => End::Over,
            Err(end) => end,
        }
    }

    fn commands(&mut self) -> Result<(), End> {
        self.channel.has_logged_in();
        self.answer(OK, false)?;
        let mut packet = Vec::new();
        while !self.store.stop.is_over() {
            self.channel.receive(&mut packet)?;
            // (a packet may be empty)
            self.connection.does(packet.strip_prefix(&[command::QUERY]));
            self.command(&packet)?;
            self.connection.does(None);
        }
        Ok(())
    }

    fn answer(&mut self, answer: Answer, is_binary: bool) -> Result<(), End> {
        self.write(answer, is_binary, packets::status::NONE);
        self.channel.send()
    }

    /// Writes an answer, with flags beside those of the client's state.
    fn write(&mut self, answer: Answer, is_binary: bool, flags: u16) {
        if let Answer::Refused(it) = &answer {
            self.connection.counts.count_refusal(it.number);
        }
        let status = self.guest.status() | flags;
        answer.write(&mut self.channel.out, status, is_binary, self.store.has_texts);
    }

    // commands

    fn command(&mut self, packet: &[u8]) -> Result<(), End> {
        let (first, rest) = packet.split_first().ok_or_else(|| End::Wrong("a command without a byte".to_string()))?;
        match *first {
            command::QUERY => self.queries(rest),
            command::STMT_EXECUTE => {
                let answer = self.execute(packet)?;
                self.answer(answer, true)
            }
            command::STMT_PREPARE => self.prepare(rest),
            command::STMT_SEND_LONG_DATA => self.keep_long_data(packet),
            command::STMT_CLOSE => {
                self.prepared.remove(&packets::statement_number(packet)?);
                Ok(())
            }
            command::STMT_RESET => {
                let answer = self.reset_prepared(packet)?;
                self.answer(answer, false)
            }
            command::QUIT => Err(End::Quit),
            command::INIT_DB => {
                self.use_database(rest);
                self.answer(OK, false)
            }
            command::PING => self.answer(OK, false),
            command::CHANGE_USER => self.change_user(packet),
            command::RESET_CONNECTION => {
                let answer = self.reset()?;
                self.answer(answer, false)
            }
            command::PROCESS_INFO => self.queries(b"SHOW PROCESSLIST"),
            command::PROCESS_KILL => {
                let connection = packets::statement_number(packet)?.into();
                let answer = self.other(Other::Kill { connection, is_query: false })?;
                self.answer(answer, false)
            }
            command::SHUTDOWN => {
                let answer = self.other(Other::ShutDown)?;
                self.answer(answer, false)
            }
            // No table has a column.
            command::SET_OPTION | command::FIELD_LIST | command::DEBUG => {
                if let (command::SET_OPTION, [option @ (0 | 1), ..]) = (*first, rest) {
                    let bit = packets::can::MULTI_STATEMENTS;
                    self.can = if *option == 0 { self.can | bit } else { self.can & !bit };
                }
                let status = self.guest.status();
                self.channel.out.end_of_rows(status);
                self.channel.send()
            }
            command::STATISTICS => self.statistics(),
            _ => self.answer(refusal(1047).into(), false),
        }
    }

    /// As MySQL's begin: some clients know the answer by its first letter.
    fn statistics(&mut self) -> Result<(), End> {
        let text = format!(
            "Uptime: {}  Threads: {}  Questions: {}  Store: {}  Connection: {}",
            self.store.began.elapsed().as_secs(),
            self.store.logged_in.load(Ordering::Relaxed),
            self.store.statements(),
            self.store.name,
            self.connection.number
        );
        self.channel.out.packet(|it| it.extend(text.as_bytes()));
        self.channel.send()
    }

    /// Rolls back what isn't prepared.
    pub fn leave(&mut self) {
        let _ = self.guest.reset();
    }

    fn reset(&mut self) -> Result<Answer, End> {
        self.prepared.clear();
        self.guest.reset()
    }

    /// Keeps a database's name, which clients ask for. An empty one is none, and so is one that is too long.
    fn use_database(&mut self, name: &[u8]) {
        self.database = Some(name.to_vec()).filter(|it| (1..=LONGEST_NAME).contains(&it.len()));
        lock(&self.connection.doing).database = self.database.clone();
    }

    /// The client says that it is somebody else, and begins anew.
    fn change_user(&mut self, packet: &[u8]) -> Result<(), End> {
        let login = packets::read_change(packet, self.can)?;
        self.reset()?;
        self.use_database(&login.database);
        self.prove(&login)?;
        self.answer(OK, false)
    }

    // texts

    fn facts(&self) -> Facts {
        Facts {
            connection: self.connection.number,
            database: self.database.clone(),
            autocommit: self.guest.autocommit,
            is_read_only: self.guest.is_read_only,
            longest: self.longest,
            has_tls: self.tls.is_some(),
            agreed: self.channel.agreed(),
            variables: Arc::clone(&self.guest.variables),
            last_number: self.guest.last_number,
        }
    }

    /// A text, of which a client that can do so may send several in one. What comes behind one that is refused isn't
    /// read.
    fn queries(&mut self, text: &[u8]) -> Result<(), End> {
        let is_one = self.can & packets::can::MULTI_STATEMENTS == 0 || !text.contains(&b';');
        if is_one {
            let answer = self.query(text)?;
            return self.answer(answer, false);
        }
        let all = tokens::statements(text);
        for (index, text) in all.iter().enumerate() {
            let answer = self.query(text)?;
            let is_last = index + 1 == all.len() || matches!(answer, Answer::Refused(_));
            self.write(answer, false, if is_last { packets::status::NONE } else { packets::status::MORE });
            if is_last {
                break;
            }
        }
        self.channel.send()
    }

    /// A text: a statement of the store, or one of the others that are known.
    fn query(&mut self, text: &[u8]) -> Result<Answer, End> {
        let fault = match statements::read(text) {
            Ok(statement) => return self.statement(&statement),
            Err(fault) => fault,
        };
        let (small, facts) = (tokens::small(text), self.facts());
        let text = Text::new(text, &small);
        if let Some((other, _)) = chatter::read(&text, &facts, None) {
            return self.other(other);
        }
        match sql::read(&text, &facts.database_name(), None) {
            Some(Ok(sql)) => self.sql(&sql, &facts),
            Some(Err(place)) => Ok(sql::not_taken(&text, place).into()),
            None => Ok(syntax(text.text, fault).into()),
        }
    }

    /// A statement of SQL.
    fn sql(&mut self, sql: &Sql, facts: &Facts) -> Result<Answer, End> {
        self.connection.counts.count(None);
        let counts_found = self.can & packets::can::FOUND_ROWS != 0;
        sql::answer(&mut self.guest, &Asked { sql, database: &facts.database_name(), facts, counts_found })
    }

    /// A statement, with the fault that is meant for it.
    fn statement(&mut self, it: &Statement) -> Result<Answer, End> {
        self.connection.counts.count(Some(it.kind));
        let fault = match self.store.fault_at(point_of(it.kind)) {
            None => return self.guest.statement(it),
            Some(fault) => fault,
        };
        let at = String::from_utf8_lossy(&it.text).into_owned();
        if let What::Error(number) = fault.what {
            let wrong = self.wrong(fault, &at, number);
            self.guest.record_wrong(it, &wrong)?;
            return Ok(wrong.into());
        }
        self.before(Some(fault), &at)?;
        let answer = self.guest.statement(it)?;
        self.after(Some(fault), &at)?;
        Ok(answer)
    }

    fn other(&mut self, it: Other) -> Result<Answer, End> {
        self.connection.counts.count(None);
        if let Other::Use(name) = &it {
            self.use_database(name);
        }
        let (point, at) = match &it {
            Other::Begin(_) => (Point::Begin, "BEGIN"),
            Other::Commit => (Point::LocalCommit, "COMMIT"),
            Other::RollBack => (Point::LocalRollback, "ROLLBACK"),
            _ => return self.guest.other(it),
        };
        let fault = self.store.fault_at(point);
        if let Some(Fault { what: What::Error(number), .. }) = fault {
            return Ok(fault.map_or(OK, |fault| self.wrong(fault, at, number).into()));
        }
        self.before(fault, at)?;
        let answer = self.guest.other(it)?;
        self.after(fault, at)?;
        Ok(answer)
    }

    // faults on purpose

    fn note(&self, fault: Fault, at: &str, what: &str) {
        self.store.note(self.connection.number, &format!("the fault {}, at {}: {}", fault, at, what));
    }

    fn wrong(&self, fault: Fault, at: &str, number: u16) -> Refusal {
        self.note(fault, at, "a wrong answer, and the store doesn't hear of it");
        refusal(number)
    }

    /// What a fault does before the store hears of a statement.
    fn before(&mut self, fault: Option<Fault>, at: &str) -> Result<(), End> {
        let fault = match fault {
            Some(fault) => fault,
            None => return Ok(()),
        };
        match fault.what {
            What::CloseBefore => {
                self.note(fault, at, "cut before it, and the store doesn't hear of it");
                Err(End::Cut)
            }
            What::Stall(seconds) => {
                self.note(fault, at, "held before it");
                self.channel.pause(seconds)
            }
            What::Outage(seconds) => {
                self.note(fault, at, "the store goes out before it, and doesn't hear of it");
                self.store.begin_outage(seconds, &format!("the fault {}", fault));
                Err(End::Cut)
            }
            What::Error(number) => {
                let wrong = self.wrong(fault, at, number);
                refuse(&mut self.channel, wrong)?;
                Err(End::Refused("on purpose".to_string()))
            }
            What::CloseAfter | What::StallAfter(_) => Ok(()),
        }
    }

    /// What a fault does in place of an answer, or before it.
    fn after(&mut self, fault: Option<Fault>, at: &str) -> Result<(), End> {
        match fault {
            Some(fault @ Fault { what: What::CloseAfter, .. }) => {
                self.note(fault, at, "cut after it, and the client has no answer");
                Err(End::Cut)
            }
            Some(fault @ Fault { what: What::StallAfter(seconds), .. }) => {
                self.note(fault, at, "held after it");
                self.channel.pause(seconds)
            }
            _ => Ok(()),
        }
    }

    // prepared statements

    fn prepare(&mut self, text: &[u8]) -> Result<(), End> {
        let (parameters, columns, form) = match self.preparation(text) {
            Ok(found) => found,
            Err(refused) => return self.answer(refused.into(), false),
        };
        let held: usize = self.prepared.values().map(|it| it.text.len()).sum();
        if self.prepared.len() >= PREPARED || text.len() > LONGEST_PREPARED || held + text.len() > ALL_PREPARED {
            let why = format!(
                "more than {} prepared statements, or one of more than {} bytes, or all of more than {}",
                PREPARED, LONGEST_PREPARED, ALL_PREPARED
            );
            return self.answer(refusal_with(1295, why).into(), false);
        }
        self.last = self.last.wrapping_add(1);
        let it = Prepared { text: text.to_vec(), parameters, form, kinds: Vec::new(), long: vec![None; parameters] };
        self.prepared.insert(self.last, it);
        self.channel.out.prepared(self.last, &columns, parameters as u16, self.guest.status());
        self.channel.send()
    }

    /// Of a text the number of its `?`, what it gives, and what it is.
    fn preparation(&mut self, text: &[u8]) -> Result<(usize, Vec<Column>, Form), Refusal> {
        let fault = match statements::count_parameters(text) {
            Ok((statement, parameters)) => {
                return Ok((parameters, columns_of(&self.store, statement.kind), Form::Statement));
            }
            Err(fault) => fault,
        };
        let (small, facts) = (tokens::small(text), self.facts());
        let text = Text::new(text, &small);
        match chatter::read(&text, &facts, Some(&[])) {
            Some((Other::Status, _)) => return Err(refusal(1295)),
            Some((_, parameters)) => return Ok((parameters, Vec::new(), Form::Other)),
            None => (),
        }
        let database = &facts.database_name();
        match sql::count_parameters(&text, database) {
            Some(Ok((sql, parameters))) => {
                let asked = Asked { sql: &sql, database, facts: &facts, counts_found: false };
                Ok((parameters, sql::columns_of(&mut self.guest, &asked)?, Form::Sql))
            }
            Some(Err(place)) => Err(sql::not_taken(&text, place)),
            None => Err(syntax(text.text, fault)),
        }
    }

    fn execute(&mut self, packet: &[u8]) -> Result<Answer, End> {
        let number = packets::statement_number(packet)?;
        let it = match self.prepared.get_mut(&number) {
            Some(it) => it,
            None => return Ok(refusal(1243).into()),
        };
        let takes = if it.form == Form::Statement { Takes::Wholes } else { Takes::AllNumbers };
        let read = packets::read_execution(packet, it.parameters, &mut it.kinds, &mut it.long, takes);
        it.long.iter_mut().for_each(|sent| *sent = None);
        let bound = match read {
            Ok(values) if it.form != Form::Statement => {
                let (text, given, form) = (it.text.clone(), sql::given(values, &it.kinds), it.form);
                let (small, facts) = (tokens::small(&text), self.facts());
                let text = Text::new(&text, &small);
                if form == Form::Other {
                    return match chatter::read(&text, &facts, Some(&given)) {
                        Some((other, _)) => self.other(other),
                        None => Ok(refusal(1210).into()),
                    };
                }
                return match sql::read(&text, &facts.database_name(), Some(&given)) {
                    Some(Ok(sql)) => self.sql(&sql, &facts),
                    _ => Ok(refusal(1210).into()),
                };
            }
            Ok(values) => statements::bind(&it.text, &values),
            Err(Malformed(_)) => return Ok(refusal(1210).into()),
        };
        match bound {
            Ok(statement) => self.statement(&statement),
            Err(fault) => Ok(syntax(&it.text, fault).into()),
        }
    }

    /// Keeps a piece of a parameter; nothing is answered. No more is kept than a literal may have, and a byte, so that
    /// it is refused.
    fn keep_long_data(&mut self, packet: &[u8]) -> Result<(), End> {
        let number = packets::statement_number(packet)?;
        let (parameter, piece) = packets::read_long_data(packet)?;
        if let Some(kept) = self.prepared.get_mut(&number).and_then(|it| it.long.get_mut(parameter)) {
            let kept = kept.get_or_insert_with(Vec::new);
            let room = (tokens::LONGEST + 1).saturating_sub(kept.len());
            kept.extend(&piece[..piece.len().min(room)]);
        }
        Ok(())
    }

    fn reset_prepared(&mut self, packet: &[u8]) -> Result<Answer, End> {
        match self.prepared.get_mut(&packets::statement_number(packet)?) {
            Some(it) => {
                it.long.iter_mut().for_each(|sent| *sent = None);
                Ok(OK)
            }
            None => Ok(refusal(1243).into()),
        }
    }
}

/// The refusal of a packet that is too long.
pub fn too_long(longest: usize) -> Refusal {
    answers::refusal_with(1153, format!("a packet of more than {} bytes", longest))
}
