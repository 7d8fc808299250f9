//! Reads statements by docs/STATEMENTS.md. A store is asked by their values, and a record has each written anew, so
//! that nothing else of a client's text reaches either.
//!
//! Besides what that page says, clients may write comments where blanks stand, `_binary` in front of a literal, `0x`
//! for an empty bqual, and `?` for a literal or a formatID of a prepared statement. A formatID is at most 2^31-1, since
//! Connector/J can list no greater one.
use crate::packets::Parameter;
use crate::tokens::{after_blanks, is_word_byte, quoted_at, run_at, LONGEST};
use nigbaru::{Statement as Asked, Xid};

const GREATEST: u64 = (1 << 31) - 1; // formatID
const WORDS: [&str; 22] = [
    "XA", "START", "BEGIN", "JOIN", "RESUME", "END", "SUSPEND", "FOR", "MIGRATE", "PREPARE", "COMMIT", "ONE", "PHASE",
    "ROLLBACK", "RECOVER", "CONVERT", "XID", "FORMAT", "GET", "PUT", "DEL", "NULL",
];
const INTRODUCER: &[u8] = b"_binary";

/// What a value has to be, as a refusal says it.
const KEY: &str = "the key is wanted, a text of 1 to 64 bytes";
const VALUE: &str = "the value is wanted, a text of up to 64 bytes";
const GTRID: &str = "the gtrid is wanted, a text of up to 64 bytes";
const BQUAL: &str = "the bqual is wanted, a text of up to 64 bytes";
const FORMAT: &str = "'RAW' or 'SQL' is wanted";
const FORMAT_ID: &str = "the formatID is wanted, a number from 0 to 2147483647";

/// A text that isn't a statement: the byte at which it goes wrong, why, and what value is wanted there.
#[derive(Clone, Copy, Debug, PartialEq, Eq)]
pub struct Fault {
    pub place: usize,
    pub why: Why,
    pub wanted: &'static str,
}

/// All but the first are of a value where a value may stand.
#[derive(Clone, Copy, Debug, PartialEq, Eq)]
pub enum Why {
    Syntax,
    TooLong,
    Null,
    /// It is empty, or a number where a text is wanted, or the other way round.
    Unfit,
    /// A name of a format that isn't known.
    Format,
}

#[derive(Clone, Copy, Debug, PartialEq, Eq, Hash, PartialOrd, Ord)]
pub enum Kind {
    Start,
    End,
    Prepare,
    Commit,
    OnePhase,
    Rollback,
    Recover,
    Get,
    Put,
    Del,
}

/// How XA RECOVER is to give identifiers.
#[derive(Clone, Copy, Debug, PartialEq, Eq)]
pub enum Shape {
    /// Their bytes.
    Raw,
    /// `CONVERT XID`: in hexadecimal digits.
    Digits,
    /// `FORMAT='SQL'`: as a statement may have them.
    Sql,
}

impl Kind {
    pub fn is_row(self) -> bool {
        matches!(self, Kind::Get | Kind::Put | Kind::Del)
    }
}

/// A statement of the grammar.
#[derive(Clone, Debug, PartialEq, Eq)]
pub struct Statement {
    pub kind: Kind,
    /// The statement in its canonical form.
    pub text: Vec<u8>,
    values: Values,
    /// The part of the text that is its identifier or its key.
    subject: (usize, usize),
    pub shape: Shape,
}

/// By which values the store is asked.
#[derive(Clone, Debug, PartialEq, Eq)]
enum Values {
    /// Of an identifier; a row's key, and of a PUT its value.
    Branch(Xid),
    Row(Vec<u8>, Vec<u8>),
    /// None: it is XA RECOVER, or has a clause that the store refuses by name.
    List,
    Clause,
}

impl Statement {
    pub fn subject(&self) -> &[u8] {
        &self.text[self.subject.0..self.subject.1]
    }

    /// Whether it has JOIN, RESUME or SUSPEND, which no branch takes.
    pub fn is_unsupported(&self) -> bool {
        self.values == Values::Clause
    }

    /// What the store is asked.
    pub fn asked(&self) -> Asked<'_> {
        match &self.values {
            Values::Branch(xid) => of_branch(self.kind, xid),
            Values::Row(key, _) if self.kind == Kind::Get => Asked::Get(key),
            Values::Row(key, value) if self.kind == Kind::Put => Asked::Put(key, value),
            Values::Row(key, _) => Asked::Del(key),
            Values::List => Asked::Recover,
            Values::Clause => Asked::Text(&self.text),
        }
    }

    /// The identifier or the key, with literals in quotes where that is sure to be read as the same.
    pub fn readable_subject(&self) -> Vec<u8> {
        let mut text = Vec::new();
        match &self.values {
            Values::Branch(xid) => {
                write_readable(&mut text, &xid.gtrid);
                text.push(b',');
                write_readable(&mut text, &xid.bqual);
                text.extend(format!(",{}", xid.format_id).as_bytes());
            }
            Values::Row(key, _) => write_readable(&mut text, key),
            Values::List | Values::Clause => text.extend(self.subject()),
        }
        text
    }

    /// Of a row statement the key's bytes.
    pub fn key(&self) -> Vec<u8> {
        match &self.values {
            Values::Row(key, _) => key.clone(),
            _ => Vec::new(),
        }
    }

    /// Of a PUT the value, in canonical form; of others nothing.
    pub fn value(&self) -> &[u8] {
        if self.kind == Kind::Put {
            &self.text[self.subject.1 + 1..]
        } else {
            b""
        }
    }
}

// tokens

/// A token: what it is where it is a word or a sign, what it stands for where it is a literal, a number, or both. All
/// are empty at the text's end, and of what fits nowhere.
#[derive(Default)]
struct Token {
    place: usize,
    word: &'static str,
    literal: Option<Vec<u8>>,
    number: Option<u64>,
    /// A bare `0x`.
    is_no_digits: bool,
}

impl Token {
    fn at(place: usize) -> Token {
        Token { place, ..Token::default() }
    }

    fn sign(place: usize, word: &'static str) -> Token {
        Token { place, word, ..Token::default() }
    }

    fn of_literal(place: usize, data: Vec<u8>) -> Token {
        Token { place, literal: Some(data), ..Token::default() }
    }
}

fn digit(byte: u8) -> Option<u8> {
    char::from(byte).to_digit(16).map(|it| it as u8)
}

/// The bytes of hexadecimal digits; before an odd number of them a 0 is understood.
fn of_digits(digits: &[u8]) -> Option<Vec<u8>> {
    let values: Option<Vec<u8>> = digits.iter().map(|byte| digit(*byte)).collect();
    let mut values = values?;
    if values.len() % 2 == 1 {
        values.insert(0, 0);
    }
    Some(values.chunks(2).map(|pair| pair[0] << 4 | pair[1]).collect())
}

/// A number of digits that may be any many; one of more than 64 bits is no formatID either way.
fn number_of(digits: &[u8], base: u32) -> u64 {
    digits.iter().fold(0, |number: u64, byte| {
        let value = char::from(*byte).to_digit(base).unwrap_or(0);
        number.saturating_mul(u64::from(base)).saturating_add(u64::from(value))
    })
}

/// A run is a word of the grammar, or a number, or one that is a literal too, or nothing.
fn run_token(run: &[u8], place: usize) -> Token {
    if let Some(word) = WORDS.iter().find(|word| run.eq_ignore_ascii_case(word.as_bytes())) {
        return Token::sign(place, word);
    }
    if run == b"0x" {
        return Token { is_no_digits: true, ..Token::at(place) };
    }
    if run.iter().all(u8::is_ascii_digit) {
        return Token { number: Some(number_of(run, 10)), ..Token::at(place) };
    }
    match run.strip_prefix(b"0x").map(|digits| (digits, of_digits(digits))) {
        Some((digits, Some(data))) => Token { number: Some(number_of(digits, 16)), ..Token::of_literal(place, data) },
        _ => Token::at(place),
    }
}

/// The token that begins at a place, and where it ends.
fn token_at(text: &[u8], place: usize) -> (Token, usize) {
    let lost = (Token::at(place), text.len());
    match text.get(place) {
        None => lost,
        Some(b',') => (Token::sign(place, ","), place + 1),
        Some(b';') => (Token::sign(place, ";"), place + 1),
        Some(b'?') => (Token::sign(place, "?"), place + 1),
        Some(b'=') => (Token::sign(place, "="), place + 1),
        Some(b'\'' | b'"') => quoted_at(text, place).map_or(lost, |(data, end)| (Token::of_literal(place, data), end)),
        Some(b'X' | b'x') if text.get(place + 1) == Some(&b'\'') => hexadecimal_at(text, place).unwrap_or(lost),
        Some(byte) if is_word_byte(*byte) => {
            let run = run_at(text, place);
            (run_token(run, place), place + run.len())
        }
        Some(_) => lost,
    }
}

/// `X'..'` at a place.
fn hexadecimal_at(text: &[u8], place: usize) -> Option<(Token, usize)> {
    let digits = run_at(text, place + 2);
    let end = place + 2 + digits.len();
    if text.get(end) != Some(&b'\'') || digits.len() % 2 == 1 {
        return None;
    }
    Some((Token::of_literal(place, of_digits(digits)?), end + 1))
}

/// The token after the blanks; `_binary` belongs to the literal behind it.
fn next_token(text: &[u8], place: usize) -> (Token, usize) {
    let place = after_blanks(text, place);
    if place >= text.len() || !run_at(text, place).eq_ignore_ascii_case(INTRODUCER) {
        return token_at(text, place);
    }
    let (token, end) = token_at(text, after_blanks(text, place + INTRODUCER.len()));
    (Token { literal: token.literal, ..Token::at(place) }, end)
}

// the grammar

/// Takes tokens from the left; what no statement has at a place is a fault there.
struct Reader<'a> {
    text: &'a [u8],
    /// What is bound to the `?`; in a text that isn't prepared they are faults.
    given: Option<&'a [Parameter]>,
    parameters: usize,
    token: Token,
    end: usize,
    written: Vec<u8>,
    /// What its literals stand for, and how many it has; its formatID; and whether it has a clause that the store
    /// refuses.
    literals: [Vec<u8>; 2],
    count: usize,
    format_id: i64,
    has_clause: bool,
}

/// The statement that a text is.
pub fn read(text: &[u8]) -> Result<Statement, Fault> {
    Reader::new(text, None).read()
}

/// A statement with `?`, and how many it has. In the statement each stands for a zero.
pub fn count_parameters(text: &[u8]) -> Result<(Statement, usize), Fault> {
    let mut reader = Reader::new(text, Some(&[]));
    let statement = reader.read()?;
    Ok((statement, reader.parameters))
}

/// A prepared statement with what is bound to its `?`.
pub fn bind(text: &[u8], parameters: &[Parameter]) -> Result<Statement, Fault> {
    Reader::new(text, Some(parameters)).read()
}

impl<'a> Reader<'a> {
    fn new(text: &'a [u8], given: Option<&'a [Parameter]>) -> Reader<'a> {
        let (token, end) = next_token(text, 0);
        let (written, literals) = (Vec::new(), [Vec::new(), Vec::new()]);
        Reader { text, given, parameters: 0, token, end, written, literals, count: 0, format_id: 1, has_clause: false }
    }

    fn step(&mut self) -> Token {
        let (next, end) = next_token(self.text, self.end);
        self.end = end;
        std::mem::replace(&mut self.token, next)
    }

    fn fail<T>(&self) -> Result<T, Fault> {
        self.fail_by(Why::Syntax, "")
    }

    fn fail_by<T>(&self, why: Why, wanted: &'static str) -> Result<T, Fault> {
        Err(Fault { place: self.token.place, why, wanted })
    }

    /// Whether a number stands here; with a sign it is no token.
    fn is_number(&self) -> bool {
        let rest = &self.text[self.token.place..];
        self.token.number.is_some() || matches!(rest, [b'-' | b'+', b'0'..=b'9', ..])
    }

    /// One of these words, which is written.
    fn word(&mut self, words: &[&str]) -> Result<&'static str, Fault> {
        if self.token.word.is_empty() || !words.contains(&self.token.word) {
            return self.fail();
        }
        Ok(self.step().word)
    }

    /// Whether this word comes next; it is taken.
    fn sees(&mut self, word: &str) -> bool {
        let sees = self.token.word == word;
        if sees {
            self.step();
        }
        sees
    }

    fn write(&mut self, text: &str) {
        self.written.extend(text.as_bytes());
    }

    /// Puts the value that is bound to a `?` in its place; whether one stood there.
    fn parameter(&mut self) -> bool {
        let given = match self.given {
            Some(given) if self.token.word == "?" => given,
            _ => return false,
        };
        let value = given.get(self.parameters).cloned().unwrap_or_else(|| Some(b"0".to_vec()));
        self.parameters += 1;
        let number = value
            .as_ref()
            .filter(|it| !it.is_empty() && it.len() <= 20 && it.iter().all(u8::is_ascii_digit))
            .map(|it| number_of(it, 10));
        let word = if value.is_none() { "NULL" } else { "" };
        self.token = Token { place: self.token.place, word, number, literal: value, ..Token::default() };
        true
    }

    /// A literal of at least so many bytes, written in its canonical form.
    fn literal(&mut self, least: usize, wanted: &'static str) -> Result<(), Fault> {
        let is_bound = self.parameter();
        match self.token.literal.take() {
            Some(data) if (least..=LONGEST).contains(&data.len()) => {
                write_literal(&mut self.written, &data);
                self.literals[self.count] = data;
                self.count += 1;
                self.step();
                Ok(())
            }
            // (for an identifier in a text MariaDB has faults of syntax alone)
            _ if !is_bound && ![KEY, VALUE].contains(&wanted) => self.fail(),
            Some(data) if data.len() > LONGEST => self.fail_by(Why::TooLong, wanted),
            Some(_) => self.fail_by(Why::Unfit, wanted),
            None if self.token.word == "NULL" => self.fail_by(Why::Null, wanted),
            None if self.is_number() => self.fail_by(Why::Unfit, wanted),
            None => self.fail(),
        }
    }

    fn bqual(&mut self) -> Result<(), Fault> {
        if self.token.is_no_digits {
            self.token.literal = Some(Vec::new());
        }
        self.literal(0, BQUAL)
    }

    fn format_id(&mut self) -> Result<(), Fault> {
        let is_bound = self.parameter();
        match self.token.number {
            Some(number) if number <= GREATEST => {
                self.write(&number.to_string());
                self.format_id = number as i64;
                self.step();
                Ok(())
            }
            _ if is_bound && self.token.word == "NULL" => self.fail_by(Why::Null, FORMAT_ID),
            _ if is_bound => self.fail_by(Why::Unfit, FORMAT_ID),
            _ => self.fail(),
        }
    }

    fn xid(&mut self) -> Result<(), Fault> {
        self.literal(0, GTRID)?;
        if !self.sees(",") {
            self.write(",X'',1");
            return Ok(());
        }
        self.write(",");
        self.bqual()?;
        if !self.sees(",") {
            self.write(",1");
            return Ok(());
        }
        self.write(",");
        self.format_id()
    }

    fn read(&mut self) -> Result<Statement, Fault> {
        let verb = self.word(&["XA", "GET", "PUT", "DEL"])?;
        self.written = Vec::with_capacity(64);
        let statement = if verb == "XA" { self.xa()? } else { self.row(verb)? };
        self.sees(";");
        if !self.token.word.is_empty() || self.token.place != self.text.len() {
            return self.fail();
        }
        Ok(Statement { text: std::mem::take(&mut self.written), ..statement })
    }

    /// A statement of the values that were read; its text is still to be written.
    fn made(&mut self, kind: Kind, subject: (usize, usize)) -> Statement {
        let [first, second] = std::mem::take(&mut self.literals);
        let values = match kind {
            Kind::Recover => Values::List,
            Kind::Get | Kind::Put | Kind::Del => Values::Row(first, second),
            _ if self.has_clause => Values::Clause,
            _ => Values::Branch(Xid { format_id: self.format_id, gtrid: first, bqual: second }),
        };
        Statement { kind, text: Vec::new(), values, subject, shape: Shape::Raw }
    }

    fn row(&mut self, verb: &str) -> Result<Statement, Fault> {
        self.write(verb);
        self.write(" ");
        let begin = self.written.len();
        self.literal(1, KEY)?;
        let subject = (begin, self.written.len());
        if verb == "PUT" {
            self.word(&[","])?;
            self.write(",");
            self.literal(0, VALUE)?;
        }
        let kind = match verb {
            "GET" => Kind::Get,
            "PUT" => Kind::Put,
            _ => Kind::Del,
        };
        Ok(self.made(kind, subject))
    }

    fn xa(&mut self) -> Result<Statement, Fault> {
        let verb = self.word(&["START", "BEGIN", "END", "PREPARE", "COMMIT", "ROLLBACK", "RECOVER"])?;
        if verb == "RECOVER" {
            let shape = self.shape()?;
            self.write("XA RECOVER CONVERT XID");
            return Ok(Statement { shape, ..self.made(Kind::Recover, (0, 0)) });
        }
        let verb = if verb == "BEGIN" { "START" } else { verb };
        self.write("XA ");
        self.write(verb);
        self.write(" ");
        let begin = self.written.len();
        self.xid()?;
        let subject = (begin, self.written.len());
        let kind = self.suffix(verb)?;
        Ok(self.made(kind, subject))
    }

    /// What may stand behind XA RECOVER: CONVERT XID, or FORMAT = 'RAW' or 'SQL', as MariaDB has it.
    fn shape(&mut self) -> Result<Shape, Fault> {
        if self.sees("CONVERT") {
            self.word(&["XID"])?;
            return Ok(Shape::Digits);
        }
        if !self.sees("FORMAT") {
            return Ok(Shape::Raw);
        }
        self.word(&["="])?;
        let named = |name: &[u8]| self.token.literal.as_ref().map_or(false, |it| it.eq_ignore_ascii_case(name));
        let shape = if named(b"raw") { Some(Shape::Raw) } else { Some(Shape::Sql).filter(|_| named(b"sql")) };
        match shape {
            Some(shape) => {
                self.step();
                Ok(shape)
            }
            None if self.token.literal.is_some() => self.fail_by(Why::Format, FORMAT),
            None => self.fail(),
        }
    }

    /// What may stand behind an identifier. All but ONE PHASE is read so that the store can refuse it by name.
    fn suffix(&mut self, verb: &str) -> Result<Kind, Fault> {
        match verb {
            "START" => {
                if let "JOIN" | "RESUME" = self.token.word {
                    let word = self.step().word;
                    self.write(" ");
                    self.write(word);
                    self.has_clause = true;
                }
                Ok(Kind::Start)
            }
            "COMMIT" if self.sees("ONE") => {
                self.word(&["PHASE"])?;
                self.write(" ONE PHASE");
                Ok(Kind::OnePhase)
            }
            "COMMIT" => Ok(Kind::Commit),
            "END" => {
                if self.sees("SUSPEND") {
                    self.write(" SUSPEND");
                    self.has_clause = true;
                    if self.sees("FOR") {
                        self.word(&["MIGRATE"])?;
                        self.write(" FOR MIGRATE");
                    }
                }
                Ok(Kind::End)
            }
            "PREPARE" => Ok(Kind::Prepare),
            _ => Ok(Kind::Rollback),
        }
    }
}

/// What the store is asked about a branch.
fn of_branch(kind: Kind, xid: &Xid) -> Asked<'_> {
    match kind {
        Kind::Start => Asked::Start(xid),
        Kind::End => Asked::End(xid),
        Kind::Prepare => Asked::Prepare(xid),
        Kind::Commit => Asked::Commit(xid),
        Kind::OnePhase => Asked::CommitOnePhase(xid),
        _ => Asked::Rollback(xid),
    }
}

/// A statement about a row that the server makes of its own; only a PUT has a value.
pub fn of_row(kind: Kind, key: &[u8], value: &[u8]) -> Statement {
    let (verb, value): (&[u8], &[u8]) = match kind {
        Kind::Get => (b"GET ", b""),
        Kind::Put => (b"PUT ", value),
        _ => (b"DEL ", b""),
    };
    let mut text = Vec::with_capacity(verb.len() + 2 * (key.len() + value.len()) + 8);
    text.extend(verb);
    write_literal(&mut text, key);
    let subject = (verb.len(), text.len());
    if kind == Kind::Put {
        text.push(b',');
        write_literal(&mut text, value);
    }
    Statement { kind, text, values: Values::Row(key.to_vec(), value.to_vec()), subject, shape: Shape::Raw }
}

/// The canonical text of an identifier.
pub fn canonical(xid: &Xid) -> Vec<u8> {
    let mut text = Vec::with_capacity(2 * (xid.gtrid.len() + xid.bqual.len()) + 32);
    write_literal(&mut text, &xid.gtrid);
    text.push(b',');
    write_literal(&mut text, &xid.bqual);
    text.push(b',');
    text.extend(xid.format_id.to_string().as_bytes());
    text
}

/// Writes a literal in its canonical form.
pub fn write_literal(to: &mut Vec<u8>, data: &[u8]) {
    const DIGITS: &[u8; 16] = b"0123456789abcdef";
    if data.is_empty() {
        to.extend(b"X''");
        return;
    }
    to.extend(b"0x");
    let begin = to.len();
    to.resize(begin + 2 * data.len(), 0);
    for (pair, byte) in to[begin..].chunks_exact_mut(2).zip(data) {
        pair.copy_from_slice(&[DIGITS[usize::from(byte >> 4)], DIGITS[usize::from(byte & 15)]]);
    }
}

/// Writes a literal in quotes, if all of its bytes are signs of ASCII that stand for themselves there.
fn write_readable(to: &mut Vec<u8>, data: &[u8]) {
    if data.iter().all(|byte| matches!(byte, b' '..=b'~') && !matches!(byte, b'\'' | b'\\')) {
        to.push(b'\'');
        to.extend(data);
        to.push(b'\'');
    } else {
        write_literal(to, data);
    }
}

#[cfg(test)]
mod tests {
    use super::*;

    fn xid(format_id: i64, gtrid: &[u8], bqual: &[u8]) -> Xid {
        Xid { format_id, gtrid: gtrid.to_vec(), bqual: bqual.to_vec() }
    }

    /// The store is asked by values; by the text alone where it is to refuse a clause.
    #[test]
    fn what_the_store_is_asked() {
        let (first, second) = (xid(1, b"a", b""), xid(7, b"~", b"\n"));
        for (text, asked) in [
            ("xa begin 0x61", Asked::Start(&first)),
            ("XA END 'a',''", Asked::End(&first)),
            ("XA PREPARE 'a','',1", Asked::Prepare(&first)),
            ("XA COMMIT 'a'", Asked::Commit(&first)),
            ("XA COMMIT '~','\n',7 ONE PHASE", Asked::CommitOnePhase(&second)),
            ("XA ROLLBACK X'7e',0x0a,0x7", Asked::Rollback(&second)),
            ("XA RECOVER", Asked::Recover),
            ("XA RECOVER CONVERT XID", Asked::Recover),
            ("put 'it''s','v w'", Asked::Put(b"it's", b"v w")),
            ("PUT 'k',''", Asked::Put(b"k", b"")),
            ("GET X'5c'", Asked::Get(b"\\")),
            ("DEL '\u{e4}'", Asked::Del(b"\xc3\xa4")),
            ("XA START 'a' JOIN", Asked::Text(b"XA START 0x61,X'',1 JOIN")),
            ("XA END '~','\n',7 SUSPEND FOR MIGRATE", Asked::Text(b"XA END 0x7e,0x0a,7 SUSPEND FOR MIGRATE")),
        ] {
            assert_eq!(read(text.as_bytes()).unwrap().asked(), asked, "{}", text);
        }
        for byte in 0..=255 {
            let given = [Some(vec![byte]), Some(vec![b'a', byte])];
            assert_eq!(bind(b"PUT ?,?", &given).unwrap().asked(), Asked::Put(&[byte], &[b'a', byte]));
        }
    }

    /// What is shown reads as the same identifier or key, and has quotes around plain signs alone.
    #[test]
    fn subjects_as_they_are_shown() {
        for (verb, subject, shown) in [
            ("GET ", "X'5c'", "0x5c"),
            ("DEL ", "'it''s'", "0x69742773"),
            ("GET ", "0x762077", "'v w'"),
            ("XA END ", "'~','\n',7", "'~',0x0a,7"),
            ("XA END ", "0x61", "'a','',1"),
        ] {
            let it = read(format!("{}{}", verb, subject).as_bytes()).unwrap();
            assert_eq!(String::from_utf8(it.readable_subject()).unwrap(), shown, "{}", subject);
            assert_eq!(read(format!("{}{}", verb, shown).as_bytes()).unwrap(), it, "{}", subject);
        }
    }

    fn canonical(text: &str) -> Result<String, usize> {
        read(text.as_bytes()).map(|it| String::from_utf8(it.text).unwrap()).map_err(|fault| fault.place)
    }

    #[test]
    fn canonical_texts() {
        for (text, expected) in [
            ("xa begin'a';", "XA START 0x61,X'',1"),
            ("XA COMMIT 'a' , \"b\",0x10 one\nphase", "XA COMMIT 0x61,0x62,16 ONE PHASE"),
            ("put 'k\n2 XA ROLLBACK','v\r'", "PUT 0x6b0a3220584120524f4c4c4241434b,0x760d"),
            ("XA RECOVER", "XA RECOVER CONVERT XID"),
            ("XA START 'a' resume", "XA START 0x61,X'',1 RESUME"),
            ("XA END 'a' suspend for migrate", "XA END 0x61,X'',1 SUSPEND FOR MIGRATE"),
            ("GET X'000a'", "GET 0x000a"),
            ("GET 0x414", "GET 0x0414"),
            ("XA START 'a','b',0000000000000000000000000000007", "XA START 0x61,0x62,7"),
            ("XA START 'a',0x,7", "XA START 0x61,X'',7"),
            ("/* one */XA/**/START-- two\n'a'# three", "XA START 0x61,X'',1"),
            ("PUT _binary'k',_BINARY 0x76", "PUT 0x6b,0x76"),
            ("PUT _binary /* x */ \"k\",_binary X'76'", "PUT 0x6b,0x76"),
        ] {
            assert_eq!(canonical(text).as_deref(), Ok(expected), "{}", text);
        }
    }

    #[test]
    fn what_is_refused_and_where() {
        for (text, place) in [
            ("", 0),
            ("  ", 2),
            ("XA START 'a','',2147483648", 16),
            ("XA START 'a','',0x80000000", 16),
            ("XA START 0x", 9),
            ("PUT 'k',0x", 8),
            ("XA START 'a','b',0x", 17),
            ("/*! XA */ RECOVER", 0),
            ("XA RECOVER /* open", 11),
            ("XA RECOVER --x", 11),
            ("PUT _binary k,'v'", 4),
            ("GET _binary", 4),
            ("GET _binary''", 4),
            ("GET _binaryx'41'", 4),
            ("DISCONNECT", 0),
            ("XA RECOVER;;", 11),
            ("XA RECOVER; XA RECOVER", 12),
            ("GET ?", 4),
            ("GET 'k'\0", 7),
            ("GET 'k", 4),
            ("GET 0X41", 4),
            ("GET X'4'", 4),
            ("GET X'4g'", 4),
            ("GET ''", 4),
            ("XA START 'a' ONE PHASE", 13),
        ] {
            assert_eq!(canonical(text), Err(place), "{}", text);
        }
    }

    /// Faults of values, each with its place; what is no value is one of syntax.
    #[test]
    fn why_values_are_refused() {
        let faults = |text: &str| read(text.as_bytes()).map_err(|it| (it.place, it.why, it.wanted)).unwrap_err();
        for long in
            ["'{}'".replace("{}", &"k".repeat(65)), format!("X'{}'", "41".repeat(65)), format!("0x{}", "4".repeat(129))]
        {
            assert_eq!(faults(&format!("GET {}", long)), (4, Why::TooLong, KEY), "{}", long);
            assert_eq!(faults(&format!("PUT 'k',{}", long)), (8, Why::TooLong, VALUE), "{}", long);
            assert_eq!(faults(&format!("XA END 'a',{}", long)), (11, Why::Syntax, ""), "{}", long);
        }
        for (text, place, why, wanted) in [
            ("GET ''", 4, Why::Unfit, KEY),
            ("GET 7", 4, Why::Unfit, KEY),
            ("PUT 'k',-7.5", 8, Why::Unfit, VALUE),
            ("XA START 7", 9, Why::Syntax, ""),
            ("DEL null", 4, Why::Null, KEY),
            ("XA START 'a','b',NULL", 17, Why::Syntax, ""),
            ("XA START 'a','b','7'", 17, Why::Syntax, ""),
            ("XA START 'a','b',2147483648", 17, Why::Syntax, ""),
            ("GET k", 4, Why::Syntax, ""),
            ("GET nulls", 4, Why::Syntax, ""),
            ("NULL", 0, Why::Syntax, ""),
            ("PUT 'k' NULL", 8, Why::Syntax, ""),
        ] {
            assert_eq!(faults(text), (place, why, wanted), "{}", text);
        }
    }

    #[test]
    fn statements_of_the_servers_own() {
        for (kind, text) in [(Kind::Get, "GET 'a/''b'"), (Kind::Put, "PUT 'a/''b','v'"), (Kind::Del, "DEL 'a/''b'")] {
            assert_eq!(of_row(kind, b"a/'b", b"v"), read(text.as_bytes()).unwrap());
        }
        assert_eq!(of_row(Kind::Put, b"k", b""), read(b"PUT 'k',X''").unwrap());
    }

    #[test]
    fn identifiers_and_keys_are_subjects() {
        assert_eq!(read(b"XA COMMIT 'a','b' ONE PHASE").unwrap().subject(), b"0x61,0x62,1");
        assert_eq!(read(b"PUT 'k','v'").unwrap().subject(), b"0x6b");
        assert_eq!(read(b"XA COMMIT 'a'").unwrap().kind, Kind::Commit);
        assert_eq!(read(b"XA COMMIT 'a' ONE PHASE").unwrap().kind, Kind::OnePhase);
    }

    #[test]
    fn parameters() {
        let (statement, count) = count_parameters(b"XA COMMIT ?,?,? ONE PHASE").unwrap();
        assert_eq!((&statement.text[..], count), (&b"XA COMMIT 0x30,0x30,0 ONE PHASE"[..], 3));
        assert_eq!(count_parameters(b"PUT '?',\"?\" -- ?").unwrap().1, 0);
        let bound = |values: [Option<&str>; 3]| {
            bind(b"XA START ?,?,?", &values.map(|it| it.map(|text| text.as_bytes().to_vec())))
        };
        assert_eq!(bound([Some("a'"), Some(""), Some("7")]).unwrap().text, b"XA START 0x6127,X'',7");
        let long = "a".repeat(65);
        for (values, place, why) in [
            ([Some("a"), Some("b"), Some("x")], 13, Why::Unfit),
            ([Some("a"), Some("b"), Some("-1")], 13, Why::Unfit),
            ([Some("a"), Some("b"), Some("2147483648")], 13, Why::Unfit),
            ([Some("a"), Some("b"), None], 13, Why::Null),
            ([Some(&long[..]), Some("b"), Some("1")], 9, Why::TooLong),
            ([Some("a"), None, Some("1")], 11, Why::Null),
        ] {
            assert_eq!(bound(values).map_err(|it| (it.place, it.why)), Err((place, why)), "{:?}", values);
        }
    }

    /// No text, whatever stands in it, makes a second line, or a byte that the canonical form doesn't have.
    #[test]
    fn no_text_makes_a_second_line() {
        let alphabet = b"XASTRGEPUD 'k\"\\\n\r2,;0x?/*-#_b\x00\xff";
        let beginnings: [&[u8]; 5] = [b"GET 'k", b"PUT 'k','", b"XA START 'a", b"XA COMMIT \"", b""];
        let mut state = 7u64;
        let mut draw = |below: usize| {
            state = state.wrapping_mul(6_364_136_223_846_793_005).wrapping_add(1_442_695_040_888_963_407);
            (state >> 33) as usize % below
        };
        for _ in 0..100_000 {
            let mut text = beginnings[draw(5)].to_vec();
            for _ in 0..draw(20) {
                text.push(alphabet[draw(alphabet.len())]);
            }
            if let Ok(it) = read(&text) {
                assert!(it.text.iter().all(|byte| byte.is_ascii_alphanumeric() || b"', ".contains(byte)), "{:?}", text);
            }
        }
    }
}
