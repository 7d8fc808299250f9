//! Packets of MySQL's client protocol, both ways: values from the bytes of a packet, and packets from values.
//!
//! Nothing here knows of sockets, sessions or stores.

pub const HEADER: usize = 4;
/// The server's name must not hold the word MariaDB, or Connector/J asks for more than MySQL has.
pub const VERSION: &str = "8.0.36-nigbaru";
pub const UTF8MB4: u8 = 45;
pub const BINARY: u16 = 63;

pub mod status {
    pub const NONE: u16 = 0;
    pub const IN_TRANSACTION: u16 = 1;
    pub const AUTOCOMMIT: u16 = 2;
    /// Another answer follows.
    pub const MORE: u16 = 8;
}

pub mod can {
    /// An UPDATE's count is that of the rows that it finds, and not of those that it changes.
    pub const FOUND_ROWS: u32 = 2;
    pub const CONNECT_WITH_DB: u32 = 8;
    /// Not taken: some clients compress without being told that they may.
    pub const COMPRESS: u32 = 0x20;
    pub const PROTOCOL_41: u32 = 0x200;
    pub const TLS: u32 = 0x800;
    pub const SECURE_CONNECTION: u32 = 0x8000;
    pub const MULTI_STATEMENTS: u32 = 0x1_0000;
    pub const MULTI_RESULTS: u32 = 0x2_0000;
    pub const PLUGIN_AUTH: u32 = 0x8_0000;
    pub const CONNECT_ATTRS: u32 = 0x10_0000;
    pub const PLUGIN_AUTH_LENENC: u32 = 0x20_0000;
    /// Also a long password, long flags and transactions: 1, 4 and 0x2000, of which nothing depends here.
    pub const ALL: u32 = 5
        | FOUND_ROWS
        | CONNECT_WITH_DB
        | PROTOCOL_41
        | 0x2000
        | SECURE_CONNECTION
        | MULTI_STATEMENTS
        | MULTI_RESULTS
        | PLUGIN_AUTH
        | CONNECT_ATTRS
        | PLUGIN_AUTH_LENENC;
}

pub mod command {
    pub const QUIT: u8 = 1;
    pub const INIT_DB: u8 = 2;
    pub const QUERY: u8 = 3;
    pub const FIELD_LIST: u8 = 4;
    pub const SHUTDOWN: u8 = 8;
    pub const STATISTICS: u8 = 9;
    pub const PROCESS_INFO: u8 = 10;
    pub const PROCESS_KILL: u8 = 12;
    pub const DEBUG: u8 = 13;
    pub const PING: u8 = 14;
    pub const CHANGE_USER: u8 = 17;
    pub const STMT_PREPARE: u8 = 22;
    pub const STMT_EXECUTE: u8 = 23;
    pub const STMT_SEND_LONG_DATA: u8 = 24;
    pub const STMT_CLOSE: u8 = 25;
    pub const STMT_RESET: u8 = 26;
    pub const SET_OPTION: u8 = 27;
    pub const RESET_CONNECTION: u8 = 31;
}

pub mod kind {
    pub const OLD_DECIMAL: u8 = 0;
    pub const TINY: u8 = 1;
    pub const SHORT: u8 = 2;
    pub const LONG: u8 = 3;
    pub const FLOAT: u8 = 4;
    pub const DOUBLE: u8 = 5;
    pub const NULL: u8 = 6;
    pub const LONGLONG: u8 = 8;
    pub const INT24: u8 = 9;
    pub const VARCHAR: u8 = 15;
    pub const NEWDECIMAL: u8 = 246;
    pub const TINY_BLOB: u8 = 249;
    pub const LONG_BLOB: u8 = 251;
    pub const BLOB: u8 = 252;
    pub const VAR_STRING: u8 = 253;
    pub const STRING: u8 = 254;
}

/// What is said of a column beside its type.
pub mod flag {
    pub const NOT_NULL: u16 = 1;
    pub const PRIMARY_KEY: u16 = 2;
    pub const BLOB: u16 = 16;
    pub const UNSIGNED: u16 = 32;
    pub const BINARY: u16 = 128;
    pub const AUTO_INCREMENT: u16 = 512;
}

/// Bytes that are no packet of this protocol; the text says which.
#[derive(Clone, Debug, PartialEq, Eq)]
pub struct Malformed(pub String);

fn malformed<T>(why: &str) -> Result<T, Malformed> {
    Err(Malformed(why.to_string()))
}

#[derive(Clone, Debug, PartialEq, Eq)]
pub enum Value {
    Null,
    Number(i64),
    Text(Vec<u8>),
}

impl From<&str> for Value {
    fn from(text: &str) -> Value {
        Value::Text(text.as_bytes().to_vec())
    }
}

/// A column of a result set.
#[derive(Clone, Debug, PartialEq, Eq)]
pub struct Column {
    pub name: Vec<u8>,
    pub kind: u8,
    pub charset: u16,
    pub length: u32,
    pub flags: u16,
    pub decimals: u8,
}

impl Column {
    /// A LONGLONG, which is never null.
    pub fn number(name: &str) -> Column {
        let flags = flag::NOT_NULL | flag::BINARY;
        Column { kind: kind::LONGLONG, length: 10, flags, ..Column::text(name, 0) }
    }

    /// A VAR_STRING of bytes.
    pub fn text(name: &str, length: u32) -> Column {
        let (name, kind) = (name.as_bytes().to_vec(), kind::VAR_STRING);
        Column { name, kind, charset: BINARY, length, flags: 0, decimals: 0 }
    }

    /// A VAR_STRING of signs, in which the server says something of itself or of tables.
    pub fn said(name: &str, length: u32) -> Column {
        Column { charset: UTF8MB4.into(), ..Column::text(name, 4 * length) }
    }

    /// Whether its values are whole numbers.
    pub fn is_whole(&self) -> bool {
        matches!(self.kind, kind::TINY | kind::SHORT | kind::LONG | kind::LONGLONG)
    }

    /// How many bytes a number of this column has in a binary row.
    fn width(&self) -> usize {
        match self.kind {
            kind::TINY => 1,
            kind::SHORT => 2,
            kind::LONG => 4,
            _ => 8,
        }
    }
}

/// Takes values from the front of a packet.
pub struct Bytes<'a> {
    packet: &'a [u8],
}

impl<'a> Bytes<'a> {
    pub fn new(packet: &'a [u8]) -> Bytes<'a> {
        Bytes { packet }
    }

    pub fn take(&mut self, count: usize) -> Result<&'a [u8], Malformed> {
        if self.packet.len() < count {
            return malformed("a packet that ends too soon");
        }
        let (taken, rest) = self.packet.split_at(count);
        self.packet = rest;
        Ok(taken)
    }

    pub fn number(&mut self, count: usize) -> Result<u64, Malformed> {
        Ok(self.take(count)?.iter().rev().fold(0, |number, byte| number << 8 | u64::from(*byte)))
    }

    pub fn length_encoded(&mut self) -> Result<u64, Malformed> {
        match self.number(1)? {
            first if first < 251 => Ok(first),
            0xfc => self.number(2),
            0xfd => self.number(3),
            0xfe => self.number(8),
            _ => malformed("no length"),
        }
    }

    pub fn text_encoded(&mut self) -> Result<&'a [u8], Malformed> {
        let length = self.length_encoded()?;
        self.take(usize::try_from(length).unwrap_or(usize::MAX))
    }

    pub fn up_to_zero(&mut self) -> Result<&'a [u8], Malformed> {
        let length = match self.packet.iter().position(|byte| *byte == 0) {
            Some(length) => length,
            None => return malformed("a text without its end"),
        };
        let taken = self.take(length)?;
        self.take(1)?;
        Ok(taken)
    }

    pub fn rest(&mut self) -> &'a [u8] {
        std::mem::take(&mut self.packet)
    }

    pub fn is_empty(&self) -> bool {
        self.packet.is_empty()
    }
}

/// Packets that are to be sent, one after another, each with its header.
pub struct Out {
    bytes: Vec<u8>,
    /// The next packet's, counted within an exchange.
    pub number: u8,
}

impl Out {
    pub fn new() -> Out {
        Out { bytes: Vec::new(), number: 0 }
    }

    pub fn bytes(&self) -> &[u8] {
        &self.bytes
    }

    /// Forgets what was sent, and its memory where that was much.
    pub fn clear(&mut self) {
        self.bytes.clear();
        self.bytes.shrink_to(65_536);
    }

    /// Appends a packet that a function writes.
    pub fn packet(&mut self, write: impl FnOnce(&mut Vec<u8>)) {
        let begin = self.bytes.len();
        self.bytes.extend([0; HEADER]);
        write(&mut self.bytes);
        let length = ((self.bytes.len() - begin - HEADER) as u32).to_le_bytes();
        self.bytes[begin..begin + 3].copy_from_slice(&length[..3]);
        self.bytes[begin + 3] = self.number;
        self.number = self.number.wrapping_add(1);
    }

    /// Done: how many rows are changed, and the number that was given to the first of them, or 0.
    pub fn ok(&mut self, affected: u64, number: u64, status: u16) {
        self.packet(|it| {
            it.push(0);
            put_length(it, affected);
            put_length(it, number);
            put_status(it, status);
        });
    }

    pub fn error(&mut self, number: u16, sqlstate: &str, text: &str) {
        self.packet(|it| {
            it.push(0xff);
            it.extend(number.to_le_bytes());
            it.push(b'#');
            it.extend(sqlstate.as_bytes());
            it.extend(text.as_bytes());
        });
    }

    pub fn end_of_rows(&mut self, status: u16) {
        self.packet(|it| {
            it.extend([0xfe, 0, 0]);
            it.extend(status.to_le_bytes());
        });
    }

    /// A column's definition; it belongs to no table.
    pub fn column(&mut self, column: &Column) {
        self.packet(|it| {
            it.extend(b"\x03def\0\0\0");
            put_text(it, &column.name);
            it.extend(b"\0\x0c");
            it.extend(column.charset.to_le_bytes());
            it.extend(column.length.to_le_bytes());
            it.push(column.kind);
            it.extend(column.flags.to_le_bytes());
            it.extend([column.decimals, 0, 0]);
        });
    }

    /// A row as answered to a text.
    fn text_row(&mut self, columns: &[Column], row: &[Value]) {
        self.packet(|it| {
            for (value, column) in row.iter().zip(columns) {
                match value {
                    Value::Null => it.push(0xfb),
                    Value::Number(number) if column.flags & flag::UNSIGNED != 0 => {
                        put_text(it, (*number as u64).to_string().as_bytes())
                    }
                    Value::Number(number) => put_text(it, number.to_string().as_bytes()),
                    Value::Text(text) => put_text(it, text),
                }
            }
        });
    }

    /// A row as answered to a prepared statement.
    fn binary_row(&mut self, columns: &[Column], row: &[Value]) {
        self.packet(|it| {
            it.push(0);
            let nulls = it.len();
            it.resize(nulls + (row.len() + 9) / 8, 0);
            for (index, value) in row.iter().enumerate() {
                match value {
                    Value::Null => it[nulls + (index + 2) / 8] |= 1 << ((index + 2) % 8),
                    Value::Number(number) => it.extend(&number.to_le_bytes()[..columns[index].width()]),
                    Value::Text(text) => put_text(it, text),
                }
            }
        });
    }

    /// The packets of a table.
    pub fn table(&mut self, columns: &[Column], rows: &[Vec<Value>], status: u16, is_binary: bool) {
        self.packet(|it| put_length(it, columns.len() as u64));
        columns.iter().for_each(|column| self.column(column));
        self.end_of_rows(status);
        for row in rows {
            if is_binary {
                self.binary_row(columns, row);
            } else {
                self.text_row(columns, row);
            }
        }
        self.end_of_rows(status);
    }

    /// The packets that answer a preparation: its number, and what it takes and gives.
    pub fn prepared(&mut self, number: u32, columns: &[Column], parameters: u16, status: u16) {
        self.packet(|it| {
            it.push(0);
            it.extend(number.to_le_bytes());
            it.extend((columns.len() as u16).to_le_bytes());
            it.extend(parameters.to_le_bytes());
            it.extend([0; 3]);
        });
        let parameter = Column::text("?", 64);
        if parameters > 0 {
            (0..parameters).for_each(|_| self.column(&parameter));
            self.end_of_rows(status);
        }
        if !columns.is_empty() {
            columns.iter().for_each(|column| self.column(column));
            self.end_of_rows(status);
        }
    }
}

/// A number that says its own length.
fn put_length(to: &mut Vec<u8>, number: u64) {
    let bytes = number.to_le_bytes();
    if number < 251 {
        to.push(bytes[0]);
    } else if number < 1 << 16 {
        to.push(0xfc);
        to.extend(&bytes[..2]);
    } else if number < 1 << 24 {
        to.push(0xfd);
        to.extend(&bytes[..3]);
    } else {
        to.push(0xfe);
        to.extend(bytes);
    }
}

/// A text behind its length.
fn put_text(to: &mut Vec<u8>, text: &[u8]) {
    put_length(to, text.len() as u64);
    to.extend(text);
}

fn put_status(to: &mut Vec<u8>, status: u16) {
    to.extend(status.to_le_bytes());
    to.extend([0; 2]);
}

/// The length that a header names.
pub fn length_in(header: &[u8]) -> usize {
    usize::from(header[0]) | usize::from(header[1]) << 8 | usize::from(header[2]) << 16
}

// login

/// What the server says first.
pub fn greeting(it: &mut Vec<u8>, connection: u32, scramble: &[u8; 20], plugin: &str, has_tls: bool) {
    let can = can::ALL | if has_tls { can::TLS } else { 0 };
    it.push(10);
    it.extend(VERSION.as_bytes());
    it.push(0);
    it.extend(connection.to_le_bytes());
    it.extend(&scramble[..8]);
    it.push(0);
    it.extend((can as u16).to_le_bytes());
    it.push(UTF8MB4);
    it.extend(status::AUTOCOMMIT.to_le_bytes());
    it.extend(((can >> 16) as u16).to_le_bytes());
    it.push(scramble.len() as u8 + 1);
    it.extend([0; 10]);
    it.extend(&scramble[8..]);
    it.push(0);
    it.extend(plugin.as_bytes());
    it.push(0);
}

/// Whether a client asks for TLS before it says who it is: by the first part of a login.
pub fn asks_for_tls(packet: &[u8]) -> bool {
    packet.len() == 32 && Bytes::new(packet).number(4).map_or(false, |can| can as u32 & can::TLS != 0)
}

/// Who a client says it is, and its proof.
#[derive(Clone, Debug, PartialEq, Eq)]
pub struct Login {
    pub can: u32,
    pub user: Vec<u8>,
    pub proof: Vec<u8>,
    /// The database that is named, or nothing.
    pub database: Vec<u8>,
    /// Empty where the client names none.
    pub plugin: Vec<u8>,
}

/// What the client says of itself. Its attributes are passed over.
pub fn read_login(packet: &[u8]) -> Result<Login, Malformed> {
    let mut it = Bytes::new(packet);
    let can = it.number(4)? as u32;
    if can & can::PROTOCOL_41 == 0 {
        return malformed("a client of a protocol before 4.1");
    }
    it.take(4 + 1 + 23)?;
    let user = it.up_to_zero()?;
    let proof = if can & can::PLUGIN_AUTH_LENENC != 0 {
        it.text_encoded()?
    } else if can & can::SECURE_CONNECTION != 0 {
        let length = it.number(1)?;
        it.take(length as usize)?
    } else {
        it.up_to_zero()?
    };
    let database = if can & can::CONNECT_WITH_DB != 0 { it.up_to_zero()? } else { b"" };
    let plugin = if can & can::PLUGIN_AUTH != 0 { it.up_to_zero()? } else { b"" };
    Ok(Login { can, user: user.to_vec(), proof: proof.to_vec(), database: database.to_vec(), plugin: plugin.to_vec() })
}

/// COM_CHANGE_USER, from a client that can do what it said at its login.
pub fn read_change(packet: &[u8], can: u32) -> Result<Login, Malformed> {
    let mut it = Bytes::new(&packet[1..]);
    let user = it.up_to_zero()?;
    let length = it.number(1)?;
    let proof = it.take(length as usize)?;
    let database = it.up_to_zero()?;
    let mut plugin: &[u8] = b"";
    if !it.is_empty() {
        it.take(2)?;
        if can & can::PLUGIN_AUTH != 0 && !it.is_empty() {
            plugin = it.up_to_zero()?;
        }
    }
    Ok(Login { can, user: user.to_vec(), proof: proof.to_vec(), database: database.to_vec(), plugin: plugin.to_vec() })
}

/// Asks a client that began by another way to prove its password by this one.
pub fn other_plugin(it: &mut Vec<u8>, plugin: &str, scramble: &[u8; 20]) {
    it.push(0xfe);
    it.extend(plugin.as_bytes());
    it.push(0);
    it.extend(scramble);
    it.push(0);
}

// prepared statements

/// Which prepared statement a command is about.
pub fn statement_number(packet: &[u8]) -> Result<u32, Malformed> {
    let mut it = Bytes::new(packet);
    it.take(1)?;
    Ok(it.number(4)? as u32)
}

/// Which parameter a piece is for, and the piece.
pub fn read_long_data(packet: &[u8]) -> Result<(usize, &[u8]), Malformed> {
    let mut it = Bytes::new(packet);
    it.take(5)?;
    Ok((it.number(2)? as usize, it.rest()))
}

/// Of a parameter its type, and whether it has no sign.
pub type Kind = (u8, bool);
/// A parameter's text, a number as its digits, or nothing.
pub type Parameter = Option<Vec<u8>>;

/// Which parameters are taken: those of the store's statements, or also numbers with a point.
#[derive(Clone, Copy, Debug, PartialEq, Eq)]
pub enum Takes {
    Wholes,
    AllNumbers,
}

/// Whether a parameter is a number by its type.
pub fn is_number((kind, _): Kind) -> bool {
    let numbers = [
        kind::OLD_DECIMAL,
        kind::TINY,
        kind::SHORT,
        kind::LONG,
        kind::FLOAT,
        kind::DOUBLE,
        kind::LONGLONG,
        kind::INT24,
        kind::NEWDECIMAL,
    ];
    numbers.contains(&kind)
}

/// The values of `count` parameters. Their kinds are those of the time before where the client leaves them out.
pub fn read_execution(
    packet: &[u8],
    count: usize,
    kinds: &mut Vec<Kind>,
    long: &mut [Option<Vec<u8>>],
    takes: Takes,
) -> Result<Vec<Parameter>, Malformed> {
    let mut it = Bytes::new(packet);
    it.take(5 + 1 + 4)?; // no cursors; once
    if count == 0 {
        return Ok(Vec::new());
    }
    let nulls = it.take((count + 7) / 8)?;
    if it.number(1)? != 0 {
        kinds.clear();
        for _ in 0..count {
            kinds.push((it.number(1)? as u8, it.number(1)? >= 128));
        }
    }
    if kinds.len() != count {
        return malformed("parameters without types");
    }
    let mut values = Vec::with_capacity(count);
    for index in 0..count {
        values.push(match long.get_mut(index).and_then(Option::take) {
            Some(sent) => Some(sent),
            None if nulls[index / 8] >> (index % 8) & 1 != 0 => None,
            None => match (takes, kinds[index].0) {
                (Takes::AllNumbers, kind::OLD_DECIMAL | kind::NEWDECIMAL) => Some(it.text_encoded()?.to_vec()),
                (Takes::AllNumbers, kind::FLOAT) => Some(f32::from_bits(it.number(4)? as u32).to_string().into_bytes()),
                (Takes::AllNumbers, kind::DOUBLE) => Some(f64::from_bits(it.number(8)?).to_string().into_bytes()),
                _ => read_value(&mut it, kinds[index])?,
            },
        });
    }
    Ok(values)
}

fn read_value(it: &mut Bytes, (kind, is_unsigned): Kind) -> Result<Parameter, Malformed> {
    let size = match kind {
        kind::NULL => return Ok(None),
        kind::VARCHAR | kind::TINY_BLOB..=kind::STRING => return Ok(Some(it.text_encoded()?.to_vec())),
        kind::TINY => 1,
        kind::SHORT => 2,
        kind::LONG | kind::INT24 => 4,
        kind::LONGLONG => 8,
        _ => return Err(Malformed(format!("a parameter of type {}", kind))),
    };
    let number = it.number(size)?;
    let unused = 64 - 8 * size as u32;
    let digits = if is_unsigned { number.to_string() } else { ((number << unused) as i64 >> unused).to_string() };
    Ok(Some(digits.into_bytes()))
}

#[cfg(test)]
mod tests {
    use super::*;

    #[test]
    fn lengths_are_read_as_they_are_written() {
        for number in [0, 250, 251, 65_535, 65_536, (1 << 24) - 1, 1 << 24, u64::MAX] {
            let mut written = Vec::new();
            put_length(&mut written, number);
            assert_eq!(Bytes::new(&written).length_encoded(), Ok(number));
            for cut in 0..written.len() {
                assert!(Bytes::new(&written[..cut]).length_encoded().is_err());
            }
        }
        for first in [0xfb, 0xff] {
            assert!(Bytes::new(&[first]).length_encoded().is_err());
        }
    }

    #[test]
    fn packets_are_framed_and_numbered() {
        let mut out = Out::new();
        out.number = 255;
        out.packet(|it| it.extend(b"ab"));
        out.packet(|_| ());
        assert_eq!(out.bytes(), b"\x02\0\0\xffab\0\0\0\0");
        assert_eq!(length_in(b"\x01\x02\x03\x09"), 0x030201);
    }

    fn login() -> Vec<u8> {
        let mut packet = (can::PROTOCOL_41 | can::SECURE_CONNECTION | can::PLUGIN_AUTH).to_le_bytes().to_vec();
        packet.extend([0; 28]);
        packet.extend(b"root\0\x03abcname\0");
        packet
    }

    #[test]
    fn a_login_is_read_whole_or_not_at_all() {
        let packet = login();
        let read = read_login(&packet).unwrap();
        assert_eq!((&read.user[..], &read.proof[..], &read.plugin[..]), (&b"root"[..], &b"abc"[..], &b"name"[..]));
        for cut in 0..packet.len() {
            assert!(read_login(&packet[..cut]).is_err());
        }
        assert!(read_login(&vec![0; packet.len()]).is_err());
    }

    #[test]
    fn a_login_with_a_database_and_attributes() {
        let wants =
            can::PROTOCOL_41 | can::PLUGIN_AUTH_LENENC | can::CONNECT_WITH_DB | can::PLUGIN_AUTH | can::CONNECT_ATTRS;
        let mut packet = wants.to_le_bytes().to_vec();
        packet.extend([0; 28]);
        packet.extend(b"u\0\x02pqbase\0other\0\x04\x01a\x01b");
        let read = read_login(&packet).unwrap();
        assert_eq!((&read.user[..], &read.proof[..], &read.plugin[..]), (&b"u"[..], &b"pq"[..], &b"other"[..]));
    }

    #[test]
    fn parameters_of_each_type() {
        let mut packet = b"\x17\0\0\0\0\0\0\0\0\0\x10\x01\x01\0\x01\x80\x03\0\x08\x80\x06\0\xfc\0".to_vec();
        packet.extend(b"\xff\xff");
        packet.extend((-7i32).to_le_bytes());
        packet.extend(u64::MAX.to_le_bytes());
        packet.extend(b"\x02ab");
        let mut kinds = Vec::new();
        let read = read_execution(&packet, 6, &mut kinds, &mut [], Takes::Wholes).unwrap();
        let texts: Vec<_> =
            read.iter().map(|it| it.as_ref().map(|text| String::from_utf8(text.clone()).unwrap())).collect();
        assert_eq!(
            texts,
            [Some("-1"), Some("255"), Some("-7"), Some("18446744073709551615"), None, Some("ab")]
                .map(|it| it.map(str::to_string))
        );
        assert_eq!(kinds[1], (kind::TINY, true));
        assert!(read_execution(&[0x17; 12], 1, &mut Vec::new(), &mut [], Takes::Wholes).is_err());
    }

    #[test]
    fn a_null_in_a_binary_row() {
        let mut out = Out::new();
        let columns = [Column::number("n"), Column::text("a", 1), Column::text("b", 1)];
        out.binary_row(&columns, &[Value::Number(2), Value::Text(b"a".to_vec()), Value::Null]);
        assert_eq!(&out.bytes()[4..], b"\0\x10\x02\0\0\0\0\0\0\0\x01a");
    }

    #[test]
    fn noise_is_malformed_and_nothing_worse() {
        let mut draw = 1u64;
        for _ in 0..20_000 {
            let noise: Vec<u8> = (0..draw % 80)
                .map(|_| {
                    draw = draw.wrapping_mul(6_364_136_223_846_793_005).wrapping_add(1_442_695_040_888_963_407);
                    (draw >> 33) as u8
                })
                .collect();
            draw = draw.wrapping_add(12_345);
            let _ = (read_login(&noise), statement_number(&noise), read_long_data(&noise));
            for takes in [Takes::Wholes, Takes::AllNumbers] {
                let _ = read_execution(&noise, (draw % 5) as usize, &mut Vec::new(), &mut [None], takes);
            }
            if !noise.is_empty() {
                let _ = read_change(&noise, can::ALL);
            }
        }
    }
}
