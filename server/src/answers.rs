//! What a statement is answered: done, a refusal, or a table.
use crate::packets::{Column, Out, Value};
use crate::statements::{write_literal, Fault, Shape, Why};
use nigbaru::Xid;

/// How many bytes a text of an answer may have: two literals.
pub const MOST: u32 = 128;
/// And an identifier, as a statement has it.
const LITERALS: u32 = 280;
const QUOTED: usize = 60;

#[derive(Clone, Debug, PartialEq, Eq)]
pub struct Refusal {
    pub number: u16,
    pub sqlstate: &'static str,
    pub text: String,
}

#[derive(Clone, Debug, PartialEq, Eq)]
pub struct Table {
    pub columns: Vec<Column>,
    pub rows: Vec<Vec<Value>>,
}

#[derive(Clone, Debug, PartialEq, Eq)]
pub enum Answer {
    /// Done, with so many rows changed.
    Ok(u64),
    /// The same of rows that were inserted, with the number of the first one that was given one.
    Numbered(u64, u64),
    Refused(Refusal),
    /// A row's value; none where there is no such row.
    Value(Option<Vec<u8>>),
    Table(Table),
}

impl Answer {
    pub fn is_ok(&self) -> bool {
        matches!(self, Answer::Ok(_) | Answer::Numbered(..))
    }

    pub fn refusal(self) -> Option<Refusal> {
        match self {
            Answer::Refused(it) => Some(it),
            _ => None,
        }
    }

    /// Writes the packets. Values of rows are texts, or bytes.
    pub fn write(self, out: &mut Out, status: u16, is_binary: bool, has_texts: bool) {
        match self {
            Answer::Ok(affected) => out.ok(affected, 0, status),
            Answer::Numbered(affected, number) => out.ok(affected, number, status),
            Answer::Value(found) => {
                let row = found.map(|it| [vec![Value::Text(it)]]);
                out.table(&value_columns(has_texts), row.as_ref().map_or(&[], |it| &it[..]), status, is_binary);
            }
            Answer::Refused(it) => out.error(it.number, it.sqlstate, &it.text),
            Answer::Table(it) => out.table(&it.columns, &it.rows, status, is_binary),
        }
    }
}

impl From<Refusal> for Answer {
    fn from(it: Refusal) -> Answer {
        Answer::Refused(it)
    }
}

pub const OK: Answer = Answer::Ok(0);

/// SQLSTATE and usual text of the server's own refusals, and of those that a fault on purpose may give.
fn known(number: u16) -> (&'static str, &'static str) {
    match number {
        1037 => ("HY001", "out of memory"),
        1040 => ("08004", "Too many connections"),
        1043 => ("08S01", "Bad handshake"),
        1045 => ("28000", "Access denied"),
        1047 => ("08S01", "Unknown command"),
        1048 => ("23000", "NULL"),
        1064 => ("42000", "syntax fault"),
        1094 => ("HY000", "Unknown thread id"),
        1153 => ("08S01", "a packet that is too long"),
        1205 => ("HY000", "Lock wait timeout exceeded"),
        1210 => ("HY000", "Incorrect arguments to a prepared statement"),
        1227 => ("42000", "Access denied"),
        1213 => ("40001", "Deadlock found"),
        1243 => ("HY000", "Unknown prepared statement"),
        1295 => ("HY000", "This command can't be prepared"),
        1317 => ("70100", "Query execution was interrupted"),
        1366 => ("HY000", "Incorrect value"),
        1397 => ("XAE04", "XAER_NOTA unknown xid"),
        1398 => ("XAE05", "XAER_INVAL clause not supported"),
        1399 => ("XAE07", "XAER_RMFAIL"),
        1400 => ("XAE09", "XAER_OUTSIDE a local transaction is open"),
        1401 => ("XAE03", "XAER_RMERR"),
        1402 => ("XA100", "XA_RBROLLBACK"),
        1406 => ("22001", "Data too long"),
        1440 => ("XAE08", "XAER_DUPID xid already exists"),
        1568 => ("25001", "the access of a transaction that has begun can't be changed"),
        1613 => ("XA106", "XA_RBTIMEOUT"),
        1614 => ("XA102", "XA_RBDEADLOCK"),
        1791 => ("HY000", "Unknown format name"),
        1792 => ("25006", "the transaction is READ ONLY"),
        3572 => ("HY000", "row locked by another branch"),
        _ => ("HY000", "an error on purpose"),
    }
}

/// A refusal with its usual text.
pub fn refusal(number: u16) -> Refusal {
    let (sqlstate, text) = known(number);
    Refusal { number, sqlstate, text: text.to_string() }
}

pub fn refusal_with(number: u16, text: String) -> Refusal {
    Refusal { text, ..refusal(number) }
}

pub fn wrong_state(state: &str) -> Refusal {
    refusal_with(1399, format!("XAER_RMFAIL state {}", state))
}

/// The refusal of a text that is no statement: it quotes it from where it goes wrong, or says what value is wanted
/// there.
pub fn syntax(text: &[u8], fault: Fault) -> Refusal {
    let number = match fault.why {
        Why::Syntax => return quoting(text, fault.place),
        Why::TooLong => 1406,
        Why::Null => 1048,
        Why::Unfit => 1366,
        Why::Format => 1791,
    };
    refusal_with(number, format!("{} at byte {}, where {}", known(number).1, fault.place, fault.wanted))
}

/// The refusal of a text that goes wrong at a byte, quoted from there on.
pub fn quoting(text: &[u8], place: usize) -> Refusal {
    let rest = &text[place.min(text.len())..];
    if rest.is_empty() {
        return refusal_with(1064, format!("syntax fault at byte {}, where the text ends", place));
    }
    let rest = String::from_utf8_lossy(rest);
    let shown: String = rest.chars().map(|it| if it.is_control() { ' ' } else { it }).take(QUOTED).collect();
    let more = if rest.chars().nth(QUOTED).is_some() { ".." } else { "" };
    refusal_with(1064, format!("syntax fault at byte {} near '{}{}'", place, shown, more))
}

/// The column of GET: bytes, or signs where the server is told that values are texts.
pub fn value_columns(is_text: bool) -> Vec<Column> {
    vec![if is_text { Column::said("value", 64) } else { Column::text("value", 64) }]
}

pub fn branch_columns() -> Vec<Column> {
    vec![
        Column::number("formatID"),
        Column::number("gtrid_length"),
        Column::number("bqual_length"),
        Column::text("data", MOST),
    ]
}

/// The rows of XA RECOVER, their data as the client asked.
pub fn branches(xids: &[Xid], shape: Shape) -> Answer {
    let row = |xid: &Xid| {
        let joined = [&xid.gtrid[..], &xid.bqual[..]].concat();
        let data = match shape {
            Shape::Raw => joined,
            Shape::Digits => digits(&joined),
            Shape::Sql => literals(xid),
        };
        vec![
            Value::Number(xid.format_id),
            Value::Number(xid.gtrid.len() as i64),
            Value::Number(xid.bqual.len() as i64),
            Value::Text(data),
        ]
    };
    let mut columns = branch_columns();
    if shape == Shape::Sql {
        columns[3] = Column::said("data", LITERALS);
    }
    Answer::Table(Table { columns, rows: xids.iter().map(row).collect() })
}

/// An identifier as MariaDB writes it, without what may be left out. All is in digits unless all is plain.
fn literals(xid: &Xid) -> Vec<u8> {
    let is_plain = xid.gtrid.iter().chain(&xid.bqual).all(|it| matches!(it, b' '..=b'~') && *it != b'\'');
    let literal = |data: &[u8]| match is_plain {
        true => format!("'{}'", String::from_utf8_lossy(data)),
        false => format!("X'{}'", data.iter().map(|it| format!("{:02x}", it)).collect::<String>()),
    };
    let mut text = literal(&xid.gtrid);
    if !xid.bqual.is_empty() || xid.format_id != 1 {
        text += &format!(",{}", literal(&xid.bqual));
    }
    if xid.format_id != 1 {
        text += &format!(",{}", xid.format_id);
    }
    text.into_bytes()
}

/// `0x` and two digits a byte, also for none.
pub fn digits(data: &[u8]) -> Vec<u8> {
    let mut text = Vec::new();
    if data.is_empty() {
        text.extend(b"0x");
    } else {
        write_literal(&mut text, data);
    }
    text
}

#[cfg(test)]
mod tests {
    use super::*;

    #[test]
    fn a_syntax_fault_quotes_what_is_refused() {
        let said = |text: &[u8], place| quoting(text, place).text;
        assert_eq!(said(b"SELECT * FROM t", 0), "syntax fault at byte 0 near 'SELECT * FROM t'");
        assert_eq!(said(b"XA START", 8), "syntax fault at byte 8, where the text ends");
        assert_eq!(said(b"GET a\nb", 4), "syntax fault at byte 4 near 'a b'");
        assert_eq!(said(&[b'x'; 60], 0), format!("syntax fault at byte 0 near '{}'", "x".repeat(60)));
        assert_eq!(said(&[b'x'; 61], 0), format!("syntax fault at byte 0 near '{}..'", "x".repeat(60)));
    }
}
