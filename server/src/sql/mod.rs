//! A small face of SQL over a store: tables of a few columns, whose rows are rows of the store.
//!
//! `grammar` reads a text, `table` knows what tables there are, `value` turns literals into values of a column's type,
//! `change` and `scan` write and read rows in a branch, `numbers` counts, and `answer` carries a statement out.
//! `question`, `show`, `schema` and `term` answer what no row of the store does.
//!
//! A row's key is the table's name, a `/`, and the primary key; its value has the other columns. So locks, branches and
//! recovery are those of the store. The definitions of tables are kept in the server's memory: a statement that makes
//! one belongs to no transaction, in MySQL either, and what a definition says doesn't fit into one row.
mod answer;
mod change;
mod define;
mod filter;
mod grammar;
mod numbers;
mod project;
mod question;
mod reader;
mod scan;
mod schema;
mod show;
mod table;
mod term;
mod value;

pub use answer::{answer, columns_of, Asked};
pub use grammar::{count_parameters, read, Given, Sql, Untaken};
pub use reader::Reader;
pub use schema::Relation;
pub use table::Catalog;
pub use term::{At, Term};
pub use value::{Number, Value};

use crate::answers::{quoting, Refusal};
use crate::channel::End;
use crate::packets::{is_number, Kind, Parameter};
use crate::tokens::Text;

/// Why a statement ends early: it is refused, or the connection ends.
pub enum Stop {
    Refused(Refusal),
    End(End),
}

impl From<Refusal> for Stop {
    fn from(it: Refusal) -> Stop {
        Stop::Refused(it)
    }
}

impl From<End> for Stop {
    fn from(it: End) -> Stop {
        Stop::End(it)
    }
}

/// What a part of a statement gives, or why it ends there.
pub type Done<T> = Result<T, Stop>;

/// A refusal as MySQL says it.
pub fn refused(number: u16, sqlstate: &'static str, text: impl Into<String>) -> Refusal {
    Refusal { number, sqlstate, text: text.into() }
}

/// What is bound to the `?` of a text, each with its type.
pub fn given(values: Vec<Parameter>, kinds: &[Kind]) -> Vec<Given> {
    values.into_iter().zip(kinds).map(|(value, kind)| Given { value, is_number: is_number(*kind) }).collect()
}

/// The refusal of the first name in backquotes that can be none: it isn't UTF-8, or has a sign of four bytes or a 0.
fn bad_name(read: &Text) -> Option<Refusal> {
    let text = read.text;
    let name = read.words.iter().find(|it| text[it.begin] == b'`' && !is_plain_name(&text[it.begin..it.end]))?;
    if text[name.begin..name.end].contains(&0) {
        return Some(quoting(text, name.begin));
    }
    let shown: String = text[name.begin + 1..name.end - 1]
        .iter()
        .map(|byte| if byte.is_ascii() { char::from(*byte).to_string() } else { format!("\\x{:02X}", byte) })
        .collect();
    Some(refused(1300, "HY000", format!("Invalid utf8mb4 character string: '{}'", shown)))
}

/// Whether a name has no other signs than those that MariaDB takes.
fn is_plain_name(name: &[u8]) -> bool {
    std::str::from_utf8(name).map_or(false, |it| it.chars().all(|sign| sign != '\0' && sign <= '\u{ffff}'))
}

/// The refusal of a text that isn't one of the forms from a byte on.
pub fn not_taken(text: &Text, fault: Untaken) -> Refusal {
    if let Some(refusal) = bad_name(text) {
        return refusal;
    }
    let quoted = quoting(text.text, fault.0).text.replace("syntax fault", "the text");
    untaken(&quoted, grammar::taken(text))
}

/// The refusal of a change in a transaction that is READ ONLY.
pub fn reads_alone() -> Refusal {
    refused(1792, "25006", "Cannot execute statement in a READ ONLY transaction")
}

/// What isn't taken, and what is.
pub fn untaken(what: &str, taken: &str) -> Refusal {
    refused(1235, "42000", format!("This server doesn't take {}; it takes {} (server/README.md, SQL)", what, taken))
}
