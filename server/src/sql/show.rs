//! SHOW of what isn't one table.
use super::answer::Asked;
use super::change::Rows;
use super::define::table_of;
use super::grammar::Named;
use super::question::wire;
use super::reader::{Read, Reader};
use super::schema::{self, columns, number, text, Relation};
use super::term::{At, Term};
use super::value::{Column, Type, Value};
use crate::answers::{self, Refusal};
use crate::chatter::is_like;
use crate::packets;
use crate::variables;
use std::sync::atomic::Ordering;

#[derive(Clone, Debug, PartialEq, Eq)]
enum What {
    Variables,
    Status,
    Databases,
    Engines,
    Collations,
    Charsets,
    Processes { is_full: bool },
    Index(Named),
    Columns { table: Named, is_full: bool },
    TableStatus,
    Nothing(&'static str),
}

/// What is shown, and which of it: names like a pattern, or where a condition holds.
#[derive(Clone, Debug, PartialEq, Eq)]
pub struct Show {
    what: What,
    like: Option<Vec<u8>>,
    filter: Option<Term>,
}

/// Texts behind SHOW of which nothing is there, with their columns.
const NOTHING: [(&[&str], &str); 8] = [
    (&["warnings"], "Level Code:i Message"),
    (&["errors"], "Level Code:i Message"),
    (&["plugins"], "Name Status Type Library License"),
    (&["triggers"], "Trigger Event Table Statement:l Timing Created sql_mode Definer"),
    (&["procedure", "status"], "Db Name Type Definer Modified Created Security_type Comment:l"),
    (&["function", "status"], "Db Name Type Definer Modified Created Security_type Comment:l"),
    (&["events"], "Db Name Definer Type Status"),
    (&["master", "status"], "File Position:n Binlog_Do_DB Binlog_Ignore_DB"),
];

impl Show {
    /// DESCRIBE.
    pub fn of_table(table: &Named) -> Show {
        Show { what: What::Columns { table: table.clone(), is_full: false }, like: None, filter: None }
    }

    /// Whether one table is named, which an IDLE branch doesn't allow.
    pub fn is_of_table(&self) -> bool {
        matches!(self.what, What::Columns { .. } | What::Index(_))
    }
}

impl Reader<'_> {
    /// What stands behind SHOW, where it isn't about the tables' names or a table's creation.
    pub fn show(&mut self) -> Read<Show> {
        let what = self.shown()?;
        if let What::Nothing(_) = what {
            self.pass_limit()?;
        }
        let like = if self.sees(&["like"]) { Some(self.text()?) } else { None };
        let filter = if like.is_none() && self.sees(&["where"]) { Some(self.term()?) } else { None };
        Ok(Show { what, like, filter })
    }

    /// `LIMIT n`, and FROM a database.
    fn pass_limit(&mut self) -> Read<()> {
        if self.sees(&["from"]) || self.sees(&["in"]) {
            self.name()?;
        }
        if self.sees(&["limit"]) {
            self.limit()?;
        }
        Ok(())
    }

    fn shown(&mut self) -> Read<What> {
        let is_full = self.sees(&["full"]);
        if self.sees(&["processlist"]) {
            return Ok(What::Processes { is_full });
        }
        if self.sees(&["columns"]) || self.sees(&["fields"]) {
            return Ok(What::Columns { table: self.of_table()?, is_full });
        }
        if ["index", "indexes", "keys"].iter().any(|it| self.sees(&[it])) {
            return self.of_table().map(What::Index);
        }
        if self.sees(&["table", "status"]) {
            return self.pass_limit().map(|()| What::TableStatus);
        }
        let _ = self.sees(&["session"]) || self.sees(&["global"]) || self.sees(&["local"]) || self.sees(&["storage"]);
        if let Some((_, list)) = NOTHING.iter().find(|(words, _)| self.sees(words)) {
            return Ok(What::Nothing(list));
        }
        let words: [(&[&str], What); 9] = [
            (&["variables"], What::Variables),
            (&["status"], What::Status),
            (&["databases"], What::Databases),
            (&["schemas"], What::Databases),
            (&["engines"], What::Engines),
            (&["collation"], What::Collations),
            (&["character", "set"], What::Charsets),
            (&["charset"], What::Charsets),
            (&["count"], What::Nothing("")),
        ];
        match words.into_iter().find(|(words, _)| self.sees(words)) {
            Some((_, What::Nothing(_))) | None => self.fail(),
            Some((_, what)) => Ok(what),
        }
    }

    fn of_table(&mut self) -> Read<Named> {
        if !self.sees(&["from"]) {
            self.wants(&["in"])?;
        }
        let mut table = self.named()?;
        if self.sees(&["from"]) || self.sees(&["in"]) {
            table.database = Some(self.name()?);
        }
        Ok(table)
    }
}

fn relation(rows: &Rows, asked: &Asked, show: &Show) -> Result<Relation, Refusal> {
    let named = |list: &str, rows| Relation { columns: columns(list), rows };
    let renamed = |it: Relation, list: &str| Relation { columns: columns(list), rows: it.rows };
    Ok(match &show.what {
        What::Variables => {
            let names = variables::names().chain(["autocommit", "max_allowed_packet", "tx_read_only"]);
            let row = |name: &str| Some(vec![text(name), asked.facts.shown(name)?]);
            let mut rows: Vec<_> = names.filter_map(row).collect();
            rows.sort_by(|one: &Vec<Value>, two| format!("{:?}", one[0]).cmp(&format!("{:?}", two[0])));
            named("Variable_name Value", rows)
        }
        What::Status => named("Variable_name Value", status(rows, asked)),
        What::Databases => {
            let name = match &show.like {
                Some(pattern) => format!("Database~({})", String::from_utf8_lossy(pattern).replace(' ', "~")),
                None => "Database".to_string(),
            };
            let all = [asked.database, schema::NAME];
            named(&name, all.iter().take(1 + usize::from(all[0] != all[1])).map(|it| vec![text(it)]).collect())
        }
        What::Engines => renamed(schema::engines(), "Engine Support Comment Transactions XA Savepoints"),
        What::Collations => renamed(schema::collations(), "Collation Charset Id:n Default Compiled Sortlen:n"),
        What::Charsets => charsets(),
        What::Processes { is_full } => processes(rows, *is_full),
        What::Index(table) => index(rows, table)?,
        What::Columns { table, is_full } => described(rows, table, *is_full)?,
        What::TableStatus => table_status(rows),
        What::Nothing(list) => named(list, Vec::new()),
    })
}

fn charsets() -> Relation {
    let mut it = schema::charsets();
    it.rows.iter_mut().for_each(|row| row.swap(1, 2));
    Relation { columns: columns("Charset Description Default~collation Maxlen:n"), rows: it.rows }
}

fn status(rows: &Rows, asked: &Asked) -> Vec<Vec<Value>> {
    let store = &rows.store;
    let (cipher, version) = match &asked.facts.agreed {
        Some((version, cipher)) => (cipher.clone(), version.clone()),
        None => (String::new(), String::new()),
    };
    let tables = store.tables.all().len().to_string();
    let rows = [
        ("Flush_commands", "0".to_string()),
        ("Open_tables", tables.clone()),
        ("Opened_tables", tables),
        ("Queries", store.statements().to_string()),
        ("Questions", store.statements().to_string()),
        ("Slow_queries", "0".to_string()),
        ("Ssl_cipher", cipher),
        ("Ssl_version", version),
        ("Threads_connected", store.logged_in.load(Ordering::Relaxed).to_string()),
        ("Uptime", store.began.elapsed().as_secs().to_string()),
    ];
    rows.iter().map(|(name, value)| vec![text(name), text(value)]).collect()
}

fn processes(rows: &Rows, is_full: bool) -> Relation {
    let mut found = schema::processes(&rows.store);
    for row in &mut found {
        if let (Value::Text(said), false) = (&mut row[7], is_full) {
            said.truncate(100);
        }
    }
    Relation { columns: columns("Id:n User Host db Command Time:i State Info"), rows: found }
}

fn index(rows: &Rows, named: &Named) -> Result<Relation, Refusal> {
    let table = table_of(rows, named)?;
    let key = &table.columns[table.key].name;
    let mut row = vec![text(&table.name), number(0), text("PRIMARY"), number(1), text(key), text("A")];
    row.extend([number(table.keys().len() as i128), Value::Null, Value::Null, text(""), text("BTREE"), text("")]);
    row.extend([text(""), text("NO")]);
    let list = "Table Non_unique:n Key_name Seq_in_index:i Column_name Collation Cardinality:n Sub_part:n Packed Null \
                Index_type Comment Index_comment Ignored";
    let rows = Some(row).filter(|_| table.has_key()).into_iter().collect();
    Ok(Relation { columns: columns(list), rows })
}

fn table_status(rows: &Rows) -> Relation {
    let list = "Name Engine Version:n Row_format Rows:n Collation Comment";
    let row = |it: &std::sync::Arc<super::table::Table>| {
        let count = number(it.keys().len() as i128);
        vec![text(&it.name), text("InnoDB"), number(10), text("Dynamic"), count, text("utf8mb4_general_ci"), text("")]
    };
    Relation { columns: columns(list), rows: rows.store.tables.all().iter().map(row).collect() }
}

fn described(rows: &Rows, named: &Named, is_full: bool) -> Result<Relation, Refusal> {
    let table = table_of(rows, named)?;
    let row = |(index, it): (usize, &Column)| {
        let default = match &it.default {
            Some(Value::Number(number)) => text(&number.text()),
            Some(Value::Text(default)) => Value::Text(default.clone()),
            _ => Value::Null,
        };
        let null = text(if it.is_nullable { "YES" } else { "NO" });
        let key = text(if index == table.key { "PRI" } else { "" });
        let collation = schema::collation_of(it.kind).map_or(Value::Null, text);
        let mut row = vec![text(&it.name), text(&it.kind.name()), collation, null, key, default, schema::extra(it)];
        row.extend([text(schema::PRIVILEGES), text("")]);
        if !is_full {
            row.truncate(7);
            row.remove(2);
        }
        row
    };
    let list = if is_full {
        "Field Type:l Collation Null Key Default:l Extra Privileges Comment"
    } else {
        "Field Type:l Null Key Default:l Extra"
    };
    Ok(Relation { columns: columns(list), rows: table.named().iter().enumerate().map(row).collect() })
}

fn wires(columns: &[(String, Type)]) -> Vec<packets::Column> {
    columns.iter().map(|(name, kind)| schema::wire(name, *kind)).collect()
}

pub fn columns_of(rows: &Rows, asked: &Asked, show: &Show) -> Result<Vec<packets::Column>, Refusal> {
    relation(rows, asked, show).map(|it| wires(&it.columns))
}

pub fn answer(rows: &Rows, asked: &Asked, show: &Show) -> Result<answers::Table, Refusal> {
    let Relation { columns, rows: all } = relation(rows, asked, show)?;
    let wires = wires(&columns);
    let tables = [(String::new(), Relation { columns, rows: Vec::new() })];
    let (facts, database) = (asked.facts, Some(asked.database));
    let is_shown = |row: &Vec<Value>| -> Result<bool, Refusal> {
        let lower = |it: &[u8]| it.to_ascii_lowercase();
        match (&show.like, &show.filter, &row[0]) {
            (Some(pattern), _, Value::Text(name)) => Ok(is_like(&lower(name), &lower(pattern))),
            (_, Some(term), _) => {
                term.holds(&At { facts, database, tables: &tables, rows: &[&row[..]], part: "WHERE" })
            }
            _ => Ok(true),
        }
    };
    if let Some(term) = &show.filter {
        term.column(&At { facts, database, tables: &tables, rows: &[], part: "WHERE" }, "")?;
    }
    let mut rows = Vec::new();
    for row in all {
        if is_shown(&row)? {
            rows.push(row.iter().zip(&wires).map(|(value, column)| wire(value, column)).collect());
        }
    }
    Ok(answers::Table { columns: wires, rows })
}
