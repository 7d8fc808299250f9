//! What tools ask of information_schema, as tables that are made when they are asked for.
use super::grammar::{Named, Of};
use super::table::Row;
use super::term::Term;
use super::value::{Column, Form, Number, Type, Value};
use super::{refused, table};
use crate::answers::Refusal;
use crate::packets;
use crate::store::{lock, Store};
use std::sync::Arc;

pub const NAME: &str = "information_schema";
const SIGNS: Type = Type::Text { form: Form::Varying, length: 64, is_exact: false };
const LONG: Type = Type::Text { form: Form::Long, length: 65_535, is_exact: false };
const COUNT: Type = Type::Whole { bytes: 8, is_unsigned: false, is_boolean: false };
const SMALL: Type = Type::Whole { bytes: 4, is_unsigned: false, is_boolean: false };

/// Rows that no branch writes, with the names and types of their columns.
pub struct Relation {
    pub columns: Vec<(String, Type)>,
    pub rows: Vec<Row>,
}

impl Relation {
    pub fn column(&self, name: &str) -> Option<usize> {
        self.columns.iter().position(|(it, _)| it.eq_ignore_ascii_case(name))
    }

    /// All columns, as a client is told of them, and what stands for each.
    pub fn terms<'a>(&'a self, table: &'a str) -> impl Iterator<Item = (packets::Column, Term)> + 'a {
        self.columns.iter().map(move |(name, kind)| {
            (wire(name, *kind), Term::Column(Of { table: Some(table.to_string()), name: name.clone() }))
        })
    }
}

/// A column as a client is told of it.
pub fn wire(name: &str, kind: Type) -> packets::Column {
    let column = Column {
        name: name.to_string(),
        kind,
        is_nullable: true,
        default: None,
        has_default: false,
        is_numbered: false,
    };
    column.wire(name, false)
}

/// Columns by their letters: `s` signs, `l` a long text, `n` a number, `i` a small one.
pub fn columns(list: &str) -> Vec<(String, Type)> {
    let column = |it: &str| {
        let (name, kind) = it.split_once(':').unwrap_or((it, "s"));
        let kind = match kind {
            "l" => LONG,
            "n" => COUNT,
            "i" => SMALL,
            _ => SIGNS,
        };
        (name.replace('~', " "), kind)
    };
    list.split_whitespace().map(column).collect()
}

pub fn text(it: &str) -> Value {
    Value::Text(it.as_bytes().to_vec())
}

pub fn number(it: i128) -> Value {
    Value::Number(Number::whole(it))
}

const TABLES: &str = "TABLE_CATALOG TABLE_SCHEMA TABLE_NAME TABLE_TYPE ENGINE TABLE_COLLATION TABLE_COMMENT TEMPORARY";
const COLUMNS: &str = "TABLE_CATALOG TABLE_SCHEMA TABLE_NAME COLUMN_NAME ORDINAL_POSITION:n COLUMN_DEFAULT:l \
     IS_NULLABLE DATA_TYPE CHARACTER_MAXIMUM_LENGTH:n CHARACTER_OCTET_LENGTH:n NUMERIC_PRECISION:n NUMERIC_SCALE:n \
     DATETIME_PRECISION:n CHARACTER_SET_NAME COLLATION_NAME COLUMN_TYPE:l COLUMN_KEY EXTRA PRIVILEGES COLUMN_COMMENT \
     IS_GENERATED GENERATION_EXPRESSION:l";
const STATISTICS: &str = "TABLE_CATALOG TABLE_SCHEMA TABLE_NAME NON_UNIQUE:n INDEX_SCHEMA INDEX_NAME SEQ_IN_INDEX:i \
     COLUMN_NAME COLLATION CARDINALITY:n SUB_PART:n PACKED NULLABLE INDEX_TYPE COMMENT INDEX_COMMENT IGNORED";
const USAGE: &str = "CONSTRAINT_CATALOG CONSTRAINT_SCHEMA CONSTRAINT_NAME TABLE_CATALOG TABLE_SCHEMA TABLE_NAME \
     COLUMN_NAME ORDINAL_POSITION:n POSITION_IN_UNIQUE_CONSTRAINT:n REFERENCED_TABLE_SCHEMA REFERENCED_TABLE_NAME \
     REFERENCED_COLUMN_NAME";
const PROCESSES: &str = "ID:n USER HOST DB COMMAND TIME:i STATE INFO:l";
/// Tables of which nothing is there.
const EMPTY: [(&str, &str); 9] = [
    (
        "referential_constraints",
        "CONSTRAINT_CATALOG CONSTRAINT_SCHEMA CONSTRAINT_NAME UNIQUE_CONSTRAINT_CATALOG UNIQUE_CONSTRAINT_SCHEMA \
         UNIQUE_CONSTRAINT_NAME MATCH_OPTION UPDATE_RULE DELETE_RULE TABLE_NAME REFERENCED_TABLE_NAME",
    ),
    (
        "routines",
        "SPECIFIC_NAME ROUTINE_CATALOG ROUTINE_SCHEMA ROUTINE_NAME ROUTINE_TYPE DATA_TYPE ROUTINE_DEFINITION:l \
         ROUTINE_COMMENT:l DEFINER",
    ),
    ("parameters", "SPECIFIC_CATALOG SPECIFIC_SCHEMA SPECIFIC_NAME ORDINAL_POSITION:i PARAMETER_MODE PARAMETER_NAME"),
    ("views", "TABLE_CATALOG TABLE_SCHEMA TABLE_NAME VIEW_DEFINITION:l CHECK_OPTION IS_UPDATABLE DEFINER"),
    (
        "triggers",
        "TRIGGER_CATALOG TRIGGER_SCHEMA TRIGGER_NAME EVENT_MANIPULATION EVENT_OBJECT_SCHEMA EVENT_OBJECT_TABLE",
    ),
    ("events", "EVENT_CATALOG EVENT_SCHEMA EVENT_NAME DEFINER STATUS"),
    ("check_constraints", "CONSTRAINT_CATALOG CONSTRAINT_SCHEMA TABLE_NAME CONSTRAINT_NAME LEVEL CHECK_CLAUSE:l"),
    ("table_privileges", "GRANTEE TABLE_CATALOG TABLE_SCHEMA TABLE_NAME PRIVILEGE_TYPE IS_GRANTABLE"),
    ("column_privileges", "GRANTEE TABLE_CATALOG TABLE_SCHEMA TABLE_NAME COLUMN_NAME PRIVILEGE_TYPE IS_GRANTABLE"),
];

/// A table of information_schema. All tables of the store are said to be in the client's database.
pub fn relation(store: &Store, named: &Named, database: &str) -> Result<Relation, Refusal> {
    let is_schema = named.database.as_deref().map_or(true, |it| it.eq_ignore_ascii_case(NAME));
    let name = named.table.to_ascii_lowercase();
    let all = store.tables.all();
    let each = |list: &str, rows: &mut dyn FnMut(&Arc<table::Table>) -> Vec<Row>| {
        Ok(Relation { columns: columns(list), rows: all.iter().flat_map(rows).collect() })
    };
    match name.as_str() {
        _ if !is_schema => Err(super::change::no_table(&named.table, database)),
        "tables" => each(TABLES, &mut |it| vec![table_row(it, database)]),
        "columns" => each(COLUMNS, &mut |it| columns_of(it, database)),
        "statistics" => each(STATISTICS, &mut |it| with_key(it, index_row(it, database))),
        "key_column_usage" => each(USAGE, &mut |it| with_key(it, usage_row(it, database))),
        "table_constraints" => each(
            "CONSTRAINT_CATALOG CONSTRAINT_SCHEMA CONSTRAINT_NAME TABLE_SCHEMA TABLE_NAME CONSTRAINT_TYPE",
            &mut |it| {
                let texts = ["def", database, "PRIMARY", database, &it.name, "PRIMARY KEY"];
                with_key(it, texts.into_iter().map(text).collect())
            },
        ),
        "schemata" => Ok(schemata(database)),
        "processlist" => Ok(Relation { columns: columns(PROCESSES), rows: processes(store) }),
        "engines" => Ok(engines()),
        "collations" => Ok(collations()),
        "character_sets" => Ok(charsets()),
        _ => match EMPTY.iter().find(|(it, _)| *it == name) {
            Some((_, list)) => Ok(Relation { columns: columns(list), rows: Vec::new() }),
            None => Err(refused(1109, "42S02", format!("Unknown table '{}' in {}", named.table, NAME))),
        },
    }
}

/// What is said of a table's primary key, if it has one.
fn with_key(table: &table::Table, row: Row) -> Vec<Row> {
    Some(row).filter(|_| table.has_key()).into_iter().collect()
}

/// What is said of a column beside its type and default.
pub fn extra(column: &Column) -> Value {
    text(if column.is_numbered { "auto_increment" } else { "" })
}

fn table_row(it: &table::Table, database: &str) -> Row {
    ["def", database, &it.name, "BASE TABLE", "InnoDB", "utf8mb4_general_ci", "", "N"].into_iter().map(text).collect()
}

fn schemata(database: &str) -> Relation {
    let row = |name: &str| ["def", name, "utf8mb4", "utf8mb4_general_ci"].into_iter().map(text).collect();
    let columns = columns("CATALOG_NAME SCHEMA_NAME DEFAULT_CHARACTER_SET_NAME DEFAULT_COLLATION_NAME");
    let others = Some(NAME).filter(|it| !database.eq_ignore_ascii_case(it));
    Relation { columns, rows: std::iter::once(database).chain(others).map(row).collect() }
}

pub fn engines() -> Relation {
    let row = ["InnoDB", "DEFAULT", "Rows of a verified XA row store, in memory", "YES", "YES", "YES"];
    Relation {
        columns: columns("ENGINE SUPPORT COMMENT TRANSACTIONS XA SAVEPOINTS"),
        rows: vec![row.into_iter().map(text).collect()],
    }
}

pub fn collations() -> Relation {
    let row = |(name, charset, id, is_default): (&str, &str, i128, &str)| {
        vec![text(name), text(charset), number(id), text(is_default), text("Yes"), number(1)]
    };
    let rows = [
        ("utf8mb4_general_ci", "utf8mb4", 45, "Yes"),
        ("utf8mb4_bin", "utf8mb4", 46, ""),
        ("binary", "binary", 63, "Yes"),
    ];
    let columns = columns("COLLATION_NAME CHARACTER_SET_NAME ID:n IS_DEFAULT IS_COMPILED SORTLEN:n");
    Relation { columns, rows: rows.into_iter().map(row).collect() }
}

pub fn charsets() -> Relation {
    let row = |(name, collation, what, most): (&str, &str, &str, i128)| {
        vec![text(name), text(collation), text(what), number(most)]
    };
    let rows =
        [("utf8mb4", "utf8mb4_general_ci", "UTF-8 Unicode", 4), ("binary", "binary", "Binary pseudo charset", 1)];
    let columns = columns("CHARACTER_SET_NAME DEFAULT_COLLATE_NAME DESCRIPTION MAXLEN:n");
    Relation { columns, rows: rows.into_iter().map(row).collect() }
}

/// How many signs and bytes, and how many digits and digits behind the point a column's values have.
fn sizes(kind: Type) -> [Value; 4] {
    let some = |it: u32| number(it.into());
    match kind {
        Type::Whole { bytes, is_unsigned, .. } => {
            let digits = match bytes {
                1 => 3,
                2 => 5,
                4 => 10,
                _ => 19 + u32::from(is_unsigned),
            };
            [Value::Null, Value::Null, some(digits), some(0)]
        }
        Type::Decimal { precision, scale } => [Value::Null, Value::Null, some(precision), some(scale)],
        Type::Text { form: Form::Long, length, .. } | Type::Bytes { length, .. } => {
            [some(length), some(length), Value::Null, Value::Null]
        }
        Type::Text { length, .. } => [some(length), some(4 * length), Value::Null, Value::Null],
    }
}

fn columns_of(table: &table::Table, database: &str) -> Vec<Row> {
    let row = |(index, it): (usize, &Column)| {
        let default = match &it.default {
            Some(Value::Number(number)) => text(&number.text()),
            Some(Value::Text(default)) => text(&format!("'{}'", String::from_utf8_lossy(default))),
            Some(Value::Null) => text("NULL"),
            None => Value::Null,
        };
        let (charset, collation) = match collation_of(it.kind) {
            Some(collation) => (text("utf8mb4"), text(collation)),
            None => (Value::Null, Value::Null),
        };
        let null = if it.is_nullable { "YES" } else { "NO" };
        let mut row = vec![text("def"), text(database), text(&table.name), text(&it.name), number(index as i128 + 1)];
        row.extend([default, text(null), text(it.kind.word())]);
        row.extend(sizes(it.kind));
        row.extend([Value::Null, charset, collation, text(&it.kind.name())]);
        row.extend([text(if index == table.key { "PRI" } else { "" }), extra(it), text(PRIVILEGES), text("")]);
        row.extend([text("NEVER"), Value::Null]);
        row
    };
    table.named().iter().enumerate().map(row).collect()
}

pub const PRIVILEGES: &str = "select,insert,update,references";

pub fn collation_of(kind: Type) -> Option<&'static str> {
    match kind {
        Type::Text { is_exact, .. } => Some(if is_exact { "utf8mb4_bin" } else { "utf8mb4_general_ci" }),
        _ => None,
    }
}

fn index_row(table: &table::Table, database: &str) -> Row {
    let mut row = vec![text("def"), text(database), text(&table.name), number(0), text(database), text("PRIMARY")];
    row.extend([number(1), text(&table.columns[table.key].name), text("A"), number(table.keys().len() as i128)]);
    row.extend([Value::Null, Value::Null, text(""), text("BTREE"), text(""), text(""), text("NO")]);
    row
}

fn usage_row(table: &table::Table, database: &str) -> Row {
    let key = &table.columns[table.key].name;
    let mut row: Row = ["def", database, "PRIMARY", "def", database, &table.name, key].into_iter().map(text).collect();
    row.extend([number(1), Value::Null, Value::Null, Value::Null, Value::Null]);
    row
}

/// Who is connected, and what each does.
pub fn processes(store: &Store) -> Vec<Row> {
    let connections = lock(&store.connections);
    let mut all: Vec<_> = connections.values().collect();
    all.sort_by_key(|it| it.number);
    let row = |it: &&Arc<crate::store::Connection>| {
        let doing = lock(&it.doing);
        let has_logged_in = it.has_logged_in.load(std::sync::atomic::Ordering::Relaxed);
        let command = match (doing.text(), has_logged_in) {
            (_, false) => "Connect",
            (Some(_), _) => "Query",
            (None, _) => "Sleep",
        };
        let bytes = |it: Option<&[u8]>| it.map_or(Value::Null, |it| Value::Text(it.to_vec()));
        let user = if has_logged_in { Value::Text(doing.user.clone()) } else { text("unauthenticated user") };
        let time = number(doing.since.elapsed().as_secs().into());
        let state = text(if doing.text().is_some() { "starting" } else { "" });
        let mut row =
            vec![number(it.number.into()), user, text(&it.peer), bytes(doing.database.as_deref()), text(command)];
        row.extend([time, state, bytes(doing.text())]);
        row
    };
    all.iter().map(row).collect()
}
