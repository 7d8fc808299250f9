//! Tables made, dropped, emptied and described.
use super::change::{no_table, Rows};
use super::grammar::{Create, Named};
use super::table::{Table, COLUMNS, LONGEST_NAME};
use super::value::{Column, Form, Literal, Place, Type, Value};
use super::{refused, untaken, Done};
use crate::answers::{self, Answer, Refusal, OK};
use crate::packets;
use std::sync::Arc;

/// How many bytes a text may have that the server says of tables.
const SAID: u32 = 256;

/// The table that a statement names.
pub fn table_of(rows: &Rows, named: &Named) -> Result<Arc<Table>, Refusal> {
    check_name(&named.table)?;
    let database = named.database.as_deref().unwrap_or(rows.database);
    rows.store.tables.find(&named.table).ok_or_else(|| no_table(&named.table, database))
}

/// No table's name is empty, ends with a blank, or has more than 64 signs.
fn check_name(name: &str) -> Result<(), Refusal> {
    if name.is_empty() || name.chars().count() > 64 || name.ends_with(|it: char| it.is_ascii_whitespace()) {
        return Err(refused(1103, "42000", format!("Incorrect table name '{}'", name)));
    }
    Ok(())
}

// CREATE TABLE

pub fn create(rows: &Rows, create: &Create) -> Result<Answer, Refusal> {
    let name = &create.table.table;
    if rows.store.tables.find(name).is_some() {
        return exists(name, create.if_not_exists);
    }
    let table = table(create, rows.database)?;
    if rows.store.tables.add(table)? {
        Ok(OK)
    } else {
        exists(name, create.if_not_exists)
    }
}

fn exists(name: &str, is_fine: bool) -> Result<Answer, Refusal> {
    if is_fine {
        return Ok(OK);
    }
    Err(refused(1050, "42S01", format!("Table '{}' already exists", name)))
}

fn table(create: &Create, database: &str) -> Result<Table, Refusal> {
    let name = create.table.table.clone();
    check_name(&name)?;
    if name.contains('/') {
        return Err(refused(1103, "42000", format!("Incorrect table name '{}'", name)));
    }
    if name.len() > LONGEST_NAME {
        return Err(refused(1059, "42000", format!("Identifier name '{}' is too long", name)));
    }
    let mut columns = create.columns.clone();
    check_numbered(&columns)?;
    for (index, it) in columns.iter().enumerate() {
        if it.name.is_empty() || it.name.ends_with(|it: char| it.is_ascii_whitespace()) {
            return Err(refused(1166, "42000", format!("Incorrect column name '{}'", it.name)));
        }
        if it.name.chars().count() > 64 {
            return Err(refused(1059, "42000", format!("Identifier name '{}' is too long", it.name)));
        }
        if columns[..index].iter().any(|other| other.name.eq_ignore_ascii_case(&it.name)) {
            return Err(refused(1060, "42S21", format!("Duplicate column name '{}'", it.name)));
        }
    }
    let key = match &create.keys[..] {
        [] => None,
        [key] => match &key[..] {
            [key] => Some(key),
            _ => return Err(untaken("a primary key of several columns", "one of one column")),
        },
        _ => return Err(refused(1068, "42000", "Multiple primary key defined")),
    };
    let key = key.map(|key| {
        let found = columns.iter().position(|it| it.name.eq_ignore_ascii_case(key));
        found.ok_or_else(|| refused(1072, "42000", format!("Key column '{}' doesn't exist in table", key)))
    });
    let key = key.transpose()?;
    let is_single = |(index, it): (usize, &Column)| !it.is_numbered || Some(index) == key;
    if !columns.iter().enumerate().all(is_single) {
        return Err(refused(1075, "42000", WRONG_NUMBERED));
    }
    if columns.len() > COLUMNS {
        return Err(untaken("more than 8 columns", "up to 8 columns"));
    }
    if let Some(key) = key {
        check_key(&mut columns[key])?;
    }
    columns.iter_mut().try_for_each(|it| check(it, &name, database))?;
    let key = key.unwrap_or_else(|| {
        columns.push(unnamed());
        columns.len() - 1
    });
    let table = Table::new(name, columns, key);
    table.set_next_number(create.first.into());
    Ok(table)
}

const WRONG_NUMBERED: &str =
    "Incorrect table definition; there can be only one auto column and it must be defined as a key";

/// Whether AUTO_INCREMENT stands at whole numbers without a default.
fn check_numbered(columns: &[Column]) -> Result<(), Refusal> {
    for it in columns.iter().filter(|it| it.is_numbered) {
        if !matches!(it.kind, Type::Whole { .. }) {
            return Err(refused(1063, "42000", format!("Incorrect column specifier for column '{}'", it.name)));
        }
        if it.has_default && it.default != Some(Value::Null) {
            return Err(refused(1067, "42000", format!("Invalid default value for '{}'", it.name)));
        }
    }
    Ok(())
}

/// The primary key of a table that was made without one: its rows are numbered.
fn unnamed() -> Column {
    let kind = Type::Whole { bytes: 8, is_unsigned: false, is_boolean: false };
    Column { name: String::new(), kind, is_nullable: false, default: None, has_default: false, is_numbered: true }
}

fn check_key(column: &mut Column) -> Result<(), Refusal> {
    if let Type::Text { form: Form::Long, .. } | Type::Bytes { form: Form::Long, .. } = column.kind {
        let text = format!("BLOB/TEXT column '{}' used in key specification without a key length", column.name);
        return Err(refused(1170, "42000", text));
    }
    column.is_nullable = false;
    if !column.has_default || column.is_numbered {
        (column.default, column.has_default) = (None, false);
    }
    Ok(())
}

fn check(column: &mut Column, table: &str, database: &str) -> Result<(), Refusal> {
    if let Type::Decimal { precision, scale } = column.kind {
        if scale > precision {
            let text =
                format!("For float(M,D), double(M,D) or decimal(M,D), M must be >= D (column '{}')", column.name);
            return Err(refused(1427, "42000", text));
        }
    }
    if let (true, Some(value)) = (column.has_default, column.default.clone()) {
        let name = format!("`{}`.`{}`", database, table);
        let stored = column.store(&Literal::Value(value), &Place { table: &name, row: 1 });
        let invalid = refused(1067, "42000", format!("Invalid default value for '{}'", column.name));
        column.default = Some(stored.map_err(|_| invalid)?);
    }
    Ok(())
}

// DROP TABLE and TRUNCATE

/// Drops a table, unless a branch holds one of its rows.
pub fn drop_table(rows: &mut Rows, named: &Named, if_exists: bool) -> Done<Answer> {
    check_name(&named.table)?;
    let table = match rows.store.tables.find(&named.table) {
        Some(table) => table,
        None => return Ok(unknown(rows, named, if_exists)?),
    };
    let mut is_marked = false;
    let dropped = rows.alone(|it| {
        it.clear(&table)?;
        // (who waits for a stripe sees this before the branch's end lets it go on)
        table.set_dropped(true);
        is_marked = true;
        Ok(())
    });
    match dropped {
        Ok(()) => {
            rows.store.tables.remove(&table);
            Ok(OK)
        }
        // (somebody else has dropped it meanwhile)
        Err(_) if !is_marked && table.is_dropped() => Ok(unknown(rows, named, if_exists)?),
        Err(stop) => {
            if is_marked {
                table.set_dropped(false);
            }
            Err(stop)
        }
    }
}

fn unknown(rows: &Rows, named: &Named, is_fine: bool) -> Result<Answer, Refusal> {
    if is_fine {
        return Ok(OK);
    }
    let database = named.database.as_deref().unwrap_or(rows.database);
    Err(refused(1051, "42S02", format!("Unknown table '{}.{}'", database, named.table)))
}

pub fn truncate(rows: &mut Rows, named: &Named) -> Done<Answer> {
    let table = table_of(rows, named)?;
    let mut gone = Vec::new();
    let done = rows.alone(|it| {
        gone = it.clear(&table)?;
        table.forget_keys(&gone);
        table.set_next_number(1);
        Ok(OK)
    });
    if done.is_err() {
        gone.into_iter().for_each(|key| table.add_key(key));
    }
    done
}

// what is said of tables

fn said(name: &str) -> packets::Column {
    packets::Column::said(name, SAID)
}

/// The names of tables, those of a pattern or the one that is named.
pub fn names(
    tables: &[Arc<Table>],
    is_full: bool,
    database: &str,
    like: Option<&[u8]>,
    is: Option<&[u8]>,
) -> answers::Table {
    let heading = match like {
        Some(pattern) => format!("Tables_in_{} ({})", database, String::from_utf8_lossy(pattern)),
        None => format!("Tables_in_{}", database),
    };
    let mut columns = vec![said(&heading)];
    if is_full {
        columns.push(said("Table_type"));
    }
    let is_shown = |name: &str| {
        let lower = |it: &[u8]| it.to_ascii_lowercase();
        like.map_or(true, |it| crate::chatter::is_like(&lower(name.as_bytes()), &lower(it)))
            && is.map_or(true, |it| lower(it) == lower(name.as_bytes()))
    };
    let row = |name: &str| {
        let kind = Some(packets::Value::from("BASE TABLE")).filter(|_| is_full);
        std::iter::once(packets::Value::from(name)).chain(kind).collect()
    };
    let rows = tables.iter().filter(|it| is_shown(&it.name)).map(|it| row(&it.name)).collect();
    answers::Table { columns, rows }
}

/// A text in quotes, as a statement may have it.
fn quoted(text: &[u8]) -> String {
    format!("'{}'", String::from_utf8_lossy(text).replace('\'', "''"))
}

pub fn creation(table: &Table) -> answers::Table {
    let line = |it: &Column| {
        let default = match &it.default {
            Some(Value::Number(number)) => format!(" DEFAULT {}", number.text()),
            Some(Value::Text(text)) => format!(" DEFAULT {}", quoted(text)),
            Some(Value::Null) => " DEFAULT NULL".to_string(),
            None => String::new(),
        };
        let exact = if let Type::Text { is_exact: true, .. } = it.kind { " COLLATE utf8mb4_bin" } else { "" };
        let null = if it.is_nullable { "" } else { " NOT NULL" };
        let numbered = if it.is_numbered { " AUTO_INCREMENT" } else { "" };
        format!("  `{}` {}{}{}{}{}", it.name.replace('`', "``"), it.kind.name(), exact, null, default, numbered)
    };
    let key = || format!("  PRIMARY KEY (`{}`)", table.columns[table.key].name.replace('`', "``"));
    let lines: Vec<String> =
        table.named().iter().map(line).chain(Some(key).filter(|_| table.has_key()).map(|it| it())).collect();
    let next = match table.next_number() {
        next if next > 1 && table.has_key() && table.is_numbered() => format!(" AUTO_INCREMENT={}", next),
        _ => String::new(),
    };
    let text = format!(
        "CREATE TABLE `{}` (\n{}\n) ENGINE=InnoDB{} DEFAULT CHARSET=utf8mb4 COLLATE=utf8mb4_general_ci",
        table.name.replace('`', "``"),
        lines.join(",\n"),
        next
    );
    let row = vec![packets::Value::from(table.name.as_str()), packets::Value::from(text.as_str())];
    answers::Table { columns: vec![said("Table"), said("Create Table")], rows: vec![row] }
}
