//! Carries out a statement, and answers it as MariaDB would.
use super::change::{Change, Rows};
use super::define::{self, table_of};
use super::filter::Scope;
use super::grammar::{Assignment, Expression, Insert, Mode, Named, Sql, Update};
use super::numbers::Numbers;
use super::project::{self, Projection};
use super::show::Show;
use super::table::{Row, Table};
use super::value::{Literal, Place, Type, Value};
use super::{question, reads_alone, refused, show, untaken, Done, Stop};
use crate::answers::{Answer, Refusal, Table as Answered, OK};
use crate::channel::End;
use crate::chatter::Facts;
use crate::guest::Guest;
use crate::packets::Column;

/// A statement, and what its client has said of itself.
pub struct Asked<'a> {
    pub sql: &'a Sql,
    /// The database that it has named.
    pub database: &'a str,
    /// What else is known of it.
    pub facts: &'a Facts,
    /// Whether an UPDATE is to count the rows that it finds, and not those that it changes.
    pub counts_found: bool,
}

pub fn answer(guest: &mut Guest, asked: &Asked) -> Result<Answer, End> {
    let mut rows = Rows::new(guest, asked.database);
    let done = carry_out(&mut rows, asked);
    guest.end_sql();
    match done {
        Ok(answer) => Ok(answer),
        Err(Stop::Refused(it)) => Ok(it.into()),
        Err(Stop::End(end)) => Err(end),
    }
}

/// The columns that a statement gives, for who prepares it.
pub fn columns_of(guest: &mut Guest, asked: &Asked) -> Result<Vec<Column>, Refusal> {
    let (rows, database) = (Rows::new(guest, asked.database), asked.database);
    let find = |named: &Named| table_of(&rows, named);
    match asked.sql {
        Sql::Select(it) if it.inner.is_some() => Ok(project::counted_columns(it)),
        Sql::Question(it) => question::columns(&rows, asked, it),
        Sql::Show(it) => show::columns_of(&rows, asked, it),
        Sql::Select(it) => {
            let table = find(&it.table)?;
            Ok(Projection::new(&Scope::new(&table, &it.table, database), it)?.columns)
        }
        Sql::Insert(it) => find(&it.table).map(|_| Vec::new()),
        Sql::Update(it) => find(&it.table).map(|_| Vec::new()),
        Sql::Delete { table, .. } => find(table).map(|_| Vec::new()),
        Sql::Describe(named) => show::columns_of(&rows, asked, &Show::of_table(named)),
        Sql::ShowCreate(named) => Ok(define::creation(&*find(named)?).columns),
        Sql::Tables { is_full, database: other, .. } => {
            Ok(define::names(&[], *is_full, other.as_deref().unwrap_or(database), None, None).columns)
        }
        _ => Ok(Vec::new()),
    }
}

fn carry_out(rows: &mut Rows, asked: &Asked) -> Done<Answer> {
    match asked.sql {
        Sql::Savepoint(name) => Ok(rows.guest.set_savepoint(name.clone())),
        Sql::Release(name) => Ok(rows.guest.release_savepoint(name)),
        Sql::RollBackTo(name) => Ok(rows.guest.roll_back_to(name)?),
        Sql::Create(_) | Sql::Drop { .. } | Sql::Truncate(_) => define_one(rows, asked.sql),
        Sql::Question(_) | Sql::Tables { .. } => shown(rows, asked).map(Answer::Table),
        Sql::Show(it) if !it.is_of_table() => shown(rows, asked).map(Answer::Table),
        sql => {
            if let Some(refused) = rows.guest.is_idle() {
                return Ok(refused);
            }
            match sql {
                Sql::Insert(it) => insert(rows, asked, it),
                Sql::Update(it) => update(rows, it, asked.counts_found),
                Sql::Delete { table, filter } => {
                    let found = table_of(rows, table)?;
                    let filter = Scope::new(&found, table, rows.database).filter(filter)?;
                    change_each(rows, &found, filter, |_, _| Ok(Change::Delete)).map(|(_, count)| Answer::Ok(count))
                }
                Sql::Select(it) => project::select(rows, it).map(Answer::Table),
                _ => shown(rows, asked).map(Answer::Table),
            }
        }
    }
}

/// Statements that belong to no transaction, and commit one that is open.
fn define_one(rows: &mut Rows, sql: &Sql) -> Done<Answer> {
    if let Some(refused) = rows.guest.begin_definition()? {
        return Ok(refused);
    }
    match sql {
        Sql::Create(it) => Ok(define::create(rows, it)?),
        Sql::Drop { table, if_exists } => define::drop_table(rows, table, *if_exists),
        Sql::Truncate(table) => define::truncate(rows, table),
        _ => Ok(OK),
    }
}

fn shown(rows: &Rows, asked: &Asked) -> Done<Answered> {
    Ok(match asked.sql {
        Sql::Question(it) => question::answer(rows, asked, it)?,
        Sql::Show(it) => show::answer(rows, asked, it)?,
        Sql::Tables { is_full, database, like, is } => {
            let database = database.as_deref().unwrap_or(rows.database);
            define::names(&rows.store.tables.all(), *is_full, database, like.as_deref(), is.as_deref())
        }
        Sql::ShowCreate(named) => define::creation(&*table_of(rows, named)?),
        Sql::Describe(named) => show::answer(rows, asked, &Show::of_table(named))?,
        _ => Answered { columns: Vec::new(), rows: Vec::new() },
    })
}

// statements that change rows

/// Begins a statement that changes rows, and has it done in the client's branch or local transaction, or in a branch of
/// its own. What it has changed is undone if it is refused.
fn write<T>(rows: &mut Rows, inner: impl FnOnce(&mut Rows) -> Done<T>) -> Done<T> {
    begin(rows)?;
    if rows.guest.reads_alone() {
        return Err(reads_alone().into());
    }
    if !rows.guest.is_within() {
        return rows.alone(inner);
    }
    let before = rows.guest.changes();
    let done = inner(rows);
    if let Err(Stop::Refused(_)) = done {
        rows.guest.undo_to(before)?;
    }
    done
}

/// A statement that reads or writes rows begins.
pub fn begin(rows: &mut Rows) -> Done<()> {
    match rows.guest.begin_sql()? {
        Some(Answer::Refused(it)) => Err(it.into()),
        _ => Ok(()),
    }
}

/// Changes each row that a filter leaves; how many these are, and how many of them have changed.
fn change_each(
    rows: &mut Rows,
    table: &Table,
    filter: super::filter::Filter,
    mut decide: impl FnMut(&Row, usize) -> Done<Change>,
) -> Done<(u64, u64)> {
    write(rows, |rows| {
        let keys = match &filter.keys {
            Some(keys) => keys.clone(),
            None => rows.shared_keys(table)?,
        };
        let (mut found, mut changed) = (0, 0);
        for key in keys {
            let mut counts = (0, 0);
            rows.change(table, &key, found as usize + 1, |row| {
                counts = (0, 0);
                let row = match row {
                    Some(row) if filter.holds(table, row) => row,
                    _ => return Ok(Change::Keep),
                };
                let change = decide(row, found as usize + 1)?;
                counts = (1, u64::from(!matches!(change, Change::Lock)));
                Ok(change)
            })?;
            found += counts.0;
            changed += counts.1;
        }
        rows.is_there(table)?;
        Ok((found, changed))
    })
}

// UPDATE

/// An assignment with the columns' places.
enum Set {
    Literal(Literal),
    Given(usize),
    Plus { column: usize, number: Option<super::value::Number>, is_minus: bool },
}

/// The assignments of a statement; columns that aren't there are looked for in a part that the refusal names.
fn assignments(scope: &Scope, set: &[Assignment], part: &str) -> Result<Vec<(usize, Set)>, Refusal> {
    set.iter()
        .map(|(of, expression)| {
            let index = scope.find(of, part)?;
            if index == scope.table.key {
                return Err(untaken("a change of the primary key", "SET of the other columns"));
            }
            let set = match expression {
                Expression::Literal(literal) => Set::Literal(literal.clone()),
                Expression::Given(name) => Set::Given(scope.find_name(name, "SELECT")?),
                Expression::Plus { column, number, is_minus } => {
                    let column = scope.find(column, part)?;
                    if !scope.table.columns[column].kind.is_number() {
                        return Err(untaken("a sum with a text", "a column of numbers + or - a number"));
                    }
                    Set::Plus { column, number: *number, is_minus: *is_minus }
                }
            };
            Ok((index, set))
        })
        .collect()
}

/// A row after the assignments, of which each sees those before it; `given` is the row of an INSERT.
fn assigned(table: &Table, set: &[(usize, Set)], old: &Row, given: &Row, place: &Place) -> Result<Row, Refusal> {
    let mut row = old.clone();
    for (index, set) in set {
        let literal = match set {
            Set::Literal(literal) => literal.clone(),
            Set::Given(column) => Literal::Value(given[*column].clone()),
            Set::Plus { column, number, is_minus } => {
                Literal::Value(sum(table, *column, &row[*column], *number, *is_minus, place)?)
            }
        };
        row[*index] = table.columns[*index].store(&literal, place)?;
    }
    Ok(row)
}

/// A column's value and a number, as BIGINT or DECIMAL.
fn sum(
    table: &Table,
    column: usize,
    value: &Value,
    number: Option<super::value::Number>,
    is_minus: bool,
    place: &Place,
) -> Result<Value, Refusal> {
    let (own, number) = match (value, number) {
        (Value::Number(own), Some(number)) => (*own, number),
        _ => return Ok(Value::Null),
    };
    let column = &table.columns[column];
    let is_unsigned = matches!(column.kind, Type::Whole { is_unsigned: true, .. });
    let range = if is_unsigned { 0..=i128::from(u64::MAX) } else { i128::from(i64::MIN)..=i128::from(i64::MAX) };
    let found = own.plus(if is_minus { number.negative() } else { number });
    let is_whole = matches!(column.kind, Type::Whole { .. }) && number.scale == 0;
    found.filter(|it| !is_whole || range.contains(&it.digits)).map(Value::Number).ok_or_else(|| {
        let (kind, sign) = (if is_unsigned { "BIGINT UNSIGNED" } else { "BIGINT" }, if is_minus { '-' } else { '+' });
        let text =
            format!("{} value is out of range in '{}.`{}` {} {}'", kind, place.table, column.name, sign, number.text());
        refused(1690, "22003", text)
    })
}

fn update(rows: &mut Rows, it: &Update, counts_found: bool) -> Done<Answer> {
    let table = table_of(rows, &it.table)?;
    let scope = Scope::new(&table, &it.table, rows.database);
    let filter = scope.filter(&it.filter)?;
    let set = assignments(&scope, &it.set, "SET")?;
    let name = table.full_name(rows.database);
    let (found, changed) = change_each(rows, &table, filter, |old, number| {
        let row = assigned(&table, &set, old, old, &Place { table: &name, row: number })?;
        Ok(if row == *old { Change::Lock } else { Change::Put(row) })
    })?;
    Ok(Answer::Ok(if counts_found { found } else { changed }))
}

// INSERT

/// The columns that an INSERT names, or all.
fn targets(scope: &Scope, it: &Insert) -> Result<Vec<usize>, Refusal> {
    let names = match &it.columns {
        None => return Ok((0..scope.table.named().len()).collect()),
        Some(names) => names,
    };
    let mut found = Vec::new();
    for name in names {
        let index = scope.find_name(name, "INSERT INTO")?;
        if found.contains(&index) {
            return Err(refused(1110, "42000", format!("Column '{}' specified twice", name)));
        }
        found.push(index);
    }
    Ok(found)
}

/// Whether each row has a value for each column that needs one.
fn check_counts(table: &Table, targets: &[usize], it: &Insert) -> Result<(), Refusal> {
    for (index, row) in it.rows.iter().enumerate() {
        if row.len() != targets.len() {
            let text = format!("Column count doesn't match value count at row {}", index + 1);
            return Err(refused(1136, "21S01", text));
        }
    }
    for (index, column) in table.columns.iter().enumerate() {
        if !targets.contains(&index) && column.default.is_none() && !column.is_numbered {
            return Err(refused(1364, "HY000", format!("Field '{}' doesn't have a default value", column.name)));
        }
    }
    Ok(())
}

fn insert(rows: &mut Rows, asked: &Asked, it: &Insert) -> Done<Answer> {
    let table = table_of(rows, &it.table)?;
    let scope = Scope::new(&table, &it.table, rows.database);
    let targets = targets(&scope, it)?;
    check_counts(&table, &targets, it)?;
    let set = match &it.mode {
        Mode::Update(set) => assignments(&scope, set, "UPDATE")?,
        _ => Vec::new(),
    };
    let name = table.full_name(rows.database);
    let mut numbers = Numbers::new(&table, it.rows.len(), table.is_numbered() && asked.facts.keeps_zero());
    let done = write(rows, |rows| {
        let mut affected = 0;
        for (index, literals) in it.rows.iter().enumerate() {
            let place = Place { table: &name, row: index + 1 };
            let mut row = new_row(&table, &targets, literals, &place)?;
            let is_given = numbers.fill(&mut row, &place)?;
            let count = insert_row(rows, &table, &row, &place, |old| match &it.mode {
                Mode::Plain => Err(duplicate(&table, &row)),
                Mode::Ignore => Ok((Change::Keep, 0)),
                Mode::Replace if *old == row => Ok((Change::Lock, 1)),
                Mode::Replace => Ok((Change::Put(row.clone()), 2)),
                Mode::Update(_) => match assigned(&table, &set, old, &row, &place)? {
                    new if new == *old => Ok((Change::Lock, u64::from(asked.counts_found))),
                    new => Ok((Change::Put(new), 2)),
                },
            })?;
            if count > 0 {
                numbers.has_written(&row, is_given);
            }
            affected += count;
        }
        Ok(affected)
    });
    if let Some(first) = numbers.first.filter(|_| table.has_key()) {
        rows.guest.last_number = first;
    }
    done.map(|affected| Answer::Numbered(affected, numbers.told()))
}

fn new_row(table: &Table, targets: &[usize], literals: &[Literal], place: &Place) -> Result<Row, Refusal> {
    let mut row: Row = table.columns.iter().map(|it| it.default.clone().unwrap_or(Value::Null)).collect();
    for (index, literal) in targets.iter().zip(literals) {
        let column = &table.columns[*index];
        // (a column that is numbered takes no value at all for the next number)
        if !column.is_numbered || !matches!(literal, Literal::Default | Literal::Value(Value::Null)) {
            row[*index] = column.store(literal, place)?;
        }
    }
    Ok(row)
}

/// Writes a row whose key is new; where it isn't, what becomes of the row that there is, and how many rows that counts.
fn insert_row(
    rows: &mut Rows,
    table: &Table,
    row: &Row,
    place: &Place,
    mut decide: impl FnMut(&Row) -> Result<(Change, u64), Refusal>,
) -> Done<u64> {
    // (what doesn't fit is refused whether or not there is such a row)
    let (key, _) = table.write(row, place.row)?;
    let mut count = 0;
    rows.change(table, &key, place.row, |old| match old {
        None => {
            count = 1;
            Ok(Change::Put(row.clone()))
        }
        Some(old) => {
            let (change, counted) = decide(old)?;
            count = counted;
            Ok(change)
        }
    })?;
    Ok(count)
}

fn duplicate(table: &Table, row: &Row) -> Refusal {
    let entry = match &row[table.key] {
        Value::Text(text) => String::from_utf8_lossy(text).into_owned(),
        Value::Number(number) => number.text(),
        Value::Null => String::new(),
    };
    refused(1062, "23000", format!("Duplicate entry '{}' for key 'PRIMARY'", entry))
}
