//! The forms of SQL that are taken. Each function reads one line of the grammar in server/README.md.
use super::question::{is_question, Question};
pub use super::reader::{Given, Untaken};
use super::reader::{Read, Reader};
use super::show::Show;
use super::value::{Column, Form, Literal, Number, Type, Value, LONG, MOST_DIGITS};
use crate::tokens::Text;

/// How many brackets may stand within one another, and how many conditions a WHERE may have.
const DEEPEST: usize = 8;
const CONDITIONS: usize = 8;

/// A table, with the name that a statement gives it.
#[derive(Clone, Debug, PartialEq, Eq)]
pub struct Named {
    pub database: Option<String>,
    pub table: String,
    pub alias: Option<String>,
}

/// A column, maybe of a named table.
#[derive(Clone, Debug, PartialEq, Eq)]
pub struct Of {
    pub table: Option<String>,
    pub name: String,
}

#[derive(Clone, Copy, Debug, PartialEq, Eq)]
pub enum Compare {
    Equal,
    Unequal,
    Less,
    LessOrEqual,
    Greater,
    GreaterOrEqual,
}

#[derive(Clone, Debug, PartialEq, Eq)]
pub enum Test {
    Compared(Compare, Value),
    In(Vec<Value>),
    IsNull(bool),
}

#[derive(Clone, Debug, PartialEq, Eq)]
pub struct Condition {
    pub column: Of,
    pub test: Test,
}

/// What a column is set to.
#[derive(Clone, Debug, PartialEq, Eq)]
pub enum Expression {
    Literal(Literal),
    /// A column and a number; none is NULL.
    Plus {
        column: Of,
        number: Option<Number>,
        is_minus: bool,
    },
    /// `VALUES(column)` of ON DUPLICATE KEY UPDATE.
    Given(String),
}

pub type Assignment = (Of, Expression);

#[derive(Clone, Debug, PartialEq, Eq)]
pub enum Mode {
    Plain,
    Ignore,
    Replace,
    Update(Vec<Assignment>),
}

#[derive(Clone, Debug, PartialEq, Eq)]
pub struct Insert {
    pub table: Named,
    pub columns: Option<Vec<String>>,
    pub rows: Vec<Vec<Literal>>,
    pub mode: Mode,
}

#[derive(Clone, Debug, PartialEq, Eq)]
pub enum Item {
    All(Option<String>),
    Column(Of, String),
    /// Without a column all rows are counted.
    Count(Option<Of>, String),
    Sum(Of, String),
    Number(i64, String),
    Null(String),
}

#[derive(Clone, Copy, Debug, PartialEq, Eq)]
pub enum Lock {
    None,
    Share,
    Update,
}

#[derive(Clone, Debug, PartialEq, Eq)]
pub struct Select {
    pub items: Vec<Item>,
    pub table: Named,
    /// The SELECT whose rows are counted, in the place of a table.
    pub inner: Option<Box<Select>>,
    pub filter: Vec<Condition>,
    /// A column, and whether the order goes down.
    pub order: Vec<(Of, bool)>,
    /// How many rows are left out, and how many are given.
    pub limit: Option<(u64, u64)>,
    pub lock: Lock,
    /// How many seconds it waits for a locked row, if it says so.
    pub wait: Option<u64>,
}

#[derive(Clone, Debug, PartialEq, Eq)]
pub struct Update {
    pub table: Named,
    pub set: Vec<Assignment>,
    pub filter: Vec<Condition>,
}

#[derive(Clone, Debug, PartialEq, Eq)]
pub struct Create {
    pub table: Named,
    pub if_not_exists: bool,
    pub columns: Vec<Column>,
    /// What is said to be the primary key, each time with its columns.
    pub keys: Vec<Vec<String>>,
    /// The first number of AUTO_INCREMENT.
    pub first: u64,
}

#[derive(Clone, Debug, PartialEq, Eq)]
pub enum Sql {
    Create(Create),
    Drop {
        table: Named,
        if_exists: bool,
    },
    Truncate(Named),
    Insert(Insert),
    Select(Select),
    Update(Update),
    Delete {
        table: Named,
        filter: Vec<Condition>,
    },
    Describe(Named),
    Question(Question),
    Show(Show),
    /// SHOW TABLES: whether FULL, of which database, and what pattern names have to be like.
    Tables {
        is_full: bool,
        database: Option<String>,
        like: Option<Vec<u8>>,
        is: Option<Vec<u8>>,
    },
    ShowCreate(Named),
    Savepoint(String),
    RollBackTo(String),
    Release(String),
}

/// What a text is: none if no form begins as it does; a fault where it is none of those that do.
pub fn read(text: &Text, database: &str, given: Option<&[Given]>) -> Option<Read<Sql>> {
    begin(text, database, given).map(|it| it.map(|(sql, _)| sql))
}

/// A prepared text, in which each `?` is a zero, and how many it has.
pub fn count_parameters(text: &Text, database: &str) -> Option<Read<(Sql, usize)>> {
    begin(text, database, Some(&[]))
}

fn begin(read: &Text, database: &str, given: Option<&[Given]>) -> Option<Read<(Sql, usize)>> {
    let mut it = Reader::new(read.text, &read.words, given).with_database(database);
    if !BEGINNINGS.iter().any(|beginning| it.begins(beginning)) {
        return None;
    }
    let asks_no_table = is_question(&read.words, database);
    Some(it.statement(asks_no_table).and_then(|sql| if it.is_over() { Ok((sql, it.parameters)) } else { it.fail() }))
}

const BEGINNINGS: [&[&str]; 17] = [
    &["create", "table"],
    &["drop", "table"],
    &["truncate"],
    &["insert"],
    &["replace"],
    &["select"],
    &["update"],
    &["delete"],
    &["describe"],
    &["desc"],
    &["explain"],
    &["show"],
    &["alter", "table"],
    &["savepoint"],
    &["release", "savepoint"],
    &["rollback", "to"],
    &["rollback", "work", "to"],
];

impl Reader<'_> {
    fn statement(&mut self, asks_no_table: bool) -> Read<Sql> {
        if asks_no_table {
            self.wants(&["select"])?;
            return self.question().map(Sql::Question);
        }
        if self.sees(&["select"]) {
            return self.select().map(Sql::Select);
        }
        if self.sees(&["insert"]) {
            return self.insert().map(Sql::Insert);
        }
        if self.sees(&["replace"]) {
            self.sees(&["into"]);
            return self.rows(Mode::Replace).map(Sql::Insert);
        }
        if self.sees(&["update"]) {
            return self.update().map(Sql::Update);
        }
        if self.sees(&["delete"]) {
            return self.delete();
        }
        if self.sees(&["create", "table"]) {
            return self.create().map(Sql::Create);
        }
        self.smaller()
    }

    fn smaller(&mut self) -> Read<Sql> {
        if self.sees(&["drop", "table"]) {
            let if_exists = self.sees(&["if", "exists"]);
            let table = self.named()?;
            let _ = self.sees(&["cascade"]) || self.sees(&["restrict"]);
            return Ok(Sql::Drop { table, if_exists });
        }
        if self.sees(&["truncate"]) {
            self.sees(&["table"]);
            return self.named().map(Sql::Truncate);
        }
        if self.sees(&["describe"]) || self.sees(&["desc"]) {
            return self.named().map(Sql::Describe);
        }
        if self.sees(&["show", "create", "table"]) {
            return self.named().map(Sql::ShowCreate);
        }
        if self.sees(&["show"]) {
            if self.peeks("tables") || self.peeks_both("full", "tables") {
                return self.shown_tables();
            }
            return self.show().map(Sql::Show);
        }
        if self.sees(&["savepoint"]) {
            return self.name().map(Sql::Savepoint);
        }
        if self.sees(&["release", "savepoint"]) {
            return self.name().map(Sql::Release);
        }
        if self.sees(&["rollback", "to"]) || self.sees(&["rollback", "work", "to"]) {
            if self.peeks("savepoint") {
                self.wants(&["savepoint"])?;
            }
            return self.name().map(Sql::RollBackTo);
        }
        self.fail()
    }

    // names

    /// `[database.]table`.
    pub fn named(&mut self) -> Read<Named> {
        let first = self.name()?;
        let (database, table) = if self.sees_sign(b'.') { (Some(first), self.name()?) } else { (None, first) };
        Ok(Named { database, table, alias: None })
    }

    /// A table, and maybe another name for it.
    pub fn aliased(&mut self) -> Read<Named> {
        let named = self.named()?;
        let said = self.sees(&["as"]);
        let alias = if said || self.peeks_name() { Some(self.name()?) } else { None };
        Ok(Named { alias, ..named })
    }

    /// `[table.]column`.
    fn of(&mut self) -> Read<Of> {
        let first = self.name()?;
        if self.sees_sign(b'.') {
            return Ok(Of { table: Some(first), name: self.name()? });
        }
        Ok(Of { table: None, name: first })
    }

    // conditions

    fn filter(&mut self) -> Read<Vec<Condition>> {
        let mut found = Vec::new();
        if self.sees(&["where"]) {
            self.conditions(0, &mut found)?;
        }
        Ok(found)
    }

    fn conditions(&mut self, depth: usize, found: &mut Vec<Condition>) -> Read<()> {
        loop {
            if self.peeks_sign(b'(') {
                if depth >= DEEPEST {
                    return self.fail();
                }
                self.bracketed(|it| it.conditions(depth + 1, found))?;
            } else {
                if found.len() >= CONDITIONS {
                    return self.fail();
                }
                let column = self.of()?;
                let test = self.test()?;
                found.push(Condition { column, test });
            }
            if !self.sees(&["and"]) {
                return Ok(());
            }
        }
    }

    fn test(&mut self) -> Read<Test> {
        if self.sees(&["is"]) {
            let is_null = !self.sees(&["not"]);
            self.wants(&["null"])?;
            return Ok(Test::IsNull(is_null));
        }
        if self.sees(&["in"]) {
            return self.bracketed(|it| it.list(Reader::value)).map(Test::In);
        }
        let compare = self.compare()?;
        self.value().map(|value| Test::Compared(compare, value))
    }

    pub fn compare(&mut self) -> Read<Compare> {
        if self.sees_sign(b'=') {
            return Ok(Compare::Equal);
        }
        if self.sees_sign(b'!') {
            return self.wants_sign(b'=').map(|()| Compare::Unequal);
        }
        if self.sees_sign(b'<') {
            return Ok(match (self.sees_sign(b'='), self.sees_sign(b'>')) {
                (true, false) => Compare::LessOrEqual,
                (false, true) => Compare::Unequal,
                (true, true) => return self.fail(),
                (false, false) => Compare::Less,
            });
        }
        self.wants_sign(b'>')?;
        Ok(if self.sees_sign(b'=') { Compare::GreaterOrEqual } else { Compare::Greater })
    }

    // SELECT

    fn select(&mut self) -> Read<Select> {
        let items = self.list(Reader::item)?;
        self.wants(&["from"])?;
        if self.peeks_sign(b'(') && !self.is_inner && matches!(items[..], [Item::Count(None, _)]) {
            return self.counted(items);
        }
        let table = self.aliased()?;
        let filter = self.filter()?;
        let order = if self.sees(&["order", "by"]) { self.list(Reader::ordered)? } else { Vec::new() };
        let limit = if self.sees(&["limit"]) { Some(self.limit()?) } else { None };
        let lock = if self.sees(&["for", "update"]) {
            Lock::Update
        } else if self.sees(&["lock", "in", "share", "mode"]) || self.sees(&["for", "share"]) {
            Lock::Share
        } else {
            Lock::None
        };
        let wait = if lock == Lock::None { None } else { self.wait()? };
        Ok(Select { items, table, inner: None, filter, order, limit, lock, wait })
    }

    /// `NOWAIT` or `WAIT seconds`, if it is said.
    fn wait(&mut self) -> Read<Option<u64>> {
        if self.sees(&["nowait"]) {
            return Ok(Some(0));
        }
        if !self.sees(&["wait"]) {
            return Ok(None);
        }
        self.count().map(Some)
    }

    /// `(SELECT ..) [AS] name`, of which the rows are counted.
    fn counted(&mut self, items: Vec<Item>) -> Read<Select> {
        let inner = self.bracketed(|it| {
            it.wants(&["select"])?;
            it.is_inner = true;
            it.select()
        })?;
        self.sees(&["as"]);
        let alias = Some(self.name()?);
        let table = Named { alias, ..inner.table.clone() };
        let inner = Some(Box::new(inner));
        Ok(Select {
            items,
            table,
            inner,
            filter: Vec::new(),
            order: Vec::new(),
            limit: None,
            lock: Lock::None,
            wait: None,
        })
    }

    fn ordered(&mut self) -> Read<(Of, bool)> {
        let column = self.of()?;
        let is_down = self.sees(&["desc"]);
        if !is_down {
            self.sees(&["asc"]);
        }
        Ok((column, is_down))
    }

    pub fn limit(&mut self) -> Read<(u64, u64)> {
        let first = self.count()?;
        if self.sees_sign(b',') {
            return Ok((first, self.count()?));
        }
        Ok(if self.sees(&["offset"]) { (self.count()?, first) } else { (0, first) })
    }

    /// What is asked for. It is called as it was written, unless it has another name.
    fn item(&mut self) -> Read<Item> {
        if self.sees_sign(b'*') {
            return Ok(Item::All(None));
        }
        let (begin, before) = (self.place(), self.words());
        let mut item = self.asked()?;
        match &mut item {
            Item::All(_) => return Ok(item),
            Item::Count(_, name) | Item::Sum(_, name) => *name = self.written_from(begin, before),
            _ => (),
        }
        let alias = self.item_alias()?;
        Ok(match item {
            Item::Column(of, name) => Item::Column(of, alias.unwrap_or(name)),
            Item::Count(of, name) => Item::Count(of, alias.unwrap_or(name)),
            Item::Sum(of, name) => Item::Sum(of, alias.unwrap_or(name)),
            Item::Number(number, _) => Item::Number(number, alias.unwrap_or_else(|| number.to_string())),
            Item::Null(_) => Item::Null(alias.unwrap_or_else(|| "NULL".to_string())),
            all => all,
        })
    }

    pub fn item_alias(&mut self) -> Read<Option<String>> {
        let said = self.sees(&["as"]);
        if said && self.peeks_text() {
            return self.text().map(|it| Some(String::from_utf8_lossy(&it).trim_start().to_string()));
        }
        if said || self.peeks_name() {
            // (blanks in front are no part of it)
            return self.name().map(|it| Some(it.trim_start().to_string()));
        }
        Ok(None)
    }

    fn asked(&mut self) -> Read<Item> {
        let is_bracketed = self.sees_sign(b'(');
        if let Some(number) = self.small_number()? {
            if is_bracketed {
                self.wants_sign(b')')?;
            }
            return Ok(Item::Number(number, String::new()));
        }
        if is_bracketed {
            return self.fail();
        }
        if self.sees(&["null"]) {
            return Ok(Item::Null(String::new()));
        }
        let of = self.name()?;
        if self.peeks_sign(b'(') {
            return self.aggregate(&of);
        }
        if !self.sees_sign(b'.') {
            return Ok(Item::Column(Of { table: None, name: of.clone() }, of));
        }
        if self.sees_sign(b'*') {
            return Ok(Item::All(Some(of)));
        }
        let name = self.name()?;
        Ok(Item::Column(Of { table: Some(of), name: name.clone() }, name))
    }

    /// A number such as that of `SELECT 1 FROM ..`, if one comes.
    fn small_number(&mut self) -> Read<Option<i64>> {
        if self.peeks_name() || self.peeks_sign(b'?') || self.peeks("null") {
            return Ok(None);
        }
        let place = self.place();
        match self.count() {
            Ok(number) if number <= i32::MAX as u64 => Ok(Some(number as i64)),
            _ => Err(Untaken(place)),
        }
    }

    fn aggregate(&mut self, name: &str) -> Read<Item> {
        let is_count = name.eq_ignore_ascii_case("count");
        if !is_count && !name.eq_ignore_ascii_case("sum") {
            return self.fail();
        }
        self.bracketed(|it| {
            if is_count && (it.sees_sign(b'*') || it.small_number()?.is_some()) {
                return Ok(Item::Count(None, String::new()));
            }
            let of = it.of()?;
            Ok(if is_count { Item::Count(Some(of), String::new()) } else { Item::Sum(of, String::new()) })
        })
    }

    // INSERT, UPDATE and DELETE

    fn insert(&mut self) -> Read<Insert> {
        let mode = if self.sees(&["ignore"]) { Mode::Ignore } else { Mode::Plain };
        self.sees(&["into"]);
        let mut insert = self.rows(mode)?;
        let alias = if self.sees(&["as"]) { Some(self.name()?) } else { None };
        if insert.mode == Mode::Plain && self.sees(&["on", "duplicate", "key", "update"]) {
            insert.mode = Mode::Update(self.list(|it| it.assignment(alias.as_deref()))?);
        }
        Ok(insert)
    }

    fn rows(&mut self, mode: Mode) -> Read<Insert> {
        let table = self.named()?;
        let mut columns = None;
        if self.peeks_sign(b'(') {
            columns = Some(self.bracketed(|it| it.list_or_nothing(Reader::name))?);
        }
        if !self.sees(&["values"]) {
            self.wants(&["value"])?;
        }
        let rows = self.list(|it| it.bracketed(|it| it.list_or_nothing(Reader::literal)))?;
        if rows.iter().all(Vec::is_empty) {
            // (all columns have their defaults)
            columns = columns.or(Some(Vec::new()));
        }
        Ok(Insert { table, columns, rows, mode })
    }

    /// A list in brackets, in which nothing may stand.
    fn list_or_nothing<T>(&mut self, inner: impl FnMut(&mut Self) -> Read<T>) -> Read<Vec<T>> {
        if self.peeks_sign(b')') {
            return Ok(Vec::new());
        }
        self.list(inner)
    }

    /// `column = value`; `row` is what an INSERT calls its row.
    fn assignment(&mut self, row: Option<&str>) -> Read<Assignment> {
        let column = self.of()?;
        self.wants_sign(b'=')?;
        Ok((column, self.expression(row)?))
    }

    fn expression(&mut self, row: Option<&str>) -> Read<Expression> {
        if self.peeks("values") {
            self.wants(&["values"])?;
            return self.bracketed(Reader::name).map(Expression::Given);
        }
        self.bracketed_or(|it| it.sum_or_literal(row))
    }

    /// Also in brackets, as Django writes a sum.
    fn bracketed_or<T>(&mut self, inner: impl FnOnce(&mut Self) -> Read<T>) -> Read<T> {
        if self.peeks_sign(b'(') {
            return self.bracketed(inner);
        }
        inner(self)
    }

    fn sum_or_literal(&mut self, row: Option<&str>) -> Read<Expression> {
        let before = self.words();
        if let Ok(literal) = self.literal() {
            return Ok(Expression::Literal(literal));
        }
        debug_assert_eq!(before.len(), self.words().len());
        let column = self.of()?;
        if column.table.is_some() && column.table.as_deref() == row {
            return Ok(Expression::Given(column.name));
        }
        let is_minus = self.sees_sign(b'-');
        if !is_minus {
            self.wants_sign(b'+')?;
        }
        Ok(Expression::Plus { column, number: self.number()?, is_minus })
    }

    fn update(&mut self) -> Read<Update> {
        let table = self.aliased()?;
        self.wants(&["set"])?;
        let set = self.list(|it| it.assignment(None))?;
        Ok(Update { table, set, filter: self.filter()? })
    }

    /// DELETE FROM table, or with the name that it is given: DELETE name FROM table name.
    fn delete(&mut self) -> Read<Sql> {
        let named = if self.peeks("from") { None } else { Some(self.name()?) };
        let place = self.place();
        self.wants(&["from"])?;
        let table = if named.is_some() { self.aliased()? } else { self.named()? };
        if named.is_some() && named.as_ref() != Some(table.alias.as_ref().unwrap_or(&table.table)) {
            return Err(Untaken(place));
        }
        Ok(Sql::Delete { table, filter: self.filter()? })
    }

    // CREATE TABLE

    fn create(&mut self) -> Read<Create> {
        let if_not_exists = self.sees(&["if", "not", "exists"]);
        let table = self.named()?;
        let (mut columns, mut keys) = (Vec::new(), Vec::new());
        self.bracketed(|it| {
            it.list(|it| {
                if it.peeks("primary") || it.peeks("constraint") {
                    return it.primary_key(&mut keys);
                }
                let (column, is_key) = it.column()?;
                if is_key {
                    keys.push(vec![column.name.clone()]);
                }
                columns.push(column);
                Ok(())
            })
        })?;
        let (is_exact, first) = self.table_options()?;
        if is_exact {
            columns.iter_mut().for_each(|it| it.kind = exact(it.kind));
        }
        Ok(Create { table, if_not_exists, columns, keys, first })
    }

    fn primary_key(&mut self, keys: &mut Vec<Vec<String>>) -> Read<()> {
        if self.sees(&["constraint"]) && !self.peeks("primary") {
            self.name()?;
        }
        self.wants(&["primary", "key"])?;
        keys.push(self.bracketed(|it| it.list(Reader::name))?);
        Ok(())
    }

    /// Whether letters are told apart by the table's collation, and the first number of AUTO_INCREMENT.
    fn table_options(&mut self) -> Read<(bool, u64)> {
        let (mut is_exact, mut first) = (false, 1);
        while !self.is_over() {
            self.sees_sign(b',');
            self.sees(&["default"]);
            if self.sees(&["charset"]) || self.sees(&["character", "set"]) || self.sees(&["engine"]) {
                self.sees_sign(b'=');
                self.name()?;
            } else if self.sees(&["collate"]) {
                self.sees_sign(b'=');
                is_exact = self.collation()?;
            } else if self.sees(&["auto_increment"]) {
                self.sees_sign(b'=');
                first = self.count()?.max(1);
            } else {
                self.wants(&["comment"])?;
                self.sees_sign(b'=');
                self.text()?;
            }
        }
        Ok((is_exact, first))
    }

    /// Whether letters are told apart by a collation: by `.._bin`, and not by `.._ci`.
    fn collation(&mut self) -> Read<bool> {
        let place = self.place();
        let name = self.name()?.to_ascii_lowercase();
        if name.ends_with("_bin") || name == "binary" {
            return Ok(true);
        }
        if name.ends_with("_ci") {
            return Ok(false);
        }
        Err(Untaken(place))
    }

    /// A column's definition, and whether it is said to be the primary key.
    fn column(&mut self) -> Read<(Column, bool)> {
        let name = self.name()?;
        let (kind, default) = (self.kind()?, None);
        let mut column = Column { name, kind, is_nullable: true, default, has_default: false, is_numbered: false };
        let mut is_key = false;
        loop {
            if self.sees(&["not", "null"]) {
                column.is_nullable = false;
            } else if self.sees(&["primary", "key"]) || self.sees(&["key"]) {
                is_key = true;
            } else if self.sees(&["auto_increment"]) {
                column.is_numbered = true;
            } else if self.sees(&["default"]) {
                column.default = Some(self.value()?);
                column.has_default = true;
            } else if self.sees(&["collate"]) {
                if self.collation()? {
                    column.kind = exact(column.kind);
                }
            } else if self.sees(&["character", "set"]) || self.sees(&["charset"]) {
                self.name()?;
            } else if self.sees(&["comment"]) {
                self.text()?;
            } else if !self.sees(&["null"]) {
                break;
            }
        }
        if column.is_nullable && !column.has_default {
            column.default = Some(Value::Null);
        }
        Ok((column, is_key))
    }

    fn kind(&mut self) -> Read<Type> {
        let place = self.place();
        let name = self.name()?.to_ascii_lowercase();
        let whole = |bytes| Type::Whole { bytes, is_unsigned: false, is_boolean: false };
        match name.as_str() {
            "int" | "integer" => self.whole(whole(4)),
            "bigint" => self.whole(whole(8)),
            "smallint" => self.whole(whole(2)),
            "tinyint" => self.whole(whole(1)),
            "bool" | "boolean" => Ok(Type::Whole { bytes: 1, is_unsigned: false, is_boolean: true }),
            "decimal" | "numeric" | "dec" => self.decimal(),
            "varchar" => self.length(true).map(|length| of_text(Form::Varying, length)),
            "char" | "character" => self.length(false).map(|length| of_text(Form::Fixed, length)),
            "text" | "tinytext" | "mediumtext" | "longtext" => Ok(of_text(Form::Long, LONG)),
            "varbinary" => self.length(true).map(|length| Type::Bytes { form: Form::Varying, length }),
            "binary" => self.length(false).map(|length| Type::Bytes { form: Form::Fixed, length }),
            "blob" | "tinyblob" | "mediumblob" | "longblob" => Ok(Type::Bytes { form: Form::Long, length: LONG }),
            _ => Err(Untaken(place)),
        }
    }

    fn whole(&mut self, kind: Type) -> Read<Type> {
        let mut width = None;
        if self.peeks_sign(b'(') {
            width = Some(self.bracketed(Reader::count)?);
        }
        let place = self.place();
        match kind {
            Type::Whole { bytes: 8, .. } if self.peeks("unsigned") => Err(Untaken(place)),
            Type::Whole { bytes, .. } => {
                let is_unsigned = self.sees(&["unsigned"]);
                Ok(Type::Whole { bytes, is_unsigned, is_boolean: bytes == 1 && width == Some(1) && !is_unsigned })
            }
            _ => Err(Untaken(place)),
        }
    }

    fn decimal(&mut self) -> Read<Type> {
        let (place, mut precision, mut scale) = (self.place(), 10, 0);
        if self.peeks_sign(b'(') {
            let found = self.bracketed(|it| it.list(Reader::count))?;
            (precision, scale) = match found[..] {
                [precision] => (precision, 0),
                [precision, scale] => (precision, scale),
                _ => return Err(Untaken(place)),
            };
        }
        if precision == 0 || precision > u64::from(MOST_DIGITS) || scale > 30 {
            return Err(Untaken(place));
        }
        Ok(Type::Decimal { precision: precision as u32, scale: scale as u32 })
    }

    /// The length in brackets; without them 1, where it may be left out.
    fn length(&mut self, is_needed: bool) -> Read<u32> {
        if !is_needed && !self.peeks_sign(b'(') {
            return Ok(1);
        }
        let place = self.place();
        match self.bracketed(Reader::count)? {
            length if length <= u64::from(if is_needed { 16_383u32 } else { 255 }) => Ok(length as u32),
            _ => Err(Untaken(place)),
        }
    }

    // SHOW

    fn shown_tables(&mut self) -> Read<Sql> {
        let is_full = self.sees(&["full"]);
        self.wants(&["tables"])?;
        let database = if self.sees(&["from"]) || self.sees(&["in"]) { Some(self.name()?) } else { None };
        let (mut like, mut is) = (None, None);
        if self.sees(&["like"]) {
            like = Some(self.text()?);
        } else if self.sees(&["where"]) {
            // (the one column that is taken is that of the names)
            let place = self.place();
            if !self.name()?.to_ascii_lowercase().starts_with("tables_in_") {
                return Err(Untaken(place));
            }
            self.wants_sign(b'=')?;
            is = Some(self.text()?);
        }
        Ok(Sql::Tables { is_full, database, like, is })
    }
}

fn of_text(form: Form, length: u32) -> Type {
    Type::Text { form, length, is_exact: false }
}

fn exact(kind: Type) -> Type {
    match kind {
        Type::Text { form, length, .. } => Type::Text { form, length, is_exact: true },
        other => other,
    }
}

/// The forms that begin like a text, for who is refused.
pub fn taken(read: &Text) -> &'static str {
    let begins = |word: &str| Reader::new(read.text, &read.words, None).peeks(word);
    FORMS.iter().find(|(word, _)| begins(word)).map_or("the forms of that page", |(_, form)| *form)
}

const FORMS: [(&str, &str); 10] = [
    (
        "select",
        "SELECT * or columns or COUNT(..) or SUM(column) FROM one table [WHERE column = value AND ..] \
         [ORDER BY columns] [LIMIT n] [FOR UPDATE]",
    ),
    (
        "insert",
        "INSERT [IGNORE] INTO table [(columns)] VALUES (values), .. [ON DUPLICATE KEY UPDATE column = value, ..]",
    ),
    ("replace", "REPLACE INTO table [(columns)] VALUES (values), .."),
    ("update", "UPDATE table SET column = value or column + number, .. [WHERE column = value AND ..]"),
    ("delete", "DELETE FROM table [WHERE column = value AND ..]"),
    (
        "create",
        "CREATE TABLE [IF NOT EXISTS] table (up to 8 columns of texts, binaries, whole numbers and DECIMAL, \
         one of them or none the PRIMARY KEY)",
    ),
    ("drop", "DROP TABLE [IF EXISTS] table"),
    ("truncate", "TRUNCATE [TABLE] table"),
    ("show", "SHOW TABLES [FROM database] [LIKE 'pattern'], SHOW COLUMNS FROM table, SHOW CREATE TABLE table"),
    ("describe", "DESCRIBE table"),
];

#[cfg(test)]
mod tests {
    use super::*;

    /// What a text is, what it is if it is prepared, and what would be taken.
    type Heard = (Option<Read<Sql>>, Option<Read<(Sql, usize)>>, &'static str);

    fn heard(text: &str, given: Option<&[Given]>) -> Heard {
        let small = text.to_ascii_lowercase();
        let text = Text::new(text.as_bytes(), &small);
        (read(&text, "db", given), count_parameters(&text, "db"), taken(&text))
    }

    fn said(text: &str) -> Result<Sql, usize> {
        heard(text, None).0.unwrap_or(Err(Untaken(0))).map_err(|it| it.0)
    }

    /// The forms that tools send, literally.
    const SENT: [&str; 42] = [
        "CREATE TABLE sat ( k VARCHAR(64) NOT NULL, v VARCHAR(64), PRIMARY KEY (k) )",
        "create table kv (k varchar(64) not null, v varchar(64), primary key (k)) ENGINE=InnoDB",
        "CREATE TABLE IF NOT EXISTS `pwkv` (`k` VARCHAR(64) NOT NULL PRIMARY KEY, `v` VARCHAR(64))",
        "CREATE TABLE account (id VARCHAR(20) PRIMARY KEY, balance DECIMAL(10,2) NOT NULL DEFAULT 0.00)",
        "drop table if exists kv",
        "DROP TABLE kv",
        "INSERT INTO sat (k, v) VALUES ('a', '1'),('b', '1')",
        "insert into kv (v, k) values ('1', 'a')",
        "INSERT INTO `sqkv` (`k`, `v`) VALUES ('a','3') ON DUPLICATE KEY UPDATE `v`=VALUES(`v`)",
        "INSERT INTO t (k, v) VALUES ('a', '3') AS new ON DUPLICATE KEY UPDATE v = new.v",
        "REPLACE INTO `pwkv` (`k`, `v`) VALUES ('a', '3')",
        "SELECT sat.k AS sat_k, sat.v AS sat_v FROM sat WHERE sat.k = 'a' FOR UPDATE",
        "select kv0_.k as k0_0_, kv0_.v as v0_0_ from kv kv0_ where kv0_.k='a' for update",
        "select kv0_.k as k0_0_, kv0_.v as v0_0_ from kv kv0_ where kv0_.k='a'",
        "SELECT K, V FROM kv WHERE (K = 'a') FOR UPDATE",
        "SELECT t0.v FROM kv t0 WHERE t0.k = 'a'",
        "SELECT `djkv`.`k`, `djkv`.`v` FROM `djkv` WHERE `djkv`.`k` = 'a' LIMIT 21",
        "SELECT * FROM `gormkv` WHERE (k = 'a') ORDER BY `gormkv`.`k` ASC LIMIT 1",
        "SELECT me.k, me.v FROM t me WHERE ( me.k = 'a' )",
        "UPDATE sat SET v='2' WHERE sat.k = 'a'",
        "update kv set v='9' where k='a'",
        "UPDATE account SET balance = balance - 10 WHERE id = 'alice'",
        "UPDATE account SET balance = balance - 10 WHERE id = 'alice' AND balance >= 10",
        "UPDATE `t` SET `n` = (`t`.`n` + 1) WHERE `t`.`k` = 'a'",
        "DELETE FROM kv WHERE (K = 'b')",
        "DELETE FROM kv WHERE k IN ('b')",
        "DELETE FROM kv",
        "DELETE t0 FROM kv t0",
        "SELECT COUNT(*) FROM kv",
        "SELECT COUNT(K) FROM kv",
        "select count(kv0_.k) as c from kv kv0_ limit 2",
        "SELECT SUM(balance) FROM account",
        "SELECT count(*) AS count_1 FROM (SELECT t.a AS t_a FROM t WHERE t.a = 1) AS anon_1",
        "SELECT (1) AS `a` FROM `djkv` WHERE `djkv`.`k` = 'a' LIMIT 1",
        "SELECT COUNT(*) FROM information_schema.tables WHERE table_schema = 'any' AND table_name = 'sat'",
        "SELECT table_name FROM information_schema.tables WHERE table_schema = DATABASE() ORDER BY table_name",
        "SHOW TABLES FROM `any` WHERE `Tables_in_any` = 'x'",
        "SHOW TABLES LIKE 'kv'",
        "SELECT * FROM t LOCK IN SHARE MODE",
        "SAVEPOINT x",
        "RELEASE SAVEPOINT x",
        "ROLLBACK TO SAVEPOINT x",
    ];

    #[test]
    fn what_tools_send() {
        for text in SENT {
            assert!(said(text).is_ok(), "{}: {:?}", text, said(text));
        }
    }

    #[test]
    fn what_is_not_taken_and_from_where() {
        for (text, place) in [
            ("SELECT * FROM a JOIN b", 16),
            ("SELECT * FROM a, b", 15),
            ("SELECT a FROM t WHERE b = c", 26),
            ("SELECT a FROM t WHERE b = 1 OR c = 2", 28),
            ("SELECT MAX(a) FROM t", 10),
            ("SELECT a FROM t GROUP BY a", 16),
            ("UPDATE t SET a = a * 2", 19),
            ("UPDATE t SET a = b", 18),
            ("INSERT INTO t SELECT 1", 14),
            ("CREATE TABLE t (a DATETIME)", 18),
            ("CREATE TABLE t (a BIGINT UNSIGNED)", 25),
            ("CREATE TABLE t (a INT UNIQUE)", 22),
            ("DELETE FROM t WHERE (((((((((a = 1)))))))))", 28),
            ("DROP TABLE a, b", 12),
            ("SELECT 'a FROM t", 7),
            ("DELETE x FROM kv t0", 9),
            ("SAVEPOINT", 9),
            ("SELECT ? FROM t", 7),
        ] {
            assert_eq!(said(text), Err(place), "{}", text);
        }
        let nested = "SELECT COUNT(*) FROM (".to_string();
        assert!(said(&nested.repeat(2_000)).is_err());
        for text in ["", "PUT 'a','b'", "GRANT x", "ROLLBACK"] {
            assert!(heard(text, None).0.is_none(), "{}", text);
        }
    }

    #[test]
    fn values_that_are_bound() {
        let text = "UPDATE t SET a = a - ?, b = ? WHERE k = ? LIMIT 1";
        assert!(heard(text, None).1.unwrap().is_err());
        assert_eq!(heard(&text[..text.len() - 8], None).1.unwrap().unwrap().1, 3);
        let text = "SELECT * FROM t WHERE k = ? LIMIT ?";
        assert_eq!(heard(text, None).1.unwrap().unwrap().1, 2);
        let given = |text: &str, is_number| Given { value: Some(text.as_bytes().to_vec()), is_number };
        let bound = [given("a", false), given("3", true)];
        match heard(text, Some(&bound)).0.unwrap().unwrap() {
            Sql::Select(it) => {
                assert_eq!(it.limit, Some((0, 3)));
                assert_eq!(it.filter[0].test, Test::Compared(Compare::Equal, Value::Text(b"a".to_vec())));
            }
            other => panic!("{:?}", other),
        }
    }

    /// No text made of the grammar's words and signs makes the reader panic or take long.
    #[test]
    fn random_texts() {
        let signs = ["(", ")", ",", "?", "`", "'", "0x", "1.", "-"];
        let pieces: Vec<&str> = SENT.iter().flat_map(|it| it.split(' ')).chain(signs).collect();
        let mut state = 5u64;
        let mut draw = |below: usize| {
            state = state.wrapping_mul(6_364_136_223_846_793_005).wrapping_add(1_442_695_040_888_963_407);
            (state >> 33) as usize % below
        };
        for _ in 0..100_000 {
            let text: Vec<&str> = (0..1 + draw(14)).map(|_| pieces[draw(pieces.len())]).collect();
            heard(&text.join(" "), None);
        }
        let deep = "SELECT a FROM t WHERE ".to_string() + &"(".repeat(60_000);
        assert!(said(&deep).is_err());
    }
}
