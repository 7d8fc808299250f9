//! SELECT without a table of the store: of constants and functions, and of the tables of information_schema.
use super::answer::Asked;
use super::change::Rows;
use super::grammar::Named;
use super::reader::{Read, Reader};
use super::schema;
use super::table::Row;
use super::term::{ordered, At, Term};
use super::value::{Number, Value};
use super::{refused, Relation};
use crate::answers::{self, Refusal};
use crate::packets;
use crate::tokens::{Placed, Word};
use std::cmp::Ordering;

/// How many rows may be put together at most where several tables are asked.
const MOST: usize = 200_000;

#[derive(Clone, Debug, PartialEq, Eq)]
enum Item {
    /// All columns, maybe of one table.
    All(Option<String>),
    Term(Term, String),
}

#[derive(Clone, Debug, PartialEq, Eq)]
struct Part {
    items: Vec<Item>,
    tables: Vec<Named>,
    /// All of them have to hold.
    filter: Vec<Term>,
    order: Vec<(Term, bool)>,
    limit: Option<(u64, u64)>,
}

/// Parts, each but the first with whether a row that was there already is left out.
#[derive(Clone, Debug, PartialEq, Eq)]
pub struct Question {
    first: Part,
    others: Vec<(Part, bool)>,
}

// reading

/// Whether a SELECT asks no table of the store: it has no FROM, or names DUAL or information_schema there.
pub fn is_question(found: &[Placed], database: &str) -> bool {
    let run = |at: usize| match found.get(at).map(|it| &it.word) {
        Some(Word::Run(run)) => run.as_ref(),
        _ => "",
    };
    let is_select = run(0) == "select";
    match (0..found.len()).find(|at| run(*at) == "from") {
        None => is_select,
        Some(at) => {
            let name = run(at + 1);
            let is_here = database.eq_ignore_ascii_case(schema::NAME)
                && found.get(at + 2).map(|it| &it.word) != Some(&Word::Sign(b'.'));
            is_select && (["dual", schema::NAME].contains(&name) || is_here && !name.is_empty())
        }
    }
}

impl Reader<'_> {
    pub fn question(&mut self) -> Read<Question> {
        let first = self.part()?;
        let mut others = Vec::new();
        while self.sees(&["union"]) {
            let is_all = self.sees(&["all"]);
            if !is_all {
                self.sees(&["distinct"]);
            }
            self.wants(&["select"])?;
            others.push((self.part()?, !is_all));
        }
        Ok(Question { first, others })
    }

    fn part(&mut self) -> Read<Part> {
        self.sees(&["distinct"]);
        let items = self.list(Reader::asked_item)?;
        let (mut tables, mut filter) = (Vec::new(), Vec::new());
        if self.sees(&["from"]) && !self.sees(&["dual"]) {
            tables.push(self.aliased()?);
            loop {
                if self.sees_sign(b',') {
                    tables.push(self.aliased()?);
                } else if self.sees(&["inner", "join"]) || self.sees(&["join"]) {
                    tables.push(self.aliased()?);
                    self.wants(&["on"])?;
                    filter.push(self.term()?);
                } else {
                    break;
                }
            }
        }
        if self.sees(&["where"]) {
            filter.push(self.term()?);
        }
        let order = if self.sees(&["order", "by"]) { self.list(Reader::ordered_term)? } else { Vec::new() };
        let limit = if self.sees(&["limit"]) { Some(self.limit()?) } else { None };
        Ok(Part { items, tables, filter: filter.into_iter().flat_map(conditions).collect(), order, limit })
    }

    fn asked_item(&mut self) -> Read<Item> {
        if self.sees_sign(b'*') {
            return Ok(Item::All(None));
        }
        let (begin, before) = (self.place(), self.words());
        if let Some(table) = self.all_of_a_table()? {
            return Ok(Item::All(Some(table)));
        }
        let term = self.term()?;
        let name = match &term {
            Term::Column(of) => of.name.clone(),
            Term::Value(Value::Text(text)) => String::from_utf8_lossy(text).into_owned(),
            _ => self.written_from(begin, before),
        };
        let alias = self.item_alias()?;
        Ok(Item::Term(term, alias.unwrap_or(name)))
    }

    fn ordered_term(&mut self) -> Read<(Term, bool)> {
        let term = self.term()?;
        let is_down = self.sees(&["desc"]);
        if !is_down {
            self.sees(&["asc"]);
        }
        Ok((term, is_down))
    }
}

/// What has to hold so that a condition holds.
fn conditions(term: Term) -> Vec<Term> {
    match term {
        Term::Call(name, terms) if name == "and" => terms.into_iter().flat_map(conditions).collect(),
        term => vec![term],
    }
}

// answering

struct Answering<'a> {
    part: &'a Part,
    asked: &'a Asked<'a>,
    tables: Vec<(String, Relation)>,
}

fn none_counts(_: &Term) -> Result<i128, Refusal> {
    Err(refused(1111, "HY000", "Invalid use of group function"))
}

impl<'a> Answering<'a> {
    fn new(rows: &Rows, asked: &'a Asked, part: &'a Part) -> Result<Answering<'a>, Refusal> {
        let table = |named: &Named| {
            let name = named.alias.clone().unwrap_or_else(|| named.table.clone());
            Ok((name, schema::relation(&rows.store, named, asked.database)?))
        };
        Ok(Answering { part, asked, tables: part.tables.iter().map(table).collect::<Result<_, Refusal>>()? })
    }

    fn at<'b>(&'b self, rows: &'b [&'b [Value]], part: &'static str) -> At<'b> {
        // (tables are said to be in a database also where none is named)
        let database = if self.tables.is_empty() { self.asked.facts.database() } else { Some(self.asked.database) };
        At { facts: self.asked.facts, database, tables: &self.tables, rows, part }
    }

    /// The columns of the answer, each with its term; all names are looked for, whether or not there is a row.
    fn columns(&self) -> Result<Vec<(packets::Column, Term)>, Refusal> {
        let at = self.at(&[], "SELECT");
        let mut found = Vec::new();
        for item in &self.part.items {
            match item {
                Item::Term(term, name) => found.push((term.column(&at, name)?, term.clone())),
                Item::All(of) => {
                    let before = found.len();
                    for (name, table) in
                        self.tables.iter().filter(|(name, _)| of.as_ref().map_or(true, |it| it == name))
                    {
                        found.extend(table.terms(name));
                    }
                    if found.len() == before {
                        return Err(refused(1096, "HY000", "No tables used"));
                    }
                }
            }
        }
        self.part.filter.iter().try_for_each(|it| it.column(&self.at(&[], "WHERE"), "").map(drop))?;
        Ok(found)
    }

    /// The rows that the filter leaves, of each table one put side by side.
    fn found(&self) -> Result<Vec<Vec<&[Value]>>, Refusal> {
        let mut found: Vec<Vec<&[Value]>> = vec![Vec::new()];
        for (index, (name, table)) in self.tables.iter().enumerate() {
            let own: Vec<&Term> =
                self.part.filter.iter().filter(|it| self.tables.len() == 1 || it.is_of(name)).collect();
            let mut rows = Vec::new();
            for row in &table.rows {
                let mut beside: Vec<&[Value]> = self.tables[..index].iter().map(|_| &[][..]).collect();
                beside.push(row);
                let at = self.at(&beside, "WHERE");
                if all_hold(own.iter().copied(), &at)? {
                    rows.push(&row[..]);
                }
            }
            if found.len() * rows.len() > MOST {
                let text = "This server puts 200,000 rows together at most: add conditions on each of the tables";
                return Err(refused(1104, "42000", text));
            }
            found =
                found.iter().flat_map(|before| rows.iter().map(move |row| [&before[..], &[*row]].concat())).collect();
        }
        let mut left = Vec::new();
        for rows in found {
            if all_hold(self.part.filter.iter(), &self.at(&rows, "WHERE"))? {
                left.push(rows);
            }
        }
        Ok(left)
    }

    fn answer(&self) -> Result<answers::Table, Refusal> {
        let (columns, terms): (Vec<packets::Column>, Vec<Term>) = self.columns()?.into_iter().unzip();
        let found = self.found()?;
        let mut rows: Vec<(Vec<Value>, Row)> = Vec::new();
        if terms.iter().any(Term::counts) {
            let count = |term: &Term| self.count(term, &found);
            let first = found.first().cloned().unwrap_or_default();
            let at = self.at(&first, "SELECT");
            let row: Result<Row, Refusal> = terms.iter().map(|it| it.value(&at, &count)).collect();
            rows.push((Vec::new(), row?));
        } else {
            for beside in &found {
                let at = self.at(beside, "SELECT");
                let row: Result<Row, Refusal> = terms.iter().map(|it| it.value(&at, &none_counts)).collect();
                let row = row?;
                rows.push((self.order_of(&row, beside)?, row));
            }
            self.order_of(&vec![Value::Null; terms.len()], &[])?;
        }
        rows.sort_by(|one, two| self.compare(&one.0, &two.0));
        let (offset, count) = self.part.limit.unwrap_or((0, u64::MAX));
        let limited = rows.into_iter().skip(offset.min(1 << 32) as usize).take(count.min(1 << 32) as usize);
        let wire = |row: Row| row.iter().zip(&columns).map(|(value, column)| wire(value, column)).collect();
        Ok(answers::Table { rows: limited.map(|(_, row)| wire(row)).collect(), columns: columns.clone() })
    }

    fn count(&self, term: &Term, found: &[Vec<&[Value]>]) -> Result<i128, Refusal> {
        let of = match term {
            Term::Count(Some(of)) => of,
            _ => return Ok(found.len() as i128),
        };
        let mut count = 0;
        for beside in found {
            count += i128::from(of.value(&self.at(beside, "SELECT"), &none_counts)? != Value::Null);
        }
        Ok(count)
    }

    /// What a row is ordered by: columns of the answer by their name or number, or terms.
    fn order_of(&self, row: &[Value], beside: &[&[Value]]) -> Result<Vec<Value>, Refusal> {
        let named = |name: &str| {
            let is_it = |item: &Item| matches!(item, Item::Term(_, alias) if alias.eq_ignore_ascii_case(name));
            self.part.items.iter().position(is_it)
        };
        let unknown = |what: String| refused(1054, "42S22", format!("Unknown column '{}' in 'ORDER BY'", what));
        let key = |term: &Term| match term {
            Term::Value(Value::Number(Number { digits, scale: 0 })) => {
                let at = usize::try_from(*digits - 1).ok();
                at.and_then(|at| row.get(at)).cloned().ok_or_else(|| unknown(digits.to_string()))
            }
            Term::Column(of) if of.table.is_none() && named(&of.name).is_some() => {
                Ok(named(&of.name).and_then(|at| row.get(at)).cloned().unwrap_or(Value::Null))
            }
            term => term.value(&self.at(beside, "ORDER BY"), &none_counts),
        };
        self.part.order.iter().map(|(term, _)| key(term)).collect()
    }

    fn compare(&self, one: &[Value], two: &[Value]) -> Ordering {
        for ((one, two), (_, is_down)) in one.iter().zip(two).zip(&self.part.order) {
            let nulls = (*two == Value::Null).cmp(&(*one == Value::Null));
            let found = ordered(one, two).unwrap_or(nulls);
            if found.is_ne() {
                return if *is_down { found.reverse() } else { found };
            }
        }
        Ordering::Equal
    }
}

fn all_hold<'a>(terms: impl Iterator<Item = &'a Term>, at: &At) -> Result<bool, Refusal> {
    for term in terms {
        if !term.holds(at)? {
            return Ok(false);
        }
    }
    Ok(true)
}

/// As a client is given it, in a column of numbers as a number.
pub fn wire(value: &Value, column: &packets::Column) -> packets::Value {
    match value {
        Value::Null => packets::Value::Null,
        Value::Number(number) if column.is_whole() => packets::Value::Number(number.digits as i64),
        Value::Text(text) if column.is_whole() => {
            packets::Value::Number(Number::read(text).map_or(0, |it| it.0.digits as i64))
        }
        Value::Number(number) => packets::Value::Text(number.text().into_bytes()),
        Value::Text(text) => packets::Value::Text(text.clone()),
    }
}

/// The columns that a question gives.
pub fn columns(rows: &Rows, asked: &Asked, question: &Question) -> Result<Vec<packets::Column>, Refusal> {
    Ok(Answering::new(rows, asked, &question.first)?.columns()?.into_iter().map(|(column, _)| column).collect())
}

pub fn answer(rows: &Rows, asked: &Asked, question: &Question) -> Result<answers::Table, Refusal> {
    let mut table = Answering::new(rows, asked, &question.first)?.answer()?;
    for (part, is_distinct) in &question.others {
        let next = Answering::new(rows, asked, part)?.answer()?;
        if next.columns.len() != table.columns.len() {
            let text = "The used SELECT statements have a different number of columns";
            return Err(refused(1222, "21000", text));
        }
        table.rows.extend(next.rows);
        if *is_distinct {
            let mut seen = Vec::new();
            table.rows.retain(|row| {
                !seen.contains(row) && {
                    seen.push(row.clone());
                    true
                }
            });
        }
    }
    Ok(table)
}
