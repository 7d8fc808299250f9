//! Terms of questions that no row of the store answers: constants, variables, functions, and columns of what the server
//! says of itself.
use super::grammar::{Compare, Of};
use super::reader::{Read, Reader, Untaken};
use super::schema::wire;
use super::value::{self, Number, Type, Value};
use super::{refused, Relation};
use crate::answers::Refusal;
use crate::chatter::{is_like, Facts};
use crate::packets::{self, flag, kind, VERSION};
use crate::variables;
use std::cmp::Ordering;

/// How many terms may stand within one another, and how many WHEN a CASE may have.
const DEEPEST: usize = 24;
const MOST: usize = 64;
const SAID: u32 = 256;

#[derive(Clone, Debug, PartialEq, Eq)]
pub enum Term {
    Value(Value),
    Column(Of),
    /// `@@name`.
    Setting(String),
    /// `@name`.
    User(String),
    Call(String, Vec<Term>),
    /// How many rows there are, or how many for which a term has a value.
    Count(Option<Box<Term>>),
}

// reading

fn call(name: &str, terms: Vec<Term>) -> Term {
    Term::Call(name.to_string(), terms)
}

impl Reader<'_> {
    /// A term. What may stand in it is listed in server/README.md.
    pub fn term(&mut self) -> Read<Term> {
        self.depth += 1;
        if self.depth > DEEPEST {
            return self.fail();
        }
        let mut left = self.all_of()?;
        while self.sees(&["or"]) {
            left = call("or", vec![left, self.all_of()?]);
        }
        self.depth -= 1;
        Ok(left)
    }

    fn all_of(&mut self) -> Read<Term> {
        let mut left = self.negated()?;
        while self.sees(&["and"]) {
            left = call("and", vec![left, self.negated()?]);
        }
        Ok(left)
    }

    fn negated(&mut self) -> Read<Term> {
        let mut count = 0;
        while self.sees(&["not"]) {
            count += 1;
        }
        let term = self.compared()?;
        Ok(match count {
            0 => term,
            count if count % 2 == 1 => call("not", vec![term]),
            _ => call("not", vec![call("not", vec![term])]),
        })
    }

    fn compared(&mut self) -> Read<Term> {
        let mut left = self.sum_of()?;
        loop {
            let is_not = self.sees_not();
            let next = if self.sees(&["is"]) {
                let is_not = self.sees(&["not"]);
                self.wants(&["null"])?;
                negated(is_not, call("is null", vec![left]))
            } else if self.sees(&["like"]) {
                negated(is_not, call("like", vec![left, self.sum_of()?]))
            } else if self.sees(&["in"]) {
                let mut terms = vec![left];
                terms.extend(self.bracketed(|it| it.list(Reader::term))?);
                negated(is_not, call("in", terms))
            } else if self.sees(&["between"]) {
                let least = self.sum_of()?;
                self.wants(&["and"])?;
                negated(is_not, call("between", vec![left, least, self.sum_of()?]))
            } else if [b'=', b'<', b'>', b'!'].iter().any(|sign| self.peeks_sign(*sign)) {
                let compare = self.compare()?;
                call(compare.sign(), vec![left, self.sum_of()?])
            } else {
                return Ok(left);
            };
            left = next;
        }
    }

    /// NOT in front of LIKE, IN or BETWEEN; it is taken.
    fn sees_not(&mut self) -> bool {
        let follows = ["like", "in", "between"].iter().any(|word| self.peeks_both("not", word));
        follows && self.sees(&["not"])
    }

    fn sum_of(&mut self) -> Read<Term> {
        let mut left = self.product_of()?;
        loop {
            let sign = if self.sees_sign(b'+') { "+" } else { "-" };
            if sign == "-" && !self.sees_sign(b'-') {
                return Ok(left);
            }
            left = call(sign, vec![left, self.product_of()?]);
        }
    }

    fn product_of(&mut self) -> Read<Term> {
        let mut left = self.single()?;
        while self.sees_sign(b'*') {
            left = call("*", vec![left, self.single()?]);
        }
        Ok(left)
    }

    fn single(&mut self) -> Read<Term> {
        if self.peeks_sign(b'(') {
            return self.bracketed(|it| {
                it.sees(&["select"]);
                it.term()
            });
        }
        if self.sees_sign(b'@') {
            return self.variable();
        }
        if self.sees(&["case"]) {
            return self.case();
        }
        if self.peeks("if") || self.peeks_name() && !["true", "false", "null"].iter().any(|word| self.peeks(word)) {
            return self.named_term();
        }
        self.texts()
    }

    /// A literal; of several texts side by side one is made.
    fn texts(&mut self) -> Read<Term> {
        let mut value = self.value()?;
        while let (Value::Text(text), true) = (&mut value, self.peeks_text()) {
            text.extend(self.text()?);
        }
        Ok(Term::Value(value))
    }

    /// What stands behind an `@`.
    fn variable(&mut self) -> Read<Term> {
        if !self.sees_sign(b'@') {
            let name = if self.peeks_text() { self.text()? } else { self.name()?.into_bytes() };
            return Ok(Term::User(String::from_utf8_lossy(&name).into_owned()));
        }
        let mut name = self.name()?;
        if ["session", "global", "local"].iter().any(|it| name.eq_ignore_ascii_case(it)) && self.sees_sign(b'.') {
            name = self.name()?;
        }
        Ok(Term::Setting(name))
    }

    /// `CASE [term] WHEN term THEN term .. [ELSE term] END`: as one IF within another.
    fn case(&mut self) -> Read<Term> {
        let of = if self.peeks("when") { None } else { Some(self.term()?) };
        let mut terms = Vec::new();
        while self.sees(&["when"]) {
            let when = self.term()?;
            terms.push(match &of {
                Some(of) => call("=", vec![of.clone(), when]),
                None => when,
            });
            self.wants(&["then"])?;
            terms.push(self.term()?);
            if terms.len() > 2 * MOST {
                return self.fail();
            }
        }
        let otherwise = if self.sees(&["else"]) { self.term()? } else { Term::Value(Value::Null) };
        self.wants(&["end"])?;
        terms.push(otherwise);
        Ok(call("case", terms))
    }

    /// A column, or a function.
    fn named_term(&mut self) -> Read<Term> {
        let place = self.place();
        let first = if self.sees(&["if"]) { "if".to_string() } else { self.name()? };
        if !self.peeks_sign(b'(') {
            let is_user = first.eq_ignore_ascii_case("current_user");
            return if is_user { Ok(call("user", Vec::new())) } else { self.column_of(first) };
        }
        let name = first.to_ascii_lowercase();
        self.bracketed(|it| match name.as_str() {
            "count" => it.counted_term(),
            "cast" | "convert" => it.converted(name == "cast"),
            _ if it.peeks_sign(b')') => Ok(call(&name, Vec::new())),
            _ => Ok(call(&name, it.list(Reader::term)?)),
        })
        .and_then(|term| match &term {
            Term::Call(name, terms) if !is_function(name, terms.len()) => Err(Untaken(place)),
            _ => Ok(term),
        })
    }

    fn column_of(&mut self, first: String) -> Read<Term> {
        if !self.sees_sign(b'.') {
            return Ok(Term::Column(Of { table: None, name: first }));
        }
        Ok(Term::Column(Of { table: Some(first), name: self.name()? }))
    }

    fn counted_term(&mut self) -> Read<Term> {
        if self.sees_sign(b'*') {
            return Ok(Term::Count(None));
        }
        self.term().map(|it| Term::Count(Some(Box::new(it))))
    }

    /// `CAST(term AS type)`, or `CONVERT(term, type)`.
    fn converted(&mut self, is_cast: bool) -> Read<Term> {
        let term = self.term()?;
        if is_cast {
            self.wants(&["as"])?;
        } else {
            self.wants_sign(b',')?;
        }
        if self.sees(&["char"]) || self.sees(&["binary"]) {
            return Ok(call("concat", vec![term]));
        }
        if !self.sees(&["signed"]) {
            self.wants(&["unsigned"])?;
        }
        let _ = self.sees(&["integer"]) || self.sees(&["int"]);
        Ok(call("signed", vec![term]))
    }
}

fn negated(is_not: bool, term: Term) -> Term {
    if is_not {
        call("not", vec![term])
    } else {
        term
    }
}

impl Compare {
    fn sign(self) -> &'static str {
        match self {
            Compare::Equal => "=",
            Compare::Unequal => "<>",
            Compare::Less => "<",
            Compare::LessOrEqual => "<=",
            Compare::Greater => ">",
            Compare::GreaterOrEqual => ">=",
        }
    }
}

/// Functions with how many terms each may have.
fn is_function(name: &str, count: usize) -> bool {
    let (least, most) = match name {
        "database" | "schema" | "version" | "connection_id" | "last_insert_id" | "user" | "current_user"
        | "session_user" | "system_user" => (0, 0),
        "upper" | "ucase" | "lower" | "lcase" | "length" | "char_length" | "signed" => (1, 1),
        "locate" | "ifnull" | "nullif" => (2, 2),
        "if" | "convert_tz" => (3, 3),
        "substring" | "substr" | "mid" => (2, 3),
        "least" | "greatest" => (2, MOST),
        "coalesce" | "concat" => (1, MOST),
        _ => return false,
    };
    (least..=most).contains(&count)
}

// types

#[derive(Clone, Copy, PartialEq, Eq, PartialOrd, Ord)]
enum Shape {
    Null,
    Small,
    Great,
    /// A whole number above what a signed one may be.
    Unsigned,
    Decimal(u32),
    Text,
    /// A text of the user's own, or NULL.
    Own,
    OwnNull,
}

impl Shape {
    fn of(value: &Value) -> Shape {
        match value {
            Value::Null => Shape::Null,
            Value::Text(_) => Shape::Text,
            Value::Number(Number { scale: 0, digits }) if digits.unsigned_abs() < 1_000_000_000 => Shape::Small,
            Value::Number(Number { scale: 0, digits }) if i64::try_from(*digits).is_ok() => Shape::Great,
            Value::Number(Number { scale: 0, digits }) if u64::try_from(*digits).is_ok() => Shape::Unsigned,
            Value::Number(number) => Shape::Decimal(number.scale),
        }
    }

    fn column(self) -> packets::Column {
        let number = |kind, length| packets::Column { kind, length, ..packets::Column::number("") };
        match self {
            Shape::Null => packets::Column { kind: kind::NULL, flags: flag::BINARY, ..packets::Column::text("", 0) },
            Shape::Small => number(kind::LONG, 11),
            Shape::Great => number(kind::LONGLONG, 21),
            Shape::Unsigned => {
                packets::Column { flags: flag::NOT_NULL | flag::BINARY | flag::UNSIGNED, ..number(kind::LONGLONG, 20) }
            }
            Shape::Decimal(scale) => packets::Column { decimals: scale as u8, ..number(kind::NEWDECIMAL, 40) },
            Shape::Text => packets::Column::said("", SAID),
            Shape::Own => packets::Column { kind: kind::LONG_BLOB, ..packets::Column::said("", 65_535) },
            Shape::OwnNull => packets::Column { kind: kind::LONG_BLOB, ..packets::Column::text("", 0) },
        }
    }
}

/// Where a term stands: what is known of the client, tables with a row of each, and the part that a refusal names.
pub struct At<'a> {
    pub facts: &'a Facts,
    pub database: Option<&'a str>,
    pub tables: &'a [(String, Relation)],
    pub rows: &'a [&'a [Value]],
    pub part: &'static str,
}

impl At<'_> {
    fn find(&self, of: &Of) -> Result<(usize, usize), Refusal> {
        for (index, (name, table)) in self.tables.iter().enumerate() {
            let is_here = of.table.as_ref().map_or(true, |it| it.eq_ignore_ascii_case(name));
            if let Some(column) = table.column(&of.name).filter(|_| is_here) {
                return Ok((index, column));
            }
        }
        let table = of.table.as_ref().map_or(String::new(), |it| format!("{}.", it));
        Err(refused(1054, "42S22", format!("Unknown column '{}{}' in '{}'", table, of.name, self.part)))
    }

    fn text_of(&self, name: &str) -> Value {
        let text = |it: &str| Value::Text(it.as_bytes().to_vec());
        match name {
            "version" => text(VERSION),
            "connection_id" => Value::Number(Number::whole(self.facts.connection.into())),
            "last_insert_id" => Value::Number(Number::whole(self.facts.last_number.into())),
            "database" | "schema" => self.database.map_or(Value::Null, text),
            _ => text("nigbaru"),
        }
    }
}

impl Term {
    /// Its type, without a row.
    fn shape(&self, at: &At) -> Result<Shape, Refusal> {
        Ok(match self {
            Term::Value(value) => Shape::of(value),
            Term::Count(of) => {
                of.as_ref().map(|it| it.shape(at)).transpose()?;
                Shape::Great
            }
            Term::Column(of) => {
                let (table, column) = at.find(of)?;
                match at.tables[table].1.columns[column].1 {
                    Type::Whole { bytes: 8, .. } => Shape::Great,
                    Type::Whole { .. } => Shape::Small,
                    Type::Decimal { scale, .. } => Shape::Decimal(scale),
                    _ => Shape::Text,
                }
            }
            Term::Setting(name) => match at.facts.setting(name).ok_or_else(|| variables::unknown(name))? {
                value @ Value::Number(_) => Shape::of(&value).max(Shape::Great),
                _ => Shape::Text,
            },
            Term::User(name) => match at.facts.variables.user(name) {
                value @ Value::Number(_) => Shape::of(&value).max(Shape::Great),
                Value::Text(_) => Shape::Own,
                Value::Null => Shape::OwnNull,
            },
            Term::Call(name, terms) => {
                let shapes: Result<Vec<Shape>, Refusal> = terms.iter().map(|it| it.shape(at)).collect();
                called(name, &shapes?)
            }
        })
    }

    pub fn column(&self, at: &At, name: &str) -> Result<packets::Column, Refusal> {
        if let Term::Column(of) = self {
            let (table, column) = at.find(of)?;
            return Ok(wire(name, at.tables[table].1.columns[column].1));
        }
        Ok(packets::Column { name: name.as_bytes().to_vec(), ..self.shape(at)?.column() })
    }

    /// Whether it counts rows.
    pub fn counts(&self) -> bool {
        match self {
            Term::Count(_) => true,
            Term::Call(_, terms) => terms.iter().any(Term::counts),
            _ => false,
        }
    }

    /// Whether all its columns are said to be of this table, and there is one.
    pub fn is_of(&self, table: &str) -> bool {
        let mut found = Vec::new();
        self.tables(&mut found);
        !found.is_empty() && found.iter().all(|it| it.map_or(false, |it| it.eq_ignore_ascii_case(table)))
    }

    fn tables<'a>(&'a self, found: &mut Vec<Option<&'a str>>) {
        match self {
            Term::Column(of) => found.push(of.table.as_deref()),
            Term::Call(_, terms) => terms.iter().for_each(|it| it.tables(found)),
            Term::Count(Some(of)) => of.tables(found),
            _ => (),
        }
    }

    /// A COUNT is the number that a function has for it.
    pub fn value(&self, at: &At, count: &dyn Fn(&Term) -> Result<i128, Refusal>) -> Result<Value, Refusal> {
        let value_of = |term: &Term| term.value(at, count);
        Ok(match self {
            Term::Value(value) => value.clone(),
            Term::Column(of) => {
                let (table, column) = at.find(of)?;
                at.rows.get(table).map_or(Value::Null, |row| row[column].clone())
            }
            Term::Setting(name) => at.facts.setting(name).ok_or_else(|| variables::unknown(name))?,
            Term::User(name) => at.facts.variables.user(name),
            Term::Count(_) => Value::Number(Number::whole(count(self)?)),
            Term::Call(name, terms) => match (name.as_str(), &terms[..]) {
                ("case", terms) => chosen(terms, &value_of)?,
                ("if", terms) => chosen(terms, &value_of)?,
                (name, []) => at.text_of(name),
                (name, terms) => {
                    let values: Result<Vec<Value>, Refusal> = terms.iter().map(value_of).collect();
                    carried_out(name, &values?)?
                }
            },
        })
    }

    /// Whether it is true of a row.
    pub fn holds(&self, at: &At) -> Result<bool, Refusal> {
        let none = |_: &Term| Err(refused(1111, "HY000", "Invalid use of group function"));
        Ok(truth(&self.value(at, &none)?) == Some(true))
    }
}

/// What stands behind the first condition that holds, or at the end.
fn chosen(terms: &[Term], value_of: &dyn Fn(&Term) -> Result<Value, Refusal>) -> Result<Value, Refusal> {
    for pair in terms.chunks(2) {
        match pair {
            [when, then] if truth(&value_of(when)?) == Some(true) => return value_of(then),
            [otherwise] => return value_of(otherwise),
            _ => (),
        }
    }
    Ok(Value::Null)
}

fn called(name: &str, shapes: &[Shape]) -> Shape {
    let widest = |shapes: &mut dyn Iterator<Item = &Shape>| shapes.copied().max().unwrap_or(Shape::Null);
    match name {
        "case" | "if" => {
            let given = shapes.chunks(2).map(|pair| &pair[pair.len() - 1]);
            widest(&mut given.collect::<Vec<_>>().into_iter())
        }
        "coalesce" | "ifnull" | "nullif" | "least" | "greatest" | "+" | "-" | "*" => match widest(&mut shapes.iter()) {
            Shape::Text if ["+", "-", "*"].contains(&name) => Shape::Great,
            shape => shape,
        },
        "signed" => Shape::Great,
        "connection_id" | "length" | "char_length" | "locate" => Shape::Small,
        "last_insert_id" => Shape::Great,
        "database" | "schema" | "version" | "user" | "current_user" | "session_user" | "system_user" | "upper"
        | "ucase" | "lower" | "lcase" | "substring" | "substr" | "mid" | "concat" | "convert_tz" => Shape::Text,
        _ => Shape::Small,
    }
}

// values

fn truth(value: &Value) -> Option<bool> {
    match value {
        Value::Null => None,
        value => Some(number_of(value).digits != 0),
    }
}

/// A text as a number is what it begins with.
fn number_of(value: &Value) -> Number {
    match value {
        Value::Number(number) => *number,
        Value::Text(text) => Number::read(text).map_or(Number::whole(0), |it| it.0),
        Value::Null => Number::whole(0),
    }
}

fn text_of(value: &Value) -> Vec<u8> {
    match value {
        Value::Number(number) => number.text().into_bytes(),
        Value::Text(text) => text.clone(),
        Value::Null => Vec::new(),
    }
}

/// Two texts are compared as texts, and anything else as numbers. NULL is comparable with nothing.
pub fn ordered(one: &Value, two: &Value) -> Option<Ordering> {
    match (one, two) {
        (Value::Null, _) | (_, Value::Null) => None,
        (Value::Text(one), Value::Text(two)) => Some(value::compare_texts(one, two, false)),
        (one, two) => Some(number_of(one).compare(number_of(two))),
    }
}

fn whole(number: i128) -> Value {
    Value::Number(Number::whole(number))
}

fn bool_of(is_so: Option<bool>) -> Value {
    is_so.map_or(Value::Null, |it| whole(i128::from(it)))
}

fn carried_out(name: &str, values: &[Value]) -> Result<Value, Refusal> {
    let compared = |fits: fn(Ordering) -> bool| bool_of(ordered(&values[0], &values[1]).map(fits));
    let both = (truth(&values[0]), values.get(1).and_then(truth));
    Ok(match name {
        "=" => compared(Ordering::is_eq),
        "<>" => compared(Ordering::is_ne),
        "<" => compared(Ordering::is_lt),
        "<=" => compared(Ordering::is_le),
        ">" => compared(Ordering::is_gt),
        ">=" => compared(Ordering::is_ge),
        "not" => bool_of(both.0.map(|it| !it)),
        "and" => bool_of(match both {
            (Some(false), _) | (_, Some(false)) => Some(false),
            (Some(true), Some(true)) => Some(true),
            _ => None,
        }),
        "or" => bool_of(match both {
            (Some(true), _) | (_, Some(true)) => Some(true),
            (Some(false), Some(false)) => Some(false),
            _ => None,
        }),
        "is null" => whole(i128::from(values[0] == Value::Null)),
        "in" => contained(values),
        "between" => {
            let low = ordered(&values[0], &values[1]).map(Ordering::is_ge);
            let high = ordered(&values[0], &values[2]).map(Ordering::is_le);
            carried_out("and", &[bool_of(low), bool_of(high)])?
        }
        "coalesce" | "ifnull" => values.iter().find(|it| **it != Value::Null).cloned().unwrap_or(Value::Null),
        "nullif" if ordered(&values[0], &values[1]) == Some(Ordering::Equal) => Value::Null,
        "nullif" => values[0].clone(),
        _ if values.contains(&Value::Null) => Value::Null,
        "least" => extreme(values, Ordering::Less),
        "greatest" => extreme(values, Ordering::Greater),
        "+" | "-" | "*" => calculated(name, number_of(&values[0]), number_of(&values[1]))?,
        "signed" => Value::Number(number_of(&values[0]).at_scale(0).unwrap_or(Number::whole(0))),
        _ => of_texts(name, values),
    })
}

fn contained(values: &[Value]) -> Value {
    let found: Vec<Option<bool>> = values[1..].iter().map(|it| ordered(&values[0], it).map(Ordering::is_eq)).collect();
    bool_of(if found.contains(&Some(true)) { Some(true) } else { Some(false).filter(|_| !found.contains(&None)) })
}

fn extreme(values: &[Value], wanted: Ordering) -> Value {
    let mut found = &values[0];
    for value in &values[1..] {
        if ordered(value, found) == Some(wanted) {
            found = value;
        }
    }
    found.clone()
}

fn calculated(sign: &str, one: Number, two: Number) -> Result<Value, Refusal> {
    let found = match sign {
        "+" => one.plus(two),
        "-" => one.plus(two.negative()),
        _ => one.digits.checked_mul(two.digits).map(|digits| Number { digits, scale: one.scale + two.scale }),
    };
    let range = i128::from(i64::MIN)..=i128::from(i64::MAX);
    let is_wide = |it: &Number| it.scale > 0 && it.scale <= 30 || range.contains(&it.digits);
    found.filter(is_wide).map(Value::Number).ok_or_else(|| refused(1690, "22003", "BIGINT value is out of range"))
}

/// Functions of texts; none of the values is NULL.
fn of_texts(name: &str, values: &[Value]) -> Value {
    let texts: Vec<Vec<u8>> = values.iter().map(text_of).collect();
    let signs = || String::from_utf8_lossy(&texts[0]).into_owned();
    let lower = |text: &[u8]| text.to_ascii_lowercase();
    match name {
        "like" => whole(i128::from(is_like(&lower(&texts[0]), &lower(&texts[1])))),
        "concat" => Value::Text(texts.concat()),
        "upper" | "ucase" => Value::Text(signs().to_uppercase().into_bytes()),
        "lower" | "lcase" => Value::Text(signs().to_lowercase().into_bytes()),
        "length" => whole(texts[0].len() as i128),
        "char_length" => whole(signs().chars().count() as i128),
        "locate" => {
            let (part, all) = (signs().to_lowercase(), String::from_utf8_lossy(&texts[1]).to_lowercase());
            whole(all.find(&part).map_or(0, |at| all[..at].chars().count() as i128 + 1))
        }
        "substring" | "substr" | "mid" => {
            let begin = number_of(&values[1]).at_scale(0).map_or(0, |it| it.digits);
            let length = values.get(2).map_or(i128::MAX, |it| number_of(it).digits);
            let signs: Vec<char> = signs().chars().collect();
            let skip = if begin < 0 { signs.len() as i128 + begin } else { begin - 1 };
            let is_inside = (0..signs.len() as i128).contains(&skip) && length > 0;
            let found = signs.iter().skip(skip.max(0) as usize).take(length.clamp(0, 65_536) as usize);
            Value::Text(if is_inside { found.collect::<String>().into_bytes() } else { Vec::new() })
        }
        // (no name of a time zone is known)
        _ => Value::Null,
    }
}
