//! What tables there are, and how a row of one is a row of the store.
use super::value::{Column, Number, Type, Value};
use super::{numbers, refused, untaken};
use crate::answers::Refusal;
use crate::store::lock;
use std::collections::hash_map::DefaultHasher;
use std::collections::{BTreeMap, BTreeSet};
use std::hash::{Hash, Hasher};
use std::sync::atomic::{AtomicBool, Ordering};
use std::sync::{Arc, Mutex, MutexGuard};

/// How many rows of the store stand for a table's set of keys. Who adds a key holds the one of that key exclusively,
/// and who reads the whole table shares all of them.
pub const STRIPES: usize = 16;
/// How many bytes a row's key may have, and its value.
const ROOM: usize = 64;
/// How many columns a table may have, how many bytes its name, and how many tables there may be.
pub const COLUMNS: usize = 8;
pub const LONGEST_NAME: usize = 40;
const TABLES: usize = 1_000;
/// How many latches there are, each for the keys of the same hash.
const LATCHES: usize = 64;

/// The values of a row's columns, in their order.
pub type Row = Vec<Value>;

pub struct Table {
    pub name: String,
    /// The columns that it was made with. If none of them is the primary key, one more is, of which no client hears.
    pub columns: Vec<Column>,
    /// Which column is the primary key.
    pub key: usize,
    /// The next number that a row is given by AUTO_INCREMENT.
    next: Mutex<i128>,
    /// The keys of all rows that there are, and maybe more: one is added before its row is written, in a branch that
    /// holds the stripe.
    keys: Mutex<BTreeSet<Vec<u8>>>,
    is_dropped: AtomicBool,
}

/// The tables of a store.
pub struct Catalog {
    tables: Mutex<BTreeMap<String, Arc<Table>>>,
    latches: Vec<Mutex<()>>,
}

impl Default for Catalog {
    fn default() -> Catalog {
        Catalog { tables: Mutex::default(), latches: (0..LATCHES).map(|_| Mutex::new(())).collect() }
    }
}

fn hash_of(key: &[u8]) -> usize {
    let mut hasher = DefaultHasher::new();
    key.hash(&mut hasher);
    hasher.finish() as usize
}

impl Catalog {
    pub fn find(&self, name: &str) -> Option<Arc<Table>> {
        lock(&self.tables).get(name).cloned()
    }

    pub fn all(&self) -> Vec<Arc<Table>> {
        lock(&self.tables).values().cloned().collect()
    }

    /// Adds a table; false if there is one of its name.
    pub fn add(&self, table: Table) -> Result<bool, Refusal> {
        let mut tables = lock(&self.tables);
        if tables.contains_key(&table.name) {
            return Ok(false);
        }
        if tables.len() >= TABLES {
            return Err(untaken("so many tables", "1,000 tables of a store"));
        }
        tables.insert(table.name.clone(), Arc::new(table));
        Ok(true)
    }

    pub fn remove(&self, table: &Table) {
        lock(&self.tables).remove(&table.name);
    }

    /// Held while a row is read and then written, so that of two statements that change it one comes after the other:
    /// otherwise each would share the row, and neither could write it.
    pub fn latch(&self, key: &[u8]) -> MutexGuard<'_, ()> {
        lock(&self.latches[hash_of(key) % LATCHES])
    }
}

impl Table {
    pub fn new(name: String, columns: Vec<Column>, key: usize) -> Table {
        let (keys, is_dropped) = (Mutex::default(), AtomicBool::new(false));
        Table { name, columns, key, next: Mutex::new(1), keys, is_dropped }
    }

    pub fn column(&self, name: &str) -> Option<usize> {
        self.named().iter().position(|it| it.name.eq_ignore_ascii_case(name))
    }

    /// The columns that clients know of.
    pub fn named(&self) -> &[Column] {
        &self.columns[..self.columns.len() - usize::from(!self.has_key())]
    }

    /// Whether one of these is the primary key.
    pub fn has_key(&self) -> bool {
        !self.columns[self.key].name.is_empty()
    }

    // numbers

    pub fn is_numbered(&self) -> bool {
        self.columns[self.key].is_numbered
    }

    pub fn most_number(&self) -> i128 {
        numbers::most(self.key_type())
    }

    /// Takes so many numbers, which nobody else is given; the first one. Of those that are too great none is taken.
    pub fn take_numbers(&self, count: i128) -> i128 {
        let mut next = lock(&self.next);
        let first = *next;
        if first <= self.most_number() {
            *next = first + count;
        }
        first
    }

    /// A row has a number: greater ones come next.
    pub fn has_number(&self, number: i128) {
        let mut next = lock(&self.next);
        *next = (*next).max(number + 1);
    }

    pub fn next_number(&self) -> i128 {
        *lock(&self.next)
    }

    pub fn set_next_number(&self, number: i128) {
        *lock(&self.next) = number;
    }

    pub fn key_type(&self) -> Type {
        self.columns[self.key].kind
    }

    /// The store's key of the row with a primary key, as `Type::key_of` has it.
    pub fn row_key(&self, key: &[u8]) -> Vec<u8> {
        [self.name.as_bytes(), b"/", key].concat()
    }

    /// Whether such a key has room.
    fn fits(&self, key: &[u8]) -> bool {
        self.name.len() + 1 + key.len() <= ROOM
    }

    /// The store's keys that stand for the set of keys. No row has one of them, since no name of a table is empty.
    pub fn stripes(&self) -> Vec<Vec<u8>> {
        (0..STRIPES).map(|number| self.stripe(number)).collect()
    }

    pub fn stripe(&self, number: usize) -> Vec<u8> {
        format!("/{}/{:x}", self.name, number).into_bytes()
    }

    pub fn stripe_of(&self, key: &[u8]) -> Vec<u8> {
        self.stripe(hash_of(key) % STRIPES)
    }

    // the set of keys

    pub fn keys(&self) -> Vec<Vec<u8>> {
        lock(&self.keys).iter().cloned().collect()
    }

    /// As `keys`, in the order of the values that they stand for.
    pub fn keys_in_order(&self) -> Vec<Vec<u8>> {
        let mut keys = self.keys();
        let kind = self.key_type();
        keys.sort_by_cached_key(|key| match kind {
            Type::Whole { .. } | Type::Decimal { .. } => {
                (Number::read(key).map_or(0, |(number, _)| number.digits), Vec::new())
            }
            _ => (0, key.to_ascii_uppercase()),
        });
        keys
    }

    pub fn add_key(&self, key: Vec<u8>) {
        lock(&self.keys).insert(key);
    }

    /// Forgets keys that have no row. Who does so shares or holds all stripes, and the row of each.
    pub fn forget_keys(&self, gone: &[Vec<u8>]) {
        let mut keys = lock(&self.keys);
        gone.iter().for_each(|key| {
            keys.remove(key);
        });
    }

    /// Whether the table is gone, of which a statement may still know.
    pub fn is_dropped(&self) -> bool {
        self.is_dropped.load(Ordering::SeqCst)
    }

    pub fn set_dropped(&self, is_so: bool) {
        self.is_dropped.store(is_so, Ordering::SeqCst);
    }

    // rows as values of the store

    /// The other columns' places.
    fn others(&self) -> impl Iterator<Item = usize> + '_ {
        (0..self.columns.len()).filter(move |index| *index != self.key)
    }

    /// A row's key and value in the store. A byte says which columns are NULL, and whether the primary key stands in
    /// the value: it does if the store's key doesn't spell it exactly. A text behind which nothing comes needs no
    /// length.
    pub fn write(&self, row: &[Value], number: usize) -> Result<(Vec<u8>, Vec<u8>), Refusal> {
        let key = self.key_type().key_of(&row[self.key]);
        if !self.fits(&key) {
            return Err(self.columns[self.key].too_long(number));
        }
        let mut value = vec![0];
        if let Value::Text(text) = &row[self.key] {
            if *text != key {
                value[0] |= 0x80;
                value.push(text.len() as u8);
                value.extend(text);
            }
        }
        let last = self.others().last();
        for (place, index) in self.others().enumerate() {
            match &row[index] {
                Value::Null => value[0] |= 1 << place,
                Value::Number(it) => write_number(&mut value, it.digits),
                Value::Text(text) => {
                    if Some(index) != last {
                        value.push(text.len().min(255) as u8);
                    }
                    value.extend(text);
                }
            }
            if value.len() > ROOM {
                return Err(self.columns[index].too_long(number));
            }
        }
        if value.len() > ROOM {
            return Err(self.columns[self.key].too_long(number));
        }
        Ok((key, value))
    }

    /// The row that a key and a value of the store are; a refusal if they are none, since a PUT has written them.
    pub fn read(&self, key: &[u8], value: &[u8]) -> Result<Row, Refusal> {
        self.parts(key, value).ok_or_else(|| {
            let text =
                format!("The value at the key '{}/..' isn't a row of the table: a PUT has written it", self.name);
            refused(1034, "HY000", text)
        })
    }

    fn parts(&self, key: &[u8], value: &[u8]) -> Option<Row> {
        let (flags, mut rest) = value.split_first()?;
        let is_text = !self.key_type().is_number();
        let spelled = if is_text && flags & 0x80 != 0 { text_at(&mut rest)? } else { key.to_vec() };
        let mut row = vec![Value::Null; self.columns.len()];
        row[self.key] = match self.key_type() {
            Type::Whole { .. } | Type::Decimal { .. } => Value::Number(Number::read(&spelled)?.0),
            _ => Value::Text(spelled),
        };
        let last = self.others().last();
        for (place, index) in self.others().enumerate() {
            if flags >> place & 1 != 0 {
                continue;
            }
            row[index] = match self.columns[index].kind {
                Type::Whole { .. } => Value::Number(Number::whole(number_at(&mut rest)?)),
                Type::Decimal { scale, .. } => Value::Number(Number { digits: number_at(&mut rest)?, scale }),
                _ if Some(index) == last => Value::Text(std::mem::take(&mut rest).to_vec()),
                _ => Value::Text(text_at(&mut rest)?),
            };
        }
        Some(row).filter(|_| rest.is_empty())
    }

    /// The primary key that a value is, to be looked for; none where no row can have it.
    pub fn key_for(&self, value: &Value) -> Option<Vec<u8>> {
        let kind = self.key_type();
        let value = match (kind, value) {
            (Type::Decimal { scale, .. }, Value::Number(it)) => exactly(*it, scale)?,
            (Type::Whole { .. }, Value::Number(it)) => exactly(*it, 0)?,
            _ => value.clone(),
        };
        Some(kind.key_of(&value)).filter(|key| self.fits(key))
    }

    /// A refusal's name of the table, with a database.
    pub fn full_name(&self, database: &str) -> String {
        ["`", database, "`.`", &self.name, "`"].concat()
    }
}

fn exactly(number: Number, scale: u32) -> Option<Value> {
    let scaled = number.at_scale(scale)?;
    let back = scaled.at_scale(number.scale.max(scale))?;
    Some(Value::Number(scaled)).filter(|_| number.at_scale(number.scale.max(scale)) == Some(back))
}

/// Writes a number in groups of seven bits, the least first; its sign is the lowest bit.
fn write_number(to: &mut Vec<u8>, number: i128) {
    let mut left = ((number << 1) ^ (number >> 127)) as u128;
    while left >= 0x80 {
        to.push(left as u8 | 0x80);
        left >>= 7;
    }
    to.push(left as u8);
}

fn number_at(rest: &mut &[u8]) -> Option<i128> {
    let (mut found, mut shift) = (0u128, 0);
    loop {
        let (first, more) = rest.split_first()?;
        *rest = more;
        found |= u128::from(first & 0x7f).checked_shl(shift)?;
        if first & 0x80 == 0 {
            return Some((found >> 1) as i128 ^ -((found & 1) as i128));
        }
        shift += 7;
    }
}

fn text_at(rest: &mut &[u8]) -> Option<Vec<u8>> {
    let (length, more) = rest.split_first()?;
    let length = usize::from(*length);
    let text = more.get(..length)?;
    *rest = &more[length..];
    Some(text.to_vec())
}

#[cfg(test)]
mod tests {
    use super::super::value::Form;
    use super::*;

    fn table() -> Table {
        let column = |name: &str, kind| Column {
            name: name.to_string(),
            kind,
            is_nullable: true,
            default: Some(Value::Null),
            has_default: false,
            is_numbered: false,
        };
        let text = Type::Text { form: Form::Varying, length: 64, is_exact: false };
        let columns = vec![
            column("n", Type::Whole { bytes: 8, is_unsigned: false, is_boolean: false }),
            column("k", text),
            column("d", Type::Decimal { precision: 30, scale: 2 }),
            column("v", text),
        ];
        Table::new("t".to_string(), columns, 1)
    }

    fn text(it: &str) -> Value {
        Value::Text(it.as_bytes().to_vec())
    }

    #[test]
    fn rows_are_read_as_they_are_written() {
        let table = table();
        for digits in [0, 1, -1, 63, -64, 64, i128::from(i64::MAX), i128::from(i64::MIN)] {
            for (key, last) in [("a", "v"), ("A", ""), ("a ", "x y")] {
                let decimal = Value::Number(Number { digits: -digits * 100, scale: 2 });
                let row = vec![Value::Number(Number::whole(digits)), text(key), decimal, text(last)];
                let (key, value) = table.write(&row, 1).unwrap();
                assert_eq!(table.read(&key, &value).unwrap(), row);
            }
        }
        let nulls = vec![Value::Null, text("k"), Value::Null, Value::Null];
        let (key, value) = table.write(&nulls, 1).unwrap();
        assert_eq!((&value[..], table.read(&key, &value).unwrap()), (&[0b111][..], nulls));
    }

    #[test]
    fn what_does_not_fit_names_its_column() {
        let table = table();
        let told = |key: &str, value: &str| {
            let row = vec![Value::Null, text(key), Value::Null, text(value)];
            table.write(&row, 3).err().map(|it| it.text)
        };
        assert_eq!(told(&"k".repeat(62), &"v".repeat(63)), None);
        assert_eq!(told(&"k".repeat(63), "").as_deref(), Some("Data too long for column 'k' at row 3"));
        assert_eq!(told("k", &"v".repeat(64)).as_deref(), Some("Data too long for column 'v' at row 3"));
        assert_eq!(told(&"K".repeat(62), "v").as_deref(), Some("Data too long for column 'v' at row 3"));
    }

    /// Whatever a PUT writes at a row's key is a row, or refused.
    #[test]
    fn bytes_that_are_no_row() {
        let table = table();
        let mut state = 3u64;
        for _ in 0..100_000 {
            let bytes: Vec<u8> = (0..state % 30)
                .map(|_| {
                    state = state.wrapping_mul(6_364_136_223_846_793_005).wrapping_add(1_442_695_040_888_963_407);
                    (state >> 33) as u8
                })
                .collect();
            state = state.wrapping_add(1);
            if let Ok(row) = table.read(b"k", &bytes) {
                assert_eq!(row.len(), 4);
            }
        }
        assert!(table.read(b"k", b"").is_err());
    }
}
