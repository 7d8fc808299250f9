//! Values of columns: from a literal, for the client, compared, and as bytes of the store.
use super::{refused, untaken};
use crate::answers::Refusal;
use crate::packets::{self, kind};
use std::cmp::Ordering;

/// A number: `digits` of which the last `scale` stand behind the point.
#[derive(Clone, Copy, Debug, PartialEq, Eq)]
pub struct Number {
    pub digits: i128,
    pub scale: u32,
}

#[derive(Clone, Debug, PartialEq, Eq)]
pub enum Value {
    Null,
    Number(Number),
    Text(Vec<u8>),
}

/// What a statement names as a value.
#[derive(Clone, Debug, PartialEq, Eq)]
pub enum Literal {
    Default,
    Value(Value),
}

#[derive(Clone, Copy, Debug, PartialEq, Eq)]
pub enum Type {
    /// A whole number of so many bytes.
    Whole {
        bytes: u32,
        is_unsigned: bool,
        /// TINYINT(1), which clients take for a boolean.
        is_boolean: bool,
    },
    Decimal {
        precision: u32,
        scale: u32,
    },
    /// A text of so many signs: VARCHAR, CHAR or TEXT. `is_exact` if letters that differ in case are two.
    Text {
        form: Form,
        length: u32,
        is_exact: bool,
    },
    /// So many bytes: VARBINARY, BINARY or BLOB.
    Bytes {
        form: Form,
        length: u32,
    },
}

#[derive(Clone, Copy, Debug, PartialEq, Eq)]
pub enum Form {
    Varying,
    Fixed,
    Long,
}

/// How many digits a DECIMAL may have here.
pub const MOST_DIGITS: u32 = 30;
/// How long TEXT and BLOB are said to be.
pub const LONG: u32 = 65_535;

#[derive(Clone, Debug, PartialEq, Eq)]
pub struct Column {
    pub name: String,
    pub kind: Type,
    pub is_nullable: bool,
    /// None where a value has to be given.
    pub default: Option<Value>,
    /// Whether DEFAULT was written.
    pub has_default: bool,
    /// Whether it is AUTO_INCREMENT.
    pub is_numbered: bool,
}

fn power(scale: u32) -> i128 {
    10i128.pow(scale.min(38))
}

impl Number {
    pub fn whole(digits: i128) -> Number {
        Number { digits, scale: 0 }
    }

    /// A number that a text spells: a sign, digits, and maybe a point and digits. Also where it ends.
    pub fn read(text: &[u8]) -> Option<(Number, usize)> {
        let is_negative = text.first() == Some(&b'-');
        let mut at = usize::from(matches!(text.first(), Some(b'-' | b'+')));
        let (mut digits, mut scale, mut count, mut is_behind) = (0i128, 0, 0, false);
        while let Some(byte) = text.get(at) {
            match byte {
                b'0'..=b'9' => {
                    digits = digits.checked_mul(10)?.checked_add(i128::from(byte - b'0'))?;
                    scale += u32::from(is_behind);
                    count += 1;
                }
                b'.' if !is_behind => is_behind = true,
                _ => break,
            }
            at += 1;
        }
        let digits = if is_negative { -digits } else { digits };
        Some((Number { digits, scale }, at)).filter(|_| count > 0)
    }

    /// The same number with so many digits behind the point, rounded away from zero in the middle.
    pub fn at_scale(self, scale: u32) -> Option<Number> {
        let digits = if scale >= self.scale {
            self.digits.checked_mul(power(scale - self.scale))?
        } else {
            let unit = power(self.scale - scale);
            (self.digits + self.digits.signum() * (unit / 2)) / unit
        };
        Some(Number { digits, scale })
    }

    pub fn plus(self, other: Number) -> Option<Number> {
        let scale = self.scale.max(other.scale);
        let digits = self.at_scale(scale)?.digits.checked_add(other.at_scale(scale)?.digits)?;
        Some(Number { digits, scale })
    }

    pub fn negative(self) -> Number {
        Number { digits: -self.digits, ..self }
    }

    pub fn compare(self, other: Number) -> Ordering {
        let scale = self.scale.max(other.scale);
        match (self.at_scale(scale), other.at_scale(scale)) {
            (Some(one), Some(two)) => one.digits.cmp(&two.digits),
            // (one of them is so great that its sign decides, or its whole part)
            (None, _) => self.digits.cmp(&0),
            (_, None) => 0.cmp(&other.digits),
        }
    }

    pub fn text(self) -> String {
        if self.scale == 0 {
            return self.digits.to_string();
        }
        let sign = if self.digits < 0 { "-" } else { "" };
        let (whole, rest) = (self.digits.unsigned_abs(), power(self.scale).unsigned_abs());
        format!("{}{}.{:0width$}", sign, whole / rest, whole % rest, width = self.scale as usize)
    }
}

/// A text as it is compared: without blanks at its end, and small letters for great ones.
fn folded(text: &[u8], is_exact: bool) -> Vec<u8> {
    let length = text.iter().rposition(|byte| *byte != b' ').map_or(0, |last| last + 1);
    if is_exact {
        text[..length].to_vec()
    } else {
        text[..length].to_ascii_lowercase()
    }
}

pub fn compare_texts(one: &[u8], two: &[u8], is_exact: bool) -> Ordering {
    let sign = |text: &[u8], at: usize| {
        let byte = text.get(at).copied().unwrap_or(b' ');
        if is_exact {
            byte
        } else {
            byte.to_ascii_uppercase()
        }
    };
    let found = (0..one.len().max(two.len())).map(|at| sign(one, at).cmp(&sign(two, at))).find(|it| it.is_ne());
    found.unwrap_or(Ordering::Equal)
}

impl Type {
    pub fn is_number(self) -> bool {
        matches!(self, Type::Whole { .. } | Type::Decimal { .. })
    }

    /// As DESCRIBE has it.
    pub fn name(self) -> String {
        let word = self.word();
        match self {
            Type::Whole { is_boolean: true, .. } => "tinyint(1)".to_string(),
            Type::Whole { bytes, is_unsigned, .. } => {
                let width = match bytes {
                    1 => 4,
                    2 => 6,
                    4 => 11,
                    _ => 20,
                };
                let (less, more) = if is_unsigned { (1, " unsigned") } else { (0, "") };
                format!("{}({}){}", word, width - less, more)
            }
            Type::Decimal { precision, scale } => format!("{}({},{})", word, precision, scale),
            Type::Text { form: Form::Long, .. } | Type::Bytes { form: Form::Long, .. } => word.to_string(),
            Type::Text { length, .. } | Type::Bytes { length, .. } => format!("{}({})", word, length),
        }
    }

    /// The type's name alone.
    pub fn word(self) -> &'static str {
        match self {
            Type::Whole { bytes: 1, .. } => "tinyint",
            Type::Whole { bytes: 2, .. } => "smallint",
            Type::Whole { bytes: 4, .. } => "int",
            Type::Whole { .. } => "bigint",
            Type::Decimal { .. } => "decimal",
            Type::Text { form: Form::Varying, .. } => "varchar",
            Type::Text { form: Form::Fixed, .. } => "char",
            Type::Text { form: Form::Long, .. } => "text",
            Type::Bytes { form: Form::Varying, .. } => "varbinary",
            Type::Bytes { form: Form::Fixed, .. } => "binary",
            Type::Bytes { form: Form::Long, .. } => "blob",
        }
    }

    fn wire(self) -> u8 {
        match self {
            Type::Whole { bytes: 1, .. } => kind::TINY,
            Type::Whole { bytes: 2, .. } => kind::SHORT,
            Type::Whole { bytes: 4, .. } => kind::LONG,
            Type::Whole { .. } => kind::LONGLONG,
            Type::Decimal { .. } => kind::NEWDECIMAL,
            Type::Text { form, .. } | Type::Bytes { form, .. } => match form {
                Form::Varying => kind::VAR_STRING,
                Form::Fixed => kind::STRING,
                Form::Long => kind::BLOB,
            },
        }
    }

    fn range(self) -> (i128, i128) {
        match self {
            Type::Whole { bytes, is_unsigned: true, .. } => (0, (1 << (8 * bytes)) - 1),
            Type::Whole { bytes, .. } => (-(1 << (8 * bytes - 1)), (1 << (8 * bytes - 1)) - 1),
            Type::Decimal { precision, .. } => (1 - power(precision), power(precision) - 1),
            _ => (0, 0),
        }
    }

    /// How two values of this type are ordered. NULL comes first.
    pub fn compare(self, one: &Value, two: &Value) -> Ordering {
        let is_exact = !matches!(self, Type::Text { is_exact: false, .. });
        match (one, two) {
            (Value::Number(one), Value::Number(two)) => one.compare(*two),
            (Value::Text(one), Value::Text(two)) if matches!(self, Type::Bytes { .. }) => one.cmp(two),
            (Value::Text(one), Value::Text(two)) => compare_texts(one, two, is_exact),
            (Value::Null, Value::Null) => Ordering::Equal,
            (Value::Null, _) => Ordering::Less,
            _ => Ordering::Greater,
        }
    }

    /// The part of a row's key that stands for a primary key; equal values have one.
    pub fn key_of(self, value: &Value) -> Vec<u8> {
        match (self, value) {
            (Type::Text { is_exact, .. }, Value::Text(text)) => folded(text, is_exact),
            (_, Value::Text(text)) => text.clone(),
            (_, Value::Number(number)) => number.text().into_bytes(),
            (_, Value::Null) => Vec::new(),
        }
    }
}

impl Column {
    /// As a result set describes it, by the name that the client has asked for.
    pub fn wire(&self, name: &str, is_key: bool) -> packets::Column {
        let (length, charset, decimals) = match self.kind {
            Type::Whole { bytes, .. } => (if bytes == 8 { 20 } else { 11 }, packets::BINARY, 0),
            Type::Decimal { precision, scale } => (precision + 2, packets::BINARY, scale as u8),
            Type::Text { length, .. } => (length.saturating_mul(4), packets::UTF8MB4.into(), 0),
            Type::Bytes { length, .. } => (length, packets::BINARY, 0),
        };
        let is_unsigned = matches!(self.kind, Type::Whole { is_unsigned: true, .. });
        let is_long = matches!(self.kind, Type::Text { form: Form::Long, .. } | Type::Bytes { form: Form::Long, .. });
        let flags = [
            (!self.is_nullable, packets::flag::NOT_NULL),
            (is_key, packets::flag::PRIMARY_KEY),
            (self.is_numbered, packets::flag::AUTO_INCREMENT),
            (is_long, packets::flag::BLOB),
            (is_unsigned, packets::flag::UNSIGNED),
            (matches!(self.kind, Type::Bytes { .. }), packets::flag::BINARY),
        ];
        let flags = flags.iter().filter(|(is_so, _)| *is_so).fold(0, |all, (_, one)| all | one);
        packets::Column { name: name.as_bytes().to_vec(), kind: self.kind.wire(), charset, length, flags, decimals }
    }

    /// What a literal becomes in this column, of the table and row that a refusal names.
    pub fn store(&self, literal: &Literal, place: &Place) -> Result<Value, Refusal> {
        let value = match literal {
            Literal::Default => self
                .default
                .clone()
                .ok_or_else(|| refused(1364, "HY000", format!("Field '{}' doesn't have a default value", self.name)))?,
            Literal::Value(value) => value.clone(),
        };
        match value {
            Value::Null if self.is_nullable => Ok(Value::Null),
            Value::Null => Err(refused(1048, "23000", format!("Column '{}' cannot be null", self.name))),
            value if self.kind.is_number() => self.number(&value, place).map(Value::Number),
            Value::Number(number) => self.text(number.text().into_bytes(), place).map(Value::Text),
            Value::Text(text) => self.text(text, place).map(Value::Text),
        }
    }

    fn number(&self, value: &Value, place: &Place) -> Result<Number, Refusal> {
        let number = match value {
            Value::Number(number) => *number,
            Value::Text(text) => self.spelled(text, place)?,
            Value::Null => Number::whole(0),
        };
        let scale = if let Type::Decimal { scale, .. } = self.kind { scale } else { 0 };
        let (least, most) = self.kind.range();
        number.at_scale(scale).filter(|it| (least..=most).contains(&it.digits)).ok_or_else(|| {
            refused(1264, "22003", format!("Out of range value for column '{}' at row {}", self.name, place.row))
        })
    }

    /// A number that a text spells, which may have blanks around it.
    fn spelled(&self, text: &[u8], place: &Place) -> Result<Number, Refusal> {
        let first = text.iter().position(|byte| !byte.is_ascii_whitespace()).unwrap_or(text.len());
        let trimmed = &text[first..];
        match Number::read(trimmed) {
            Some((number, end)) if trimmed[end..].iter().all(u8::is_ascii_whitespace) => Ok(number),
            Some((_, end)) if matches!(trimmed[end], b'e' | b'E') => {
                Err(untaken("a number with an exponent", "digits, with or without a point"))
            }
            Some(_) => {
                Err(refused(1265, "01000", format!("Data truncated for column '{}' at row {}", self.name, place.row)))
            }
            None => Err(self.incorrect(
                if let Type::Decimal { .. } = self.kind { "decimal" } else { "integer" },
                text,
                place,
            )),
        }
    }

    fn incorrect(&self, what: &str, text: &[u8], place: &Place) -> Refusal {
        let shown: String = String::from_utf8_lossy(text).chars().take(64).collect();
        let text = format!(
            "Incorrect {} value: '{}' for column {}.`{}` at row {}",
            what, shown, place.table, self.name, place.row
        );
        refused(1366, "22007", text)
    }

    fn text(&self, mut text: Vec<u8>, place: &Place) -> Result<Vec<u8>, Refusal> {
        match self.kind {
            Type::Text { form, length, .. } => {
                let signs = match std::str::from_utf8(&text) {
                    Ok(text) => text.chars().count(),
                    Err(_) => return Err(self.incorrect("string", &text, place)),
                };
                // Blanks at the end may be cut off.
                let more = signs.saturating_sub(length as usize);
                if form == Form::Fixed {
                    text = folded(&text, true);
                } else if more > 0 && text.iter().rev().take(more).all(|byte| *byte == b' ') {
                    text.truncate(text.len() - more);
                } else if more > 0 {
                    return Err(self.too_long(place.row));
                }
                if String::from_utf8_lossy(&text).chars().count() > length as usize {
                    return Err(self.too_long(place.row));
                }
            }
            Type::Bytes { length, .. } if text.len() > length as usize => return Err(self.too_long(place.row)),
            Type::Bytes { form: Form::Fixed, length } => text.resize(length as usize, 0),
            _ => (),
        }
        Ok(text)
    }

    pub fn too_long(&self, row: usize) -> Refusal {
        refused(1406, "22001", format!("Data too long for column '{}' at row {}", self.name, row))
    }

    /// A literal that is compared with this column; none where it is NULL, which nothing is equal to.
    pub fn comparable(&self, value: &Value) -> Result<Option<Value>, Refusal> {
        match value {
            Value::Null => Ok(None),
            Value::Text(text) if self.kind.is_number() => match Number::read(text) {
                Some((number, end)) if end == text.len() => Ok(Some(Value::Number(number))),
                _ => Err(untaken("a number compared with a text that spells none", "a number, or a text of digits")),
            },
            Value::Number(_) if !self.kind.is_number() => {
                Err(untaken("a text compared with a number", "a text in quotes"))
            }
            value => Ok(Some(value.clone())),
        }
    }
}

/// Where a value stands: the table as a refusal names it, and the row from 1.
pub struct Place<'a> {
    pub table: &'a str,
    pub row: usize,
}

impl Value {
    /// As a client is given it.
    pub fn wire(&self, kind: Type) -> packets::Value {
        match (self, kind) {
            (Value::Null, _) => packets::Value::Null,
            (Value::Number(number), Type::Whole { .. }) => packets::Value::Number(number.digits as i64),
            (Value::Number(number), _) => packets::Value::Text(number.text().into_bytes()),
            (Value::Text(text), _) => packets::Value::Text(text.clone()),
        }
    }
}

#[cfg(test)]
mod tests {
    use super::*;

    fn column(kind: Type) -> Column {
        Column {
            name: "c".to_string(),
            kind,
            is_nullable: false,
            default: None,
            has_default: false,
            is_numbered: false,
        }
    }

    fn stored(kind: Type, value: Value) -> Result<String, u16> {
        let place = Place { table: "`any`.`t`", row: 1 };
        match column(kind).store(&Literal::Value(value), &place) {
            Ok(Value::Number(number)) => Ok(number.text()),
            Ok(Value::Text(text)) => Ok(String::from_utf8_lossy(&text).into_owned()),
            Ok(Value::Null) => Ok("NULL".to_string()),
            Err(refused) => Err(refused.number),
        }
    }

    const INT: Type = Type::Whole { bytes: 4, is_unsigned: false, is_boolean: false };
    const MONEY: Type = Type::Decimal { precision: 6, scale: 2 };

    fn text(it: &str) -> Value {
        Value::Text(it.as_bytes().to_vec())
    }

    #[test]
    fn numbers_that_are_stored() {
        for (kind, given, expected) in [
            (INT, "7", Ok("7")),
            (INT, " -7 ", Ok("-7")),
            (INT, "1.5", Ok("2")),
            (INT, "-1.5", Ok("-2")),
            (INT, "2147483648", Err(1264)),
            (INT, "12abc", Err(1265)),
            (INT, "abc", Err(1366)),
            (INT, "", Err(1366)),
            (MONEY, "1.005", Ok("1.01")),
            (MONEY, "-0.004", Ok("0.00")),
            (MONEY, "9999.99", Ok("9999.99")),
            (MONEY, "9999.995", Err(1264)),
            (MONEY, "-0.5", Ok("-0.50")),
        ] {
            assert_eq!(stored(kind, text(given)), expected.map(str::to_string), "{}", given);
        }
        assert_eq!(stored(INT, Value::Null), Err(1048));
    }

    #[test]
    fn texts_that_are_stored() {
        let varying = Type::Text { form: Form::Varying, length: 3, is_exact: false };
        let fixed = Type::Text { form: Form::Fixed, length: 3, is_exact: false };
        assert_eq!(stored(varying, text("abc  ")), Ok("abc".to_string()));
        assert_eq!(stored(varying, text("ab ")), Ok("ab ".to_string()));
        assert_eq!(stored(varying, text("äöü")), Ok("äöü".to_string()));
        assert_eq!(stored(varying, text("abcd")), Err(1406));
        assert_eq!(stored(varying, Value::Text(vec![0xff])), Err(1366));
        assert_eq!(stored(fixed, text("ab  ")), Ok("ab".to_string()));
        assert_eq!(stored(Type::Bytes { form: Form::Fixed, length: 2 }, text("a")), Ok("a\0".to_string()));
        assert_eq!(stored(varying, Value::Number(Number { digits: 15, scale: 1 })), Ok("1.5".to_string()));
    }

    #[test]
    fn texts_that_are_compared() {
        let kind = Type::Text { form: Form::Varying, length: 9, is_exact: false };
        for (one, two, expected) in [
            ("a", "A", Ordering::Equal),
            ("a", "a  ", Ordering::Equal),
            ("a", "B", Ordering::Less),
            ("_", "a", Ordering::Greater),
            ("a\t", "a", Ordering::Less),
        ] {
            assert_eq!(kind.compare(&text(one), &text(two)), expected, "{} {}", one, two);
            assert_eq!(kind.key_of(&text(one)) == kind.key_of(&text(two)), expected.is_eq());
        }
    }
}
