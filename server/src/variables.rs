//! What a connection has set: variables of the server, of which few have an effect, and the user's own.
use crate::answers::Refusal;
use crate::packets::VERSION;
use crate::sql::{refused, Number, Value};
use std::collections::BTreeMap;

/// How many variables of its own a connection may have, and how many bytes each.
const MOST: usize = 1_000;
const LONGEST: usize = 4_096;

/// The variable that says how many seconds a statement waits for a row, and the most that it may say.
pub const LOCK_WAIT: &str = "innodb_lock_wait_timeout";
const LONGEST_WAIT: i128 = 100_000_000;

#[derive(Clone, Copy, PartialEq, Eq)]
enum Kind {
    Number,
    Text,
    /// It can't be set.
    Fixed,
    FixedNumber,
}

use Kind::{Fixed, FixedNumber, Text};

/// Variables that may be asked for, with the value that a new connection finds.
const VARIABLES: [(&str, &str, Kind); 51] = [
    ("auto_increment_increment", "1", Kind::Number),
    ("auto_increment_offset", "1", Kind::Number),
    ("character_set_client", "utf8mb4", Text),
    ("character_set_connection", "utf8mb4", Text),
    ("character_set_database", "utf8mb4", Text),
    ("character_set_results", "utf8mb4", Text),
    ("character_set_server", "utf8mb4", Text),
    ("character_set_system", "utf8mb3", Fixed),
    ("collation_connection", "utf8mb4_general_ci", Text),
    ("collation_database", "utf8mb4_general_ci", Text),
    ("collation_server", "utf8mb4_general_ci", Text),
    ("default_storage_engine", "InnoDB", Text),
    ("foreign_key_checks", "1", Kind::Number),
    ("have_ssl", "DISABLED", Fixed),
    ("hostname", "nigbaru", Fixed),
    ("init_connect", "", Fixed),
    (LOCK_WAIT, "50", Kind::Number),
    ("interactive_timeout", "28800", Kind::Number),
    ("license", "", Fixed),
    ("lock_wait_timeout", "0", Kind::Number),
    ("lower_case_table_names", "0", FixedNumber),
    ("max_execution_time", "0", Kind::Number),
    ("max_statement_time", "0", Kind::Number),
    ("net_buffer_length", "16384", Kind::Number),
    ("net_read_timeout", "30", Kind::Number),
    ("net_write_timeout", "60", Kind::Number),
    ("performance_schema", "0", FixedNumber),
    ("profiling", "0", Kind::Number),
    ("protocol_version", "10", FixedNumber),
    ("query_cache_size", "0", Kind::Number),
    ("query_cache_type", "OFF", Text),
    ("session_track_gtids", "OFF", Text),
    ("session_track_schema", "0", Kind::Number),
    ("session_track_state_change", "0", Kind::Number),
    ("session_track_system_variables", "", Text),
    ("sql_auto_is_null", "0", Kind::Number),
    ("sql_mode", "STRICT_TRANS_TABLES", Text),
    ("sql_notes", "1", Kind::Number),
    ("sql_safe_updates", "0", Kind::Number),
    ("sql_select_limit", "18446744073709551615", Kind::Number),
    ("sql_warnings", "0", Kind::Number),
    ("system_time_zone", "UTC", Fixed),
    ("time_zone", "SYSTEM", Text),
    ("transaction_isolation", "SERIALIZABLE", Text),
    ("tx_isolation", "SERIALIZABLE", Text),
    ("unique_checks", "1", Kind::Number),
    ("version", VERSION, Fixed),
    ("version_comment", "Nigbaru", Fixed),
    ("version_compile_machine", "x86_64", Fixed),
    ("version_compile_os", "Linux", Fixed),
    ("wait_timeout", "28800", Kind::Number),
];

#[derive(Clone, Debug, Default, PartialEq, Eq)]
pub struct Variables {
    set: BTreeMap<&'static str, Value>,
    users: BTreeMap<String, Value>,
}

fn entry(name: &str) -> Option<&'static (&'static str, &'static str, Kind)> {
    VARIABLES.iter().find(|(it, _, _)| it.eq_ignore_ascii_case(name))
}

pub fn unknown(name: &str) -> Refusal {
    refused(1193, "HY000", format!("Unknown system variable '{}'", name))
}

/// The names of all variables.
pub fn names() -> impl Iterator<Item = &'static str> {
    VARIABLES.iter().map(|(name, _, _)| *name)
}

/// A mode's parts, each once, in capitals.
fn mode(text: &[u8]) -> Vec<u8> {
    let mut parts: Vec<String> = Vec::new();
    for part in String::from_utf8_lossy(text).to_ascii_uppercase().split(',').map(str::trim) {
        if !part.is_empty() && !parts.iter().any(|it| it == part) {
            parts.push(part.to_string());
        }
    }
    parts.join(",").into_bytes()
}

/// Words that stand for a number where one is set.
fn switched(text: &[u8]) -> Option<Value> {
    let is = |word: &str| text.eq_ignore_ascii_case(word.as_bytes());
    let number = if is("on") || is("true") { 1 } else { i128::from(!(is("off") || is("false"))) * 2 };
    Some(Value::Number(Number::whole(number))).filter(|_| number < 2)
}

impl Variables {
    /// The value of a variable; none where there is no such one.
    pub fn get(&self, name: &str) -> Option<Value> {
        let (name, usual, kind) = entry(name)?;
        let usual = || match kind {
            Kind::Number | FixedNumber => Number::read(usual.as_bytes()).map(|it| Value::Number(it.0)),
            _ => Some(Value::Text(usual.as_bytes().to_vec())),
        };
        self.set.get(name).cloned().or_else(usual)
    }

    /// A variable of the user's own; NULL where it was never set.
    pub fn user(&self, name: &str) -> Value {
        self.users.get(&name.to_lowercase()).cloned().unwrap_or(Value::Null)
    }

    /// Whether a variable may be set to a value; none is DEFAULT. What is kept then.
    fn check(name: &str, value: Option<&Value>) -> Result<(&'static str, Option<Value>), Refusal> {
        let (name, _, kind) = entry(name).ok_or_else(|| unknown(name))?;
        let wrong = || refused(1232, "42000", format!("Incorrect argument type to variable '{}'", name));
        let value = match (kind, value) {
            (Fixed | FixedNumber, _) => {
                return Err(refused(1238, "HY000", format!("Variable '{}' is a read only variable", name)))
            }
            (_, None) => None,
            (Kind::Number, Some(Value::Text(text))) => Some(switched(text).ok_or_else(wrong)?),
            (Kind::Number, Some(Value::Number(number))) if number.scale == 0 && *name == LOCK_WAIT => {
                Some(Value::Number(Number::whole(number.digits.clamp(0, LONGEST_WAIT))))
            }
            (Kind::Number, Some(Value::Number(number))) if number.scale == 0 => Some(Value::Number(*number)),
            (Kind::Number, Some(_)) => return Err(wrong()),
            (_, Some(Value::Text(text))) if *name == "sql_mode" => Some(Value::Text(mode(text))),
            (_, Some(Value::Number(number))) => Some(Value::Text(number.text().into_bytes())),
            (_, Some(value)) => Some(value.clone()),
        };
        Ok((name, value))
    }

    /// Sets a variable; none is DEFAULT. The two names of the level of isolation are one.
    pub fn set(&mut self, name: &str, value: Option<&Value>) -> Result<(), Refusal> {
        let (name, value) = Variables::check(name, value)?;
        let isolation = ["transaction_isolation", "tx_isolation"];
        let names = if isolation.contains(&name) { &isolation[..] } else { std::slice::from_ref(&name) };
        for name in names.iter().copied() {
            match &value {
                Some(value) => self.set.insert(name, value.clone()),
                None => self.set.remove(name),
            };
        }
        Ok(())
    }

    pub fn set_user(&mut self, name: &str, value: Value) -> Result<(), Refusal> {
        let name = name.to_lowercase();
        let is_long = matches!(&value, Value::Text(text) if text.len() > LONGEST);
        if is_long || self.users.len() >= MOST && !self.users.contains_key(&name) {
            let text = "This server keeps 1,000 variables of a connection's own, of up to 4,096 bytes each";
            return Err(refused(1105, "HY000", text));
        }
        self.users.insert(name, value);
        Ok(())
    }

    /// SET NAMES: a character set, and maybe a collation. Bytes are never converted.
    pub fn set_names(&mut self, charset: &str, collation: Option<&str>) -> Result<(), Refusal> {
        let charset = charset.to_ascii_lowercase();
        let charset = match charset.as_str() {
            "utf8" => "utf8mb3",
            "default" => "utf8mb4",
            other => other,
        };
        let usual = match charset {
            "latin1" => "latin1_swedish_ci".to_string(),
            "binary" => charset.to_string(),
            other => format!("{}_general_ci", other),
        };
        let collation = collation.map_or(usual, str::to_ascii_lowercase);
        let text = |it: &str| Value::Text(it.as_bytes().to_vec());
        for name in ["character_set_client", "character_set_connection", "character_set_results"] {
            self.set(name, Some(&text(charset)))?;
        }
        self.set("collation_connection", Some(&text(&collation)))
    }
}

#[cfg(test)]
mod tests {
    use super::*;

    fn text(it: &str) -> Value {
        Value::Text(it.as_bytes().to_vec())
    }

    #[test]
    fn what_is_set_is_kept() {
        let mut it = Variables::default();
        let number = |digits| Value::Number(Number::whole(digits));
        assert_eq!(it.get("WAIT_timeout"), Some(number(28800)));
        it.set("wait_timeout", Some(&number(7))).unwrap();
        it.set("sql_mode", Some(&text("ansi, x,,ANSI"))).unwrap();
        it.set("foreign_key_checks", Some(&text("off"))).unwrap();
        it.set("tx_isolation", Some(&text("READ-COMMITTED"))).unwrap();
        assert_eq!((it.get("wait_timeout"), it.get("sql_mode")), (Some(number(7)), Some(text("ANSI,X"))));
        assert_eq!(it.get("foreign_key_checks"), Some(number(0)));
        assert_eq!(it.get("transaction_isolation"), Some(text("READ-COMMITTED")));
        for (said, kept) in [(7, 7), (-1, 0), (1_000_000_000, 100_000_000)] {
            it.set(LOCK_WAIT, Some(&number(said))).unwrap();
            assert_eq!(it.get(LOCK_WAIT), Some(number(kept)));
        }
        it.set("wait_timeout", None).unwrap();
        assert_eq!((it.get("wait_timeout"), it.get("none")), (Some(number(28800)), None));
        let numbers: Vec<u16> = [("none", "x"), ("version", "x"), ("wait_timeout", "abc")]
            .map(|(name, value)| it.set(name, Some(&text(value))).unwrap_err().number)
            .to_vec();
        assert_eq!(numbers, [1193, 1238, 1232]);
    }

    #[test]
    fn names_and_variables_of_a_user() {
        let mut it = Variables::default();
        it.set_names("Latin1", None).unwrap();
        assert_eq!(it.get("character_set_client"), Some(text("latin1")));
        assert_eq!(it.get("collation_connection"), Some(text("latin1_swedish_ci")));
        assert_eq!(it.user("a"), Value::Null);
        it.set_user("A", text("x")).unwrap();
        assert_eq!(it.user("a"), text("x"));
        assert!(it.set_user("long", Value::Text(vec![b'x'; 5_000])).is_err());
    }
}
