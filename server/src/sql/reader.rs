//! Takes the words of a text from the left.
use super::is_plain_name;
use super::value::{Literal, Number, Value};
use crate::tokens::{Placed, Word};

/// A value that is bound to a `?`, and whether it came as a number.
#[derive(Clone, Debug, PartialEq, Eq)]
pub struct Given {
    pub value: Option<Vec<u8>>,
    pub is_number: bool,
}

/// A text that isn't of the grammar from this byte on.
#[derive(Clone, Copy, Debug, PartialEq, Eq)]
pub struct Untaken(pub usize);

pub type Read<T> = Result<T, Untaken>;

/// How many bytes any name may have: 64 signs of 4 bytes.
const LONGEST_NAME: usize = 256;

const INTRODUCERS: [&str; 5] = ["_binary", "_utf8", "_utf8mb3", "_utf8mb4", "n"];

/// Whether a word is no name unless it stands in backquotes.
fn is_reserved(word: &str) -> bool {
    matches!(
        word,
        "and"
            | "as"
            | "asc"
            | "between"
            | "by"
            | "case"
            | "check"
            | "constraint"
            | "create"
            | "default"
            | "delete"
            | "desc"
            | "drop"
            | "else"
            | "exists"
            | "for"
            | "foreign"
            | "from"
            | "group"
            | "having"
            | "if"
            | "ignore"
            | "in"
            | "inner"
            | "insert"
            | "into"
            | "is"
            | "join"
            | "left"
            | "like"
            | "limit"
            | "lock"
            | "not"
            | "null"
            | "on"
            | "or"
            | "order"
            | "primary"
            | "select"
            | "set"
            | "then"
            | "union"
            | "when"
            | "where"
    )
}

pub struct Reader<'a> {
    text: &'a [u8],
    /// What DATABASE() stands for.
    database: &'a str,
    words: &'a [Placed<'a>],
    /// What is bound to the `?`. Empty where they are counted: then each is a zero.
    given: Option<&'a [Given]>,
    pub parameters: usize,
    /// Whether it is within a SELECT that stands in another one.
    pub is_inner: bool,
    /// Within how many terms it is.
    pub depth: usize,
}

impl<'a> Reader<'a> {
    pub fn new(text: &'a [u8], words: &'a [Placed<'a>], given: Option<&'a [Given]>) -> Reader<'a> {
        Reader { text, database: "", words, given, parameters: 0, is_inner: false, depth: 0 }
    }

    pub fn with_database(self, database: &'a str) -> Reader<'a> {
        Reader { database, ..self }
    }

    pub fn fail<T>(&self) -> Read<T> {
        Err(Untaken(self.place()))
    }

    /// Where the next word begins, or the text's end.
    pub fn place(&self) -> usize {
        self.words.first().map_or(self.text.len(), |it| it.begin)
    }

    pub fn is_over(&self) -> bool {
        self.words.is_empty()
    }

    fn step(&mut self) {
        self.words = &self.words[1..];
    }

    fn is_quoted_name(&self, it: &Placed) -> bool {
        self.text[it.begin] == b'`'
    }

    /// Whether the word at a place from here is this one, in any case.
    fn is_word(&self, at: usize, word: &str) -> bool {
        self.words
            .get(at)
            .map_or(false, |it| matches!(&it.word, Word::Run(run) if run == word && !self.is_quoted_name(it)))
    }

    pub fn peeks(&self, word: &str) -> bool {
        self.is_word(0, word)
    }

    pub fn peeks_both(&self, word: &str, next: &str) -> bool {
        self.is_word(0, word) && self.is_word(1, next)
    }

    /// Whether a text in quotes comes next.
    pub fn peeks_text(&self) -> bool {
        matches!(self.words.first(), Some(Placed { word: Word::Quoted(_), .. }))
    }

    /// The name of a table of which all columns are asked for, if that comes next.
    pub fn all_of_a_table(&mut self) -> Read<Option<String>> {
        if self.peeks_name() && self.is_sign(1, b'.') && self.is_sign(2, b'*') {
            let name = self.name()?;
            self.words = &self.words[2..];
            return Ok(Some(name));
        }
        Ok(None)
    }

    /// Whether these words come next.
    pub fn begins(&self, words: &[&str]) -> bool {
        words.iter().enumerate().all(|(at, word)| self.is_word(at, word))
    }

    /// The same; they are taken then.
    pub fn sees(&mut self, words: &[&str]) -> bool {
        let sees = self.begins(words);
        if sees {
            self.words = &self.words[words.len()..];
        }
        sees
    }

    pub fn wants(&mut self, words: &[&str]) -> Read<()> {
        if self.sees(words) {
            Ok(())
        } else {
            self.fail()
        }
    }

    fn is_sign(&self, at: usize, sign: u8) -> bool {
        matches!(self.words.get(at), Some(Placed { word: Word::Sign(it), .. }) if *it == sign)
    }

    pub fn peeks_sign(&self, sign: u8) -> bool {
        self.is_sign(0, sign)
    }

    pub fn sees_sign(&mut self, sign: u8) -> bool {
        let sees = self.is_sign(0, sign);
        if sees {
            self.step();
        }
        sees
    }

    pub fn wants_sign(&mut self, sign: u8) -> Read<()> {
        if self.sees_sign(sign) {
            Ok(())
        } else {
            self.fail()
        }
    }

    /// What stands between brackets.
    pub fn bracketed<T>(&mut self, inner: impl FnOnce(&mut Self) -> Read<T>) -> Read<T> {
        self.wants_sign(b'(')?;
        let found = inner(self)?;
        self.wants_sign(b')')?;
        Ok(found)
    }

    /// One or more, with commas between.
    pub fn list<T>(&mut self, mut one: impl FnMut(&mut Self) -> Read<T>) -> Read<Vec<T>> {
        let mut found = vec![one(self)?];
        while self.sees_sign(b',') {
            found.push(one(self)?);
        }
        Ok(found)
    }

    // names

    /// Whether a name comes next.
    pub fn peeks_name(&self) -> bool {
        self.words.first().map_or(false, |it| match &it.word {
            Word::Run(run) => self.is_quoted_name(it) || !run.as_bytes()[0].is_ascii_digit() && !is_reserved(run),
            _ => false,
        })
    }

    /// A name in the letters that it was written in.
    pub fn name(&mut self) -> Read<String> {
        if !self.peeks_name() {
            return self.fail();
        }
        let it = &self.words[0];
        let text = &self.text[it.begin..it.end];
        let bytes = if text[0] == b'`' {
            String::from_utf8(text[1..text.len() - 1].to_vec()).map(|it| it.replace("``", "`"))
        } else {
            String::from_utf8(text.to_vec())
        };
        match bytes {
            Ok(name) if name.len() <= LONGEST_NAME && is_plain_name(name.as_bytes()) => {
                self.step();
                Ok(name)
            }
            _ => self.fail(),
        }
    }

    /// The text from a place to the last word that was taken.
    pub fn written_from(&self, begin: usize, before: &[Placed]) -> String {
        let end = before[before.len() - self.words.len() - 1].end;
        String::from_utf8_lossy(&self.text[begin..end]).into_owned()
    }

    pub fn words(&self) -> &'a [Placed<'a>] {
        self.words
    }

    // values

    /// Whether the next two words stand side by side.
    fn is_joined(&self, at: usize) -> bool {
        matches!((self.words.get(at), self.words.get(at + 1)), (Some(one), Some(two)) if one.end == two.begin)
    }

    /// A number without a sign.
    fn digits(&mut self) -> Option<Number> {
        let run = |it: &Reader, at: usize| match it.words.get(at) {
            Some(Placed { word: Word::Run(run), .. }) if run.bytes().all(|byte| byte.is_ascii_digit()) => {
                Some(run.to_string())
            }
            _ => None,
        };
        let mut text = run(self, 0)?;
        let mut length = 1;
        if self.is_sign(1, b'.') && self.is_joined(0) {
            let behind = run(self, 2).filter(|_| self.is_joined(1))?;
            text = format!("{}.{}", text, behind);
            length = 3;
        }
        let (number, _) = Number::read(text.as_bytes())?;
        self.words = &self.words[length..];
        Some(number)
    }

    /// What is bound to the next `?`.
    fn bound(&mut self) -> Option<Value> {
        let given = self.given.filter(|_| self.is_sign(0, b'?'))?;
        let value = match given.get(self.parameters) {
            None => Value::Number(Number::whole(0)),
            Some(Given { value: None, .. }) => Value::Null,
            Some(Given { value: Some(text), is_number: true }) => Value::Number(Number::read(text)?.0),
            Some(Given { value: Some(text), .. }) => Value::Text(text.clone()),
        };
        self.parameters += 1;
        self.step();
        Some(value)
    }

    /// Whether the `?` are counted and not bound, so that any value stands for them.
    pub fn is_counting(&self) -> bool {
        matches!(self.given, Some([]))
    }

    /// A text in quotes, also behind a character set's name, or digits of bytes.
    fn quoted(&mut self) -> Option<Vec<u8>> {
        let introducer = match self.words.first() {
            Some(Placed { word: Word::Run(run), .. }) => INTRODUCERS.contains(&run.as_ref()),
            _ => false,
        };
        let at = usize::from(introducer);
        let (data, length) = match &self.words.get(at)?.word {
            Word::Quoted(data) => (data.clone(), 1),
            Word::Run(run) => match (run.strip_prefix("0x"), self.words.get(at + 1).map(|it| &it.word)) {
                (Some(digits), _) => (hexadecimal(digits.as_bytes())?, 1),
                (None, Some(Word::Quoted(digits))) if run == "x" && self.is_joined(at) => {
                    (hexadecimal(digits).filter(|_| digits.len() % 2 == 0)?, 2)
                }
                _ => return None,
            },
            _ => return None,
        };
        self.words = &self.words[at + length..];
        Some(data)
    }

    /// A literal, or what is bound to a `?`.
    pub fn value(&mut self) -> Read<Value> {
        let is_negative = self.is_sign(0, b'-');
        if is_negative || self.is_sign(0, b'+') {
            let before = self.words;
            self.step();
            return match self.digits() {
                Some(number) => Ok(Value::Number(if is_negative { number.negative() } else { number })),
                None => {
                    self.words = before;
                    self.fail()
                }
            };
        }
        if self.sees(&["null"]) {
            return Ok(Value::Null);
        }
        if self.peeks("true") || self.peeks("false") {
            let number = Number::whole(i128::from(self.peeks("true")));
            self.step();
            return Ok(Value::Number(number));
        }
        if (self.peeks("database") || self.peeks("schema")) && self.is_sign(1, b'(') && self.is_sign(2, b')') {
            self.words = &self.words[3..];
            return Ok(Value::Text(self.database.as_bytes().to_vec()));
        }
        if let Some(value) = self.bound() {
            return Ok(value);
        }
        if let Some(text) = self.quoted() {
            return Ok(Value::Text(text));
        }
        match self.digits() {
            Some(number) => Ok(Value::Number(number)),
            None => self.fail(),
        }
    }

    pub fn literal(&mut self) -> Read<Literal> {
        if self.sees(&["default"]) {
            return Ok(Literal::Default);
        }
        self.value().map(Literal::Value)
    }

    /// A text in quotes alone, such as a pattern.
    pub fn text(&mut self) -> Read<Vec<u8>> {
        match self.bound() {
            Some(Value::Text(text)) => return Ok(text),
            Some(_) if self.is_counting() => return Ok(Vec::new()),
            Some(_) => return self.fail(),
            None => (),
        }
        match self.quoted() {
            Some(text) => Ok(text),
            None => self.fail(),
        }
    }

    /// A number that isn't negative, and whole.
    pub fn count(&mut self) -> Read<u64> {
        let place = self.place();
        match self.value()? {
            Value::Number(Number { digits, scale: 0 }) => u64::try_from(digits).map_err(|_| Untaken(place)),
            _ => Err(Untaken(place)),
        }
    }

    /// A number that a column is to grow by.
    pub fn number(&mut self) -> Read<Option<Number>> {
        let place = self.place();
        match self.value()? {
            Value::Null => Ok(None),
            Value::Number(number) => Ok(Some(number)),
            Value::Text(text) => match Number::read(&text) {
                Some((number, end)) if end == text.len() => Ok(Some(number)),
                _ => Err(Untaken(place)),
            },
        }
    }
}

/// The bytes of digits; before an odd number of them a 0 is understood.
fn hexadecimal(digits: &[u8]) -> Option<Vec<u8>> {
    let mut values: Vec<u8> =
        digits.iter().map(|byte| char::from(*byte).to_digit(16).map(|it| it as u8)).collect::<Option<_>>()?;
    if values.len() % 2 == 1 {
        values.insert(0, 0);
    }
    Some(values.chunks(2).map(|pair| pair[0] << 4 | pair[1]).collect())
}
