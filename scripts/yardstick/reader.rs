//! Reads a statement from its text, without allocation: the statements that are measured, literals quoted or in
//! hexadecimal digits.
use crate::statement::Statement;
use crate::text::{Text, Xid};

pub struct Reader<'a> {
    rest: &'a [u8],
}

fn digit(byte: u8) -> Option<u8> {
    (byte as char).to_digit(16).map(|value| value as u8)
}

/// The text of hexadecimal digits; where their number is odd, the first stands for a byte.
fn of_digits(digits: &[u8]) -> Option<Text> {
    let (odd, pairs) = digits.split_at(digits.len() % 2);
    let mut text = Text::new();
    for byte in odd {
        text.push(digit(*byte)?)?;
    }
    for pair in pairs.chunks_exact(2) {
        text.push(16 * digit(pair[0])? + digit(pair[1])?)?;
    }
    Some(text)
}

impl<'a> Reader<'a> {
    /// The statement that a whole text is, with a semicolon at its end or without.
    pub fn read(text: &'a [u8]) -> Option<Statement> {
        let mut reader = Reader { rest: text };
        let statement = reader.statement()?;
        reader.sign(b';');
        reader.skip_blanks();
        reader.rest.is_empty().then_some(statement)
    }

    fn skip_blanks(&mut self) {
        while let [b' ' | b'\t' | b'\n' | b'\r', rest @ ..] = self.rest {
            self.rest = rest;
        }
    }

    fn next(&mut self) -> Option<u8> {
        let (first, rest) = self.rest.split_first()?;
        self.rest = rest;
        Some(*first)
    }

    /// Whether this sign stands next; then it is read.
    fn sign(&mut self, sign: u8) -> bool {
        self.skip_blanks();
        match self.rest {
            [first, rest @ ..] if *first == sign => {
                self.rest = rest;
                true
            }
            _ => false,
        }
    }

    fn word(&mut self) -> &'a [u8] {
        self.skip_blanks();
        let is_of_word = |byte: &u8| byte.is_ascii_alphanumeric() || matches!(byte, b'_' | b'$' | 128..);
        let length = self.rest.iter().position(|byte| !is_of_word(byte)).unwrap_or(self.rest.len());
        let (word, rest) = self.rest.split_at(length);
        self.rest = rest;
        word
    }

    /// Whether this keyword stands next, in letters of either case; then it is read.
    fn keyword(&mut self, keyword: &str) -> bool {
        let before = self.rest;
        let is_it = self.word().eq_ignore_ascii_case(keyword.as_bytes());
        if !is_it {
            self.rest = before;
        }
        is_it
    }

    fn quoted(&mut self, quote: u8) -> Option<Text> {
        let mut text = Text::new();
        loop {
            let byte = self.next()?;
            if byte == quote {
                match self.rest {
                    [first, rest @ ..] if *first == quote => self.rest = rest,
                    _ => return Some(text),
                }
            }
            if byte == b'\\' {
                match self.next()? {
                    b'0' => text.push(0)?,
                    b'b' => text.push(8)?,
                    b'n' => text.push(10)?,
                    b'r' => text.push(13)?,
                    b't' => text.push(9)?,
                    b'Z' => text.push(26)?,
                    other => text.push(other)?,
                }
            } else {
                text.push(byte)?;
            }
        }
    }

    fn literal(&mut self) -> Option<Text> {
        self.skip_blanks();
        match self.rest {
            [quote @ (b'\'' | b'"'), rest @ ..] => {
                self.rest = rest;
                self.quoted(*quote)
            }
            [b'X' | b'x', b'\'', rest @ ..] => {
                let length = rest.iter().position(|byte| *byte == b'\'')?;
                self.rest = &rest[length + 1..];
                of_digits(&rest[..length]).filter(|_| length % 2 == 0)
            }
            _ => of_digits(self.word().strip_prefix(b"0x")?),
        }
    }

    fn number(&mut self) -> Option<u64> {
        let word = std::str::from_utf8(self.word()).ok()?;
        match word.strip_prefix("0x") {
            Some(digits) => u64::from_str_radix(digits, 16).ok(),
            None => word.parse().ok(),
        }
    }

    fn xid(&mut self) -> Option<Xid> {
        let mut xid = Xid { format: 1, global: self.literal()?, branch: Text::new() };
        if self.sign(b',') {
            xid.branch = self.literal()?;
            if self.sign(b',') {
                xid.format = self.number()?;
            }
        }
        Some(xid)
    }

    fn statement(&mut self) -> Option<Statement> {
        if self.keyword("XA") {
            self.of_a_branch()
        } else if self.keyword("PUT") {
            let key = self.literal()?;
            self.sign(b',').then_some(())?;
            Some(Statement::Put(key, self.literal()?))
        } else if self.keyword("GET") {
            Some(Statement::Get(self.literal()?))
        } else if self.keyword("DEL") {
            Some(Statement::Delete(self.literal()?))
        } else {
            None
        }
    }

    fn of_a_branch(&mut self) -> Option<Statement> {
        if self.keyword("START") || self.keyword("BEGIN") {
            Some(Statement::Start(self.xid()?))
        } else if self.keyword("END") {
            Some(Statement::End(self.xid()?))
        } else if self.keyword("PREPARE") {
            Some(Statement::Prepare(self.xid()?))
        } else if self.keyword("COMMIT") {
            let xid = self.xid()?;
            let one_phase = self.keyword("ONE");
            (!one_phase || self.keyword("PHASE")).then_some(Statement::Commit(xid, one_phase))
        } else if self.keyword("ROLLBACK") {
            Some(Statement::Rollback(self.xid()?))
        } else {
            None
        }
    }
}
