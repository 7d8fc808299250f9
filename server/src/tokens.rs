//! The tokens that all texts are made of: blanks and comments, quoted texts, runs of word bytes, and single signs.
use std::borrow::Cow;

/// How many bytes a literal may have.
pub const LONGEST: usize = 64;

/// The version that the greeting names, as comments write it.
const NEWEST: u32 = 80_036;

pub fn is_word_byte(byte: u8) -> bool {
    byte.is_ascii_alphanumeric() || byte == b'_' || byte == b'$' || byte >= 128
}

fn is_blank(byte: u8) -> bool {
    matches!(byte, b' ' | b'\t' | b'\n' | b'\r')
}

/// Where the first line feed stands from a place on, or the text's end.
fn line_end(text: &[u8], place: usize) -> usize {
    text[place..].iter().position(|byte| *byte == b'\n').map_or(text.len(), |length| place + length)
}

/// Where a comment ends that begins at a place. `/*!` and `/*+` begin none, since MySQL carries these out.
fn comment_end(text: &[u8], place: usize) -> Option<usize> {
    let rest = &text[place..];
    if rest.starts_with(b"#") {
        return Some(line_end(text, place));
    }
    if rest.starts_with(b"--") && rest.get(2).map_or(true, |byte| is_blank(*byte)) {
        return Some(line_end(text, place + 2));
    }
    if rest.starts_with(b"/*") && !matches!(rest.get(2), Some(b'!' | b'+')) {
        let length = rest[2..].windows(2).position(|pair| pair == b"*/")?;
        return Some(place + 2 + length + 2);
    }
    None
}

/// Where the blanks and comments end that stand at a place.
pub fn after_blanks(text: &[u8], mut place: usize) -> usize {
    while place < text.len() {
        if is_blank(text[place]) {
            place += 1;
        } else if let Some(end) = comment_end(text, place) {
            place = end;
        } else {
            break;
        }
    }
    place
}

/// The run of word bytes at a place, maybe empty.
pub fn run_at(text: &[u8], place: usize) -> &[u8] {
    let length = text[place..].iter().position(|byte| !is_word_byte(*byte)).unwrap_or(text.len() - place);
    &text[place..place + length]
}

/// What a quoted text stands for that begins at a place, and where it ends; none where it isn't closed.
pub fn quoted_at(text: &[u8], place: usize) -> Option<(Vec<u8>, usize)> {
    let quote = text[place];
    let mut data = Vec::with_capacity(LONGEST);
    let mut at = place + 1;
    loop {
        let byte = *text.get(at)?;
        if byte == b'\\' {
            push_escaped(&mut data, *text.get(at + 1)?);
            at += 2;
        } else if byte != quote {
            data.push(byte);
            at += 1;
        } else if text.get(at + 1) == Some(&quote) {
            data.push(quote);
            at += 2;
        } else {
            return Some((data, at + 1));
        }
    }
}

fn push_escaped(data: &mut Vec<u8>, byte: u8) {
    match byte {
        b'0' => data.push(0),
        b'b' => data.push(8),
        b't' => data.push(9),
        b'n' => data.push(10),
        b'r' => data.push(13),
        b'Z' => data.push(26),
        b'%' | b'_' => data.extend([b'\\', byte]),
        other => data.push(other),
    }
}

/// A token of a text that is no statement of the store.
#[derive(Clone, Debug, PartialEq, Eq)]
pub enum Word<'a> {
    /// A run of word bytes in small letters.
    Run(Cow<'a, str>),
    Quoted(Vec<u8>),
    Sign(u8),
}

/// A word, and where it stands in the text.
#[derive(Clone, Debug, PartialEq, Eq)]
pub struct Placed<'a> {
    pub word: Word<'a>,
    pub begin: usize,
    pub end: usize,
}

/// A text that is no statement of the store, and its words.
pub struct Text<'a> {
    pub text: &'a [u8],
    pub words: Vec<Placed<'a>>,
}

/// How long such a text may be, so that its words take no more memory than a few megabytes.
const LONGEST_TEXT: usize = 65_536;

/// A text with small letters in place of the capitals A to Z; nothing if it isn't UTF-8.
pub fn small(text: &[u8]) -> String {
    std::str::from_utf8(text).map_or(String::new(), str::to_ascii_lowercase)
}

impl<'a> Text<'a> {
    /// A text, which is `small` in small letters. One that is too long has no words, so nothing takes it.
    pub fn new(text: &'a [u8], small: &'a str) -> Text<'a> {
        Text { text, words: if text.len() <= LONGEST_TEXT { words(text, small) } else { Vec::new() } }
    }
}

/// The words of a text, without comments and without a `;` at its end. A backquoted name is a run. What stands in
/// `/*! .. */` belongs to the text, as in MySQL.
fn words<'a>(text: &'a [u8], small: &'a str) -> Vec<Placed<'a>> {
    let (mut found, mut is_open) = (Vec::with_capacity(text.len() / 4), false);
    let mut begin = next_word(text, 0, &mut is_open);
    while begin < text.len() {
        let (word, end) = word_at(text, small, begin);
        found.push(Placed { word, begin, end });
        begin = next_word(text, end, &mut is_open);
    }
    while matches!(found.last(), Some(Placed { word: Word::Sign(b';'), .. })) {
        found.pop();
    }
    if is_open {
        // (no text that is known has this sign)
        found.push(Placed { word: Word::Sign(b';'), begin, end: begin });
    }
    found
}

/// The statements of a text, which a `;` ends that stands in no quotes and no comment. A text without words is one.
pub fn statements(text: &[u8]) -> Vec<&[u8]> {
    let (mut found, mut is_open, mut from, mut has_words) = (Vec::new(), false, 0, false);
    let mut begin = next_word(text, 0, &mut is_open);
    while begin < text.len() {
        let (word, end) = word_at(text, "", begin);
        let is_end = !is_open && word == Word::Sign(b';');
        if is_end && has_words {
            found.push(&text[from..begin]);
        }
        (from, has_words) = if is_end { (end, false) } else { (from, true) };
        begin = next_word(text, end, &mut is_open);
    }
    if has_words || found.is_empty() {
        found.push(&text[from..]);
    }
    found
}

/// Where the next word begins from a place on. `is_open` is whether a `/*!` isn't closed.
fn next_word(text: &[u8], mut place: usize, is_open: &mut bool) -> usize {
    loop {
        place = after_blanks(text, place);
        let rest = &text[place..];
        if *is_open && rest.starts_with(b"*/") {
            *is_open = false;
            place += 2;
        } else if !*is_open && rest.starts_with(b"/*!") {
            let (version, digits) = version_at(&rest[3..]);
            if version <= NEWEST {
                *is_open = true;
                place += 3 + digits;
            } else if let Some(length) = rest.windows(2).position(|pair| pair == b"*/") {
                place += length + 2;
            } else {
                return place;
            }
        } else {
            return place;
        }
    }
}

/// The version of the server from which on a `/*!` is carried out, in five or six digits, and how many these are.
fn version_at(text: &[u8]) -> (u32, usize) {
    let digits: Vec<u8> = text.iter().copied().take_while(u8::is_ascii_digit).take(6).collect();
    if digits.len() < 5 {
        return (0, 0);
    }
    (digits.iter().fold(0, |number, digit| number * 10 + u32::from(digit - b'0')), digits.len())
}

fn word_at<'a>(text: &[u8], small: &'a str, begin: usize) -> (Word<'a>, usize) {
    let lowered = |run: &[u8]| Cow::Owned(String::from_utf8_lossy(run).to_lowercase());
    match text[begin] {
        b'\'' | b'"' | b'`' => match quoted_at(text, begin) {
            Some((data, end)) if text[begin] == b'`' => (Word::Run(lowered(&data)), end),
            Some((data, end)) => (Word::Quoted(data), end),
            None => (Word::Sign(text[begin]), begin + 1),
        },
        byte if is_word_byte(byte) => {
            let run = run_at(text, begin);
            let end = begin + run.len();
            let plain = small.get(begin..end).filter(|it| it.is_ascii());
            (Word::Run(plain.map_or_else(|| lowered(run), Cow::Borrowed)), end)
        }
        sign => (Word::Sign(sign), begin + 1),
    }
}

#[cfg(test)]
mod tests {
    use super::*;

    #[test]
    fn blanks_and_comments() {
        for text in ["", " \t\r\n", "-- one", "--", "--\n", "# two", "/**/", "/* * / */ # x\n--\t"] {
            assert_eq!(after_blanks(text.as_bytes(), 0), text.len(), "{}", text);
        }
        for (text, place) in [("--x", 0), ("/*!x*/", 0), ("/*+x*/", 0), (" /*open", 1), ("/*/", 0), ("# a\nb", 4)] {
            assert_eq!(after_blanks(text.as_bytes(), 0), place, "{}", text);
        }
    }

    #[test]
    fn quoted_texts() {
        for (text, data) in [
            (r"'it''s'", "it's"),
            (r#""say ""so""""#, "say \"so\""),
            (r"'\0\b\t\n\r\Z\%\_\N\''", "\0\x08\t\n\r\x1a\\%\\_N'"),
            ("''", ""),
        ] {
            assert_eq!(quoted_at(text.as_bytes(), 0), Some((data.as_bytes().to_vec(), text.len())), "{}", text);
        }
        for text in ["'", "'a", "'a\\'", "'''", "'a''", "'\\", "\"'"] {
            assert_eq!(quoted_at(text.as_bytes(), 0), None, "{}", text);
        }
    }

    fn spelled(text: &str) -> Vec<Word<'static>> {
        let small = small(text.as_bytes());
        let own = |it: Placed| match it.word {
            Word::Run(run) => Word::Run(Cow::Owned(run.into_owned())),
            Word::Quoted(data) => Word::Quoted(data),
            Word::Sign(sign) => Word::Sign(sign),
        };
        words(text.as_bytes(), &small).into_iter().map(own).collect()
    }

    fn run(text: &str) -> Word<'_> {
        Word::Run(Cow::Borrowed(text))
    }

    #[test]
    fn other_texts() {
        assert_eq!(spelled("SELECT @@A -- x\n;;"), [run("select"), Word::Sign(b'@'), Word::Sign(b'@'), run("a")]);
        assert_eq!(
            spelled("set `N`='Two  Words'"),
            [run("set"), run("n"), Word::Sign(b'='), Word::Quoted(b"Two  Words".to_vec())]
        );
        assert_eq!(spelled("'"), [Word::Sign(b'\'')]);
    }

    #[test]
    fn comments_that_are_carried_out() {
        assert!(crate::packets::VERSION.starts_with("8.0.36"));
        for text in [
            "a b",
            "/*!a*/b",
            "/*!40101 a */ b;",
            "/*!040101a*/b",
            "/*!80036 a b */",
            "a /*!80037 c */ b",
            "a/*!100000 c*/b",
            "/*!/* c */ a */ b",
        ] {
            assert_eq!(spelled(text), [run("a"), run("b")], "{}", text);
        }
        assert_eq!(spelled("/*!123 a */"), [run("123"), run("a")]);
        assert_eq!(spelled("/*!40101 a"), [run("a"), Word::Sign(b';')]);
        assert_eq!(spelled("a */"), [run("a"), Word::Sign(b'*'), Word::Sign(b'/')]);
        assert_eq!(spelled("/*!99999 a").len(), 5);
    }
}
