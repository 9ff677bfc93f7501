//! The words of a line, and what is said of a wrong one.

/// A fault of a text: its line and its column, both from 1, what stands there, and what was expected.
#[derive(Clone, Debug, PartialEq, Eq)]
pub struct Fault {
    pub line: usize,
    pub column: usize,
    pub said: String,
}

impl Fault {
    /// The fault as it is told of a file.
    pub fn told(&self, name: &str) -> String {
        format!("{name}:{}:{}: {}", self.line, self.column, self.said)
    }
}

/// A word, and the byte of its line at which it begins.
#[derive(Clone, Copy, Debug)]
pub struct Word<'a> {
    pub at: usize,
    pub text: &'a [u8],
}

/// The words of a line, taken one by one. A comment ends it.
pub struct Words<'a> {
    line: &'a [u8],
    number: usize,
    at: usize,
    end: usize,
}

impl<'a> Words<'a> {
    /// The words of the line with this number.
    pub fn of(line: &'a [u8], number: usize) -> Words<'a> {
        let end = line.iter().position(|&byte| byte == b'#').unwrap_or(line.len());
        Words { line, number, at: 0, end }
    }

    /// The same, of a line that has neither a carriage return nor, as the first, a byte order mark.
    pub fn checked(line: &'a [u8], number: usize) -> Result<Words<'a>, Fault> {
        let words = Words::of(line, number);
        let marks: [&[u8]; 3] = [b"\xef\xbb\xbf", b"\xff\xfe", b"\xfe\xff"];
        if number == 1 && marks.iter().any(|mark| line.starts_with(mark)) {
            return Err(words.fault_at(0, "a byte order mark, and a text without one was expected"));
        }
        match line.iter().position(|&byte| byte == b'\r') {
            Some(at) => {
                Err(words.fault_at(at, "a carriage return, and line feeds alone were expected"))
            }
            None => Ok(words),
        }
    }

    /// The next word, if there is one.
    pub fn next(&mut self) -> Option<Word<'a>> {
        let rest = &self.line[self.at..self.end];
        let at = self.at + rest.iter().position(|&byte| !is_blank(byte))?;
        let text = &self.line[at..self.end];
        let text = &text[..text.iter().position(|&byte| is_blank(byte)).unwrap_or(text.len())];
        self.at = at + text.len();
        Some(Word { at, text })
    }

    /// The fault that a word, or the line's end where there is none, is not what was expected.
    pub fn fault(&self, word: Option<Word>, expected: &str) -> Fault {
        let (at, what) = match word {
            Some(word) => (word.at, format!("'{}'", shown(word.text))),
            None => (trimmed(&self.line[..self.end]), "the line ends here".to_string()),
        };
        self.fault_at(at, &format!("{what}, and {expected} was expected"))
    }

    /// A fault at a byte of the line.
    pub fn fault_at(&self, at: usize, said: &str) -> Fault {
        Fault { line: self.number, column: column(self.line, at), said: said.to_string() }
    }

    /// The next word has to be this one.
    pub fn expect(&mut self, expected: &str) -> Result<(), Fault> {
        match self.next() {
            Some(word) if word.text == expected.as_bytes() => Ok(()),
            other => Err(self.fault(other, expected)),
        }
    }

    /// The next word has to be a number up to a limit.
    pub fn number(&mut self, name: &str, limit: u64) -> Result<u64, Fault> {
        let word = self.next();
        match word.and_then(|word| number(word.text)) {
            Some(value) if value <= limit => Ok(value),
            _ => Err(self.fault(word, &format!("{name}, a number from 0 to {limit},"))),
        }
    }

    /// The next word has to be a number of one byte.
    pub fn byte(&mut self, name: &str) -> Result<u8, Fault> {
        self.number(name, u8::MAX.into()).map(|value| value as u8)
    }

    /// No word may be left.
    pub fn end(&mut self) -> Result<(), Fault> {
        match self.next() {
            None => Ok(()),
            word => Err(self.fault(word, "the end of the line")),
        }
    }
}

/// The number that decimal digits write, if they are such and it has at most 64 bits.
pub fn number(text: &[u8]) -> Option<u64> {
    if text.is_empty() || !text.iter().all(u8::is_ascii_digit) {
        return None;
    }
    std::str::from_utf8(text).ok()?.parse().ok()
}

/// The byte that two hex digits write.
pub fn hex(text: &[u8]) -> Option<u8> {
    match *text {
        [high, low] => {
            let digit = |byte: u8| char::from(byte).to_digit(16);
            Some((digit(high)? * 16 + digit(low)?) as u8)
        }
        _ => None,
    }
}

/// Whether a byte stands between words.
fn is_blank(byte: u8) -> bool {
    byte == b' ' || byte == b'\t'
}

/// The bytes of a line up to its last word's end.
fn trimmed(line: &[u8]) -> usize {
    line.iter().rposition(|&byte| !is_blank(byte)).map_or(0, |at| at + 1)
}

/// The column of a byte of a line, from 1: characters are counted, so bytes that go on with one are not.
pub fn column(line: &[u8], at: usize) -> usize {
    1 + line[..at].iter().filter(|&&byte| byte & 0xc0 != 0x80).count()
}

/// A word as a message shows it: short, and with nothing that a terminal would take for a command.
pub fn shown(text: &[u8]) -> String {
    const MOST: usize = 40;
    let whole = String::from_utf8_lossy(text);
    let mut short: String = whole.chars().take(MOST).flat_map(char::escape_debug).collect();
    if whole.chars().count() > MOST {
        short.push_str("..");
    }
    short
}

/// A text in lines of so many characters, where its words are not longer.
pub fn folded(text: &str, width: usize) -> Vec<String> {
    let mut lines = vec![String::new()];
    for word in text.split(' ') {
        let last = lines.len() - 1;
        let line = &mut lines[last];
        if line.is_empty() {
            line.push_str(word);
        } else if line.chars().count() + 1 + word.chars().count() <= width {
            line.push(' ');
            line.push_str(word);
        } else {
            lines.push(word.to_string());
        }
    }
    lines
}
