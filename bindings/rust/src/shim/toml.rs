//! TOML 1.1, as far as the programs have it: a document as a table, and look-ups in it. A number
//! and a date are read and not kept, but for integers.
use super::alloc::AllocError;
use std::collections::BTreeMap;
use std::ops::Range;

mod tables;
mod words;

use tables::{Definition, Nodes, Path};

/// The deepest nesting of arrays and inline tables, and the most parts of a key, that are read.
const DEEPEST: usize = 80;

/// A table: its values by their keys.
pub type Table = BTreeMap<String, Value>;

/// A value.
#[derive(Debug)]
pub enum Value {
    /// A string.
    String(String),
    /// An integer.
    Integer(i64),
    /// `true` or `false`.
    Boolean(bool),
    /// A number with a point or an exponent, or a date or time.
    Other,
    /// An array.
    Array(Vec<Value>),
    /// A table.
    Table(Table),
}

impl Value {
    /// Returns the value at a key of a table, or `None` if there is none.
    pub fn get(&self, key: &str) -> Option<&Value> {
        match self {
            Value::Table(table) => table.get(key),
            _ => None,
        }
    }

    /// Returns the text of a string, or `None` if the value is none.
    pub fn as_str(&self) -> Option<&str> {
        match self {
            Value::String(text) => Some(text),
            _ => None,
        }
    }

    /// Returns the integer, or `None` if the value is none.
    pub fn as_integer(&self) -> Option<i64> {
        match self {
            Value::Integer(number) => Some(*number),
            _ => None,
        }
    }

    /// Returns `true` or `false`, or `None` if the value is neither.
    pub fn as_bool(&self) -> Option<bool> {
        match self {
            Value::Boolean(value) => Some(*value),
            _ => None,
        }
    }
}

/// The byte offset at which a text turns out to be no TOML.
#[derive(Clone, Copy, Debug)]
pub struct Error {
    start: usize,
}

impl Error {
    /// Returns the place of the error.
    pub fn span(&self) -> Option<Range<usize>> {
        Some(self.start..self.start)
    }
}

impl From<AllocError> for Error {
    fn from(error: AllocError) -> Error {
        match error {}
    }
}

/// Returns the table that a text is. Returns `Err` if it is no TOML.
pub fn table_from_str(text: &str) -> Result<Table, Error> {
    let mut reader = Reader { text, at: 0 };
    reader.eat("\u{feff}");
    let mut root = Nodes::new();
    let mut section = Path::new();
    loop {
        reader.skip_blank();
        if reader.rest().is_empty() {
            return Ok(tables::close(root));
        }
        let start = reader.at;
        let (path, definition) = reader.expression()?;
        reader.skip_space();
        if !matches!(reader.first(), None | Some(b'#' | b'\n' | b'\r')) {
            return reader.fail();
        }
        let is_header = !matches!(definition, Definition::Pair(_));
        let outer = if is_header { &[][..] } else { &section };
        if !tables::define(&mut root, outer, &path, definition) {
            return Err(Error { start });
        }
        if is_header {
            section = path;
        }
    }
}

/// What is still to be read of a text.
struct Reader<'a> {
    text: &'a str,
    /// The byte offset up to which it is read.
    at: usize,
}

impl<'a> Reader<'a> {
    /// Returns the text that is still to be read.
    fn rest(&self) -> &'a str {
        &self.text[self.at..]
    }

    /// Returns the next byte, or `None` at the end.
    fn first(&self) -> Option<u8> {
        self.rest().bytes().next()
    }

    /// Returns an error at the next byte.
    fn fail<T>(&self) -> Result<T, Error> {
        Err(Error { start: self.at })
    }

    /// Passes over a text, if it is next, and returns whether it was.
    fn eat(&mut self, text: &str) -> bool {
        let is_next = self.rest().starts_with(text);
        self.at += if is_next { text.len() } else { 0 };
        is_next
    }

    /// Passes over characters of a class, and returns them.
    fn run(&mut self, is_inside: impl Fn(char) -> bool) -> &'a str {
        let rest = self.rest();
        let run = &rest[..rest.find(|c| !is_inside(c)).unwrap_or(rest.len())];
        self.at += run.len();
        run
    }

    /// Passes over spaces and tabs.
    fn skip_space(&mut self) {
        self.run(|c| matches!(c, ' ' | '\t'));
    }

    /// Passes over white space, line ends and comments.
    fn skip_blank(&mut self) {
        loop {
            self.skip_space();
            if self.eat("#") {
                self.run(words::is_plain);
                if !matches!(self.first(), None | Some(b'\n' | b'\r')) {
                    return;
                }
            }
            if !self.eat("\n") && !self.eat("\r\n") {
                return;
            }
        }
    }

    /// Reads a header, or a key with its value.
    fn expression(&mut self) -> Result<(Path, Definition), Error> {
        if !self.eat("[") {
            let (path, value) = self.pair(DEEPEST)?;
            return Ok((path, Definition::Pair(value)));
        }
        let is_array = self.eat("[");
        self.skip_space();
        let path = self.path()?;
        if !self.eat("]") || is_array && !self.eat("]") {
            return self.fail();
        }
        let header = if is_array {
            Definition::Item
        } else {
            Definition::Table
        };
        Ok((path, header))
    }

    /// Reads a key, an equals sign and a value.
    fn pair(&mut self, depth: usize) -> Result<(Path, Value), Error> {
        let path = self.path()?;
        if !self.eat("=") {
            return self.fail();
        }
        self.skip_space();
        Ok((path, self.value(depth)?))
    }

    /// Reads a key with points between its parts, and the white space after it.
    fn path(&mut self) -> Result<Path, Error> {
        let start = self.at;
        let mut path = Path::new();
        loop {
            if path.len() == DEEPEST {
                return Err(Error { start });
            }
            path.push(self.key()?);
            self.skip_space();
            if !self.eat(".") {
                return Ok(path);
            }
            self.skip_space();
        }
    }

    /// Reads a part of a key.
    fn key(&mut self) -> Result<String, Error> {
        match self.first() {
            Some(quote @ (b'"' | b'\'')) => self.line_string(quote),
            _ => match self.run(|c| c.is_ascii_alphanumeric() || matches!(c, '-' | '_')) {
                "" => self.fail(),
                name => Ok(name.to_string()),
            },
        }
    }

    /// Reads a value, with arrays and inline tables that are at most so deep.
    fn value(&mut self, depth: usize) -> Result<Value, Error> {
        match self.first() {
            Some(b'[' | b'{') if depth == 0 => self.fail(),
            Some(b'[') => self.array(depth - 1),
            Some(b'{') => self.inline_table(depth - 1),
            Some(quote @ (b'"' | b'\'')) => {
                let long = if quote == b'"' { "\"\"\"" } else { "'''" };
                let text = match self.rest().starts_with(long) {
                    true => self.long_string(quote, long)?,
                    false => self.line_string(quote)?,
                };
                Ok(Value::String(text))
            }
            _ => self.word(),
        }
    }

    /// Reads an array.
    fn array(&mut self, depth: usize) -> Result<Value, Error> {
        let mut items = Vec::new();
        self.eat("[");
        loop {
            self.skip_blank();
            if self.eat("]") {
                return Ok(Value::Array(items));
            }
            items.push(self.value(depth)?);
            self.skip_blank();
            if !self.eat(",") && self.first() != Some(b']') {
                return self.fail();
            }
        }
    }

    /// Reads an inline table.
    fn inline_table(&mut self, depth: usize) -> Result<Value, Error> {
        let mut nodes = Nodes::new();
        self.eat("{");
        loop {
            self.skip_blank();
            if self.eat("}") {
                return Ok(Value::Table(tables::close(nodes)));
            }
            let start = self.at;
            let (path, value) = self.pair(depth)?;
            if !tables::define(&mut nodes, &[], &path, Definition::Pair(value)) {
                return Err(Error { start });
            }
            self.skip_blank();
            if !self.eat(",") && self.first() != Some(b'}') {
                return self.fail();
            }
        }
    }

    /// Reads a string that ends in its line.
    fn line_string(&mut self, quote: u8) -> Result<String, Error> {
        let mut text = String::new();
        self.at += 1;
        loop {
            text += self
                .run(|c| words::is_plain(c) && c != quote.into() && (c != '\\' || quote == b'\''));
            match self.first() {
                Some(byte) if byte == quote => {
                    self.at += 1;
                    return Ok(text);
                }
                Some(b'\\') if quote == b'"' => {
                    self.at += 1;
                    text.push(self.escape()?);
                }
                _ => return self.fail(),
            }
        }
    }

    /// Reads a string of several lines. Up to two quotes may stand before those that end it.
    fn long_string(&mut self, quote: u8, long: &str) -> Result<String, Error> {
        let mut text = String::new();
        self.at += long.len();
        let _ = self.eat("\n") || self.eat("\r\n");
        loop {
            text += self.run(|c| {
                (words::is_plain(c) || c == '\n')
                    && c != quote.into()
                    && (c != '\\' || quote == b'\'')
            });
            let quotes = self
                .rest()
                .bytes()
                .take_while(|&byte| byte == quote)
                .count();
            if (3..6).contains(&quotes) {
                text += &long[..quotes - 3];
                self.at += quotes;
                return Ok(text);
            } else if (1..3).contains(&quotes) {
                text += &long[..quotes];
                self.at += quotes;
            } else if self.eat("\r\n") {
                text += "\r\n";
            } else if quotes == 0 && quote == b'"' && self.eat("\\") {
                if !self.continued_line() {
                    text.push(self.escape()?);
                }
            } else {
                return self.fail();
            }
        }
    }

    /// Passes over the end of a line behind a backslash, with all white space after it, and returns
    /// whether it was next.
    fn continued_line(&mut self) -> bool {
        let after = self.rest().trim_start_matches([' ', '\t']);
        if !after.starts_with('\n') && !after.starts_with("\r\n") {
            return false;
        }
        self.at = self.text.len() - after.len();
        while self.eat("\n") || self.eat("\r\n") || self.eat(" ") || self.eat("\t") {}
        true
    }

    /// Reads an escape behind its backslash.
    fn escape(&mut self) -> Result<char, Error> {
        match words::escape(self.rest()) {
            Some((c, len)) => {
                self.at += len;
                Ok(c)
            }
            None => self.fail(),
        }
    }

    /// Reads a number, a date, `true` or `false`.
    fn word(&mut self) -> Result<Value, Error> {
        let word = words::word_at(self.rest());
        match words::value(word) {
            Some(value) => {
                self.at += word.len();
                Ok(value)
            }
            None => self.fail(),
        }
    }
}
