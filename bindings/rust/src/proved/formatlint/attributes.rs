//! The parts of a file in which attributes allow a lint.

// Extracted from crates/formatlint/src/attributes.rt by tools/extract: not to be edited.
// That source has the contracts, and is proved. That this text means the same is only tested.

use crate::proved::format_calls::is_mark_of;
use crate::proved::macro_owners::{is_mark, is_named};
use crate::proved::manifest::{captures_variables, version_named};
use crate::proved::rust_trees::{Side, Token, Tokens};
use crate::shim::alloc::AllocError;
use crate::shim::prelude::*;
use core::ops::Range;

/// A lint that a project may allow.
#[derive(Clone, Copy, PartialEq, Eq)]
pub enum Lint {
    /// `clippy::uninlined_format_args`, which has nothing to say where `clippy::msrv` is too old.
    Arguments,
    /// `named_arguments_used_positionally`
    Positions,
}

/// The parts of a file in which a lint is allowed.
pub struct AllowedParts {
    /// Their ranges of byte offsets, in order. They do not overlap.
    pub ranges: Vec<Range<usize>>,
    /// Whether an attribute of the whole file allows it.
    pub is_whole: bool,
    /// Whether it is allowed for a module that is in another file.
    pub has_module: bool,
}

/// An attribute that is not read to its end.
#[derive(Clone, Copy)]
struct Attribute {
    /// The byte offset where it starts.
    start: usize,
    /// Whether it is one of what is around it: `#![..]`.
    is_inner: bool,
    /// The number of delimiters that are open around it.
    depth: usize,
    /// Whether the last level of lints in it allows them.
    allows: bool,
    /// Whether the version of Rust is to come.
    names_version: bool,
    /// Whether the lint is allowed.
    is_found: bool,
}

/// A part of a file in which the lint is allowed, and whose end is to come.
#[derive(Clone, Copy)]
struct OpenPart {
    /// The byte offset where it starts.
    start: usize,
    /// The number of delimiters that are open around its tokens.
    depth: usize,
    /// Whether it ends with the delimiter around it alone.
    is_inner: bool,
    /// Whether it is a `let`, which goes on after a brace.
    is_let: bool,
}

/// What is read of a file.
struct Scan<'a> {
    lint: Lint,
    /// The token before the last one.
    previous: Option<Token<'a>>,
    /// The last token.
    last: Option<Token<'a>>,
    /// The byte offset of the `#` at which an attribute may have started.
    hash: Option<usize>,
    attribute: Option<Attribute>,
    /// The number of delimiters that are open.
    depth: usize,
    open_parts: Vec<OpenPart>,
    found: AllowedParts,
}

/// The group of all lints that warn.
const ALL_WARNINGS: &str = "warnings";

/// Returns whether a token is a name of the lint, or of a group that it is in.
#[inline(never)]
fn is_lint(lint: Lint, token: Token<'_>) -> bool {
    let token = Some(token);
    if is_named(token, ALL_WARNINGS) {
        return true;
    }
    match lint {
        Lint::Arguments => is_named(token, "uninlined_format_args") || is_named(token, "pedantic"),
        Lint::Positions => is_named(token, "named_arguments_used_positionally"),
    }
}

/// Returns whether a text can have an attribute.
#[inline]
pub fn has_attribute(text: &str) -> bool {
    text.contains('#')
}

/// Returns whether a text has a word after one that allows lints.
#[inline(never)]
fn may_allow_word(text: &str, word: &str) -> bool {
    if !text.contains(word) {
        return false;
    }
    let (front, _) = text.rsplit_once(word).unwrap_or((text, ""));
    front.has_text("allow") || front.has_text("expect")
}

/// Returns whether a text with attributes can have one that allows the lint.
#[inline(never)]
fn may_allow(lint: Lint, text: &str) -> bool {
    if may_allow_word(text, ALL_WARNINGS) {
        return true;
    }
    match lint {
        Lint::Arguments => {
            may_allow_word(text, "uninlined_format_args")
                || may_allow_word(text, "pedantic")
                || text.has_text("msrv")
        }
        // (the end of its name: Rust's library finds up to 32 bytes sixteen at a time)
        Lint::Positions => may_allow_word(text, "used_positionally"),
    }
}

/// Returns the content of an ordinary literal, as it is written, or `None` if this is none.
#[inline]
fn content_of(literal: &str) -> Option<&str> {
    literal.strip_prefix('"')?.strip_suffix('"')
}

/// Returns whether a literal names a version of Rust in which format strings capture no variables.
#[inline(never)]
fn is_too_old(literal: &str) -> bool {
    match content_of(literal) {
        Some(name) => match version_named(name) {
            Some(version) => !captures_variables(version),
            None => false,
        },
        None => false,
    }
}

impl Attribute {
    /// Passes a token inside it.
    #[inline(never)]
    fn pass(&mut self, lint: Lint, token: Token<'_>) {
        let name = Some(token);
        if is_named(name, "allow") || is_named(name, "expect") {
            self.allows = true;
        } else if is_named(name, "warn") || is_named(name, "deny") || is_named(name, "forbid") {
            self.allows = false;
        } else if is_lint(lint, token) {
            self.is_found = self.is_found || self.allows;
        } else if is_named(name, "msrv") {
            self.names_version = lint == Lint::Arguments;
        } else if self.names_version && !is_mark_of(&token, b'=') {
            self.names_version = false;
            self.is_found = self.is_found || is_too_old(token.text);
        }
    }
}

impl<'a> Scan<'a> {
    /// Notes that an attribute ended.
    #[inline(never)]
    fn end_attribute(&mut self, attribute: Attribute) -> Result<(), AllocError> {
        if !attribute.is_found {
            return Ok(());
        }
        let is_whole = attribute.is_inner && attribute.depth == 0;
        self.found.is_whole = self.found.is_whole || is_whole;
        self.open_parts.push(OpenPart {
            start: if is_whole { 0 } else { attribute.start },
            depth: attribute.depth,
            is_inner: attribute.is_inner,
            is_let: false,
        });
        Ok(())
    }

    /// Ends the last open part before a byte offset. Parts in it are left out.
    #[inline(never)]
    fn end_part(&mut self, end: usize) -> Result<(), AllocError> {
        let Some(part) = self.open_parts.pop() else {
            return Ok(());
        };
        for _ in 0..u64::MAX {
            match self.found.ranges.last() {
                Some(last) if last.start >= part.start => {}
                _ => break,
            }
            let _ = self.found.ranges.pop();
        }
        self.found.ranges.push(part.start..end);
        Ok(())
    }

    /// Ends the parts that end at a token, after which this many delimiters are open.
    #[inline(never)]
    fn end_parts(&mut self, token: Token<'_>, depth: usize) -> Result<(), AllocError> {
        let is_mark = is_mark_of(&token, b';') || is_mark_of(&token, b',');
        let is_brace = is_mark_of(&token, b'}');
        for _ in 0..u64::MAX {
            let Some(part) = self.open_parts.last().copied() else {
                break;
            };
            let ends_item = depth == part.depth && (is_mark || is_brace && !part.is_let);
            if depth >= part.depth && (part.is_inner || !ends_item) {
                break;
            }
            if is_mark_of(&token, b';') && is_named(self.previous, "mod") {
                self.found.has_module = true;
            }
            self.end_part(token.start.saturating_add(token.text.len()))?;
        }
        Ok(())
    }

    /// Passes a token that is in no attribute.
    #[inline(never)]
    fn pass_outside(&mut self, token: Token<'a>) -> Result<(), AllocError> {
        if is_named(Some(token), "let") && is_mark(self.last, b']') {
            if let Some(part) = self.open_parts.pop() {
                self.open_parts.push(OpenPart {
                    start: part.start,
                    depth: part.depth,
                    is_inner: part.is_inner,
                    is_let: true,
                });
            }
        }
        if let Some(start) = self.hash {
            if is_mark_of(&token, b'[') {
                self.attribute = Some(Attribute {
                    start,
                    is_inner: is_mark(self.last, b'!'),
                    depth: self.depth,
                    allows: false,
                    names_version: false,
                    is_found: false,
                });
                self.hash = None;
            } else if !is_mark_of(&token, b'!') {
                self.hash = None;
            }
        }
        if is_mark_of(&token, b'#') {
            self.hash = Some(token.start);
        }
        Ok(())
    }

    /// Passes a token.
    #[inline(never)]
    fn pass(&mut self, token: Token<'a>) -> Result<(), AllocError> {
        let depth = match token.side() {
            Side::Opens(_) => self.depth.saturating_add(1),
            Side::Closes(_) => self.depth.saturating_sub(1),
            Side::Neither => self.depth,
        };
        match self.attribute {
            Some(attribute) if depth == attribute.depth => {
                self.attribute = None;
                self.end_attribute(attribute)?;
            }
            Some(attribute) => {
                let mut attribute = attribute;
                attribute.pass(self.lint, token);
                self.attribute = Some(attribute);
            }
            None => {
                self.pass_outside(token)?;
                self.end_parts(token, depth)?;
            }
        }
        self.depth = depth;
        self.previous = self.last;
        self.last = Some(token);
        Ok(())
    }
}

/// Returns the parts of a file in which attributes allow a lint.
#[inline(never)]
pub fn allowed_parts(text: &str, lint: Lint) -> Result<AllowedParts, AllocError> {
    let mut scan = Scan {
        lint,
        previous: None,
        last: None,
        hash: None,
        attribute: None,
        depth: 0,
        open_parts: Vec::new(),
        found: AllowedParts {
            ranges: Vec::new(),
            is_whole: false,
            has_module: false,
        },
    };
    if has_attribute(text) && may_allow(lint, text) {
        let mut rest = Tokens::new(text);
        for _ in 0..u64::MAX {
            match rest.next() {
                Some(token) => scan.pass(token)?,
                None => break,
            }
        }
        for _ in 0..u64::MAX {
            if scan.open_parts.is_empty() {
                break;
            }
            scan.end_part(text.len())?;
        }
    }
    Ok(scan.found)
}

impl AllowedParts {
    /// Returns whether the lint is allowed at a byte offset.
    #[inline(never)]
    pub fn has(&self, offset: usize) -> bool {
        let mut start = 0usize;
        let mut end = self.ranges.len();
        // (each turn halves what is left)
        for _ in 0..64 {
            let middle = start.saturating_add(end.saturating_sub(start) / 2);
            match self.ranges.get(middle) {
                Some(range) if range.end <= offset && middle < end => {
                    start = middle.saturating_add(1);
                }
                _ => end = middle,
            }
        }
        match self.ranges.get(end) {
            Some(range) => range.start <= offset && offset < range.end,
            None => false,
        }
    }
}
