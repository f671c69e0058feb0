//! The form for people: a finding drawn under the lines of its file.

// Extracted from crates/emit/src/human.rt by tools/extract: not to be edited.
// That source has the contracts, and is proved. That this text means the same is only tested.

use crate::proved::drawn_faults::{
    put_labels, Diagnostic, Level, SourceHelp, SourceLabel, SourceNote,
};
use crate::proved::drawn_lines::Picture;
use crate::proved::emit::file::File;
use crate::proved::emit::message::Message;
use crate::proved::emit::short::put_short;
use crate::proved::fault_fixes::Edit;
use crate::proved::source_report::Finding;
use crate::shim::alloc::AllocError;
use crate::shim::prelude::*;
use core::ops::Range;

/// The most bytes of a file that a drawing is about, and the most bytes of a line of it.
pub const MOST: usize = 4096;
/// The most labels of a drawing.
const MOST_LABELS: usize = 20;

/// Lines of a file, as a drawing shows them.
struct Excerpt<'a> {
    /// The lines as they are in the file, without the last line end.
    lines: &'a str,
    /// The byte offset in the file at which they start.
    start: usize,
    /// The number of the first line.
    number: u32,
    /// The lines, with LF for CRLF.
    source: String,
}

/// Returns the smallest range that has two others.
#[inline(never)]
fn join_ranges(one: &Range<usize>, other: &Range<usize>) -> Range<usize> {
    let start = if one.start < other.start {
        one.start
    } else {
        other.start
    };
    let end = if one.end < other.end {
        other.end
    } else {
        one.end
    };
    start..end
}

/// Returns the smallest range of a file that has all ranges of a finding.
#[inline(never)]
fn extent(finding: &Finding) -> Range<usize> {
    let mut extent = finding.span.start..finding.span.end;
    for label in &finding.labels {
        extent = join_ranges(&extent, &label.range);
    }
    for note in &finding.notes {
        for range in &note.ranges {
            extent = join_ranges(&extent, range);
        }
    }
    if let Some(help) = &finding.help {
        for edit in &help.edits {
            extent = join_ranges(&extent, &edit.range);
        }
    }
    extent
}

/// Returns the byte offset at which the line of an offset starts, after a byte order mark at the
/// start of the file.
#[inline(never)]
fn line_start(text: &str, offset: usize) -> usize {
    let (front, _) = text.split_at(text.boundary_at_most(offset));
    match front.rsplit_once('\n') {
        Some((head, _)) => head.len() + 1,
        None => text.len() - text.strip_prefix('\u{feff}').unwrap_or(text).len(),
    }
}

/// Returns the byte offset at which the line of an offset ends, without its line end, or `None` if
/// that is too far.
#[inline(never)]
fn line_end(text: &str, offset: usize) -> Option<usize> {
    let (_, rest) = text.split_at(text.boundary_at_most(offset));
    let (window, remainder) = rest.split_at(rest.boundary_at_most(MOST + 2));
    let length = match window.split_once('\n') {
        Some((line, _)) => line.strip_suffix('\r').unwrap_or(line).len(),
        None if remainder.is_empty() => window.len(),
        None => return None,
    };
    Some(offset.saturating_add(length))
}

/// Returns the lines of a range of a file, or `None` if they are too long for a drawing.
#[inline(never)]
fn excerpt_of<'a>(
    file: &File<'a>,
    range: &Range<usize>,
) -> Result<Option<Excerpt<'a>>, AllocError> {
    let offset = file.text.boundary_at_most(range.start);
    let place = file.places.place_of(offset);
    if range.end.saturating_sub(range.start) > MOST || place.column > MOST {
        return Ok(None);
    }
    let start = line_start(file.text, offset);
    let Some(end) = line_end(file.text, range.end) else {
        return Ok(None);
    };
    let lines = file.text.get(start..end).unwrap_or("");
    let mut source = String::new();
    for line in lines.split('\n') {
        if line.len() > MOST {
            return Ok(None);
        }
        source.push_str(line.strip_suffix('\r').unwrap_or(line));
        source.push('\n');
    }
    let number = if place.line <= u32::MAX as usize {
        place.line as u32
    } else {
        u32::MAX
    };
    Ok(Some(Excerpt {
        lines,
        start,
        number,
        source,
    }))
}

impl<'a> Excerpt<'a> {
    /// Returns the byte offset in the source of an offset of the file.
    #[inline(never)]
    fn offset(&self, offset: usize) -> usize {
        let at = offset.saturating_sub(self.start);
        let (front, _) = self.lines.split_at(self.lines.boundary_at_most(at));
        let mut crs = 0usize;
        for line in front.split('\n') {
            if line.ends_with('\r') {
                crs = crs.saturating_add(1);
            }
        }
        front.len().saturating_sub(crs)
    }

    /// Returns the byte range in the source of a range of the file.
    #[inline]
    fn range(&self, range: &Range<usize>) -> Range<usize> {
        self.offset(range.start)..self.offset(range.end)
    }

    /// Returns the labels of a finding.
    #[inline(never)]
    fn labels<'f>(&self, finding: &'f Finding) -> Result<Vec<SourceLabel<'f>>, AllocError> {
        let mut labels = Vec::new();
        for label in &finding.labels {
            labels.push(SourceLabel {
                span: self.range(&label.range),
                is_primary: label.is_primary,
                text: label.text.as_str(),
            });
        }
        Ok(labels)
    }

    /// Returns the ranges of the notes of a finding.
    #[inline(never)]
    fn note_ranges(&self, finding: &Finding) -> Result<Vec<Vec<Range<usize>>>, AllocError> {
        let mut all = Vec::new();
        for note in &finding.notes {
            let mut ranges = Vec::new();
            for range in &note.ranges {
                ranges.push(self.range(range));
            }
            all.push(ranges);
        }
        Ok(all)
    }

    /// Returns the edits of the help of a finding with these texts, or none.
    #[inline(never)]
    fn edits<'f>(
        &self,
        finding: &Finding,
        texts: &'f [String],
    ) -> Result<Vec<Edit<'f>>, AllocError> {
        let mut edits = Vec::new();
        if let Some(help) = &finding.help {
            for (edit, text) in help.edits.iter().zip(texts) {
                edits.push(Edit {
                    span: self.range(&edit.range),
                    text: text.as_str(),
                });
            }
        }
        Ok(edits)
    }
}

/// Returns a text with LF for CRLF.
#[inline(never)]
fn with_line_feeds(text: &str) -> Result<String, AllocError> {
    let mut out = String::new();
    let mut is_first = true;
    for part in text.split("\r\n") {
        if !is_first {
            out.push('\n');
        }
        is_first = false;
        out.push_str(part);
    }
    Ok(out)
}

/// Returns the new texts of the help of a finding, with LF for CRLF, or none.
#[inline(never)]
fn edit_texts(finding: &Finding) -> Result<Vec<String>, AllocError> {
    let mut texts = Vec::new();
    if let Some(help) = &finding.help {
        for edit in &help.edits {
            texts.push(with_line_feeds(edit.text.as_str())?);
        }
    }
    Ok(texts)
}

/// Returns the notes of a finding, with these ranges.
#[inline(never)]
fn notes<'f>(
    finding: &'f Finding,
    ranges: &'f [Vec<Range<usize>>],
) -> Result<Vec<SourceNote<'f>>, AllocError> {
    let mut notes = Vec::new();
    for (note, spans) in finding.notes.iter().zip(ranges) {
        notes.push(SourceNote {
            text: note.text.as_str(),
            spans: spans.as_slice(),
        });
    }
    Ok(notes)
}

/// Returns the help of a finding, with these edits, or none.
#[inline(never)]
fn helps<'f>(
    finding: &'f Finding,
    edits: &'f [Edit<'f>],
) -> Result<Vec<SourceHelp<'f>>, AllocError> {
    let mut helps = Vec::new();
    if let Some(help) = &finding.help {
        helps.push(SourceHelp {
            text: help.text.as_str(),
            edits,
        });
    }
    Ok(helps)
}

/// Returns the level of a finding.
#[inline]
fn level(finding: &Finding) -> Level {
    if finding.is_warning {
        Level::Warning
    } else {
        Level::Error
    }
}

/// Appends the drawing of a finding under these lines.
#[inline(never)]
fn put_drawn<'x>(
    out: &mut String,
    colours: bool,
    width: usize,
    path: &'x str,
    excerpt: &'x Excerpt<'_>,
    finding: &'x Finding,
) -> Result<(), AllocError> {
    let labels = excerpt.labels(finding)?;
    let ranges = excerpt.note_ranges(finding)?;
    let notes = notes(finding, ranges.as_slice())?;
    let texts = edit_texts(finding)?;
    let edits = excerpt.edits(finding, texts.as_slice())?;
    let helps = helps(finding, edits.as_slice())?;
    let picture = Picture {
        path,
        source: excerpt.source.as_str(),
        line_start: excerpt.number,
        literal_start: 0,
        width,
        colours,
    };
    let diagnostic = Diagnostic {
        level: level(finding),
        title: finding.title.as_str(),
        labels: labels.as_slice(),
        notes: notes.as_slice(),
        helps: helps.as_slice(),
    };
    put_labels(out, &picture, &diagnostic)
}

/// Appends the drawing of a finding, maybe in colours, and returns whether there is one: none is
/// made of more than 20 labels, of more than 4,096 bytes, or of a line with more than that.
#[inline(never)]
fn put_drawing(
    out: &mut String,
    colours: bool,
    width: usize,
    file: &File<'_>,
    finding: &Finding,
) -> Result<bool, AllocError> {
    if finding.labels.len() > MOST_LABELS {
        return Ok(false);
    }
    let Some(excerpt) = excerpt_of(file, &extent(finding))? else {
        return Ok(false);
    };
    put_drawn(out, colours, width, file.path, &excerpt, finding)?;
    Ok(true)
}

/// Appends a message in the form for people: drawn, maybe in colours, or else in a line.
pub fn put_human(
    out: &mut String,
    colours: bool,
    width: usize,
    file: &File<'_>,
    finding: &Finding,
    message: &Message<'_>,
) -> Result<(), AllocError> {
    if put_drawing(out, colours, width, file, finding)? {
        return Ok(());
    }
    put_short(out, message)
}
