//! The totals of a run over files, and the lines about it on standard error.

// Extracted from crates/formatlint/src/totals.rt by tools/extract: not to be edited.
// That source has the contracts, and is proved. That this text means the same is only tested.

use crate::proved::file_paths::shown_path;
use crate::proved::format_calls::Reason;
use crate::proved::formatlint::inlinings::{Inlinings, NO_CALLS};
use crate::proved::formatlint::rewrites::RewrittenFile;
use crate::proved::lint_program::{
    put_failure, put_place_failure, system_words, LeftText, Progress, StepFailure,
};
use crate::proved::manifest::{ManifestFailure, ManifestFault, Misfit};
use crate::proved::piece_listing::verdict::RunFault;
use crate::proved::rust_trees::Place;
use crate::proved::source_report::{CallReading, Report};
use crate::shim::alloc::AllocError;
use crate::shim::prelude::*;
use std::io;

/// The numbers of calls whose format string was not read, by the reason.
struct UnreadCalls {
    missing_strings: usize,
    edition: usize,
    variable: usize,
    suffix: usize,
    inner_macros: usize,
    expression: usize,
    empty_arguments: usize,
    joined_arguments: usize,
    redefined_macros: usize,
    foreign_macros: usize,
    malformed_literals: usize,
}

/// The numbers of files, calls, faults and failures of a run.
pub struct Totals {
    /// The number of files that were read, at least in part.
    pub files: usize,
    calls: usize,
    whole_calls: usize,
    lone_strings: usize,
    unread_calls: UnreadCalls,
    /// The number of faults that were found.
    pub faults: usize,
    /// The number of warnings that were found.
    pub warnings: usize,
    /// The number of files that are changed.
    pub changed_files: usize,
    /// The number of faults and warnings that are fixed.
    fixed_faults: usize,
    inlinings: Inlinings,
    /// The number of files and folders, or parts of them, that could not be read.
    pub failures: usize,
    progress: Progress,
}

/// Adds one.
#[inline]
fn count(number: &mut usize) {
    *number = number.saturating_add(1);
}

/// Returns the plural of a noun, unless there is one.
#[inline]
fn plural_ending(number: usize) -> &'static str {
    if number == 1 {
        ""
    } else {
        "s"
    }
}

/// Appends the line that says which step of the writing of the file with this path failed, and
/// where its old text is.
#[inline(never)]
fn put_step(out: &mut String, path: &str, failure: &StepFailure) -> Result<(), AllocError> {
    let state = match failure.left {
        LeftText::Old => "not written",
        LeftText::New => "written, but",
        LeftText::Part => "not written whole",
    };
    let step = failure.step;
    let mut reason = ::alloc::format!("{state}: {step}");
    if let Some(error) = &failure.error {
        let words = ::alloc::format!("{error}");
        reason.push_str(": ");
        reason.push_str(system_words(words.as_str()));
    }
    if let Some(old_path) = &failure.old_path {
        reason.push_str("; its old text is in ");
        reason.push_str(shown_path(old_path.as_str())?.as_str());
    } else if failure.left == LeftText::Part {
        reason.push_str("; its old text is lost");
    }
    let path = shown_path(path)?;
    put_failure(out, path.as_str(), RunFault::Write, reason.as_str())
}

/// Appends the line that says why the file or folder with this path was not read.
#[inline(never)]
fn put_words(out: &mut String, path: &str, words: &str) -> Result<(), AllocError> {
    let (path, words) = (shown_path(path)?, shown_path(words)?);
    put_failure(out, path.as_str(), RunFault::Read, words.as_str())
}

/// Appends the line that says why the file with this path was not read from a place on.
fn put_place(out: &mut String, path: &str, place: Place, words: &str) -> Result<(), AllocError> {
    let path = shown_path(path)?;
    put_place_failure(out, path.as_str(), place, words)
}

/// Returns the words for a key of a manifest whose value is none.
fn misfit_words(misfit: Misfit) -> &'static str {
    match misfit {
        Misfit::Edition => "unknown edition",
        Misfit::RustVersion => "unknown version of Rust",
        Misfit::Workspace => "its workspace lacks a value that it refers to",
    }
}

/// Writes how many calls there are for each reason, if there is one.
fn show_rows(rt: &crate::shim::host::HostRuntime, rows: &[(usize, &'static str)]) {
    for (number, reason) in rows {
        if *number > 0 {
            let _ = crate::shim::eprintln_in!(rt; "  {reason}: {number}");
        }
    }
}

impl UnreadCalls {
    /// Counts a call.
    #[inline(never)]
    fn add(&mut self, reason: Reason) {
        match reason {
            Reason::NoArgument => count(&mut self.missing_strings),
            Reason::Edition => count(&mut self.edition),
            Reason::Variable => count(&mut self.variable),
            Reason::Suffix => count(&mut self.suffix),
            Reason::Macro => count(&mut self.inner_macros),
            Reason::Expression => count(&mut self.expression),
        }
    }

    /// Returns how many calls there are for each reason, with the reason.
    #[inline(never)]
    fn rows(&self) -> [(usize, &'static str); 11] {
        [
            (self.missing_strings, "no format string"),
            (self.edition, "a lone message, before the edition 2021"),
            (self.redefined_macros, "the file defines the macro"),
            (self.foreign_macros, "a path of another crate"),
            (self.variable, "a variable of a macro"),
            (self.inner_macros, "a macro inside"),
            (self.expression, "another expression"),
            (self.suffix, "a literal with a suffix"),
            (self.empty_arguments, "no expression before a comma"),
            (self.joined_arguments, "no comma between two expressions"),
            (self.malformed_literals, "a literal with a wrong escape"),
        ]
    }
}

impl Totals {
    /// Returns the totals of a run that begins now.
    #[inline(never)]
    pub fn new(rt: &crate::shim::host::HostRuntime) -> Totals {
        Totals {
            files: 0,
            calls: 0,
            whole_calls: 0,
            lone_strings: 0,
            unread_calls: UnreadCalls {
                missing_strings: 0,
                edition: 0,
                variable: 0,
                suffix: 0,
                inner_macros: 0,
                expression: 0,
                empty_arguments: 0,
                joined_arguments: 0,
                redefined_macros: 0,
                foreign_macros: 0,
                malformed_literals: 0,
            },
            faults: 0,
            warnings: 0,
            changed_files: 0,
            fixed_faults: 0,
            inlinings: NO_CALLS,
            failures: 0,
            progress: Progress::new(rt),
        }
    }

    /// Shows on a terminal how many files were read, from time to time.
    #[inline]
    pub fn show_progress(&mut self, rt: &crate::shim::host::HostRuntime) {
        self.progress.show(rt, self.files);
    }

    /// Removes the line of the progress, before other text is written.
    #[inline]
    pub fn clear_progress(&mut self, rt: &crate::shim::host::HostRuntime) {
        self.progress.clear(rt);
    }

    /// Counts a call.
    #[inline(never)]
    fn add_call(&mut self, reading: CallReading) {
        count(&mut self.calls);
        match reading {
            CallReading::Whole => count(&mut self.whole_calls),
            CallReading::StringAlone => count(&mut self.lone_strings),
            CallReading::RedefinedMacro => count(&mut self.unread_calls.redefined_macros),
            CallReading::ForeignMacro => count(&mut self.unread_calls.foreign_macros),
            CallReading::NoExpression => count(&mut self.unread_calls.empty_arguments),
            CallReading::NoComma => count(&mut self.unread_calls.joined_arguments),
            CallReading::Malformed => count(&mut self.unread_calls.malformed_literals),
            CallReading::Unread(reason) => self.unread_calls.add(reason),
        }
    }

    /// Counts a file, its calls, and the faults and warnings in it.
    #[inline(never)]
    pub fn add(&mut self, report: &Report) {
        count(&mut self.files);
        for call in &report.calls {
            self.add_call(*call);
        }
        for finding in &report.findings {
            if finding.is_warning {
                count(&mut self.warnings);
            } else {
                count(&mut self.faults);
            }
        }
    }

    /// Counts what inlining makes of the calls of a file.
    #[inline]
    pub fn add_inlinings(&mut self, file: &RewrittenFile) {
        self.inlinings.add(file);
    }

    /// Counts a changed file, and how many faults and warnings are fixed in it.
    pub fn add_change(&mut self, fixes: usize) {
        count(&mut self.changed_files);
        self.fixed_faults = self.fixed_faults.saturating_add(fixes);
    }

    /// Counts a failure, and writes to standard error which step of the writing of the file with
    /// this path failed.
    #[inline(never)]
    pub fn fail_step(
        &mut self,
        rt: &crate::shim::host::HostRuntime,
        path: &str,
        failure: &StepFailure,
    ) {
        count(&mut self.failures);
        self.progress.clear(rt);
        let mut out = String::new();
        let _ = match put_step(&mut out, path, failure) {
            Ok(()) => rt.eprint(out.as_str()),
            Err(_) => rt.eprintln("formatlint: out of memory"),
        };
    }

    /// Writes a line about the file or folder with this path to standard error.
    #[inline(never)]
    fn show_words(&mut self, rt: &crate::shim::host::HostRuntime, path: &str, words: &str) {
        self.progress.clear(rt);
        let mut out = String::new();
        let _ = match put_words(&mut out, path, words) {
            Ok(()) => rt.eprint(out.as_str()),
            Err(_) => rt.eprintln("formatlint: out of memory"),
        };
    }

    /// Counts a failure, and writes to standard error why the file or folder with this path was not
    /// read, in the words of the system.
    #[inline(never)]
    pub fn fail(&mut self, rt: &crate::shim::host::HostRuntime, path: &str, error: &io::Error) {
        match crate::shim::try_format!("{error}") {
            Ok(words) => self.fail_for(rt, path, system_words(words.as_str())),
            Err(_) => self.fail_for(rt, path, "out of memory"),
        }
    }

    /// Counts a failure, and writes to standard error why the file or folder with this path was not
    /// read.
    pub fn fail_for(&mut self, rt: &crate::shim::host::HostRuntime, path: &str, reason: &str) {
        count(&mut self.failures);
        self.show_words(rt, path, reason);
    }

    /// Writes to standard error that a file has the old text of another one. That is no failure.
    #[inline(never)]
    pub fn show_old_text(&mut self, rt: &crate::shim::host::HostRuntime, path: &str, name: &str) {
        let words = crate::shim::try_format!(
            "has the old text of {name}: a run of formatlint is writing that file, or was ended"
        );
        match words {
            Ok(words) => self.show_words(rt, path, words.as_str()),
            Err(_) => self.show_words(rt, path, "has the old text of a file"),
        }
    }

    /// Counts a failure, and writes to standard error why a file was not read from a place on.
    #[inline(never)]
    pub fn fail_at(
        &mut self,
        rt: &crate::shim::host::HostRuntime,
        path: &str,
        place: Place,
        reason: &str,
    ) {
        count(&mut self.failures);
        self.progress.clear(rt);
        let mut out = String::new();
        let _ = match put_place(&mut out, path, place, reason) {
            Ok(()) => rt.eprint(out.as_str()),
            Err(_) => rt.eprintln("formatlint: out of memory"),
        };
    }

    /// Counts a failure, and writes to standard error why a manifest was not understood.
    #[inline(never)]
    pub fn fail_manifest(
        &mut self,
        rt: &crate::shim::host::HostRuntime,
        failure: &ManifestFailure,
    ) {
        let path = failure.path.as_str();
        match &failure.fault {
            ManifestFault::System(error) => self.fail(rt, path, error),
            ManifestFault::Encoding(place) => self.fail_at(rt, path, *place, "not UTF-8"),
            ManifestFault::Syntax(place) => self.fail_at(rt, path, *place, "not TOML"),
            ManifestFault::Length => self.fail_for(rt, path, "longer than 4 MiB"),
            ManifestFault::Misfit(misfit) => self.fail_for(rt, path, misfit_words(*misfit)),
        }
    }

    /// Returns how many format strings were read.
    #[inline]
    fn strings(&self) -> usize {
        self.whole_calls.saturating_add(self.lone_strings)
    }

    /// Writes how many faults are fixed and calls are inlined, and in how many files.
    #[inline(never)]
    fn show_changes(&self, rt: &crate::shim::host::HostRuntime, is_preview: bool) {
        let (faults, calls, files) = (
            self.fixed_faults,
            self.inlinings.inlined_calls,
            self.changed_files,
        );
        let mut sign = ",";
        if faults > 0 {
            let word = if is_preview { "to fix" } else { "fixed" };
            let _ = crate::shim::eprint_in!(rt; " left, {faults} {word}");
            sign = " and";
        }
        if calls > 0 {
            let call_ending = plural_ending(calls);
            let word = if is_preview { "to inline" } else { "inlined" };
            let _ = crate::shim::eprint_in!(rt; "{sign} {calls} call{call_ending} {word}");
        }
        let file_ending = plural_ending(files);
        let _ = crate::shim::eprint_in!(rt; " in {files} file{file_ending}");
    }

    /// Writes how many files and format strings were read, how many faults were found, and what is
    /// changed, or is to be changed where no file is written.
    #[inline(never)]
    pub fn sum_up(&self, rt: &crate::shim::host::HostRuntime, is_preview: bool) {
        let (files, strings, faults) = (self.files, self.strings(), self.faults);
        let (file_ending, string_ending) = (plural_ending(files), plural_ending(strings));
        let fault_ending = plural_ending(faults);
        let _ = crate::shim::eprint_in!(rt; "{files} file{file_ending}, {strings} format string{string_ending}: ");
        let _ = crate::shim::eprint_in!(rt; "{faults} fault{fault_ending}");
        if self.warnings > 0 {
            let warnings = self.warnings;
            let warning_ending = plural_ending(warnings);
            let _ = crate::shim::eprint_in!(rt; ", {warnings} warning{warning_ending}");
        }
        if self.changed_files > 0 {
            self.show_changes(rt, is_preview);
        }
        let _ = rt.eprintln("");
    }

    /// Writes how many calls of known macros there are, and why strings were not read.
    #[inline(never)]
    pub fn show_counts(&self, rt: &crate::shim::host::HostRuntime) {
        let (files, calls, strings) = (self.files, self.calls, self.strings());
        let _ = crate::shim::eprintln_in!(rt; "files: {files}");
        let _ = crate::shim::eprintln_in!(rt; "calls of known macros: {calls}");
        let _ = crate::shim::eprintln_in!(rt; "format strings that were read: {strings}");
        if self.lone_strings > 0 {
            let count = self.lone_strings;
            let _ = crate::shim::eprintln_in!(rt; "  without their arguments, whose number is not known: {count}");
        }
        let count = calls.saturating_sub(strings);
        let _ = crate::shim::eprintln_in!(rt; "calls whose format string was not read: {count}");
        show_rows(rt, &self.unread_calls.rows());
    }

    /// Writes how many calls are inlined, and why the others that were read are left.
    #[inline(never)]
    pub fn show_inlinings(&self, rt: &crate::shim::host::HostRuntime) {
        let count = self.inlinings.inlined_calls;
        let rows = self.inlinings.rows();
        let mut sum = 0usize;
        for (number, _) in rows {
            sum = sum.saturating_add(number);
        }
        let _ = crate::shim::eprintln_in!(rt; "calls that are inlined: {count}");
        let _ = crate::shim::eprintln_in!(rt; "calls that are left as they are: {sum}");
        show_rows(rt, &rows);
    }
}
