//! The run over files and folders.

// Extracted from crates/formatlint/src/files.rt by tools/extract: not to be edited.
// That source has the contracts, and is proved. That this text means the same is only tested.

use crate::proved::emit::{put_end, put_finding, put_start, File, Form};
use crate::proved::file_paths::shown_path;
use crate::proved::format_calls::Table;
use crate::proved::formatlint::output::{write, write_shown};
use crate::proved::formatlint::own_rows::file_report;
use crate::proved::formatlint::package_sources::PackageSources;
use crate::proved::formatlint::reading::{
    break_words, open_source, read_all, text_of, Extent, FileText, Origin, SourceFile,
};
use crate::proved::formatlint::rewrites::Rewrite;
use crate::proved::formatlint::totals::Totals;
use crate::proved::formatlint::walk::Walk;
use crate::proved::lint_program::{is_option, print_hint, Change, Failure};
use crate::proved::manifest::{FileRules, Packages};
use crate::proved::rust_trees::Places;
use crate::proved::source_report::{Options, Report};
use crate::shim::host::fs;
use crate::shim::prelude::*;

/// The number of bytes of messages above which they are written, although more may come.
const CHUNK: usize = 1 << 16;

/// A request to read files and folders.
pub struct Request<'a> {
    /// The paths of files and folders.
    pub paths: &'a [&'a str],
    /// The names of files and folders to leave out.
    pub excluded_names: &'a [&'a str],
    /// The path that is shown for standard input.
    pub stdin_path: Option<&'a str>,
    /// The form of messages.
    pub form: Form,
    /// The edition, or `None` for that of each package.
    pub edition: Option<&'a str>,
    /// What is changed in files.
    pub rewrite: Rewrite,
    /// What is done with files that change, or `None` if none is to be changed.
    pub change: Option<Change>,
    /// The version of the program.
    pub version: &'a str,
}

/// A run.
pub struct Run<'a> {
    pub request: &'a Request<'a>,
    /// The macros that are read, and the edition of the last file.
    pub options: Options<'a>,
    pub packages: Packages,
    /// What the sources of the package of the last file say, if that mattered.
    pub sources: PackageSources,
    /// The macros that these sources leave in no doubt in a file that says nothing of names.
    pub certain: Table<'a>,
    pub totals: Totals,
    /// The text that is still to be written.
    out: String,
    /// Whether there was a message.
    has_messages: bool,
    /// Whether messages are written to standard error.
    is_aside: bool,
}

impl<'a> Run<'a> {
    /// Writes the text that is still to be written.
    #[inline(never)]
    fn flush(&mut self, rt: &crate::shim::host::HostRuntime) -> Result<(), Failure> {
        if !self.out.is_empty() {
            self.totals.clear_progress(rt);
            if self.is_aside {
                let _ = rt.eprint(self.out.as_str());
            } else {
                write(rt, self.out.as_str())?;
            }
            self.out.clear();
        }
        Ok(())
    }

    /// Appends the messages of a file, and writes them from time to time.
    #[inline(never)]
    fn put_findings<'x>(
        &mut self,
        rt: &crate::shim::host::HostRuntime,
        file: &'x File<'x>,
        report: &'x Report,
    ) -> Result<(), Failure> {
        for finding in &report.findings {
            let is_first = !self.has_messages;
            put_finding(&mut self.out, self.request.form, is_first, file, finding)?;
            self.has_messages = true;
            if self.out.len() > CHUNK {
                self.flush(rt)?;
            }
        }
        Ok(())
    }
}

/// Adds a failure to the totals if a file was not read to its end.
#[inline(never)]
fn add_break(
    rt: &crate::shim::host::HostRuntime,
    totals: &mut Totals,
    file: &File<'_>,
    extent: Extent,
    report: &Report,
) {
    let end = file.places.place_of(file.text.len());
    match extent {
        Extent::Text => totals.fail_at(rt, file.path, end, "not UTF-8"),
        Extent::Front => totals.fail_at(rt, file.path, end, "longer than 64 MiB"),
        Extent::Whole => {
            if let Some(first_break) = &report.first_break {
                let start = file.text.boundary_at_most(first_break.start);
                let place = file.places.place_of(start);
                totals.fail_at(rt, file.path, place, break_words(first_break.kind));
            }
        }
    }
}

impl<'a> Run<'a> {
    /// Writes the messages of a report on a file, of which this extent was read.
    #[inline(never)]
    pub fn put_report<'x>(
        &mut self,
        rt: &crate::shim::host::HostRuntime,
        path: &'x str,
        text: &'x str,
        extent: Extent,
        report: &'x Report,
    ) -> Result<(), Failure> {
        let is_broken = report.first_break.is_some() || !matches!(extent, Extent::Whole);
        if report.findings.is_empty() && !is_broken {
            return Ok(());
        }
        let shown_path = shown_path(path)?;
        let file = File {
            // A URI has the bytes of a path.
            path: match self.request.form {
                Form::Sarif => path,
                _ => shown_path.as_str(),
            },
            text,
            places: Places::new(text)?,
        };
        if !matches!(self.request.change, Some(Change::Diff | Change::Check)) {
            self.put_findings(rt, &file, report)?;
            self.flush(rt)?;
        }
        add_break(rt, &mut self.totals, &file, extent, report);
        Ok(())
    }

    /// Reads a text of a file, and writes the messages about it.
    #[inline(never)]
    pub fn report(
        &mut self,
        rt: &crate::shim::host::HostRuntime,
        path: &str,
        text: &str,
        extent: Extent,
        origin: Origin<'_>,
        rules: FileRules,
    ) -> Result<(), Failure> {
        let mut report = file_report(text, &self.options)?;
        self.drop_unwanted(rt, text, origin, rules, &mut report)?;
        self.totals.add(&report);
        self.put_report(rt, path, text, extent, &report)
    }

    /// Returns what the project says of a file. The reason why its manifest was not understood is
    /// written, the first time.
    #[inline(never)]
    fn rules(
        &mut self,
        rt: &crate::shim::host::HostRuntime,
        path: &str,
    ) -> Result<FileRules, Failure> {
        let rules = match self.packages.rules(rt, path) {
            Ok(rules) => rules,
            Err(error) => return Err(Failure::new(error)),
        };
        if let Some(failure) = self.packages.new_failure(rules) {
            self.totals.fail_manifest(rt, failure);
        }
        Ok(rules)
    }

    /// Reads the bytes of a file, and writes the messages about it.
    #[inline(never)]
    fn lint(
        &mut self,
        rt: &crate::shim::host::HostRuntime,
        path: &str,
        bytes: &[u8],
        origin: Origin<'_>,
    ) -> Result<(), Failure> {
        let FileText { text, extent } = text_of(bytes);
        let rules = self.rules(rt, path)?;
        self.options.is_from_2021 = rules.edition.is_from_2021();
        let Some(change) = self.request.change else {
            return self.report(rt, path, text, extent, origin, rules);
        };
        match extent {
            Extent::Whole if rules.may_write => {
                self.change_file(rt, path, text, origin, change, rules)
            }
            Extent::Whole | Extent::Text
                if matches!(origin, Origin::Stdin) && change == Change::Write =>
            {
                write_shown(rt, bytes)?;
                self.report(rt, path, text, extent, origin, rules)
            }
            _ => self.report(rt, path, text, extent, origin, rules),
        }
    }

    /// Reads standard input.
    #[inline(never)]
    fn lint_stdin(&mut self, rt: &crate::shim::host::HostRuntime) -> Result<(), Failure> {
        print_hint(rt);
        let path = self.request.stdin_path.unwrap_or("<stdin>");
        match read_all(rt, rt.stdin()) {
            Ok(bytes) => self.lint(rt, path, bytes.as_slice(), Origin::Stdin),
            Err(error) => {
                self.totals.fail(rt, path, &error);
                Ok(())
            }
        }
    }

    /// Reads a file, which a walk found or the request names.
    #[inline(never)]
    fn lint_file(
        &mut self,
        rt: &crate::shim::host::HostRuntime,
        path: &str,
        walk: Option<&Walk<'_>>,
    ) -> Result<(), Failure> {
        match open_source(rt, path, walk) {
            Ok(Some(SourceFile { file, bytes })) => {
                self.lint(rt, path, bytes.as_slice(), Origin::File(&file))
            }
            Ok(None) => {
                self.totals.fail_for(rt, path, "another program moved it");
                Ok(())
            }
            Err(error) => {
                self.totals.fail(rt, path, &error);
                Ok(())
            }
        }
    }

    /// Reads the files below a folder.
    #[inline(never)]
    fn lint_folder(
        &mut self,
        rt: &crate::shim::host::HostRuntime,
        path: &str,
    ) -> Result<(), Failure> {
        let mut walk = Walk::new(rt, path, self.request.excluded_names)?;
        if let Err(error) = self.packages.enter(rt, path) {
            return Err(Failure::new(error));
        }
        for _ in 0..u64::MAX {
            match walk.next(rt, &mut self.totals)? {
                Some(path) => self.lint_file(rt, path.as_str(), Some(&walk))?,
                None => break,
            }
            self.totals.show_progress(rt);
        }
        self.packages.leave();
        Ok(())
    }

    /// Reads a file or a folder, or standard input.
    #[inline(never)]
    fn lint_path(
        &mut self,
        rt: &crate::shim::host::HostRuntime,
        path: &str,
    ) -> Result<(), Failure> {
        if path == "-" {
            return self.lint_stdin(rt);
        }
        match fs::metadata(rt, path) {
            Ok(data) if data.is_dir() => self.lint_folder(rt, path),
            Ok(_) => self.lint_file(rt, path, None),
            Err(error) => {
                self.totals.fail(rt, path, &error);
                if is_option(path) {
                    let _ = crate::shim::eprintln_in!(rt; "  = help: an option begins with two dashes: --{path}");
                }
                Ok(())
            }
        }
    }

    /// Reads all paths of the request.
    #[inline(never)]
    fn lint_all(&mut self, rt: &crate::shim::host::HostRuntime) -> Result<(), Failure> {
        put_start(&mut self.out, self.request.form, self.request.version)?;
        self.flush(rt)?;
        let paths = self.request.paths;
        if paths.is_empty() && self.request.stdin_path.is_some() {
            self.lint_stdin(rt)?;
        } else if paths.is_empty() {
            self.lint_folder(rt, "")?;
        }
        for path in paths {
            self.lint_path(rt, path)?;
            self.totals.show_progress(rt);
        }
        put_end(&mut self.out, self.request.form, self.totals.failures == 0)?;
        self.totals.clear_progress(rt);
        self.flush(rt)
    }
}

/// Returns whether standard output has the new source of standard input, so that messages are
/// written to standard error.
#[inline(never)]
fn is_aside(request: &Request<'_>) -> bool {
    let is_stdin_read =
        request.paths.contains(&"-") || request.paths.is_empty() && request.stdin_path.is_some();
    is_stdin_read && request.change.is_some()
}

/// Reads all paths of a request, and writes the messages about them. Returns the totals, even if
/// the run ended with a failure.
#[inline(never)]
pub fn lint<'a>(
    rt: &crate::shim::host::HostRuntime,
    request: &'a Request<'a>,
    options: Options<'a>,
) -> (Totals, Result<(), Failure>) {
    let mut run = Run {
        request,
        options,
        packages: Packages::new(rt, request.edition, request.rewrite.inlines),
        sources: PackageSources::new(rt),
        certain: Table { rows: Vec::new() },
        totals: Totals::new(rt),
        out: String::new(),
        has_messages: false,
        is_aside: is_aside(request),
    };
    let result = run.lint_all(rt);
    (run.totals, result)
}
