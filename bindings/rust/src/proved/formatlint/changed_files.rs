//! The changes of a run in a file.

// Extracted from crates/formatlint/src/changed_files.rt by tools/extract: not to be edited.
// That source has the contracts, and is proved. That this text means the same is only tested.

use crate::proved::file_paths::shown_path;
use crate::proved::formatlint::attributes::{allowed_parts, Lint};
use crate::proved::formatlint::files::Run;
use crate::proved::formatlint::output::{write, write_shown};
use crate::proved::formatlint::own_rows::own_report;
use crate::proved::formatlint::reading::{Extent, Origin};
use crate::proved::formatlint::rewrites::{
    apply_certainly, apply_rewrite, may_call_others, RewrittenFile,
};
use crate::proved::lint_program::{replace, Change, Failure, LeftText};
use crate::proved::macro_owners::certain_table;
use crate::proved::manifest::FileRules;
use crate::proved::shown_text::{put_shown, Kind};
use crate::proved::source_report::Options;
use crate::proved::unified_diff::put_diff;
use crate::shim::alloc::AllocError;
use crate::shim::prelude::*;

/// Returns a file after a change with the report that also has the calls of its own macros.
#[inline(never)]
fn with_own_calls(
    text: &str,
    outcome: RewrittenFile,
    options: &Options<'_>,
) -> Result<RewrittenFile, AllocError> {
    let own = match &outcome.text {
        Some(new) => own_report(new.as_str(), options)?,
        None => own_report(text, options)?,
    };
    match own {
        Some(report) => Ok(RewrittenFile {
            text: outcome.text,
            fixes: outcome.fixes,
            calls: outcome.calls,
            has_inlines: outcome.has_inlines,
            report,
        }),
        None => Ok(outcome),
    }
}

impl<'a> Run<'a> {
    /// Writes the new text of a file where the request says. Returns whether that was done.
    #[inline(never)]
    fn put_rewritten(
        &mut self,
        rt: &crate::shim::host::HostRuntime,
        path: &str,
        origin: Origin<'_>,
        change: Change,
        old: &str,
        new: &str,
    ) -> Result<bool, Failure> {
        self.totals.clear_progress(rt);
        match change {
            Change::Diff => {
                let mut diff = String::new();
                put_diff(&mut diff, path, old, new)?;
                write_shown(rt, diff.as_bytes())?;
            }
            Change::Check => {
                let mut line = String::new();
                let path = shown_path(path)?;
                put_shown(&mut line, Kind::Line, path.as_str())?;
                line.push('\n');
                write(rt, line.as_str())?;
            }
            Change::Write => {
                let Origin::File(file) = origin else {
                    write_shown(rt, new.as_bytes())?;
                    return Ok(true);
                };
                if let Err(failure) = replace(rt, path, file, old.as_bytes(), new.as_bytes()) {
                    self.totals.fail_step(rt, path, &failure);
                    return Ok(failure.left == LeftText::New);
                }
            }
        }
        Ok(true)
    }

    /// Returns a text with what the request changes in it, in calls whose macro is known for
    /// certain. The sources of the package are read only if any call would change, and the facts of
    /// the file again only if those of the package with them leave a call in doubt. Where those of
    /// the package are read and leave one in doubt, calls are inlined by them at once.
    #[inline(never)]
    fn rewritten(
        &mut self,
        rt: &crate::shim::host::HostRuntime,
        path: &str,
        text: &str,
        origin: Origin<'_>,
        rules: FileRules,
    ) -> Result<RewrittenFile, AllocError> {
        let mut rewrite = self.request.rewrite;
        rewrite.inlines = rewrite.inlines
            && rules.may_inline
            && allowed_parts(text, Lint::Arguments)?.ranges.is_empty();
        if rewrite.inlines && !rewrite.fixes && self.leaves_doubt(text, rules) {
            return apply_certainly(text, &self.options, &self.sources.facts, rewrite);
        }
        let mut outcome = apply_rewrite(text, &self.options, rewrite)?;
        if outcome.text.is_none() {
            return Ok(outcome);
        }
        self.read_sources(rt, text, origin, rules)?;
        if rewrite.inlines && self.sources.allows_arguments {
            rewrite.inlines = false;
            outcome = apply_rewrite(text, &self.options, rewrite)?;
            if outcome.text.is_none() {
                return Ok(outcome);
            }
        }
        let is_known = rules.package.is_none() || self.sources.has_file(rt, path);
        let (options, facts) = (&self.options, &self.sources.facts);
        let table = certain_table(&options.table, facts, facts)?;
        if is_known && !may_call_others(text, &options.table, &table) {
            return Ok(outcome);
        }
        apply_certainly(text, options, facts, rewrite)
    }

    /// Changes a file that was read whole, and writes what the request wants of it.
    #[inline(never)]
    pub fn change_file(
        &mut self,
        rt: &crate::shim::host::HostRuntime,
        path: &str,
        text: &str,
        origin: Origin<'_>,
        change: Change,
        rules: FileRules,
    ) -> Result<(), Failure> {
        let rewritten = self.rewritten(rt, path, text, origin, rules)?;
        let mut outcome = with_own_calls(text, rewritten, &self.options)?;
        let is_source = matches!(origin, Origin::Stdin) && change == Change::Write;
        let new_text = outcome.text.take();
        let Some(new) = &new_text else {
            if is_source {
                write_shown(rt, text.as_bytes())?;
            }
            self.drop_unwanted(rt, text, origin, rules, &mut outcome.report)?;
            self.totals.add(&outcome.report);
            self.totals.add_inlinings(&outcome);
            return self.put_report(rt, path, text, Extent::Whole, &outcome.report);
        };
        if !self.put_rewritten(rt, path, origin, change, text, new.as_str())? {
            return self.report(rt, path, text, Extent::Whole, origin, rules);
        }
        self.drop_unwanted(rt, new.as_str(), origin, rules, &mut outcome.report)?;
        self.totals.add(&outcome.report);
        self.totals.add_inlinings(&outcome);
        self.totals.add_change(outcome.fixes);
        self.put_report(rt, path, new.as_str(), Extent::Whole, &outcome.report)
    }
}
