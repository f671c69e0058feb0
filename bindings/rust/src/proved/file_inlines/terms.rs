//! What inlining is asked to do, and what it relies on.

// Extracted from crates/file_inlines/src/terms.rt by tools/extract: not to be edited.
// That source has the contracts, and is proved. That this text means the same is only tested.

use crate::proved::file_inlines::calls::CallInlining;
use crate::proved::inlined_arguments::Obstacle;
use crate::proved::macro_owners::{is_certain, Facts};

/// What is known of the compiler of a file, and of names of macros.
#[derive(Clone, Copy)]
pub(crate) struct Premises<'f> {
    /// Whether the compiler captures variables in format strings.
    pub captures_variables: bool,
    /// What the files of the package say of names.
    pub package_facts: &'f Facts,
    /// What the file says of names.
    pub file_facts: &'f Facts,
}

/// Which calls are inlined.
#[derive(Clone, Copy)]
pub(crate) struct Terms<'f> {
    /// Whether a call is that has other arguments too: these stay.
    pub allows_mixed: bool,
    /// What is known, or `None` where the compiler is taken to capture variables, and each macro to
    /// be that of its row.
    pub premises: Option<Premises<'f>>,
}

impl<'f> Terms<'f> {
    /// Returns the reason why a call of a macro of this name is left that could be inlined, or
    /// `None` if it is inlined.
    #[inline(never)]
    pub(crate) fn reason(self, name: &[u8]) -> Option<CallInlining> {
        let Some(premises) = self.premises else {
            return None;
        };
        if !premises.captures_variables {
            Some(CallInlining::Unchanged(Obstacle::CapturesNone))
        } else if is_certain(premises.package_facts, premises.file_facts, name) {
            None
        } else {
            Some(CallInlining::Uncertain)
        }
    }
}

/// Returns whether a call is inlined.
#[inline]
pub(crate) fn is_inlined(inlining: CallInlining) -> bool {
    matches!(inlining, CallInlining::Inlined)
}
