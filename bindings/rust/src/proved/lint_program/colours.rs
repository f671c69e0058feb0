//! The choice whether the output is in colours.

// Extracted from crates/lint_program/src/colours.rt by tools/extract: not to be edited.
// That source has the contracts, and is proved. That this text means the same is only tested.

/// The value of `--color`: when the output is in colours.
#[derive(Clone, Copy, Debug, Eq, PartialEq)]
pub enum ColourChoice {
    /// If the output is a terminal that has them.
    Auto,
    /// Always.
    Always,
    /// Never.
    Never,
}

/// Returns whether colours are wanted, by whether the output is a terminal and by the values of the
/// variables `NO_COLOR` and `TERM`. With `Auto` they are if the output is a terminal, `NO_COLOR` is
/// unset or empty, and `TERM` is set and not `dumb`.
#[inline(never)]
pub fn wants_colours(
    choice: ColourChoice,
    is_terminal: bool,
    no_color: Option<&str>,
    term: Option<&str>,
) -> bool {
    match choice {
        ColourChoice::Always => true,
        ColourChoice::Never => false,
        ColourChoice::Auto => {
            is_terminal
                && no_color.map_or(true, |word| word.is_empty())
                && term.map_or(false, |word| word != "dumb")
        }
    }
}
