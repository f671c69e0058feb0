//! Finds the tokens that are out of place, as `marked` says.

// Extracted from crates/format_tokens/src/culprits.rt by tools/extract: not to be edited.
// That source has the contracts, and is proved. That this text means the same is only tested.

use crate::proved::format_tokens::kinds::{Kind, Label};

/// The part of a token among those of a placeholder.
#[derive(Clone, Copy)]
pub enum Role {
    /// An opening brace that stands alone.
    OpenBrace,
    /// A closing brace that stands alone.
    CloseBrace,
    /// Text or a doubled brace.
    Text,
    /// The name of an argument, or a token in its place.
    Name,
    /// A number.
    Number,
    /// Text after a colon.
    Message,
    /// Anything else.
    Other,
}

/// Returns the role of a kind.
#[inline(never)]
pub fn role_of(kind: Kind) -> Role {
    match kind {
        Kind::OpenBrace => Role::OpenBrace,
        Kind::CloseBrace => Role::CloseBrace,
        Kind::Text | Kind::EscapedBrace => Role::Text,
        Kind::Identifier | Kind::RawPrefix | Kind::Unexpected => Role::Name,
        Kind::Integer => Role::Number,
        Kind::DiagnosticText => Role::Message,
        Kind::Whitespace
        | Kind::Colon
        | Kind::Fill
        | Kind::Alignment
        | Kind::Sign
        | Kind::NumberSign
        | Kind::Zero
        | Kind::DollarSign
        | Kind::Dot
        | Kind::Asterisk
        | Kind::Type
        | Kind::Modifier
        | Kind::Quote
        | Kind::EscapeSequence => Role::Other,
    }
}

/// Returns whether the first brace that stands alone is a closing one.
#[inline(never)]
fn closes(labels: &[Label]) -> bool {
    for label in labels {
        match role_of(label.kind) {
            Role::OpenBrace => return false,
            Role::CloseBrace => return true,
            Role::Text | Role::Name | Role::Number | Role::Message | Role::Other => {}
        }
    }
    false
}

/// Returns whether a role is that of an argument.
fn is_argument(role: Role) -> bool {
    match role {
        Role::Name | Role::Number => true,
        Role::OpenBrace | Role::CloseBrace | Role::Text | Role::Message | Role::Other => false,
    }
}

/// Returns whether the first token is that of an argument.
fn has_argument(labels: &[Label]) -> bool {
    !labels.is_empty() && is_argument(role_of(labels[0].kind))
}

/// Returns whether a token is in place before `others`. `needs_names` says that only names are
/// accepted, `is_inside` that the token is inside a pair of braces.
#[inline(never)]
pub fn fits(needs_names: bool, is_inside: bool, role: Role, others: &[Label]) -> bool {
    match role {
        Role::OpenBrace => closes(others) && (!needs_names || has_argument(others)),
        Role::CloseBrace => is_inside,
        Role::Text => !is_inside,
        Role::Number | Role::Message => !needs_names,
        Role::Name | Role::Other => true,
    }
}

/// Returns the kind of a token that is in place or not.
#[inline]
pub fn marked_kind(kind: Kind, is_in_place: bool) -> Kind {
    if is_in_place {
        kind
    } else {
        Kind::Unexpected
    }
}

/// Returns whether the tokens after one of this role are inside a pair of braces. `is_inside` says
/// that it is inside one, `is_in_place` that it is in place.
pub fn inside_after(is_inside: bool, is_in_place: bool, role: Role) -> bool {
    match role {
        Role::OpenBrace => is_in_place,
        Role::CloseBrace => false,
        Role::Text | Role::Name | Role::Number | Role::Message | Role::Other => is_inside,
    }
}
