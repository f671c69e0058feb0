//! Arguments as places for values.

// Extracted from crates/inlined_arguments/src/slots.rt by tools/extract: not to be edited.
// That source has the contracts, and is proved. That this text means the same is only tested.

use crate::proved::call_faults::FormatArgument;
use crate::proved::inlined_arguments::call::Argument;
use crate::proved::inlined_arguments::variables::variable;
use crate::shim::alloc::AllocError;
use crate::shim::prelude::*;

/// The value that a part of a placeholder refers to.
#[derive(Clone, Copy)]
pub(crate) enum Value<'a> {
    /// The variable of this name.
    Variable(&'a str),
    /// An argument that is no variable, with its index among those that are none.
    Expression(usize),
}

/// An argument as a place for a value.
#[derive(Clone, Copy)]
pub(crate) struct Slot<'a> {
    /// Its name.
    pub name: Option<&'a str>,
    /// Its value.
    pub value: Value<'a>,
}

/// Returns the value of an argument with this index among those that are no variables.
fn slot_value<'a>(argument: &Argument<'a>, index: usize) -> Value<'a> {
    match variable(argument) {
        Some(name) => Value::Variable(name),
        None => Value::Expression(index),
    }
}

/// Returns whether a value is no variable.
#[inline]
fn is_expression(value: Value<'_>) -> bool {
    matches!(value, Value::Expression(_))
}

/// Returns the slots of arguments.
#[inline(never)]
pub(crate) fn slots<'a>(arguments: &[Argument<'a>]) -> Result<Vec<Slot<'a>>, AllocError> {
    let mut slots = Vec::new();
    let mut kept_count = 0;
    for argument in arguments {
        let value = slot_value(argument, kept_count);
        slots.push(Slot {
            name: argument.name,
            value,
        });
        if is_expression(value) {
            kept_count += 1;
        }
    }
    Ok(slots)
}

/// Returns the slots that stay: those of arguments that are no variables.
pub(crate) fn expression_slots<'a>(slots: &[Slot<'a>]) -> Result<Vec<Slot<'a>>, AllocError> {
    let mut list = Vec::new();
    for slot in slots {
        if is_expression(slot.value) {
            list.push(*slot);
        }
    }
    Ok(list)
}

/// Returns slots as the arguments of a call.
#[inline(never)]
pub(crate) fn givens<'a>(slots: &[Slot<'a>]) -> Result<Vec<FormatArgument<'a>>, AllocError> {
    let mut arguments = Vec::new();
    for slot in slots {
        arguments.push(FormatArgument {
            name: slot.name,
            variable: None,
        });
    }
    Ok(arguments)
}
