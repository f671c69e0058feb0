//! The values that placeholders refer to.

// Extracted from crates/inlined_arguments/src/values.rt by tools/extract: not to be edited.
// That source has the contracts, and is proved. That this text means the same is only tested.

use crate::proved::inlined_arguments::slots::{Slot, Value};
use crate::proved::rustc_parse_format::{Count, Position};
use crate::shim::alloc::AllocError;
use alloc::collections::BTreeMap;

/// A width or a precision.
#[derive(Clone, Copy)]
pub(crate) enum Amount<'a> {
    /// This number.
    Number(u16),
    /// A value, or `None` if it is an index that no argument has.
    ValueOf(Option<Value<'a>>),
    /// None.
    Absent,
}

/// The values of arguments.
pub(crate) struct Values<'s, 'a> {
    /// The slots of these.
    pub slots: &'s [Slot<'a>],
    /// The value of the last one with each name.
    pub named_values: BTreeMap<&'a str, Value<'a>>,
}

/// Returns the value that a map has for a name, or `None` if it has none.
#[inline]
fn found_in<'a>(named_values: &BTreeMap<&'a str, Value<'a>>, name: &'a str) -> Option<Value<'a>> {
    named_values.get(&name).copied()
}

/// Puts the value of a name into a map.
#[inline]
fn insert<'a>(
    named_values: &mut BTreeMap<&'a str, Value<'a>>,
    name: &'a str,
    value: Value<'a>,
) -> Result<(), AllocError> {
    named_values.insert(name, value);
    Ok(())
}

/// Returns the values of slots.
#[inline(never)]
pub(crate) fn values_of<'s, 'a>(slots: &'s [Slot<'a>]) -> Result<Values<'s, 'a>, AllocError> {
    let mut named_values = BTreeMap::new();
    for slot in slots {
        if let Some(name) = slot.name {
            insert(&mut named_values, name, slot.value)?;
        }
    }
    Ok(Values {
        slots,
        named_values,
    })
}

/// Returns the value of an index, or `None` if no argument has it.
fn value_at<'a>(values: &Values<'_, 'a>, index: usize) -> Option<Value<'a>> {
    match values.slots.get(index) {
        Some(slot) => Some(slot.value),
        None => None,
    }
}

/// Returns the value of a name: that of the argument with this name, or else the variable.
fn value_named<'a>(values: &Values<'_, 'a>, name: &'a str) -> Value<'a> {
    match found_in(&values.named_values, name) {
        Some(value) => value,
        None => Value::Variable(name),
    }
}

/// Returns the value of a position, or `None` if it is an index that no argument has.
#[inline(never)]
pub(crate) fn position_value<'a>(
    values: &Values<'_, 'a>,
    position: &Position<'a>,
) -> Option<Value<'a>> {
    match position {
        Position::ArgumentImplicitlyIs(n) | Position::ArgumentIs(n) => value_at(values, *n),
        Position::ArgumentNamed(name) => Some(value_named(values, name)),
    }
}

/// Returns the amount that a width or a precision is.
#[inline(never)]
pub(crate) fn amount_of<'a>(values: &Values<'_, 'a>, count: &Count<'a>) -> Amount<'a> {
    match count {
        Count::CountIs(n) => Amount::Number(*n),
        Count::CountIsParam(n) | Count::CountIsStar(n) => Amount::ValueOf(value_at(values, *n)),
        Count::CountIsName(name, _) => Amount::ValueOf(Some(value_named(values, name))),
        Count::CountImplied => Amount::Absent,
    }
}
