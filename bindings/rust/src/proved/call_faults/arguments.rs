//! The list of arguments of a call.

// Extracted from crates/call_faults/src/arguments.rt by tools/extract: not to be edited.
// That source has the contracts, and is proved. That this text means the same is only tested.

use crate::proved::call_faults::faults::CallFault;
use crate::shim::alloc::AllocError;
use crate::shim::prelude::*;
use alloc::collections::BTreeMap;

/// An argument of a call, as far as its placeholders can tell it from others.
#[derive(Clone, Copy, Debug, Eq, PartialEq)]
pub struct FormatArgument<'a> {
    /// Its name, without the `r#` of a raw identifier, as `a` in `a = 1`.
    pub name: Option<&'a str>,
    /// The variable that it is, without `r#`, as `a` in `println!("{}", a)`. `None` if it is any
    /// other expression.
    pub variable: Option<&'a str>,
}

/// An argument that counts, since its name is not that of an earlier one.
#[derive(Clone, Copy)]
pub(crate) struct Entry<'a> {
    /// Its index among all that are given.
    pub index: usize,
    pub argument: FormatArgument<'a>,
}

/// The arguments that count.
pub(crate) struct Arguments<'a> {
    pub list: Vec<Entry<'a>>,
    /// The index of the argument with each name, among all that are given.
    pub indices: BTreeMap<&'a str, usize>,
    /// Whether any has a name.
    pub has_names: bool,
}

/// Returns no arguments. Does not allocate.
pub(crate) fn no_arguments<'a>() -> Arguments<'a> {
    Arguments {
        list: Vec::new(),
        indices: BTreeMap::new(),
        has_names: false,
    }
}

/// Returns the index that a map has for a name, or `None` if it has none.
#[inline]
pub(crate) fn index_of<'a>(indices: &BTreeMap<&'a str, usize>, name: &'a str) -> Option<usize> {
    indices.get(&name).copied()
}

/// Puts a name into a map that does not have it.
#[inline]
pub(crate) fn insert<'a>(
    indices: &mut BTreeMap<&'a str, usize>,
    name: &'a str,
    index: usize,
) -> Result<(), AllocError> {
    indices.insert(name, index);
    Ok(())
}

/// Returns the index of the argument with the name that an argument has, or `None` if it has none
/// or there is none.
fn first_of<'a>(arguments: &Arguments<'a>, argument: &FormatArgument<'a>) -> Option<usize> {
    match argument.name {
        None => None,
        Some(name) => index_of(&arguments.indices, name),
    }
}

/// Adds an argument to those that count.
#[inline(never)]
fn keep<'a>(
    arguments: &mut Arguments<'a>,
    index: usize,
    argument: FormatArgument<'a>,
) -> Result<(), AllocError> {
    if let Some(name) = argument.name {
        insert(&mut arguments.indices, name, index)?;
        arguments.has_names = true;
    }
    arguments.list.push(Entry { index, argument });
    Ok(())
}

/// Adds an argument to those that count, unless an earlier one has its name, which is then a fault.
#[inline(never)]
fn add<'a>(
    arguments: &mut Arguments<'a>,
    faults: &mut Vec<CallFault<'a>>,
    index: usize,
    argument: FormatArgument<'a>,
) -> Result<(), AllocError> {
    match first_of(arguments, &argument) {
        Some(first_index) => faults.push(CallFault::RepeatedName { index, first_index }),
        None => keep(arguments, index, argument)?,
    }
    Ok(())
}

/// Returns whether an argument has no name, although one that counts has one.
#[inline]
fn is_late<'a>(arguments: &Arguments<'a>, argument: &FormatArgument<'a>) -> bool {
    argument.name.is_none() && arguments.has_names
}

/// Returns the indices of those of arguments that have a name.
#[inline(never)]
fn named_of(list: &[Entry<'_>]) -> Result<Vec<usize>, AllocError> {
    let mut named_arguments = Vec::new();
    for entry in list {
        if entry.argument.name.is_some() {
            named_arguments.push(entry.index);
        }
    }
    Ok(named_arguments)
}

/// Returns the arguments that count, or `None` if the first one without a name after one with a
/// name ends the list. Adds the faults of the list.
#[inline(never)]
pub(crate) fn arguments_of<'a>(
    faults: &mut Vec<CallFault<'a>>,
    call_arguments: &[FormatArgument<'a>],
) -> Result<Option<Arguments<'a>>, AllocError> {
    let mut arguments = no_arguments();
    for (index, argument) in call_arguments.iter().enumerate() {
        if is_late(&arguments, argument) {
            let named_arguments = named_of(&arguments.list)?;
            faults.push(CallFault::PositionalAfterNamed {
                index,
                named_arguments,
            });
            return Ok(None);
        }
        add(&mut arguments, faults, index, *argument)?;
    }
    Ok(Some(arguments))
}
