//! The reading of a call of a macro for inline assembly.

// Extracted from crates/asm_lint/src/assembly.rt by tools/extract: not to be edited.
// That source has the contracts, and is proved. That this text means the same is only tested.

use crate::proved::asm_faults::{asm_faults, Operand, Template};
use crate::proved::asm_lint::asm_findings::{put_findings, AsmSite, ReadTemplate};
use crate::proved::asm_lint::literals::{dropped_crs, read_literal};
use crate::proved::asm_lint::names::name_of;
use crate::proved::format_calls::{
    asm_part, extent_of, template_count, Argument, AsmPart, Call, Part,
};
use crate::proved::rust_trees::Token;
use crate::proved::source_report::{CallReading, Finding};
use crate::shim::alloc::AllocError;
use crate::shim::prelude::*;

/// Returns how much of a call is read where the number of its arguments is known, and where not.
#[inline]
pub fn reading_of(is_counted: bool) -> CallReading {
    if is_counted {
        CallReading::Whole
    } else {
        CallReading::StringAlone
    }
}

/// Returns the operand that an argument is, or `None` if it is none.
#[inline(never)]
fn operand_of<'a>(tokens: &[Token<'a>], argument: &Argument, part: AsmPart) -> Option<Operand<'a>> {
    match part {
        AsmPart::Operand => match name_of(tokens, argument) {
            Some(name) => Some(Operand::Named(name)),
            None => Some(Operand::Unnamed),
        },
        AsmPart::Register => Some(Operand::Register {
            has_name: argument.is_named,
        }),
        AsmPart::Raw | AsmPart::Setting | AsmPart::Unknown => None,
    }
}

/// The arguments after the templates of a call.
struct Operands<'a> {
    /// The operands.
    list: Vec<Operand<'a>>,
    /// The argument that each operand is.
    arguments: Vec<Argument>,
    /// Whether templates have no placeholders.
    are_raw: bool,
    /// Whether an argument is no operand, option or ABI.
    is_unknown: bool,
}

/// Adds an argument after the templates.
#[inline(never)]
fn add<'a>(
    all_operands: &mut Operands<'a>,
    part: &Part<'a>,
    argument: &Argument,
) -> Result<(), AllocError> {
    let kind = asm_part(part, argument);
    if let Some(operand) = operand_of(part.tokens(), argument, kind) {
        all_operands.list.push(operand);
        all_operands.arguments.push(*argument);
    }
    all_operands.are_raw = all_operands.are_raw || matches!(kind, AsmPart::Raw);
    all_operands.is_unknown = all_operands.is_unknown || matches!(kind, AsmPart::Unknown);
    Ok(())
}

/// Returns the arguments after the templates.
#[inline(never)]
fn operands_of<'a>(part: &Part<'a>, arguments: &[Argument]) -> Result<Operands<'a>, AllocError> {
    let mut operands = Operands {
        list: Vec::new(),
        arguments: Vec::new(),
        are_raw: false,
        is_unknown: false,
    };
    for argument in arguments {
        add(&mut operands, part, argument)?;
    }
    Ok(operands)
}

/// Returns the first token of an argument, which is there.
#[inline]
fn first_token<'a>(tokens: &[Token<'a>], argument: &Argument) -> Token<'a> {
    tokens[argument.start]
}

/// Reads the template that an argument is. Returns `None` if its literal stands for no text, and
/// `Err` if an allocation fails.
#[inline(never)]
fn read_template<'a>(
    tokens: &[Token<'a>],
    argument: &Argument,
) -> Result<Option<ReadTemplate<'a>>, AllocError> {
    let token = first_token(tokens, argument);
    let Some(literal) = read_literal(token.text, false)? else {
        return Ok(None);
    };
    let crs = dropped_crs(token.text)?;
    Ok(Some(ReadTemplate {
        token,
        crs,
        literal,
    }))
}

/// Reads the templates that arguments are. Returns `None` if a literal of them stands for no text,
/// and `Err` if an allocation fails.
#[inline(never)]
fn read_templates<'a>(
    tokens: &[Token<'a>],
    arguments: &[Argument],
) -> Result<Option<Vec<ReadTemplate<'a>>>, AllocError> {
    let mut templates = Vec::new();
    for argument in arguments {
        match read_template(tokens, argument)? {
            Some(template) => templates.push(template),
            None => return Ok(None),
        }
    }
    Ok(Some(templates))
}

/// Returns templates as placeholders are read in them.
#[inline(never)]
fn templates_of<'c>(
    template_list: &'c [ReadTemplate<'_>],
) -> Result<Vec<Template<'c>>, AllocError> {
    let mut templates = Vec::new();
    for template in template_list {
        templates.push(Template {
            text: template.literal.text.as_str(),
            style: template.literal.style,
            snippet: Some(template.literal.snippet.as_str()),
        });
    }
    Ok(templates)
}

/// Checks a call with these templates and operands, and adds its findings.
fn check_call<'c>(
    findings: &mut Vec<Finding>,
    site: AsmSite<'_, '_>,
    templates: &[Template<'c>],
    operands: &[Operand<'c>],
    is_whole: bool,
) -> Result<(), AllocError> {
    let call = asm_faults(templates, operands)?;
    put_findings(findings, site, &call, is_whole)?;
    Ok(())
}

/// Returns the templates whose placeholders count: none with `options(raw)`.
#[inline]
fn read_unless<'c>(
    template_list: &'c [ReadTemplate<'_>],
    are_raw: bool,
) -> Result<Vec<Template<'c>>, AllocError> {
    if are_raw {
        return Ok(Vec::new());
    }
    templates_of(template_list)
}

/// Reads a call whose templates are arguments, with the other arguments after them, and adds its
/// findings.
#[inline(never)]
fn read_literals<'s, 'a>(
    findings: &mut Vec<Finding>,
    text: &'a str,
    tokens: &'s [Token<'a>],
    templates: &[Argument],
    operands: &'s Operands<'a>,
    is_whole: bool,
) -> Result<CallReading, AllocError> {
    let Some(template_list) = read_templates(tokens, templates)? else {
        return Ok(CallReading::Malformed);
    };
    let site = AsmSite {
        text,
        tokens,
        templates: &template_list,
        operands: &operands.arguments,
    };
    let list = read_unless(&template_list, operands.are_raw)?;
    check_call(findings, site, &list, &operands.list, is_whole)?;
    Ok(reading_of(is_whole))
}

/// Returns whether the operands and options of a call are known: each argument is one, and the
/// number of arguments is known.
#[inline]
fn are_known(is_unknown: bool, is_counted: bool) -> bool {
    !is_unknown && is_counted
}

/// Reads a call of a macro for inline assembly, and adds its findings.
#[inline(never)]
pub fn read_asm<'a>(
    findings: &mut Vec<Finding>,
    text: &'a str,
    part: &Part<'a>,
    call: &Call,
    arguments: &[Argument],
) -> Result<CallReading, AllocError> {
    let tokens = part.tokens();
    let count = template_count(tokens, arguments);
    let operands = operands_of(part, &arguments[count..])?;
    let extent = extent_of(
        part.source(),
        false,
        call.name + 2,
        call.name + 3,
        call.close,
    );
    let is_whole = are_known(operands.is_unknown, extent.is_counted);
    read_literals(
        findings,
        text,
        tokens,
        &arguments[..count],
        &operands,
        is_whole,
    )
}
