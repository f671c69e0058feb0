//! The rules, one for each kind of fault.

// Extracted from crates/fault_rules/src/rules.rt by tools/extract: not to be edited.
// That source has the contracts, and is proved. That this text means the same is only tested.

/// The rule of a kind of fault: its meaning, and an example.
#[derive(Clone, Copy)]
pub struct Rule {
    /// The id of the kind, in kebab case.
    pub id: &'static str,
    /// The meaning in half a sentence.
    pub summary: &'static str,
    /// The rule of the language, and how the fault is avoided.
    pub explanation: &'static str,
    /// A call or an attribute that has the fault, or a string of a message of the compiler.
    pub example: &'static str,
    /// The example without the fault.
    pub correction: &'static str,
}

/// The number of kinds of faults.
pub const COUNT: usize = 36;

/// A rule for each kind of fault: first those of format strings, then those of calls, of calls
/// whose format string is not read, of inline assembly, and of texts of attributes.
pub const RULES: [Rule; COUNT] = [
    Rule {
        id: "unmatched-closing-brace",
        summary: "a `}` that closes nothing",
        explanation: "A closing brace ends a placeholder. One that is to be printed is written \
            twice.",
        example: "println!(\"done }\");",
        correction: "println!(\"done }}\");",
    },
    Rule {
        id: "missing-closing-brace",
        summary: "no `}` where a placeholder should end",
        explanation: "An opening brace begins a placeholder, which ends with a closing one. An \
            opening brace that is to be printed is written twice.",
        example: "println!(\"{name\", name = 1);",
        correction: "println!(\"{name}\", name = 1);",
    },
    Rule {
        id: "closing-brace-as-fill",
        summary: "no `}` at the end, after one that was read as the fill",
        explanation: "After a colon, a character before `<`, `^` or `>` fills the width, \
            and this may be a brace. The colon can be left out where nothing follows it.",
        example: "println!(\"{:}<\", 1);",
        correction: "println!(\"{}<\", 1);",
    },
    Rule {
        id: "underscore-as-name",
        summary: "the word `_` in place of a name",
        explanation: "A single underscore names no argument. Without a name the next argument is \
            taken.",
        example: "println!(\"{_}\", 1);",
        correction: "println!(\"{}\", 1);",
    },
    Rule {
        id: "integer-too-large",
        summary: "a number above 65535",
        explanation: "Indices, widths and precisions are at most 65535.",
        example: "println!(\"{:65536}\", 1);",
        correction: "println!(\"{:65535}\", 1);",
    },
    Rule {
        id: "unnamed-argument",
        summary: "a position that is not a name",
        explanation: "In the messages of the compiler itself (`--mode diagnostic-named`) each \
            placeholder is a name.",
        example: "\"found {0}\"",
        correction: "\"found {ty}\"",
    },
    Rule {
        id: "text-after-colon",
        summary: "text after a colon",
        explanation: "In the messages of the compiler itself (`--mode diagnostic-named`) nothing \
            follows the name of a placeholder.",
        example: "\"found {ty:?}\"",
        correction: "\"found {ty}\"",
    },
    Rule {
        id: "raw-identifier",
        summary: "a raw identifier in a placeholder",
        explanation: "In a placeholder even a keyword is written without `r#`.",
        example: "println!(\"{r#type}\");",
        correction: "println!(\"{type}\");",
    },
    Rule {
        id: "flag-after-type",
        summary: "a flag after the type `?`",
        explanation: "The type comes last in a placeholder, after the flags, the width and the \
            precision.",
        example: "println!(\"{:?#}\", 1);",
        correction: "println!(\"{:#?}\", 1);",
    },
    Rule {
        id: "missing-colon",
        summary: "no `:` before the `?`",
        explanation: "A colon separates the argument from how it is formatted.",
        example: "println!(\"{x?}\", x = 1);",
        correction: "println!(\"{x:?}\", x = 1);",
    },
    Rule {
        id: "debug-before-colon",
        summary: "a `?` before the `:`",
        explanation: "A colon separates the argument from how it is formatted, and the `?` \
            belongs after it.",
        example: "println!(\"{x?:}\", x = 1);",
        correction: "println!(\"{x:?}\", x = 1);",
    },
    Rule {
        id: "alignment-before-colon",
        summary: "`<`, `>` or `^`, with no `:` before it",
        explanation: "A colon separates the argument from how it is formatted, and the alignment \
            belongs after it.",
        example: "println!(\"{x>8}\", x = 1);",
        correction: "println!(\"{x:>8}\", x = 1);",
    },
    Rule {
        id: "numeric-grouping",
        summary: "a `,`, as Python has it",
        explanation: "Rust does not group digits.",
        example: "println!(\"{x:,}\", x = 1000);",
        correction: "println!(\"{x}\", x = 1000);",
    },
    Rule {
        id: "debug-equals",
        summary: "a `=`, as Python has it",
        explanation: "Rust does not print the name of an argument in front of its value.",
        example: "println!(\"{x=}\", x = 1);",
        correction: "println!(\"x={x}\", x = 1);",
    },
    Rule {
        id: "sign-before-colon",
        summary: "a `+`, with no `:` before it",
        explanation: "A colon separates the argument from how it is formatted, and the sign \
            belongs after it.",
        example: "println!(\"{x+}\", x = 1);",
        correction: "println!(\"{x:+}\", x = 1);",
    },
    Rule {
        id: "field-access",
        summary: "a field that is a name",
        explanation: "A placeholder takes an argument or a variable, and no expression: a field \
            is passed as an argument.",
        example: "println!(\"{self.name}\");",
        correction: "println!(\"{}\", self.name);",
    },
    Rule {
        id: "tuple-index",
        summary: "a field that is a number",
        explanation: "A placeholder takes an argument or a variable, and no expression: a field \
            is passed as an argument.",
        example: "println!(\"{pair.0}\");",
        correction: "println!(\"{}\", pair.0);",
    },
    Rule {
        id: "positional-after-named",
        summary: "an argument without a name after one with a name",
        explanation: "Arguments with names come last.",
        example: "println!(\"{a} {}\", a = 1, 2);",
        correction: "println!(\"{a} {}\", 2, a = 1);",
    },
    Rule {
        id: "repeated-name",
        summary: "an argument with the name of an earlier one",
        explanation: "Each name is given once.",
        example: "println!(\"{a}\", a = 1, a = 2);",
        correction: "println!(\"{a}\", a = 1);",
    },
    Rule {
        id: "missing-name",
        summary: "a name that no argument has",
        explanation: "A name without an argument is a variable where the string stands in the \
            call itself. Where a macro makes the string, and in `unreachable!` before the edition \
            2021, it has to be an argument.",
        example: "unreachable!(\"{} in {state}\", 1);",
        correction: "unreachable!(\"{} in {state}\", 1, state = state);",
    },
    Rule {
        id: "unknown-trait",
        summary: "a type that names no trait",
        explanation: "The type of a placeholder is empty or one of `?`, `x?`, `X?`, `b`, `e`, \
            `E`, `o`, `p`, `x` and `X`.",
        example: "println!(\"{:d}\", 1);",
        correction: "println!(\"{}\", 1);",
    },
    Rule {
        id: "missing-argument",
        summary: "more placeholders than arguments, or an index that is too large",
        explanation: "Each placeholder without a name takes the next argument, and an index \
            counts the arguments from 0.",
        example: "println!(\"{} {}\", 1);",
        correction: "println!(\"{} {}\", 1, 2);",
    },
    Rule {
        id: "unused-argument",
        summary: "an argument that no placeholder refers to",
        explanation: "Each argument is formatted by a placeholder of the string.",
        example: "println!(\"{}\", 1, 2);",
        correction: "println!(\"{} {}\", 1, 2);",
    },
    Rule {
        id: "redundant-argument",
        summary: "an argument that is a variable which the string already names",
        explanation: "A placeholder with the name of a variable takes the variable, so it is no \
            argument.",
        example: "println!(\"{x}\", x);",
        correction: "println!(\"{x}\");",
    },
    Rule {
        id: "name-used-by-index",
        summary: "an argument with a name that is referred to by its index",
        explanation: "This is a warning: the program compiles, and the name is of no use.",
        example: "println!(\"{}\", x = 1);",
        correction: "println!(\"{x}\", x = 1);",
    },
    Rule {
        id: "missing-format-string",
        summary: "a call without a format string",
        explanation: "Some macros want a format string even where nothing is formatted.",
        example: "format!();",
        correction: "format!(\"\");",
    },
    Rule {
        id: "no-string-literal",
        summary: "a format string that is no string literal",
        explanation: "The compiler reads the format string, so it is no value that a program \
            computes. A value is an argument of its own.",
        example: "println!(name);",
        correction: "println!(\"{}\", name);",
    },
    Rule {
        id: "missing-comma",
        summary: "no comma between two arguments",
        explanation: "A comma stands between each two arguments.",
        example: "println!(\"{}\" name);",
        correction: "println!(\"{}\", name);",
    },
    Rule {
        id: "missing-expression",
        summary: "no expression where an argument or an operand should stand",
        explanation: "An argument stands between each two commas, and an operand before and after \
            an operator between two. Only after the last argument there may be a comma that \
            nothing follows.",
        example: "println!(\"{}\",, name);",
        correction: "println!(\"{}\", name);",
    },
    Rule {
        id: "operand-order",
        summary: "an operand after others, which has neither a name nor a register of its own",
        explanation: "In inline assembly an index counts the operands from 0. Those that have \
            neither a name nor a register of their own come first.",
        example: "asm!(\"mov {1}, {a}\", a = in(reg) x, out(reg) y);",
        correction: "asm!(\"mov {0}, {a}\", out(reg) y, a = in(reg) x);",
    },
    Rule {
        id: "register-name",
        summary: "an operand with a name and a register of its own",
        explanation: "A name in a template stands for a register that the compiler chooses. A \
            register of its own is written as it is.",
        example: "asm!(\"inc eax\", a = inout(\"eax\") x);",
        correction: "asm!(\"inc eax\", inout(\"eax\") x);",
    },
    Rule {
        id: "wrong-operand",
        summary: "an index of no operand, or of one with a name or a register of its own",
        explanation: "In inline assembly an index counts the operands from 0, and means one that \
            has neither a name nor a register of its own.",
        example: "asm!(\"mov {0}, {1}\", out(reg) y);",
        correction: "asm!(\"mov {0}, {1}\", out(reg) y, in(reg) x);",
    },
    Rule {
        id: "long-modifier",
        summary: "a modifier of several characters",
        explanation: "In inline assembly one character after a colon says in which form the name \
            of a register is written.",
        example: "asm!(\"mov {0:eax}, 1\", out(reg) y);",
        correction: "asm!(\"mov {0:e}, 1\", out(reg) y);",
    },
    Rule {
        id: "specifier-in-message",
        summary: "a colon in a placeholder, in a text of an attribute",
        explanation: "This is a warning. In a text of `diagnostic::on_unimplemented` nothing \
            follows the name of a placeholder.",
        example: "#[diagnostic::on_unimplemented(message = \"no {T:?}\")] trait A<T> {}",
        correction: "#[diagnostic::on_unimplemented(message = \"no {T}\")] trait A<T> {}",
    },
    Rule {
        id: "positional-in-message",
        summary: "a position that is not a name, in a text of an attribute",
        explanation: "This is a warning. In a text of `diagnostic::on_unimplemented` each \
            placeholder is a name.",
        example: "#[diagnostic::on_unimplemented(message = \"no {}\")] trait A<T> {}",
        correction: "#[diagnostic::on_unimplemented(message = \"no {T}\")] trait A<T> {}",
    },
    Rule {
        id: "missing-parameter",
        summary: "a name of no parameter, in a text of an attribute",
        explanation: "This is a warning. In a text of `diagnostic::on_unimplemented` a name is \
            that of a type parameter or a constant parameter of the trait, or `Self`.",
        example: "#[diagnostic::on_unimplemented(message = \"no {U}\")] trait A<T> {}",
        correction: "#[diagnostic::on_unimplemented(message = \"no {T}\")] trait A<T> {}",
    },
];

/// Returns the first of these rules that has an id, or `None` if none has it.
fn find(rules: &[Rule], id: &str) -> Option<Rule> {
    for rule in rules {
        if rule.id == id {
            return Some(*rule);
        }
    }
    None
}

/// Returns the rule with this id, or `None` if there is none.
#[inline]
pub fn rule_of(id: &str) -> Option<Rule> {
    find(RULES.as_slice(), id)
}
