"""The rules by which a source in Rattle becomes one in Rust: each leaves out what only the prover
reads, or rewrites a form that Rust does not have. A form that no rule knows is refused by its name."""
import re
from pathlib import Path

from extraction.allocators import WORDS, is_allocator
from extraction.source import Import

# The paths of the library that may be named, and those that replace them. Any other is refused. A
# source that reads the parser by its calls reads that of the layer, so that there is one.
LIBRARY = {"clap": "crate::shim::clap", "file_paths::args": "crate::shim::host::env::words",
           "file_paths::fs": "crate::shim::host::fs", "itoa": "crate::shim::itoa",
           "json": "crate::shim::json",
           "rustc_parse_format::Parser": "crate::shim::parser::Parser",
           "rustc_parse_format::Reading": "crate::shim::parser::Reading",
           "rustc_parse_format::read_all": "crate::shim::parser::read_all",
           "std::alloc": "crate::shim::alloc",
           "std::collections::BTreeMap": "alloc::collections::BTreeMap",
           "std::collections::BTreeSet": "alloc::collections::BTreeSet",
           "std::env": "crate::shim::host::env",
           "std::fs": "crate::shim::host::fs",
           "std::io::IsTerminal": "crate::shim::host::IsTerminal", "std::io": None,
           "std::iter::FusedIterator": "core::iter::FusedIterator", "std::marker::Model": None,
           "std::mem": "core::mem", "std::ops::Range": "core::ops::Range",
           "std::os": None, "std::process::ExitCode": None, "std::random": None,
           "std::simd::prelude": "crate::shim::simd",
           "std::time::Instant": "crate::shim::host::Instant",
           "strsim": "crate::shim::strsim", "toml": "crate::shim::toml", "unicode_ident": "crate::shim::unicode_ident",
           "unicode_width": "crate::shim::unicode_width"}
# Calls that may return an allocation failure, and those of Rust, which are made where `?` answers that
# on the spot: rustc takes much longer over an error that never comes. Otherwise, and where a crate
# has a method of the name, they are methods of the shim's traits.
CONSTRUCTORS = {("Box", "new"): "new", ("String", "from_str"): "from",
                ("String", "with_capacity"): "with_capacity", ("Vec", "with_capacity"): "with_capacity"}
PASSED_ON = {("String", "from_str"): "made_from", ("String", "from_utf8_lossy"): "made_from_bytes"}
# The names of a module of the library that may stand by themselves or after it.
NAMED = {"env": {"args", "var"},
         "fs": {"DirEntry", "File", "Metadata", "OpenOptions", "canonicalize", "metadata", "open",
                "read_dir", "read_link", "remove_file", "symlink_metadata"},
         "io": {"Error", "ErrorKind", "IsTerminal", "Read", "Result", "Write"}, "mem": {"replace"}}
# Constructors that take no memory.
PLAIN = {("BTreeMap", "new"), ("BTreeSet", "new"), ("String", "from_utf8"), ("String", "new"),
         ("Vec", "new")}
ALLOCATING = {"push": "try_push", "push_str": "try_push_str",
              **dict.fromkeys(("append", "clone", "collect", "extend", "extend_from_slice", "insert",
                               "reserve", "sort", "sort_by_key"))}
# Methods that are of the standard library only since Rust 1.91 and 1.80
YOUNG = {"floor_char_boundary": "boundary_at_most", "split_at_checked": "parts_at",
         "trim_ascii_start": "after_ascii_space", "trim_ascii_end": "before_ascii_space"}
# Methods of `Option` that are only in younger libraries, and the value that they have for `None`.
TESTS = {"is_some_and": "false", "is_none_or": "true"}
# Words with which a path may begin besides those that a file names, and names of a plain type.
KNOWN = ("super", "char", "u8", "u8x16", "u16", "u32", "u64", "usize")
OF_PLAIN = {"MAX", "from", "from_slice", "from_u32", "is_whitespace", "splat"}
MACROS = {"matches": "matches", "format": "crate::shim::try_format", "vec": None,
          "eprint": "crate::shim::eprint_in", "eprintln": "crate::shim::eprintln_in"}
# Traits that are named only where they are imported, by the calls of their methods.
TRAITS = {(".", "width", 0): "UnicodeWidthChar", (".", "is_terminal", 0): "IsTerminal",
          (".", "read_to_end", 1): "Read", (".", "read_to_string", 1): "Read"}
ATTRIBUTES = {"cold", "default", "derive", "doc", "inline", "tactic"}
DERIVES = {"Clone", "Copy", "Debug", "Default", "Drop", "Eq", "Ord", "PartialEq", "PartialOrd"}
# Derives that only the crate for Rust has: none of these needs a proof there.
SHOWN = ("Debug", "Eq", "PartialEq")
ADDED = {("placeholder_check", "Report"): ("Clone", *SHOWN),
         **{("rustc_parse_format", name): ("Clone", *SHOWN)
            for name in ("ContentCharacter", "Fault")},
         ("fault_fixes", "FixedLiteral"): ("Clone",),
         ("format_literal", "Literal"): ("Clone", *SHOWN),
         **{("call_faults", name): SHOWN for name in ("FormatArgument", "FormatString")},
         **{("call_faults", name): ("Eq",) for name in ("InvalidReference", "Part", "Reference")},
         **{it: ("Clone", *SHOWN) for it in (("call_faults", "CallFault"), ("file_fixes", "FileFixes"),
                                             ("format_calls", "Table"))},
         ("source_report", "CallReading"): SHOWN,
         **{("source_report", name): ("Clone", *SHOWN)
            for name in ("Edit", "Finding", "Help", "Label", "Note", "Report")},
         **{("rust_trees", name): SHOWN for name in ("FileBreak", "BreakKind", "Place")},
         **{("format_calls", name): SHOWN for name in ("Reason", "Row", "Rule")},
         ("inlined_arguments", "Obstacle"): ("Eq",), ("file_inlines", "CallInlining"): SHOWN,
         ("file_inlines", "FileInlines"): ("Clone", *SHOWN),
         **{(crate, name): ("Hash",) for crate in ("format_tokens", "rust_tokens")
            for name in ("Kind", "Token")}}
# Types to which a later version may add: the users of the crate for Rust are told so.
GROWING = {("call_faults", "CallFault"), ("file_fixes", "FileFixes"), ("file_inlines", "CallInlining"),
           ("file_inlines", "FileInlines"), ("format_calls", "Reason"), ("format_tokens", "Kind"),
           ("inlined_arguments", "Obstacle"), ("rust_tokens", "Kind"), ("rustc_parse_format", "Fault"),
           ("source_report", "Finding"), ("source_report", "Report")}
# Members that what calls the crates has to write, for which they have no call.
OPENED = {"Cursor": {"source"}}
# What is said of an error that has no value in Rust.
UNSAID = "returns `Err` if an allocation fails"
# Words after which an expression may begin.
KEYWORDS = ("else", "if", "in", "match", "return", "while")
# Methods of the library that do the same in both languages, and on each Unicode version but for
# white space. Others that are called are those of the crates or of the shim.
PLAIN_METHODS = set("""
all as_bytes as_deref as_millis as_ref as_slice as_str binary_search_by_key capacity chars checked_add checked_mul contains copied
get_mut ends_with enumerate error_len get is_ascii is_ascii_alphanumeric is_ascii_digit is_ascii_hexdigit
is_ascii_lowercase is_dir is_empty is_err is_file is_none is_ok is_some is_whitespace iter kind last
len len_utf8 lines map map_or max min next next_back ok or permissions pop read_to_end
read_to_string readonly remove retain rev reverse rfind rsplit_once saturating_add saturating_mul
saturating_sub shrink_to_fit split split_at split_inclusive split_once starts_with strip_prefix
strip_suffix then_some to_digit trailing_zeros trim trim_end trim_start unwrap_or valid_up_to zip
as_mut_slice err raw_os_error trim_start_matches
""".split())
SHIM = Path(__file__).resolve().parent.parent.parent / "bindings/rust/src/shim"
SHIM_METHODS = {name for file in SHIM.rglob("*.rs")
                for name in re.findall(r"\bfn (\w+)", file.read_text())}
# Words of forms that are not known to mean the same in both languages, or are known not to.
UNKNOWN = {"anyhow", "as_mut_ptr", "as_ptr", "async", "await", "dyn", "extern", "ghost",
           "macro_rules", "size_of", "spawn", "static", "trait", "try_from", "try_into", "try_recv",
           "try_send", "union", "unsafe", "where", "requires", "ensures"}


def rewrite(source, item, crate, crates):
    """Writes the forms of a kept item anew that Rust has not. Answers whether the shim's traits are
    called."""
    for at, text in source.doubts:
        if item.start <= at <= item.last:
            source.refuse(at, f"`{text}` in what is done to a value that takes no bytes")
    if item.of and item.kind == "fn" and (
            item.name in (*TESTS, *YOUNG)
            or item.name in ALLOCATING and not (item.allocates and ALLOCATING[item.name])):
        source.refuse(item.head, f"a method `{item.name}`, of which a call is read as the library's")
    uses_shim = False
    for at in source.places(item.start, item.last):
        if not source.is_real(at):
            continue
        text, before, behind = source.around(at)
        if text in WORDS:
            source.refuse(at, f"`{text}`, an allocator that is not only passed on")
        if source.is_word(at) and behind == "::" and before not in ("::", "."):
            if text in LIBRARY:
                source.tokens[at].text = LIBRARY[text]
            elif text == "std":
                source.refuse(at, "a path of the library where no `use` names it")
            elif text == "str" and source.text(source.next(at, 2)) == "from_utf8":
                # of the type itself only since Rust 1.87
                source.tokens[at].text = "core::str"
            elif text in NAMED and source.imports().get(text) == ["std", text]:
                refuse_other(source, at, NAMED[text])
            elif text in KNOWN[1:]:
                refuse_other(source, at, OF_PLAIN)
            elif text in ("Vec", "String", "Box", "BTreeMap", "BTreeSet"):
                called = source.next(at, 2)
                name = text, source.text(called)
                is_called = source.text(source.next(called)) == "("
                if is_called and name in CONSTRUCTORS and is_answered(source, called):
                    source.tokens[called].text = CONSTRUCTORS[name]
                elif is_called and name in PASSED_ON:
                    source.tokens[called].text = PASSED_ON[name]
                    uses_shim = True
                elif not is_called or name not in PLAIN:
                    source.refuse(called, f"a call `{'::'.join(name)}`")
            elif text[0].islower() and text not in (*KNOWN, *modules_of(source), *source.imports()):
                source.refuse(at, f"a path that begins with `{text}`")
        elif source.is_word(at) and text in YOUNG and before == "." and behind == "(":
            source.tokens[at].text = YOUNG[text]
            uses_shim = True
        elif (source.is_word(at) and text in ALLOCATING and behind == "("
              and (before == "." or before == "fn" and item.of)):
            is_own = (crate, text) in source.own
            if before == "." and not is_own and is_answered(source, at):
                continue
            if not ALLOCATING[text]:
                source.refuse(at, f"a `{text}` whose refusal is not answered on the spot")
            source.tokens[at].text = ALLOCATING[text]
            uses_shim = True
        elif (text == "contains" and before == "."
              and source.tokens[source.next(at, 2)].kind == "string"):
            # of a text, of which one copy is enough
            source.tokens[at].text = "has_text"
            uses_shim = True
        elif text in TESTS and before == "." and behind == "(":
            source.tokens[at].text = "map_or"
            source.tokens[source.next(at)].text = f"({TESTS[text]}, "
        elif (text == "AllocError" and before == "(" and source.text(source.prev(at, 2)) == "Err"
              and behind == ")"):
            refusal(source, at)
        elif text == "AllocError" and source.text(source.prev(at, 2)) == "from" and before == "(":
            told_again(source, at)
        elif (text == "!" and source.is_word(source.prev(at)) and before not in KEYWORDS
              and behind in ("(", "[", "{")):
            macro(source, source.prev(at))
        elif text == "unsafe":
            checked_text(source, at)
        elif text.isdigit() and int(text) >= 32 and (before, source.text(source.prev(at, 2))) == ("<", "<"):
            shift(source, at, int(text))
        elif text == "HostRuntime" and behind != "::":
            source.tokens[at].text = "crate::shim::host::HostRuntime"
        elif text != "static" or at != item.head:
            refuse_unknown(source, at)
    return uses_shim


def is_answered(source, at):
    """Whether `?` stands right behind a call, whose name is given, or a macro, whose bracket is. Then it
    is left out."""
    opening = at if source.text(at) in ("(", "[", "{") else source.next(at)
    behind = source.next(source.close(opening))
    if source.text(behind) != "?":
        return False
    source.tokens[behind].text = ""
    return True


def unsaid(source, item):
    """Leaves the last sentence out of the documentation of a function with such an error, if it says
    that alone, or also what is then so."""
    words = source.texts(item.head, item.open)
    if item.first < item.start and words[-4:-1] == [",", "AllocError", ">"]:
        text = source.span(item.first, item.start - 1)
        said = spaced(f"R{UNSAID[1:]}", "///") + r"((;|, and)[^.]*\bthen\b[^.]*)?\.\s*\Z"
        source.cut(item.first, item.start - 1)
        source.tokens[item.first].text = re.sub(rf"((?<=\.) |(^|\n) */// ){said}", "\n", text)


def unsaid_of_file(text):
    """Leaves out of the documentation of a file, at the end of a line, that its functions return such
    an error too."""
    return re.sub(spaced(f", and {UNSAID}.", "//!") + "$", ".", text, flags=re.M)


def spaced(words, mark):
    """A pattern of words that may go on in the next line of a comment."""
    return re.escape(words).replace(r"\ ", rf"( |\n\s*{mark} )")


def refuse_other(source, at, known):
    """Refuses what a path that begins at a place goes on with, if it is not known."""
    name = source.text(source.next(at, 2))
    if name not in known:
        source.refuse(at, f"`{source.text(at)}::{name}`, which is not known")


def known_traits(source, item):
    """Refuses a trait of the library that this file has by another name, or another one by its
    name."""
    wanted = {name for at, _, bounds in source.streams if item.start <= at <= item.last
              for name in bounds} | {item.trait} & {"From", "Read", "Write"}
    for name in sorted(wanted):
        if source.imports().get(name) != (None if name == "From" else ["std", "io", name]):
            source.refuse(item.head, f"`{name}`, which is not the library's")


def checked_text(source, at):
    """Writes a text of bytes that are proved to be UTF-8 anew: here that is checked, and a mistake
    panics."""
    form = ["unsafe", "{", "str", "::", "from_utf8_unchecked", "("]
    places = [source.next(at, count) for count in range(6)]
    if [source.text(it) for it in places] != form:
        source.refuse(at, "`unsafe`")
    end = source.next(source.close(places[5]))
    if end != source.close(places[1]):
        source.refuse(at, "`unsafe`")
    for it in (*places[:5], end):
        source.tokens[it].text = ""
    source.tokens[at].text = "crate::shim::proved_text"


def macro(source, at):
    name, opening = source.text(at), source.next(at, 2)
    if name not in MACROS:
        source.refuse(at, f"a macro `{name}!`")
    inner = source.next(opening)
    if name in ("format", "vec"):
        end = inner
        while source.text(end) not in (";", ""):
            end = source.next(end)
        if source.text(inner) != "in" or not is_allocator(source, source.next(inner), end):
            source.refuse(at, f"a `{name}!` without an allocator")
        source.cut(inner, source.next(end) - 1)
        if name == "vec" and not repeats(source, source.next(opening), source.close(opening)):
            source.refuse(at, "a `vec!` of other items than a plain one, again and again")
    texts = [it.text for it in source.tokens[opening : source.close(opening)] if it.kind == "string"]
    if name != "matches" and any(re.search(r"[?#]\}", it) for it in texts):
        source.refuse(at, f"a `{name}!` that shows a value by `?` or `#`")
    if (name in ("eprint", "eprintln")
            and [source.text(inner), source.text(source.next(inner))] != ["rt", ";"]):
        source.refuse(at, f"an `{name}!` without the process")
    is_plain = name in ("format", "vec") and is_answered(source, opening)
    if name == "vec" and not is_plain:
        source.refuse(at, "a `vec!` whose refusal is not answered on the spot")
    source.tokens[at].text = f"::alloc::{name}" if is_plain else MACROS[name]


def repeats(source, first, end):
    """Whether what a macro is given is a plain value and a count."""
    at, marks = first, []
    while at < end:
        if source.text(at) == ";":
            marks.append(at)
        at = source.next(source.skip(at))
    is_plain = source.tokens[first].kind == "number" or source.text(first) in ("false", "true")
    return is_plain and marks == [source.next(first)]


def refusal(source, at):
    """Writes the answer to a text that is too long for memory anew: in Rust such a call panics, as
    one of the standard library does. The proof counts by 64 bits; where there are 32, as many are
    left for sums. No other answer to a refusal of memory ever comes in Rust."""
    before = [source.text(source.prev(at, count)) for count in range(14, 0, -1)]
    if before[8:] == [")", "else", "{", "return", "Err", "("] and is_sum(source, at):
        source.tokens[source.prev(at, 2)].text = "crate::shim::alloc::refuse"
        source.tokens[at].text = ""
        return
    length = [".", "len", "(", ")", ">", "=", "1", "<", "<", "59", "{", "return", "Err", "("]
    start = source.prev(at, 15)
    while source.text(source.prev(start)) == ".":
        start = source.prev(start, 2)
    if before != length or source.text(source.prev(start)) != "if":
        source.refuse(at, "an answer to a refusal of memory, which never comes in Rust")
    source.tokens[source.prev(at, 5)].text = f"(usize::BITS - {64 - 59})"
    source.tokens[source.prev(at, 2)].text = "crate::shim::alloc::refuse"
    source.tokens[at].text = ""


def shift(source, at, bits):
    """Writes a power of two anew that a `usize` of 32 bits does not hold: as the value of a constant, or
    as a bound at which a `u32` begins to be too small."""
    before = [source.text(source.prev(at, count)) for count in range(8, 0, -1)]
    behind = " ".join(source.text(source.next(at, count)) for count in range(1, 9))
    if "{ return Err" in behind:
        return  # (a bound of `refusal`, which writes it anew or refuses it)
    if before[0] == "const" and before[2:] == [":", "usize", "=", "1", "<", "<"]:
        source.tokens[at].text = f"(usize::BITS - {64 - bits})"
    elif bits == 32 and before[4:] == ["<", "1", "<", "<"] and source.text(source.next(at)) == "{":
        for count, text in zip(range(4, -1, -1), ("<=", "u32::MAX", "as", "", "usize")):
            source.tokens[source.prev(at, count) if count else at].text = text
    else:
        source.refuse(at, "a number that a `usize` of 32 bits does not hold")


def told_again(source, at):
    """Writes an error that a `match` makes again of a refusal of memory anew, as a panic: `Err(None)
    => return Err(X::from(AllocError))`."""
    texts = [source.text(source.prev(at, count)) for count in range(12, 0, -1)]
    form = ["Err", "(", "None", ")", "=>", "return", "Err", "(", texts[8], "::", "from", "("]
    if texts != form or source.text(source.next(at)) != ")":
        source.refuse(at, "an answer to a refusal of memory, which never comes in Rust")
    for count in range(4, 0, -1):
        source.tokens[source.prev(at)].text = ""
    source.tokens[at].text = "crate::shim::alloc::refused("


def is_sum(source, at):
    """Whether the answer stands where a sum is larger than a number can be: `let Some(x) =
    y.checked_add(z) else { return Err(AllocError); };`."""
    otherwise, start = source.prev(at, 5), at
    while source.text(start) not in (";", "let", ""):
        start = source.prev(start)
    texts = [source.text(source.next(start, count)) for count in range(6)]
    sums = [source.close(source.next(it)) for it in source.places(start, otherwise)
            if source.text(it) == "checked_add" and source.text(source.next(it)) == "("]
    return texts[:3] + texts[4:] == ["let", "Some", "(", ")", "="] and any(
        source.next(it) == otherwise for it in sums)


def refuse_unknown(source, at):
    """Refuses what both languages read, and do not mean the same by, or may not."""
    if source.text(at) == "#" and source.text(source.next(at, 2)) not in ATTRIBUTES - {"tactic"}:
        source.refuse(at, f"an attribute `{source.text(source.next(at, 2))}`")
    kind, (text, before, behind) = source.tokens[at].kind, source.around(at)
    if kind == "word" and text in UNKNOWN or kind == "sign" and not text.isascii():
        source.refuse(at, f"`{text}`")
    elif (kind == "word" and before == "." and behind in ("(", "::")
          and text not in PLAIN_METHODS | SHIM_METHODS | source.functions):
        source.refuse(at, f"a call of `{text}`, which is not known")
    elif text == "fn" and behind == "(":
        source.refuse(at, "a pointer to a function")
    elif text == "impl" and before in (":", "->", "&", "<", "("):
        source.refuse(at, "a type that is only told by its trait")
    elif text == ".." and ends_value(source, source.prev(at)):
        if behind in (")", "]", ",", ";", "{", "}", "=>") and not is_place(source, at):
            source.refuse(at, "a range without an end")
    elif (text == ".." and before in (",", "{") and behind not in ("}", ")", "]")
          and not (behind.isupper() and source.text(source.next(at, 2)) == "}")):
        # (a constant is the same whether it is read or not)
        source.refuse(at, "a value that takes members over from another")
    elif text == "[" and before == "(" and is_pattern(source, at):
        source.refuse(at, "a pattern of an array inside of another pattern")


def ends_value(source, at):
    return (source.is_word(at) or source.tokens[at].kind in ("number", "char")
            or source.text(at) in (")", "]"))


def is_place(source, at):
    """Whether a range without an end stands in an index, or a call of `get` or `num_args`: in an array
    it is another thing."""
    if source.text(source.next(at)) not in (")", "]"):
        return False
    depth = 0
    while depth >= 0:
        at = source.prev(at)
        depth += (source.text(at) in (")", "]")) - (source.text(at) in ("(", "["))
    before = source.prev(at)
    if source.text(at) == "(":
        is_asked = source.text(before) in ("get", "num_args")
        return is_asked and source.text(source.prev(before)) == "."
    return ends_value(source, before)


def is_pattern(source, at):
    """Whether a bracket after a parenthesis stands in the pattern of a `let`."""
    while source.text(at) not in (";", "{", "}", "=", ""):
        at = source.prev(at)
        if source.text(at) == "let":
            return True
    return False


def modules_of(source):
    return [item.name for item in source.items if item.kind == "mod"]


def in_library(path):
    """The path of the library to which a path leads, or None."""
    return next((it for it in LIBRARY if path[: it.count("::") + 1] == it.split("::")), None)


def imported(source, item, crate, crates, named, features):
    """The lines of a `use` of which the names are kept that something names, those apart that are
    there with a feature alone: the attributes are given."""
    of = {}
    for path, called in Import(source, source.next(item.head)).paths():
        if called != "*" and called not in named:
            continue
        known = in_library(path)
        if known is not None:
            if path[0] == "std" and path[2:] and path[2] not in NAMED.get(path[1], path):
                source.refuse(item.head, f"`{'::'.join(path)}`, which is not known")
            if LIBRARY[known]:
                path = LIBRARY[known].split("::") + path[len(known.split("::")) :]
        elif path[0] in ("crate", *crates):
            path = ["crate", "proved", crate if path[0] == "crate" else path[0]] + path[1:]
        elif path[0] not in ("super", *modules_of(source)):
            source.refuse(item.head, f"`{'::'.join(path)}`, which is not known")
        name = path[-1] if called == path[-1] else f"{path[-1]} as {called}"
        of.setdefault(("::".join(path[:-1]), features.get(called, "")), []).append(name)
    before = source.span(item.start, item.head - 1)
    lines = []
    for (parent, feature), names in of.items():
        named = names[0] if len(names) == 1 else "{" + ", ".join(names) + "}"
        lines.append(f"{feature}{before}use {f'{parent}::' if parent else ''}{named};")
    return "\n".join(lines)
