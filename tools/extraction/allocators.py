"""Leaves out the allocator, which no call takes in Rust: the parameter `alloc: Global`, a `let
alloc`, and the argument of a call that takes one. What else is done with an allocator stays, and
`rules` refuses it."""
import re

# Functions of the library that take the allocator.
TAKING = {"collect", "from_str", "from_utf8_lossy", "levenshtein", "new", "table_from_str",
          "with_capacity"}
PARAMETER = "alloc : Global"
# What gives an allocator and does nothing else.
ALLOCATOR = re.compile(r"alloc|rt \. alloc \( \)|\* \w+( \. \w+)* \. allocator \( \)")
# The words with which an allocator is written.
WORDS = ("alloc", "allocator", "Global")


def takers(source):
    """The names of the functions of a file that take the allocator."""
    found = set()
    for item in [it for it in source.items_inside() if it.kind == "fn"]:
        if item.name in WORDS:
            source.refuse(item.head, f"a function `{item.name}`, which may do more than give one")
        if any(is_parameter(source, *it) for it in source.arguments(source.given(item))):
            found.add(item.name)
    return found


def erase(source, item):
    """Leaves the allocator out of a function."""
    imports = source.imports()
    leave_out(source, source.given(item), is_parameter)
    for at in source.places(item.open, item.last):
        text, _, behind = source.around(at)
        if behind == "(" and source.is_word(at) and imports.get(text, [text])[-1] in source.takers:
            leave_out(source, source.next(at), is_allocator)
        elif text == "let" and [behind, source.text(source.next(at, 2))] == ["alloc", "="]:
            end = at
            while source.text(end) not in (";", ""):
                end = source.next(end)
            if is_allocator(source, source.next(at, 3), end):
                cut_line(source, at, end)


def leave_out(source, opening, is_left_out):
    """Leaves some of what stands in parentheses out, with the comma after it, if there is one."""
    for first, end in source.arguments(opening):
        if is_left_out(source, first, end):
            cut_line(source, first, end if source.text(end) == "," else source.prev(end))


def cut_line(source, first, last):
    """Cuts tokens out with the space after them."""
    is_space = source.tokens[last + 1].kind == "space"
    source.cut(first, last + 1 if is_space else last)


def is_parameter(source, first, end):
    return " ".join(source.texts(first, end - 1)) == PARAMETER


def is_allocator(source, first, end):
    """Whether what stands before a place is an allocator, and no more."""
    return ALLOCATOR.fullmatch(" ".join(source.texts(first, end - 1))) is not None
