"""Leaves out what is there for the prover alone: clauses, ghost items and members, attributes for
the prover, and values of no size with what is done to them."""
from extraction.rules import ATTRIBUTES, OPENED

NUMBERS = ("bool", "char", "u8", "u16", "u32", "u64", "usize")
# Words of an argument through which a function could do something.
ACTING = {"mut", "Global", "HostRuntime", "dyn", "fn", "impl"}
# Signs that may stand in what is left out.
PLAIN = ("(", ")", "[", "]", ".", ",", ";", ":", "::", "&", "*")
# Words that say what is done, and are no names.
KEYWORDS = ("as", "break", "const", "continue", "crate", "else", "fn", "for", "if", "impl", "in",
            "let", "loop", "match", "move", "mut", "pub", "ref", "return", "static", "super", "type",
            "unsafe", "use", "where", "while", "yield")


def strip(source, items):
    """Leaves out clauses, ghost items and members, and the attributes that are for the prover."""
    for item in items:
        if item.kind == "ghost":
            continue
        if item.kind == "file":
            if source.text(source.next(item.start, 3)) != "tactic":
                source.refuse(item.start, "an attribute of a whole file")
            continue
        attributes(source, item)
        if item.kind == "fn":
            clauses(source, item)
        elif item.kind == "struct" and source.text(item.open) == "{":
            members(source, item)
        elif item.kind == "impl":
            strip(source, item.parts)


def attributes(source, item):
    at = item.start
    while source.text(at) == "#":
        end = source.close(source.next(at))
        name = source.text(source.next(at, 2))
        if name not in ATTRIBUTES:
            source.refuse(at, f"an attribute `{name}`")
        behind = source.next(end)
        if name == "tactic":
            source.cut(at, behind - 1)
        elif name == "derive":
            item.derive = (at, end)
        at = behind
    item.start = source.next(item.start - 1)


def clauses(source, item):
    """Leaves out the clauses of a function, with the comments between them."""
    places = source.places(item.head, item.open - 1)
    first = next((at for at in places if source.tokens[at].is_word("requires", "ensures")), None)
    if first is None:
        return
    if not all(source.tokens[at].is_word("requires", "ensures") or source.is_word(at)
               or source.tokens[at].kind == "ghost" for at in places if at >= first):
        source.refuse(first, "something after the clauses of a function that is no clause")
    source.cut(source.prev(first) + 1, item.open - 1)
    source.tokens[item.open - 1].kind, source.tokens[item.open - 1].text = "space", " "


def members(source, item):
    """Leaves out the ghost members of a struct, and lists the places of the others."""
    at = source.next(item.open)
    while at < item.last:
        item.has_members = True
        end = field_end(source, at, item.last)
        words = source.texts(at, end)
        behind = source.next(end)
        if "ghost" in words[: words.index(":")]:
            source.cut(at, end)
        else:
            item.members.append((at, end))
            if words[0] in OPENED.get(item.name, ()):
                source.tokens[at].text = "pub(crate) " + words[0]
        at = behind


def field_end(source, at, end):
    """The comma after a field, or the last token of the last one."""
    while at < end:
        at, depth = source.skip(at), int(source.text(at) == "<")
        while depth > 0:
            at = source.next(at)
            depth += (source.text(at) == "<") - (source.text(at) == ">")
        if source.text(at) == "," or source.next(at) >= end:
            return at
        at = source.next(at)
    return at


def empty_types(sources):
    """The structs of which nothing is there when the program runs: they had ghost members, or
    members of such types, and no others. With each goes the set of the names of its members'
    owners: `{type: {field, ..}}` of the structs that hold one."""
    empty, fields = set(), {}
    structs = [(source, item) for source in sources for item in source.items
               if item.kind == "struct" and item.has_members]
    grown = True
    while grown:
        grown = False
        for source, item in structs:
            held = fields.setdefault(item.name, set())
            for at, end in list(item.members):
                names = [it for it in source.texts(at, end) if it != ","]
                if names[names.index(":") + 1 :] != [names[-1]] or names[-1] not in empty:
                    continue
                held.add(names[names.index(":") - 1])
                item.members.remove((at, end))
                source.cut(at, end)
                grown = True
            if not item.members and item.name not in empty:
                empty.add(item.name)
                grown = True
    for source, item in structs:
        is_told_by_name = item.name in empty or fields[item.name]
        if is_told_by_name and sum(other.name == item.name for _, other in structs) > 1:
            source.refuse(item.head, f"two structs with the name `{item.name}`")
    return empty, {name: held for name, held in fields.items() if held and name not in empty}


def lookers(sources):
    """The names of free functions that can do nothing but give a number: they take texts, numbers
    and what is lent to be looked at, and each is proved to end."""
    known = {}
    for source in sources:
        for item in source.items:
            if item.kind == "fn":
                words = source.texts(item.head, item.open - 1)
                looks = words[-1] in NUMBERS and not ACTING & {*words[1:]}
                known.setdefault(item.name, []).append(looks)
    return {name for name, looks in known.items() if all(looks)}


def refuse_acting(source, item):
    """Refuses a method of a value that takes no bytes which could do something to another one."""
    for part in [part for part in item.parts if part.kind == "fn"]:
        words = " ".join(source.texts(part.head, part.open - 1)[1:])
        if ACTING & {*words.replace("& mut self", "").split()}:
            source.refuse(part.head, f"`{part.name}`, which could do more than is left out")


def erase(source, empty, fields):
    """Leaves out the types of which nothing is there, and what is done to the members that had
    them."""
    for item in source.items:
        if item.name in empty and item.kind in ("struct", "impl"):
            refuse_acting(source, item)
            source.cut(item.first, item.last)
    source.items = [item for item in source.items if source.text(item.last)]
    for item in source.items:
        for at, end in item.members if item.kind == "struct" else ():
            names = source.texts(at, end)
            if names and names[names.index(":") - 1] in fields.get(item.name, ()):
                source.cut(at, end)
        for at in range(item.start, item.last + 1):
            if source.is_real(at):
                held = fields.get(item.name, ()) if item.kind == "impl" else ()
                erase_at(source, at, empty, fields, held)


def erase_at(source, at, empty, fields, held):
    """Leaves out what begins at a place, in an impl of a struct that holds such members."""
    if source.text(at) not in ("let", "self", *fields):
        return
    text, before, behind = source.around(at)
    second, third = source.text(source.next(at, 2)), source.text(source.next(at, 3))
    if text in fields and behind == "{" and before not in ("for", "impl", "struct"):
        erase_members(source, source.next(at), fields[text], empty, held)
    elif (text == "let" and second == "=" and third in empty
          or text == "self" and before in (";", "{", "}") and behind == "." and second in held):
        erase_statement(source, at, empty, held)


def erase_members(source, opening, names, empty, held):
    """Leaves the members with these names out of a value that is made, or taken apart."""
    at, end = source.next(opening), source.close(opening)
    while at < end:
        last = source.skip(at)
        while source.text(last) != "," and source.next(last) < end:
            last = source.skip(source.next(last))
        if source.text(at) in names:
            doubt(source, at, last, empty, held)
            source.cut(at, last)
        at = source.next(last)


def erase_statement(source, first, empty, held):
    """Leaves a statement out. One that is a block's value stays, and with it the type of that,
    which is then refused."""
    last = first
    while source.text(last) != ";":
        last = source.next(source.skip(last))
        if source.text(last) == "}":
            return
    doubt(source, first, last, empty, held)
    source.cut(first, last)


def doubt(source, first, last, empty, held):
    """Notes what is left out and could do something: all but places, numbers, texts and what lends
    or groups them, calls of types that take no bytes, and calls of functions that only look. It is
    refused if the function that it stands in is needed."""
    statement = source.next(first, 2 if source.text(first) == "let" else 3)
    for at in source.places(first, last):
        kind, (text, before, behind) = source.tokens[at].kind, source.around(at)
        if kind == "sign":
            is_plain = text in PLAIN or text == "=" and at == statement
        elif kind == "word" and behind in ("(", "!"):
            is_plain = behind == "(" and is_harmless(source, at, empty, held)
        else:
            is_plain = text not in KEYWORDS or text == "let" and at == first
        if not is_plain:
            source.doubts.append((at, text))


def is_harmless(source, at, empty, held):
    """Whether a call changes nothing but a value that takes no bytes, or only looks."""
    before = source.prev(at)
    of = source.text(source.prev(before))
    if source.text(before) == "::":
        return of in empty
    if source.text(before) == ".":
        return of in held and source.text(source.prev(before, 3)) == "self"
    # (a closure of this file may have the name of a function)
    is_bound = any(source.text(it) == source.text(at) and source.text(source.next(it)) != "("
                   for item in source.items if item.kind != "use"
                   for it in source.places(item.start, item.last) if source.is_word(it))
    return source.text(at) in source.lookers and not is_bound
