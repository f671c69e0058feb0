"""The places of a file of the crate for Rust where a small change makes a mutant."""
from extraction.source import Source

# Words that begin no statement which could be left out.
KEPT = ("break", "const", "continue", "else", "enum", "fn", "for", "if", "impl", "let", "loop", "match", "mod",
        "pub", "return", "static", "struct", "type", "unreachable", "use", "while")
# The signs of which one ends what is compared.
ENDS = ("&", "|", "{", "}", ",", ")", "]", ";", "=>")


class Site:
    """A place in the lines of a file, what changes there, and the texts around some tokens that change it."""

    def __init__(self, name, line, kind, first, last, before, after):
        self.name, self.line, self.kind = name, line, kind
        self.first, self.last, self.before, self.after = first, last, before, after


def last_before(source, at, signs):
    """The last token before one of these signs, which is not inside of brackets."""
    while source.text(at) not in signs and source.text(at):
        at = source.next(source.skip(at))
    return source.prev(at)


def sites_of(name, text):
    """The sites of a file, all of them in the bodies of functions."""
    source = Source(name, text, False)
    found, tokens, opened, constant = [], source.tokens, [], 0

    lines = text.split("\n")

    def note(at, kind, first, last, before, after=""):
        # (no text is as long as the bounds that are made of the bits of a `usize`)
        if "usize::BITS" not in lines[tokens[at].line - 1] or kind == "negated":
            found.append(Site(name, tokens[at].line, kind, first, last, before, after))

    for at in source.places(0, len(tokens) - 1):
        here, before, behind = source.around(at)
        if tokens[at].is_sign("(", "[", "{"):
            opened.append(here)
        elif tokens[at].is_sign(")", "]", "}"):
            opened.pop()
        if here in ("const", "static") and behind != "fn":
            constant = max(constant, last_before(source, at, ";"))
        if at <= constant or "{" not in opened:
            continue
        if tokens[at].is_word("if", "while"):
            last = last_before(source, at, ("{", "=>"))
            if "let" not in source.texts(at, last) and source.text(source.next(last)):
                note(at, "negated", source.next(at), last, "(", ") != crate::mutants::is(#)")
        elif here in ("<", ">") and source.text(at - 1) == " ":
            last = at + (source.text(at + 1) == "=")
            if source.text(last + 1) == " ":
                first = source.next(last)
                note(at, "moved", first, last_before(source, first, ENDS), "crate::mutants::larger(#, ", ")")
        elif here in ("&", "|") and source.text(at + 1) == here and source.text(at - 1).isspace():
            if source.text(at + 2) == " ":
                decides = "!crate::mutants::is(#) && " if here == "&" else "crate::mutants::is(#) || "
                note(at, "decided", source.next(at, 2), source.next(at, 2), decides)
        elif tokens[at].kind == "number" and here.isdigit() and before in ("+", "-", "(", ",", "=", "[", "{"):
            note(at, "larger", at, at, "crate::mutants::larger(#, ", ")")
        elif before in ("{", "}", ";") and opened[-1] == "{" and tokens[at].kind == "word" and here not in KEPT:
            last = last_before(source, at, (";", "{", "}", ","))
            if source.text(source.next(last)) == ";":
                note(at, "left out", at, source.next(last), "if !crate::mutants::is(#) { ", " }")
    return found


def changed(name, text, numbered):
    """The text of a file with its mutants, which have numbers."""
    source, before, after = Source(name, text, False), {}, {}
    for number, site in sorted(numbered.items(), key=lambda it: (it[1].first, -it[1].last)):
        before.setdefault(site.first, []).append(site.before.replace("#", str(number)))
        after.setdefault(site.last, []).insert(0, site.after.replace("#", str(number)))
    return "".join("".join(before.get(at, ())) + it.text + "".join(after.get(at, ()))
                   for at, it in enumerate(source.tokens))
