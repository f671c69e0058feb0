"""A source as items: what it contains, what each item defines, and what each names."""
from extraction.tokens import TRIVIA, Refused, closing, tokens_of

KINDS = ("fn", "struct", "enum", "impl", "mod", "use", "const", "static", "type", "ghost")
TRAITS = ("Default", "From", "FusedIterator", "Iterator", "Model", "Read", "Write")
# The bounds that a parameter which is a type may have: it is a stream, or a type of which a value
# may be let go, as each may in Rust.
BOUNDS = ("Drop", "Read", "Write")


class Item:
    """An item: its tokens from `first`, with the comments in front of it, over `start` to `last`.
    """

    def __init__(self, kind, first, start, head, last):
        self.kind, self.first, self.start, self.head, self.last = kind, first, start, head, last
        self.name = self.trait = self.open = self.of = None
        self.parts, self.members, self.derive = [], [], None
        self.is_public = self.is_kept = self.has_members = False
        self.allocates = False  # a function with an allocator, or the error of an allocation


class Source:
    """The tokens of a file and its items. A token that is left out becomes an empty one, so that
    places stay."""

    def __init__(self, name, text, has_items=True):
        self.name, self.tokens, self.items, self.doubts = name, tokens_of(text), [], []
        self.lookers, self.functions, self.takers, self.own = set(), set(), set(), set()
        self.streams, self.named = [], None
        at = 0
        while at < len(self.tokens) and (self.tokens[at].kind == "space"
                                         or self.tokens[at].text.startswith("//!")):
            at += 1
        self.top = "".join(token.text for token in self.tokens[:at])
        if has_items:
            self.items = self.items_between(at, len(self.tokens))

    def is_real(self, at):
        return self.tokens[at].text != "" and self.tokens[at].kind not in TRIVIA

    def next(self, at, count=1, step=1):
        """The place of the next token that counts, or of the one after it, and so on."""
        tokens, end = self.tokens, len(self.tokens)
        for _ in range(count):
            at += step
            while 0 <= at < end and (tokens[at].text == "" or tokens[at].kind in TRIVIA):
                at += step
        return at

    def prev(self, at, count=1):
        return self.next(at, count, -1)

    def text(self, at):
        return self.tokens[at].text if 0 <= at < len(self.tokens) else ""

    def is_word(self, at):
        return 0 <= at < len(self.tokens) and self.tokens[at].kind == "word"

    def places(self, first, last):
        """The places of the tokens that count."""
        return [at for at in range(first, last + 1) if self.is_real(at)]

    def close(self, at):
        return closing(self.tokens, at)

    def skip(self, at):
        """Where a bracket that opens at a place closes, or that place."""
        return self.close(at) if self.tokens[at].is_sign("(", "[", "{") else at

    def span(self, first, last):
        """The text from one token to another."""
        return "".join(token.text for token in self.tokens[first : last + 1])

    def around(self, at):
        """The texts of a token and of those before and after it."""
        return self.text(at), self.text(self.prev(at)), self.text(self.next(at))

    def texts(self, first, last):
        """The texts of the tokens that count."""
        return [self.text(at) for at in self.places(first, last)]

    def cut(self, first, last):
        for token in self.tokens[first : last + 1]:
            token.text = ""

    def refuse(self, at, what):
        raise Refused(self.tokens[min(at, len(self.tokens) - 1)].line, what)

    def items_between(self, at, end):
        found = []
        while (start := self.next(at - 1)) < end:
            found.append(self.item(at, start))
            at = found[-1].last + 1
        return found

    def item(self, first, start):
        at = start
        while self.text(at) == "#":
            if self.text(self.next(at)) == "!":
                return Item("file", first, start, at, self.close(self.next(at, 2)))
            at = self.next(self.close(self.next(at)))
        is_public = self.text(at) == "pub"
        if is_public:
            at = self.next(at)
            if self.text(at) == "(":
                at = self.next(self.close(at))
        kind = self.text(at)
        if kind == "const" and self.text(self.next(at)) == "fn":
            at, kind = self.next(at), "fn"
        if kind not in KINDS:
            self.refuse(at, f"an item that begins with `{kind}`")
        if kind == "static" and self.text(self.next(at)) == "mut":
            self.refuse(at, "`static mut`")
        item = Item(kind, first, start, at, self.item_end(kind, at))
        item.is_public = is_public
        if kind == "impl":
            self.impl(item)
        elif kind not in ("use", "ghost"):
            item.name = self.text(self.next(at))
        if kind in ("fn", "struct", "enum"):
            self.parameters(self.next(at, 2), f"a `{kind}` with a parameter that is a type")
            item.open = self.opening(at)
        return item

    def item_end(self, kind, at):
        """The last token of an item whose head begins at a place."""
        while True:
            if self.text(at) == ";" or kind == "mod" and self.text(at) == "{":
                return at
            if self.tokens[at].is_sign("(", "[", "{"):
                is_body = self.text(at) == "{" and kind not in ("use", "const", "static")
                at = self.close(at)
                if is_body:
                    return at
            at = self.next(at)
            if at >= len(self.tokens):
                self.refuse(at, "an item that does not end")

    def opening(self, at):
        """The brace that opens the body of an item; the end where it has none."""
        while self.text(at) not in ("{", ";"):
            at = self.next(self.skip(at))
        return at

    def parameters(self, at, refused):
        """The token after parameters in angles, if there are any: lifetimes, and types of which
        nothing but a few bounds is known."""
        if self.text(at) != "<":
            return at
        while self.text(at) != ">":
            at = self.next(at)
            if self.is_word(at):
                at = self.bounds(at, refused)
        return self.next(at)

    def bounds(self, at, refused):
        """The token after a parameter that is a type. Its bound `Drop`, which is another one in
        Rust, is left out."""
        mark, kept = self.next(at), []
        if self.text(mark) != ":":
            self.refuse(at, refused)
        while self.text(mark) in (":", "+"):
            bound = self.next(mark)
            behind = self.next(bound)
            if self.text(bound) not in BOUNDS:
                self.refuse(bound, refused)
            elif self.text(bound) == "Drop":
                self.cut(mark, bound)
            else:
                self.tokens[mark].text = "+" if kept else ":"
                kept.append(self.text(bound))
            mark = behind
        if self.text(mark) not in (",", ">"):
            self.refuse(mark, refused)
        self.streams.append((at, self.text(at), kept))
        return mark

    def impl(self, item):
        """The type of an impl, its trait, and its parts. A model is for the prover alone."""
        at = self.parameters(self.next(item.head), "an `impl` with a parameter that is a type")
        item.open = self.opening(at)
        words = self.texts(at, item.open - 1)
        if "for" in words:
            trait, words = words[: words.index("for")], words[words.index("for") + 1 :]
            # (a trait with a parameter has one that is a type without parameters of its own)
            is_known = trait[1:2] + trait[3:] in ([], ["<", ">"])
            item.trait = trait[0] if is_known else "".join(trait)
            if item.trait not in TRAITS or (item.trait == "From") != (len(trait) == 4):
                self.refuse(item.head, f"an `impl` of `{''.join(trait)}`")
            item.kind = "ghost" if item.trait == "Model" else "impl"
        item.name = words[0]
        if any(item.head < at < item.open and name == item.name for at, name, _ in self.streams):
            self.refuse(item.head, "an `impl` for each type")
        item.parts = self.items_between(item.open + 1, item.last)
        for part in [item] + item.parts:
            part.of = item.name

    def names_in(self, first, last, itself=None):
        """The names in tokens: `(".", name, count)` for a method that is called with so many
        arguments, `(of, name)` for a name after a type or a module, and `name` for a name by
        itself, which may be the first one of a path."""
        found = set()
        for at in self.places(first, last):
            if not self.is_word(at):
                continue
            name, before, behind = self.text(at), self.prev(at), self.next(at)
            if self.text(before) == ".":
                if self.text(behind) == "(":
                    found.add((".", name, self.count_of(behind)))
            elif self.text(before) == "::":
                of = self.text(self.prev(before))
                found.add((itself if of == "Self" else of, name))
            else:
                found.add(name)
        return found

    def count_of(self, opening):
        """How many arguments stand in parentheses."""
        return len(self.arguments(opening))

    def arguments(self, opening):
        """The arguments in parentheses: the first token of each, and the comma or the end after it."""
        at, end, found = self.next(opening), self.close(opening), []
        while at < end:
            first = at
            while at < end and self.text(at) != ",":
                if self.text(at) == "|":
                    while (at := self.next(at)) < end and self.text(at) != "|":
                        pass
                elif self.tokens[at].is_sign("(", "[", "{"):
                    at = self.close(at)
                at = min(self.next(at), end)
            found.append((first, at))
            at = self.next(at)
        return found

    def given(self, item):
        """The parenthesis that opens the parameters of a function."""
        opening = self.next(item.head, 2)
        while self.text(opening) != "(":
            opening = self.next(opening)
        return opening

    def items_inside(self):
        """The items of the file, and those in them."""
        return [it for item in self.items for it in (item, *item.parts)]

    def imports(self):
        """The names that this file gives to others, and the path of each."""
        if self.named is None:
            uses = [Import(self, self.next(it.head)) for it in self.items if it.kind == "use"]
            self.named = {called: path for it in uses for path, called in it.paths()}
        return self.named


class Import:
    """A part of a `use`: a segment of a path with those after it, or a name with the one that it gets
    here."""

    def __init__(self, source, at):
        self.name, self.behind, self.called = source.text(at), [], source.text(at)
        at = source.next(at)
        if source.text(at) == "::":
            at = source.next(at)
            if source.text(at) == "{":
                while source.text(at) != "}":
                    at = source.next(at)
                    if source.text(at) != "}":
                        self.behind.append(Import(source, at))
                        at = self.behind[-1].end
                at = source.next(at)
            else:
                self.behind.append(Import(source, at))
                at = self.behind[-1].end
        elif source.text(at) == "as":
            self.called = source.text(source.next(at))
            at = source.next(at, 2)
        self.end = at

    def paths(self):
        """Each path that is named, and what it is called."""
        if not self.behind:
            return [([self.name], self.called)]
        behind = [it for part in self.behind for it in part.paths()]
        return [([self.name] + path, called) for path, called in behind]
