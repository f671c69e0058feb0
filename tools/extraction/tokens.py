"""The tokens of a source in Rattle. What only the prover reads, a clause or the text of a ghost
item, is one token."""
import re

TOKEN = re.compile(
    r"""
    (?P<space>\s+)
  | (?P<doc>//[/!][^\n]*)
  | (?P<comment>//[^\n]*)
  | (?P<string>b?r(?P<hashes>\#*)"(?s:.*?)"(?P=hashes) | [bc]?"(?s:\\.|[^"\\])*")
  | (?P<char>b?'(?:\\(?:u\{[^}']*\}|x..|.)|[^'\\\n])')
  | (?P<life>'\w+)
  | (?P<word>(?:r\#)?[A-Za-z_]\w*)
  | (?P<number>[0-9]\w*)
  | (?P<sign>::|->|=>|\.\.=|\.\.\.|\.\.|.)
""",
    re.X,
)

# In a clause a prime belongs to a name, and only texts have to be told from other signs.
CLAUSE_TOKEN = re.compile(
    r"""(?P<string>"(?s:\\.|[^"\\])*")|(?P<comment>//[^\n]*)|(?P<sign>(?s:.))""", re.X
)

TRIVIA = ("space", "comment", "doc")


class Refused(Exception):
    """A form that the extraction does not know what to make of."""

    def __init__(self, line, what):
        super().__init__(what)
        self.line = line


class Token:
    def __init__(self, kind, text, line):
        self.kind, self.text, self.line = kind, text, line

    def is_word(self, *texts):
        return self.kind == "word" and self.text in texts

    def is_sign(self, *texts):
        return self.kind == "sign" and self.text in texts


def tokens_of(source):
    """The tokens of a file. The braces of a clause or a ghost item and all in them are one token,
    of the kind `ghost`."""
    found, words, at, line = [], [], 0, 1
    while at < len(source):
        here = TOKEN.match(source, at)
        if here is None or source.startswith("/*", at):
            raise Refused(line, f"no token at {source[at:at + 20]!r}")
        kind, start, at = "string" if here.lastgroup == "hashes" else here.lastgroup, at, here.end()
        if kind not in TRIVIA:
            words = (words + [here.group()])[-4:]
        if here.group() == "{" and opens_clause(words):
            kind, at = "ghost", clause_end(source, start, line)
            words = []
        elif words[-2:] == ["ghost", "use"]:
            found.append(Token(kind, here.group(), line))
            kind, start, at = "ghost", at, source.index(";", at)
            words = []
        found.append(Token(kind, source[start:at], line))
        line += found[-1].text.count("\n")
    return found


def opens_clause(words):
    """Whether the brace after these words opens a part for the check alone: `requires {`, `ensures
    name {`, `ghost name = {` or `ghost name: {`."""
    before = " ".join(words[:-1])
    return re.search(r"\b(requires|ensures)( \w+)?$|\bghost \S+ [=:]$", before) is not None


def clause_end(source, start, line):
    depth, at = 0, start
    while at < len(source):
        here = CLAUSE_TOKEN.match(source, at)
        depth += {"{": 1, "}": -1}.get(here.group(), 0)
        at = here.end()
        if depth == 0:
            return at
    raise Refused(line, "a clause does not end")


def closing(tokens, at):
    """Where the bracket closes that opens at a place."""
    depth = 0
    for here in range(at, len(tokens)):
        if tokens[here].is_sign("(", "[", "{"):
            depth += 1
        elif tokens[here].is_sign(")", "]", "}"):
            depth -= 1
        if depth == 0:
            return here
    raise Refused(tokens[at].line, f"a `{tokens[at].text}` does not close")
