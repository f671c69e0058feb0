"""Crates as a whole: which of their items are needed, and the sources in Rust that these make."""
import re
import subprocess
import tempfile
from pathlib import Path

from extraction import allocators, ghosts, rules
from extraction.source import Import, Source
from extraction.tokens import Refused

TOP = Path(__file__).resolve().parent.parent.parent
RUST = TOP / "bindings/rust/src"
CRATES = ("rustc_parse_format", "placeholder_check", "format_tokens", "fault_fixes", "drawn_lines", "shown_text",
          "drawn_labels", "drawn_edits", "drawn_faults", "rust_tokens", "rust_trees",
          "format_calls", "call_forms", "source_report", "diagnostic", "text_faults", "text_diagnostics",
          "call_faults", "asm_faults", "message_faults", "piece_listing", "listing_json", "literal_faults", "format_literal",
          "format_lint", "asm_lint", "source_lint", "file_fixes", "inlined_arguments",
          "file_inlines", "macro_owners", "file_paths", "unified_diff", "fault_rules", "emit",
          "manifest",
          "lint_program", "formatread", "formatlint")
# The features of the crate for Rust: `programs` has the others.
FEATURES = ("lint", "formatread", "programs")
ALWAYS = frozenset({"", *FEATURES})
# A module that is there with a feature alone, or with each of two
GATED = re.compile(r'#\[cfg\((?:any\()?(feature = .*?)\)?\)\]\s*(?:#\[.*\]\s*)*(?:pub )?mod (\w+);')
# The crates of which each function can be inlined: those that read the bytes of all texts and files
INLINED = ("rustc_parse_format", "rust_tokens", "rust_trees")
# A function of these that makes the texts of an error: each caller would get a copy of all of them
SELDOM = {("rustc_parse_format", "set_error")}
# Others, whose functions run for each token of a file or each character that is drawn
FREQUENT = ("format_calls", "macro_owners", "call_forms", "source_lint", "drawn_lines", "drawn_labels",
            "shown_text")
# How many tokens the body of a function may have that can be inlined in another crate, or at all
SHORT, LONG = 20, 40
NOTICE = """\
// Extracted from {place} by tools/extract: not to be edited.
// That source has the contracts, and is proved. That this text means the same is only tested.

"""


# The texts that sources became, by all that decides them.
TEXTS = {}


class Read:
    """Crates that were read, `{name: folder}`, without what is there for the prover alone."""

    def __init__(self, crates):
        self.crates = list(crates)
        self.sources = [source_of(crate, str(path.relative_to(folder)), path, path.read_text())
                        for crate, folder in crates.items() for path in sorted(folder.rglob("*.rt"))]
        self.empty, self.fields = ghosts.empty_types(self.sources)
        self.lookers, self.functions = ghosts.lookers(self.sources), functions_of(self.sources)
        self.own = set()
        takers = [in_place(it.path, allocators.takers, it) for it in self.sources]
        self.takers = allocators.TAKING.union(*takers)
        for source in self.sources:
            self.erase(source)

    def erase(self, source):
        source.lookers, source.functions, source.takers = self.lookers, self.functions, self.takers
        source.own = self.own
        in_place(source.path, ghosts.erase, source, self.empty, self.fields)

    def replace(self, path, text):
        """Reads another text in place of a file: bodies of functions are all that differs."""
        at = next(at for at, it in enumerate(self.sources) if it.path == str(path))
        self.sources[at] = source_of(self.sources[at].crate, self.sources[at].name, path, text)
        self.erase(self.sources[at])

    def changed(self, path, text):
        """The text in Rust of another text of a file, after `made`. Only bodies of functions differ, and
        they need nothing else."""
        old = next(it for it in self.sources if it.path == str(path))
        source = source_of(old.crate, old.name, path, text)
        self.erase(source)
        for item, known in zip(source.items_inside(), old.items_inside()):
            item.is_kept = known.is_kept
        return self.text(source, self.needs, self.cloned)

    def made(self, callers):
        """The sources in Rust, by their names, of all items that the callers need: files in Rust, by
        the features with which they are there, or with all. A module that only these need is there
        with the same features alone. It can be asked once."""
        needs = Needs(self.sources)
        for features, paths in sorted(callers.items(), key=lambda it: -len(it[0])):
            needs.add_callers(paths, features)
        needs.note_passed()
        self.own |= {(it.crate, item.name) for it in self.sources for item in it.items_inside()
                     if item.is_kept and item.kind == "fn" and item.of}
        cloned = {item.name for source in self.sources for item in source.items
                  if any(clones_in(source, part) for part in item.parts)}
        self.needs, self.cloned = needs, cloned
        head = "// The crates that are extracted. Made by tools/extract: not to be edited.\n\n"
        modules = (f"{needs.feature(name)}pub mod {name};\n" for name in sorted(self.crates)
                   if needs.has(name))
        made = {"mod.rs": head + "".join(modules)}
        for source in self.sources:
            module = module_of(source.name)
            if needs.has(source.crate, *module):
                target = source.name.replace(".rt", ".rs") if module else "mod.rs"
                made[f"{source.crate}/{target}"] = self.text(source, needs, cloned)
        return made

    def text(self, source, needs, cloned):
        """The text in Rust of a source."""
        here = (source.crate, *module_of(source.name))
        items = source.items_inside()
        has = [(needs.has(*here, it.name), needs.feature(*here, it.name))
               for it in items if it.kind == "mod"]
        passed = sorted(needs.passed_in(source.path).items())
        key = (source.path, source.whole, *(it.is_kept for it in items), *has, *passed)
        if key not in TEXTS:
            words = (source, needs, self.crates, self.empty, cloned)
            TEXTS[key] = in_place(source.path, rust_of, *words)
        return TEXTS[key]


def source_of(crate, name, path, text):
    """A file of a crate, without clauses and ghost items."""
    source = in_place(str(path), Source, name, text)
    source.crate, source.path, source.whole = crate, str(path), text
    in_place(str(path), ghosts.strip, source, source.items)
    return source


def functions_of(sources):
    """The names of all functions and methods."""
    return {it.name for source in sources for it in source.items_inside() if it.kind == "fn"}


def read_repository():
    """The crates of the repository that are extracted."""
    return Read({name: TOP / "crates" / name / "src" for name in CRATES})


def of_repository(read=None):
    """The sources that these crates, or those of the repository, make for the crate for Rust, by
    their names."""
    files = [it for it in sorted(RUST.rglob("*.rs")) if RUST / "proved" not in it.parents]
    folder = lambda it: it.parent if it.stem in ("lib", "mod") else it.with_suffix("")
    gated = {folder(it) / name: with_programs(re.findall(r'"(\w+)"', features))
             for it in files for features, name in GATED.findall(it.read_text())}
    callers = {ALWAYS: []}
    for it in files:
        places = (it.with_suffix(""), *it.parents)
        features = next((gated[place] for place in places if place in gated), ALWAYS)
        callers.setdefault(features, []).append(it)
    return (read or read_repository()).made(callers)


def with_programs(features):
    """These features, and the one that has them."""
    return frozenset({*features, "programs"})


def laid_out(files):
    """Files, by their names, as rustfmt lays them out."""
    with tempfile.TemporaryDirectory() as folder:
        paths = {Path(folder) / name: text for name, text in files.items()}
        for path, text in paths.items():
            path.parent.mkdir(parents=True, exist_ok=True)
            path.write_text(text)
        words = "rustfmt --edition 2021 --config max_width=100".split()
        done = subprocess.run([*words, *paths], capture_output=True, text=True)
        if done.returncode != 0:
            raise Refused(0, done.stderr)
        return {name: (Path(folder) / name).read_text() for name in files}


def in_place(path, call, *arguments):
    """A call that tells the file of what it refuses."""
    try:
        return call(*arguments)
    except Refused as refused:
        raise Refused(refused.line, f"{path}:{refused.line}: {refused}") from None


class Needs:
    """The items that are needed, by their file and name, and the methods, by the calls of them."""

    def __init__(self, sources):
        self.sources = sources
        self.files = {(source.crate, *module_of(source.name)): source for source in sources}
        self.items, self.methods, self.shown = set(), set(), set()
        # The modules, and what is imported through files, with the features that need it
        self.features, self.passed, self.now = {}, {}, ALWAYS
        # The files that callers name, with the features of these
        self.named = []

    def add_callers(self, paths, features):
        """Marks all items that these files in Rust need, and what these need."""
        self.now = features
        for path in paths:
            self.add_caller(in_place(str(path), Source, path.name, path.read_text(), False))
        self.follow()
        for module in filter(lambda it: self.has(*it), self.files):
            self.features.setdefault(module, features)

    def add_caller(self, caller):
        """Adds what a file in Rust names: what it imports of what is extracted, and each method
        that it calls; one that takes an allocator in Rattle has one argument more there, and is
        called by its type. What it exports is shown: all public methods of that are needed that
        take no allocator and never say that an allocation failed."""
        end = len(caller.tokens) - 1
        methods = {it for it in caller.names_in(0, end) if isinstance(it, tuple)}
        for at in (it for it in caller.places(0, end) if caller.tokens[it].is_word("use")):
            for path, called in Import(caller, caller.next(at)).paths():
                if "proved" in path:
                    found = self.resolved(path[path.index("proved") + 1 :])
                    self.items.add(found)
                    self.named.append((found[0], self.now))
                    methods |= {(found[1], it[1]) for it in methods if it[0] == called}
                    if caller.text(caller.prev(at)) == "pub":
                        self.shown.add(found)
        self.methods |= methods

    def resolved(self, path):
        """The file and the name of what a path from the crates on leads to, past what other files
        import for it."""
        if rules.in_library(path) is not None:
            return None, path[-1]
        for cut in range(len(path) - 1, 0, -1):
            source = self.files.get(tuple(path[:cut]))
            if source is not None:
                behind = source.imports().get(path[cut])
                if behind is None:
                    return source.path, path[cut]
                name = source.path, path[cut]
                self.passed[name] = self.now | self.passed.get(name, self.now)
                return self.resolved(self.absolute(source, behind) + path[cut + 1 :])
        return None, path[-1]

    def absolute(self, source, path):
        """A path that a file writes, from the crates on."""
        here = [source.crate, *module_of(source.name)]
        if path[0] == "crate":
            return [source.crate, *path[1:]]
        if path[0] == "super":
            return here[:-1] + path[1:]
        if (*here, path[0]) in self.files:
            return here + path
        return path

    def add(self, source, item):
        """Adds what an item names."""
        imports = source.imports()
        for name in source.names_in(item.start, item.last, item.of):
            path = imports.get(name)
            if isinstance(name, tuple):
                self.methods.add(name)
                path = imports.get(name[0], [name[0]]) + [name[1]]
            if name[0] != ".":
                known = path and self.resolved(self.absolute(source, path))
                self.items.add(known or (source.path, name))

    def follow(self):
        """Marks all items that are needed, and what these need."""
        parts_of = lambda item: item.parts if item.kind == "impl" and not item.trait else [item]
        all_parts = [(source, item, part) for source in self.sources for item in source.items
                     for part in parts_of(item)]
        grown = True
        while grown:
            grown = False
            for source, item, part in all_parts:
                if not part.is_kept and self.is_needed(source, item, part):
                    part.is_kept = item.is_kept = grown = True
                    for inner in part.parts:
                        inner.is_kept = inner.kind != "ghost"
                    self.add(source, part)
                    if part is not item:
                        self.items.add((source.path, item.name))

    def note_passed(self):
        """Notes what the modules import through others, with the features that they are there with. A
        module that another one names is there with each feature that that one is there with."""
        module_at = {it.path: module for module, it in self.files.items()}
        for path, features in self.named:
            self.is_widened(module_at.get(path), features)
        grown = True
        while grown:
            grown = False
            for module, self.now in list(self.features.items()):
                source, items = self.files[module], self.items
                self.items = set()
                for item in source.items:
                    for part in [it for it in item.parts if it.is_kept] or [item]:
                        if part.is_kept:
                            self.add(source, part)
                for named in {module_at.get(path) for path, _ in self.items}:
                    grown |= self.is_widened(named, self.now)
                self.items |= items

    def is_widened(self, module, features):
        """Has a module, and those around it, be there with these features too. Returns whether one was
        not."""
        around = [module[:cut + 1] for cut in range(len(module or ()))]
        widened = [it for it in around if not self.features.get(it, ALWAYS) >= features]
        for it in widened:
            self.features[it] |= features
        return bool(widened)

    def passed_in(self, path):
        """The names that are imported through a file, with their features."""
        return {name: features for (place, name), features in self.passed.items() if place == path}

    def has(self, *module):
        """Whether something of a module is needed, or of one in it."""
        inside = [it for here, it in self.files.items() if here[: len(module)] == module]
        return any(item.is_kept for source in inside for item in source.items)

    def feature(self, *module):
        """The attribute of a module, if it is there with fewer features than the module around it."""
        features = self.features.get(module, ALWAYS)
        return "" if features >= self.features.get(module[:-1], ALWAYS) else attribute(features)

    def is_needed(self, source, item, part):
        if item.kind != "impl":
            is_item = part.kind in ("fn", "struct", "enum", "const", "static", "type")
            return is_item and (source.path, part.name) in self.items
        path = source.imports().get(item.name)
        of = self.resolved(self.absolute(source, path)) if path else (source.path, item.name)
        if of not in self.items or part.kind == "ghost" or clones_in(source, part):
            return False
        is_shown = part.is_public and of in self.shown and not takes_allocator(source, part)
        if part is item or is_shown or (item.name, part.name) in self.methods:
            return True
        count = part.kind == "fn" and source.count_of(source.given(part)) - 1
        return (".", part.name, count) in self.methods


def attribute(features):
    """The attribute of what is there with these features alone."""
    words = [f'feature = "{it}"' for it in FEATURES[:-1] if it in features]
    words = words or [f'feature = "{FEATURES[-1]}"']
    return f"#[cfg({words[0] if len(words) == 1 else f'any({chr(44).join(words)})'})]\n"


def module_of(name):
    """The modules that lead to a file, from its crate on."""
    words = name.removesuffix(".rt").split("/")
    return [] if words in (["lib"], ["main"]) else words


def clones_in(source, item):
    """Whether a method is a clone that takes an allocator, for which Rust has a derive."""
    words = source.texts(item.head, item.open) if item.kind == "fn" else []
    return words[1:8] == ["clone", "(", "&", "self", ",", "alloc", ":"]


def takes_allocator(source, item):
    """Whether a function has an argument `alloc`, or says that an allocation failed."""
    words = source.texts(item.head, item.open)
    return "alloc" in words or "AllocError" in words


def rust_of(source, needs, crates, empty, cloned):
    """The text in Rust of a source."""
    for item in [it for it in source.items_inside() if it.is_kept and it.kind == "fn"]:
        item.allocates = takes_allocator(source, item)
        allocators.erase(source, item)
        rules.unsaid(source, item)
    own = set()
    for item in source.items:
        if item.is_kept:
            kept = [part for part in item.parts if part.is_kept and not item.trait] or [item]
            for name in (it for part in kept for it in source.names_in(part.start, part.last)):
                own |= {name if isinstance(name, str) else name[0], rules.TRAITS.get(name)}
            own |= source.names_in(item.start, item.open or item.last)
    here = (source.crate, *module_of(source.name))
    body, uses_shim = "", bool(own & {"Box", "String", "Vec"})
    for item in source.items:
        if item.kind == "mod":
            if needs.has(*here, item.name):
                # what calls the crates stands outside of them
                public = "pub" if item.is_public else "pub(crate)"
                feature = needs.feature(*here, item.name)
                body += f"{comments(source, item)}{feature}{public} mod {item.name};"
        elif item.kind == "use":
            passed = needs.passed_in(source.path) if item.is_public else {}
            features = {name: attribute(it) for name, it in passed.items()
                        if name not in own and not it >= needs.features[here]}
            words = own | passed.keys(), features
            lines = rules.imported(source, item, source.crate, crates, *words)
            body += comments(source, item) + lines if lines else ""
        elif item.is_kept:
            uses_shim |= item_rewritten(source, item, crates, empty, cloned)
            body += comments(source, item) + source.span(item.start, item.last)
    body = body.strip("\n")
    if uses_shim:
        body = (
            "use crate::shim::prelude::*;"
            + ("\n" if re.match(r"(pub(\(\w+\))? )?(use|mod) ", body) else "\n\n")
            + body
        )
    notice = NOTICE.format(place=f"crates/{source.crate}/src/{source.name}")
    return f"{rules.unsaid_of_file(source.top.rstrip())}\n\n{notice}{body}\n"


def item_rewritten(source, item, crates, empty, cloned):
    """Writes an item anew, and what is needed of its parts. Answers whether the shim's traits are
    called."""
    for part in item.parts:
        if not part.is_kept:
            source.cut(part.first, part.last)
    left = source.names_in(item.start, item.last) & empty
    if left:
        source.refuse(item.head, f"`{left.pop()}`, of which nothing is there, is still named")
    uses_shim = False
    rules.known_traits(source, item)
    for part in [part for part in item.parts if part.is_kept] or [item]:
        uses_shim |= rules.rewrite(source, part, source.crate, crates)
        if item.kind == "impl" and part.is_public and part.allocates:
            # no user of the crate for Rust can call it
            public = source.tokens[source.prev(part.head)]
            public.text = "pub(crate)" if public.text == "pub" else public.text
        head_of(source, part)
        if part.derive:
            derives(source, part, cloned)
    return uses_shim


def head_of(source, item):
    """Lets a short function be inlined, and each that reads bytes, but no long one that is called seldom,
    if no attribute says otherwise: rustc compiles a crate in parts, and Rattle as a whole. With all of
    them inlined rustc takes twice the time, and some 15 % more where it may inline long ones."""
    if item.kind == "fn":
        if (source.name, item.name) == ("main.rt", "main"):
            # a program of the crate for Rust calls it
            source.tokens[item.head].text = "pub fn"
        for at in source.places(item.start, item.head):
            if source.text(at) == "super":
                # what calls the crates stands outside of them
                source.tokens[at].text = "crate"
        words = source.texts(item.start, item.head)
        length = len(source.places(item.open, item.last))
        attribute = ""
        is_inlined = source.crate in INLINED and (source.crate, item.name) not in SELDOM
        if is_inlined or length <= SHORT:
            attribute = "#[inline]\n"
        elif length > LONG and source.crate not in FREQUENT:
            attribute = "#[inline(never)]\n"
        if "inline" not in words:
            source.tokens[item.start].text = attribute + source.tokens[item.start].text


def derives(source, item, cloned):
    first, last = item.derive
    names = [source.text(at) for at in source.places(first, last) if source.is_word(at)][1:]
    unknown = set(names) - rules.DERIVES
    if unknown:
        source.refuse(first, f"a derive of `{unknown.pop()}`")
    names = [name for name in names if name != "Drop"]
    names += rules.ADDED.get((source.crate, item.name), ())
    if item.name in cloned:
        names = ["Clone"] + names
    source.cut(first, source.next(last) - 1)
    growing = "#[non_exhaustive]\n" * ((source.crate, item.name) in rules.GROWING)
    source.tokens[first].text = growing + f"#[derive({', '.join(names)})]\n" * bool(names)


def comments(source, item):
    return source.span(item.first, item.start - 1)
