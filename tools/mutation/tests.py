"""The tests that look for a mutant: functions of bindings/rust/tests, comparisons with rows from outside, and rows of
the tables with which .ci and replay try the programs. Each is called with the folder in which the program has to be
for the mutant to be on (mutation/switch.rs)."""
import contextlib
import io
import json
import os
import random
import re
import resource
import runpy
import subprocess
import tempfile
from pathlib import Path

from made import TOP

COMPARISONS = (("titles", []), ("drawn", []), ("rows", [TOP / "crates/library_rows/stdin"]))
# The seconds of a processor and the bytes that a test may take, and its seconds by the clock.
LIMITS, SECONDS = ((resource.RLIMIT_CPU, 5), (resource.RLIMIT_AS, 1 << 30)), 60


class Limited(subprocess.Popen):
    """A process that ends when it takes too much."""
    seconds = 600  # (by the clock, as long as no mutant is on: other programs may take the processors)

    def __init__(self, *words, **how):
        super().__init__(*words, **how)
        with contextlib.suppress(ProcessLookupError, PermissionError):  # (it ended, or is nobody's)
            for kind, most in LIMITS:
                resource.prlimit(self.pid, kind, (most, most))

    def communicate(self, input=None, timeout=None):
        return super().communicate(input, timeout or self.seconds)


def command(binary, words, given=None, wanted=None):
    """A test that ends well, or with the status, the standard output and the standard error that are wanted."""
    def holds(folder):
        own = [f"{folder}/{Path(binary).name}", *map(str, words)]
        how = {"stdin": subprocess.DEVNULL} if given is None else {"input": given}
        ran = subprocess.run(own, executable=str(binary), capture_output=True, check=False, **how)
        return ran.returncode == 0 if wanted is None else (ran.returncode, ran.stdout, ran.stderr) == wanted
    return holds


def of_files(script):
    """The tests of .ci/files, each with a folder of its own."""
    def holds(name, row):
        def tried(folder):
            with tempfile.TemporaryDirectory() as room:
                os.chmod(room, 0o755)
                room = Path(room, "tree")
                script["furnish"](room)
                failure = script["row"](f"{folder}/formatlint", room, *row) if row else "; ".join(
                    script[name](f"{folder}/formatlint", room))
                for it in script["SECRET"]:
                    (room / it).chmod(0o755)
                return not failure
        return tried
    yield from ((f"files {row[0]}", holds(None, row)) for row in script["ROWS"] + script["ROWS_OF_BYTES"])
    for name in ("drawings", "as_drawn", "json_lines", "as_rustc", "suggestions", "sarif", "explained", "diffs", "others",
                 "big"):
        yield f"files {name}", holds(name, None)


def of_words(script):
    """The tests of .ci/words."""
    def holds(row):
        def tried(folder):
            with tempfile.TemporaryDirectory() as room:
                Path(room, "file").write_text('"{x}"\n')
                return not script["row"](f"{folder}/formatlint", Path(room), *row)
        return tried
    yield from ((f"words {row[0]} {row[1][:20]!r}", holds(row)) for row in script["ROWS"])

    def is_drawn(folder):
        told, _, _ = script["on_terminal"](f"{folder}/formatlint", ["--fix", "-"], {}, b"\tfn f() {}\n")
        return told == b"    fn f() {}\r\n"
    yield "words on a terminal", is_drawn

    def is_shown(function, *more):
        def tried(folder):
            with tempfile.TemporaryDirectory() as room:
                cases = script[function](f"{folder}/formatlint", Path(room), *more)
                return not any(wrong for _, wrong in cases)
        return tried
    yield "words on terminals", is_shown("on_terminals")
    yield "words on slow terminals", is_shown("on_slow_terminals")
    yield "words shown", is_shown("shown", "\x1b\xe9")


def of_manifests(script):
    """The tests of .ci/manifests. cargo is asked once for each package."""
    said = {}
    ask = script["cargo"]

    def cargo(folder):
        top = folder.parent
        key = str(sorted((str(it.relative_to(top)), it.read_bytes()) for it in top.rglob("*") if it.is_file()))
        if key not in said:
            said[key] = json.dumps(ask(folder)).replace(str(folder), "FOLDER")
        return json.loads(said[key].replace("FOLDER", str(folder)))

    def holds(function, row):
        def tried(folder):
            with tempfile.TemporaryDirectory() as room:
                package = Path(room).resolve() / "p"
                package.mkdir()
                return not list(script[function](f"{folder}/formatlint", package, *row))
        return tried
    script["package_failures"].__globals__["cargo"] = cargo
    for name, kind in ("PACKAGES", "package"), ("REFUSED", "refusal"), ("ASKED", "asked"), ("WARNED", "warned"):
        function = f"{kind}_failures"
        yield from ((f"manifests {row[:2]!r}", holds(function, row)) for row in script[name])
    yield "manifests made", holds("made_failures", (200,))


def of_owners(script):
    """The tests of .ci/owners."""
    def holds(is_report, title, edition, wanted, files):
        def tried(folder):
            with tempfile.TemporaryDirectory() as room:
                script["put"](Path(room, "p"), edition, files)
                program = f"{folder}/formatlint"
                if not is_report:
                    return script["inlined"](program, Path(room, "p"), files) == wanted
                told = [script["reported"](program, Path(room, "p"))]
                if list(files) == ["main"]:
                    told.append(script["reported"](program, "-", files["main"]))
                return set(told) == {wanted}
        return f"owners {title}", tried
    for title, edition, truth, wanted, files in script["ROWS"]:
        yield holds(False, title, edition, wanted and truth == script["STD"], files)
    for title, wanted, files in script["REPORTED"]:
        yield holds(True, title, 2021, wanted, files)

    def is_read(row):
        def tried(folder):
            with tempfile.TemporaryDirectory() as room:
                return script["own_failure"](f"{folder}/formatlint", Path(room, "own"), row) is None
        return f"owners {row[0]}", tried
    yield from map(is_read, script["OWN_ROWS"])


def of_writes(script):
    """Tests of .ci/writes: the calls that are inlined, from standard input, and some of its cases."""
    def holds(words, old, new):
        def tried(folder):
            words_of = [f"{folder}/formatlint", "--inline", "-q", "--edition", *words, "-"]
            old_text, new_text = (f"fn f() {{\n{it}\n}}\n".encode() for it in (old, new or old))
            return subprocess.run(words_of, input=old_text, capture_output=True, check=False).stdout == new_text
        return f"writes {old}", tried
    for words, table in ("2021", "INLINED"), ("2021 --mixed", "MIXED"), ("2018", "BEFORE_2021"):
        yield from (holds(words.split(), *row) for row in script[table])

    def has_no_failure(name):
        def tried(folder):
            names = script[name].__globals__
            names["program"] = f"{folder}/formatlint"
            names["failed"].clear()
            with tempfile.TemporaryDirectory() as room, contextlib.redirect_stdout(io.StringIO()):
                os.chmod(room, 0o755)
                script[name](Path(room))
            return not names["failed"]
        return f"writes {name}", tried
    yield from map(has_no_failure, ("paths", "not_text", "shut", "owners", "pipe", "links", "kept", "steps", "closed"))


def of_ends(script):
    """Files of .ci/ends, each with both line ends."""
    rng = random.Random(91)
    texts = {f"{number}.rs": script["source"](rng).encode() for number in range(60)}

    def holds(folder):
        script["ran"].__globals__["program"] = f"{folder}/formatlint"
        with tempfile.TemporaryDirectory() as room:
            others = {name: text.replace(b"\n", b"\r\n") for name, text in texts.items()}
            both = (("lf", texts), ("crlf", others))
            folders = [(script["made"](Path(room, it), files), files) for it, files in both]
            if script["by_file"](*folders[0]) != script["by_file"](*folders[1]):
                return False
            for way in script["WAYS"]:
                for it, _ in folders:
                    script["ran"](it, *way, "-q")
                if any((folders[0][0] / it).read_bytes().replace(b"\n", b"\r\n") != (folders[1][0] / it).read_bytes()
                       for it in texts):
                    return False
            return True
    yield "ends", holds


def of_replay(program, script):
    """The cases of replay/cases."""
    for name, words, given, refusal, wanted, status in script["listed_cases"]():
        said = script["SAYS"][refusal].encode()
        yield f"replay {name}", command(program, map(os.fsdecode, words), given, (status, wanted, said))


def of_streams(program, script):
    """Runs of formatread that its streams end, which the table of statuses in docs/PROGRAMS.md has."""
    def holds(refusal, given, source="/dev/null", end="/dev/null"):
        def tried(folder):
            opened = os.open(source, os.O_RDONLY)
            with open(end, "w", encoding="utf-8") as out:
                how = {"stdin": opened} if given is None else {"input": given}
                ran = subprocess.run([f"{folder}/formatread", "format"], executable=str(program), stdout=out,
                                     stderr=subprocess.PIPE, check=False, **how)
            os.close(opened)
            return (ran.returncode, ran.stderr.decode()) == (3, script["SAYS"][refusal])
        return f"streams {refusal}", tried
    yield holds("Read", None, source="/")
    yield holds("Write", b"a", end="/dev/full")
    yield holds("TooLong", b"a" * ((1 << 20) + 1))


def stored(program):
    """The stored run of a program."""
    of = TOP / "crates" / Path(program).name
    status = int((of / "status").read_text()) if (of / "status").exists() else 0
    given, wanted = (of / "stdin").read_bytes(), (of / "stdout").read_bytes()

    def holds(folder):
        own = [f"{folder}/{Path(program).name}", *(of / "args").read_text().splitlines()]
        ran = subprocess.run(own, executable=str(program), input=given, capture_output=True, check=False)
        return (ran.returncode, ran.stdout) == (status, wanted)
    return f"the stored run of {Path(program).name}", holds


def tests_of(binaries, target, room):
    """All tests by their names. The programs and the library are in the folder `target`."""
    for binary in binaries:
        said = subprocess.run([binary, "--list"], capture_output=True, text=True, check=True).stdout
        for name in re.findall(r"^(\S+): test$", said, re.M):
            test = command(binary, ["--exact", name, "--test-threads=1"])
            yield f"{Path(binary).name.rpartition('-')[0]} {name}", test
    rlib = max((target / "deps").glob("libdephungo-*.rlib"), key=lambda it: it.stat().st_mtime)
    flags = ["--edition", "2021", "--cap-lints", "allow", "-L", rlib.parent, "--extern", f"dephungo={rlib}"]
    for name, words in COMPARISONS:
        subprocess.run(["rustc", *flags, "--out-dir", room, TOP / f"bindings/compare/{name}.rs"], check=True)
        yield name, command(f"{room}/{name}", words)
    yield from map(stored, (target / "formatread", target / "formatlint"))
    script = {name: runpy.run_path(str(TOP / name)) for name in
              ("replay/run.py", ".ci/files", ".ci/words", ".ci/manifests", ".ci/owners", ".ci/writes", ".ci/ends")}
    yield from of_replay(target / "formatread", script["replay/run.py"])
    yield from of_streams(target / "formatread", script["replay/run.py"])
    yield from of_files(script[".ci/files"])
    yield from of_words(script[".ci/words"])
    yield from of_manifests(script[".ci/manifests"])
    yield from of_owners(script[".ci/owners"])
    yield from of_writes(script[".ci/writes"])
    yield from of_ends(script[".ci/ends"])
