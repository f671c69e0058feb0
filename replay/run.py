#!/usr/bin/env python3
"""Runs the program formatread over the lists in replay/cases and over large and failing inputs that
are made here.

    replay/run.py [--program FILE]

Each case compares standard output, standard error and the status with the answer. With no
--program, the program is built first. The last line counts the cases that passed and failed, and
the status is 0 only if each passed.

A list has a line for each case, with tabs between its columns. In those with bytes a backslash
stands before n, t and r for LF, HT and CR, before itself, and before x and two hexadecimal digits
for any byte that isn't part of a printable character. In the words, s after a backslash is a space
inside a word, and e an empty word. A line that begins with # and a space is no case."""

import argparse
import os
import re
import signal
import subprocess
import sys
from concurrent.futures import ThreadPoolExecutor
from pathlib import Path

HERE = Path(__file__).resolve().parent
sys.dont_write_bytecode = True
sys.path.insert(0, str(HERE.parent / "tools"))
import limited  # noqa: E402

NAMED = {"n": b"\n", "t": b"\t", "r": b"\r", "\\": b"\\", "s": b" ", "e": b""}
LIMIT = 1048576
# The seconds of a processor that a case may take.
SECONDS = 240
# How many cases there are: one that is lost is a failure.
CASES = 1490
USAGE = "usage: formatread format|asm|diagnostic|diagnostic-named [--literal] [--args N,NAME,..]"
SAYS = {
    "": "",
    "Words": f"{USAGE}\n",
    "NotLiteral": "formatread: input is not a string literal\n",
    "Read": "formatread: reading failed\n",
    "TooLong": f"formatread: input is longer than {LIMIT} bytes\n",
    "NotText": "formatread: input is not UTF-8\n",
    "Memory": "formatread: out of memory\n",
    "Write": "formatread: writing failed\n",
}


def bytes_of(text):
    def meant(found):
        code, name, plain = found.groups()
        if code:
            return bytes([int(code, 16)])
        if name is None:
            return plain.encode()
        if name not in NAMED:
            raise ValueError(f"nothing known follows a backslash: {found[0]!r}")
        return NAMED[name]

    parts = re.finditer(r"(?s)\\x([0-9a-fA-F]{2})|\\(.?)|([^\\]+)", text)
    return b"".join(map(meant, parts))


def listed(name, words, given, refusal, wanted, status):
    """A case of a list: its name, words, standard input, the name of what is on standard error,
    standard output and status."""
    if refusal not in SAYS:
        raise ValueError(f"no such refusal: {refusal}")
    words = [bytes_of(word) for word in words.split(" ")] if words else []
    return name, words, bytes_of(given), refusal, bytes_of(wanted), int(status)


def listed_cases():
    """The cases of all lists. A row that is not well formed ends the script."""
    for path in sorted((HERE / "cases").glob("*.tsv")):
        for number, line in enumerate(path.read_text(encoding="utf-8").split("\n"), 1):
            columns = line.split("\t")
            if line and not line.startswith("# "):
                try:
                    if len(columns) != 6:
                        raise ValueError(f"{len(columns)} columns instead of 6")
                    yield listed(*columns)
                except ValueError as why:
                    sys.exit(f"{path}:{number}: {why}")


def made_cases():
    """Cases that are too large for a list, with a stream that fails at the end where one does."""
    words, wide, count, third = [b"format"], "€".encode(), 20000, LIMIT // 3
    ends = [(2 * at + 2, 2 * at + 2) for at in range(count)]
    bare = b"".join(b"arg implicit %d %d..%d\n" % (at, *it) for at, it in enumerate(ends))
    doubled = b'lit "a"\n' + b'lit "}a"\n' * (count - 1) + b'lit "}"\n'
    places = [(5 * at + 2, 5 * at + 5) for at in range(count)]
    raw = b"".join(b"arg name a %d..%d\n" % it for it in places)
    raw += b"".join(b"fault %d..%d raw identifiers are not supported\n" % it for it in places[::-1])
    return [
        ("limit-reached", words, b"a" * LIMIT, "", b'lit "' + b"a" * LIMIT + b'"\n', 0),
        ("wide", words, wide * third + b"x", "", b'lit "' + wide * third + b'x"\n', 0),
        ("limit-passed", words, b"a" * (LIMIT + 1), "TooLong", b"", 3),
        ("limit-passed-by-far", words, b"a" * (4 * LIMIT), "TooLong", b"", 3),
        ("limit-passed-and-not-text", words, b"\xff" * (LIMIT + 1), "TooLong", b"", 3),
        ("limit-cuts-a-character", words, b"a" * (LIMIT - 1) + b"\xe2", "NotText", b"", 3),
        ("not-text", words, b"\xff", "NotText", b"", 3),
        ("not-text-at-the-end", words, b"{}\xe2\x82", "NotText", b"", 3),
        ("many-placeholders", words, b"{}" * count, "", bare, 0),
        ("many-doubled-braces", words, b"a}}" * count, "", doubled, 0),
        ("many-faults-in-front", words, b"{r#a}" * count, "", raw, 1),
        ("no-words", [], b"a", "Words", b"", 2),
        ("empty-word", [b""], b"a", "Words", b"", 2),
        ("word-twice", [b"format", b"format"], b"a", "Words", b"", 2),
        ("word-longer", [b"formats"], b"a", "Words", b"", 2),
        ("words-too-many", [b"format", b"--literal", b"--args", b"1", b"2"], b'"{}"', "Words", b"", 2),
        ("word-not-text", [b"\xff"], b"a", "Words", b"", 2),
        ("second-word-not-text", [b"format", b"\xff"], b"a", "Words", b"", 2),
        ("words-judged-before-reading", [b"other"], b"", "Words", b"", 2, "read"),
        ("reading-fails", words, b"", "Read", b"", 3, "read"),
        ("writing-fails", words, b"a{}", "Write", b"", 3, "write"),
    ]


def fault(program, words, given, refusal, wanted, status, fails=None):
    """Why a case failed, or nothing. A stream may fail: a folder can be opened but not read."""
    how = {"stdout": subprocess.PIPE, "stderr": subprocess.PIPE}
    opened = os.open("/" if fails == "read" else "/dev/full", os.O_WRONLY * (fails == "write"))
    if fails == "read":
        how["stdin"], given = opened, None
    if fails == "write":
        how["stdout"] = opened
    try:
        ran = limited.run([program, *words], SECONDS, given, **how)
    finally:
        os.close(opened)
    if ran.returncode == -signal.SIGKILL:
        return f"no end within {SECONDS} seconds of a processor"
    pairs = [("standard error", ran.stderr, SAYS[refusal].encode())]
    pairs += [("status", ran.returncode, status), ("standard output", ran.stdout or b"", wanted)]
    return "; ".join(f"{it}: {got!r:.500}, wanted {x!r:.500}" for it, got, x in pairs if got != x)


def main():
    how = {"formatter_class": argparse.RawDescriptionHelpFormatter}
    parser = argparse.ArgumentParser(description=__doc__, **how)
    parser.add_argument("--program", metavar="FILE", help="the program to be run")
    program = parser.parse_args().program
    if not program:
        how = {"stdin": subprocess.DEVNULL, "stdout": subprocess.PIPE}
        program = subprocess.run([HERE.parent / "build"], **how).stdout.decode().strip()
    cases = [*listed_cases(), *made_cases()]
    why = "" if program else "the program was not built"
    if len(cases) != CASES:
        why = f"there are {len(cases)} cases in place of {CASES}"
    if why:
        print(f"replay: 0 passed, 1 failed: {why}")
        return 1
    program = os.path.abspath(program)
    with ThreadPoolExecutor(os.cpu_count()) as pool:
        found = list(pool.map(lambda case: fault(program, *case[1:]), cases))
    failed = [(case, why) for case, why in zip(cases, found) if why]
    for case, why in failed[:10]:
        print(f"FAILED {case[0]}: {case[1:3]!r:.400}\n    {why}")
    print(f"replay: {len(cases) - len(failed)} passed, {len(failed)} failed")
    return 1 if failed else 0


if __name__ == "__main__":
    sys.exit(main())
