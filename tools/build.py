"""Proves a program or a static library, and the crates below it, and leaves what is built in out/,
unless that was done: build.py COMMAND NAME. For ./build NAME is formatread or formatlint, and the
path of the program is printed; for ./library it is dephungo, and out/ is printed, where then is
also what the library needs of the kit, and its C header. ./check calls build.py gather TREE FOLDER,
where TREE is a copy of the repository in which the gate has run.

The gate of the kit (`rt ci`) proves the crates that are needed, in a copy of them alone. What was
proved on this machine is not proved again, here or by ./check. Each crate that is done is written
to standard error. If there are two calls at once, the second waits for the first. The status is 0
if it was built, 1 if not; if interrupted, 128 and the signal's number. Until all is proved, what
was built before stays as it was."""

import fcntl
import os
import re
import shutil
import signal
import subprocess
import sys
import tempfile
from pathlib import Path

TOP = Path(__file__).resolve().parent.parent
OUT = TOP / "out"
RATTLE = TOP / "tools/rattle"
HEADER = TOP / "bindings/c/dephungo.h"
# Crates that the gate is not to prove each time. It refuses a `.rt` file that is in none of the
# crates that it proves, so each of these is a file NAME.txt.
OTHERS = {
    "counted_walk": "counted_walk staticlib: rustc_parse_format",
    "drawings": "drawings: rustc_parse_format drawn_faults drawn_lines format_lint",
}
SIGNALS = (signal.SIGINT, signal.SIGTERM, signal.SIGHUP)


class Stop(Exception):
    """Why nothing was built."""


def crates_of(name):
    """The lines of crates.txt of a crate and of those below it, lowest first, by their names."""
    lines = [*(TOP / "crates.txt").read_text().splitlines(), *OTHERS.values()]
    uses = {re.split("[ :]", it)[0]: it for it in lines if it and not it.startswith("#")}
    found = {}
    for below in uses[name].partition(":")[2].split():
        found |= crates_of(below) if below in uses else {}
    return found | {name: uses[name]}


def copied(name, folder):
    """Copies what a check of a crate reads."""
    if name in OTHERS:
        (folder / "src").mkdir(parents=True)
        root = "lib" if " staticlib:" in OTHERS[name] else "main"
        shutil.copy(RATTLE / f"{name}.txt", folder / f"src/{root}.rt")
    else:
        others = shutil.ignore_patterns("out", "must-fail")
        shutil.copytree(TOP / "crates" / name, folder, ignore=others)


def furnished(room, crates):
    """Makes a repository of these crates alone."""
    for name in crates:
        copied(name, room / "crates" / name)
    shutil.copy(TOP / "HANDLES", room)
    (room / "crates.txt").write_text("".join(f"{it}\n" for it in crates.values()))
    (room / ".git").mkdir()


def run(who, folder, *command):
    """Runs a command in a process group of its own, which ends with this program, and returns what
    it says."""
    how = {"stdin": subprocess.DEVNULL, "stdout": subprocess.PIPE, "stderr": subprocess.STDOUT}
    how |= {"cwd": folder, "env": {**os.environ, "PYTHONUNBUFFERED": "1"}, "errors": "replace"}
    # (a signal waits until the command is known here)
    signal.pthread_sigmask(signal.SIG_BLOCK, SIGNALS)
    how |= {"preexec_fn": lambda: signal.pthread_sigmask(signal.SIG_UNBLOCK, SIGNALS)}
    ran, said = subprocess.Popen(command, start_new_session=True, text=True, **how), ""
    try:
        signal.pthread_sigmask(signal.SIG_UNBLOCK, SIGNALS)
        for line in ran.stdout:
            said += line
            if re.match(r"rt: \w+ (proved$|is kept:)", line):
                print(f"{who}: {line[4:]}", end="", file=sys.stderr, flush=True)
        if ran.wait():
            raise Stop(f"not proved, so nothing was built:\n{said[-4000:]}")
        return said
    finally:
        if ran.poll() is None:
            os.killpg(ran.pid, signal.SIGTERM)
            ran.wait()


def words_over(tree, name, kit):
    """The words by which rattle reads a library over those that the gate has proved in a tree."""
    crates = crates_of(name)
    used = {it for line in crates.values() for it in line.partition(":")[2].split()} | {"std"}
    words = ["--crate-name", name, "src/lib.rt", "--links", f"{name}="]
    for it in sorted(used):
        rlibs = tree / "crates" / it / "out/rlib" if it in crates else kit / "rlibs"
        words += ["--extern", f"{it}={rlibs}/{it}.rlib", "-L", f"dependency={rlibs}"]
    words += ["-L", f"dependency={kit}/rlibs", "--logic-built", f"{kit}/logic_built"]
    return [*words, "--antt-project", f"{kit}/rattle/logic/antt-project.json"]


def kit_folder():
    """The folder of the kit."""
    said = subprocess.run(["rt", "doc"], stdout=subprocess.PIPE, text=True, check=True).stdout
    return Path(said.strip()).parent


def static_library(who, name, tree, folder):
    """Proves and builds a static library over the libraries that the gate has proved in a tree: the
    gate keeps none. Returns the files to be kept, which it puts into a folder."""
    kit = kit_folder()
    words = words_over(tree, name, kit) + ["--crate-type", "staticlib", "--backend", "llvm"]
    words += ["--toolchain", f"{kit}/toolchain", "-o", folder / f"lib{name}.a"]
    copied(name, folder / name)
    run(who, folder / name, f"{kit}/bin/rattle", "build", *words)
    return [kit / "c/liblibc_c.a", HEADER, folder / f"lib{name}.a"]


def proved(who, name, room):
    """Proves a program or a static library in the room, and returns the files to be kept."""
    crates = crates_of(name)
    is_static = " staticlib:" in crates[name]
    furnished(room, {it: crates[it] for it in crates if it != name or not is_static})
    run(who, room, "rt", "ci")
    if is_static:
        return static_library(who, name, room, room)
    return [room / "crates" / name / "out" / name]


def is_fresh(file, sources):
    """Whether a file is there, and no source was made or changed since its time."""
    how = {"cwd": TOP, "stdout": subprocess.PIPE, "stderr": subprocess.STDOUT}
    find = ["find", *sources, "-newercm", file]
    return file.exists() and not subprocess.run(find, **how).stdout


def put(files, time):
    """Copies files to out/, each in one move, for who runs or links it meanwhile, and gives them a
    time."""
    fresh = [OUT / f".{it.name}" for it in files]
    try:
        for file, made in zip(files, fresh):
            shutil.copy(file, made)
            os.utime(made, ns=(time, time))
        for file, made in zip(files, fresh):
            os.replace(made, OUT / file.name)
    finally:
        for made in fresh:
            made.unlink(missing_ok=True)


def built(who, name):
    """The path of a program or a static library, which is proved and built if it is not there, or
    if what it is made from changed. Its time is that at which this was read, and the list beside it
    says where ./formatread looks for what is newer."""
    crates = crates_of(name)
    is_static = " staticlib:" in crates[name]
    file = OUT / (f"lib{name}.a" if is_static else name)
    parts = [TOP / "crates" / it / part for it in crates for part in ("src", "specs")]
    sources = [TOP / "crates.txt", RATTLE / f"{name}.txt", *[HEADER] * is_static, *parts]
    sources = [it.relative_to(TOP) for it in sources if it.exists()]
    if is_fresh(file, sources):
        return file
    if not shutil.which("rt"):
        raise Stop("the kit's command rt is not on the path")
    OUT.mkdir(exist_ok=True)
    with open(OUT / f".{name}.lock", "w") as lock, tempfile.TemporaryDirectory() as room:
        try:
            fcntl.flock(lock, fcntl.LOCK_EX | fcntl.LOCK_NB)
        except BlockingIOError:
            print(f"{who}: another call makes it, and this one waits", file=sys.stderr, flush=True)
            fcntl.flock(lock, fcntl.LOCK_EX)
        if is_fresh(file, sources):
            return file
        minutes = 40 if name == "formatlint" else 15
        what = f"{len(crates)} crates, which takes some {minutes} minutes from nothing"
        print(f"{who}: proving {what}", file=sys.stderr, flush=True)
        # (the gate runs programs in it as nobody)
        os.chmod(room, 0o711)
        os.environ["TMPDIR"] = room
        start = Path(room) / "start"
        start.touch()
        (Path(room) / "tree").mkdir()
        made = proved(who, name, Path(room) / "tree")
        if not is_fresh(start, sources):
            raise Stop("a source changed meanwhile, so call it once more")
        (OUT / f".{name}.sources").write_text("\n".join(map(str, sources)))
        put(made, start.stat().st_mtime_ns)
    return file


def interrupted(number, _):
    """Ends this program, and then nothing interrupts that."""
    for it in SIGNALS:
        signal.signal(it, signal.SIG_IGN)
    sys.exit(128 + number)


def main(who, name):
    """Builds it, and returns the status. Says why it was not built."""
    for it in SIGNALS:
        signal.signal(it, interrupted)
    status = 1
    try:
        file = built(who, name)
        print(OUT if who == "library" else file)
        return 0
    except SystemExit as end:
        status, why = end.code, "interrupted"
    except Stop as stop:
        why = stop
    except OSError as error:
        place = error.filename2 or error.filename
        why = f"{place}: {error.strerror}" if place else error.strerror
    print(f"{who}: {why}", file=sys.stderr)
    return status


def gather(tree, folder):
    """Puts the programs and the static library of a tree in which the gate has proved all crates
    into a folder."""
    names = ("formatread", "formatlint", "benchmark")
    made = [tree / "crates" / it / "out" / it for it in names]
    with tempfile.TemporaryDirectory() as room:
        for file in made + static_library("gather", "dephungo", tree, Path(room)):
            shutil.copy(file, folder)


if __name__ == "__main__":
    if sys.argv[1:] == ["--help"]:
        print(__doc__)
    elif sys.argv[1:2] == ["gather"]:
        gather(Path(sys.argv[2]), Path(sys.argv[3]))
    else:
        sys.exit(main(*sys.argv[1:]))
