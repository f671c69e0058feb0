"""A script that makes files from others: it writes them, or with --check compares them."""
import shutil
import sys
from pathlib import Path

TOP = Path(__file__).resolve().parent.parent
NAME = Path(sys.argv[0]).name


def needs(*tools):
    """Stops, and says why, if one of the tools is not on the path."""
    for tool in tools:
        if not shutil.which(tool):
            sys.exit(f"{NAME}: {tool} is not on the path")


def words_of(about, choices):
    """The words of a script, which are one of the choices; --help is answered here."""
    words = sys.argv[1:]
    if words == ["--help"]:
        print(about)
        sys.exit(0)
    if words not in choices:
        print(about, file=sys.stderr)
        sys.exit(2)
    return words


def differing(files, folder=None):
    """The names of the files, by their paths, that have another text, or are in the folder too."""
    others = filter(Path.is_file, folder.rglob("*")) if folder else ()
    wrong = [it for it, text in files.items() if not it.exists() or it.read_text() != text]
    return [it.relative_to(TOP) for it in [*wrong, *(it for it in others if it not in files)]]


def write(files, folder=None):
    """Writes those of the files that differ, and removes what else is in the folder."""
    for path in map(TOP.joinpath, differing(files, folder)):
        if path in files:
            path.parent.mkdir(parents=True, exist_ok=True)
            path.write_text(files[path], newline="\n")
        else:
            path.unlink()


def main(about, made, folder=None):
    """Does what the words say, and returns the status: 1 if a file is not what is made."""
    is_check = words_of(about, ([], ["--check"])) == ["--check"]
    files = made()
    if not is_check:
        write(files, folder)
        return 0
    found = differing(files, folder)
    print("".join(f"{it} is not what {NAME} makes\n" for it in found), end="")
    return 1 if found else 0
