"""Holds the compiler to refusing each edit of refused/ by the error that the edit names.

The compiler refuses these before anything is proved, so they can't be edits of must-fail/, which a
proof has to refuse. An edit has the lines `file:` (from the top), `old:` (standing once in that file),
`new:` and `error:`. Each is applied by itself to a copy of the repository, and a program that calls
its library is compiled there.

Run: python3 tools/refused.py
"""

import pathlib
import re
import shutil
import subprocess
import sys
import tempfile

TOP = pathlib.Path(__file__).resolve().parent.parent
KEYS = ["file", "old", "new", "error"]
# calls each library that an edit stands in
PROGRAM = "law_runs"


class Unfit(Exception):
    """Why an edit shows nothing."""


def read(edit):
    """The edit's four texts."""
    pairs = [line.partition(": ")[::2] for line in edit.read_text(encoding="utf-8").splitlines()]
    if [key for key, _ in pairs] != KEYS:
        raise Unfit(f"its lines are not {', '.join(KEYS)}")
    return [text for _, text in pairs]


def refusal(top, edit):
    """The line by which the compiler refuses the edit, in a copy of the repository that is left as it was."""
    name, old, new, error = read(edit)
    file = top / name
    text = file.read_text(encoding="utf-8") if file.is_file() else ""
    if text.count(old) != 1:
        raise Unfit(f"its old text stands {text.count(old)} times in {name}")
    file.write_text(text.replace(old, new), encoding="utf-8")
    try:
        said = subprocess.run(
            ["rt", "try"], cwd=top / "crates" / PROGRAM, text=True, stdout=subprocess.PIPE, stderr=subprocess.STDOUT
        )
    finally:
        file.write_text(text, encoding="utf-8")
    if said.returncode == 0:
        raise Unfit("the program compiles all the same")
    at = re.escape(str(file))
    line = re.search(rf"^{at}:\d+:\d+: error\[{re.escape(error)}\].*", said.stdout, re.MULTILINE)
    if not line:
        last = "\n".join(said.stdout.splitlines()[-20:])
        raise Unfit(f"no error[{error}] in {name}; the compiler said:\n{last}")
    return line[0]


def main():
    edits = sorted((TOP / "refused").glob("*.edit"))
    failed = 0 if edits else 1
    with tempfile.TemporaryDirectory(prefix="refused-") as room:
        top = pathlib.Path(room).resolve() / "copy"
        shutil.copytree(TOP / "crates", top / "crates", ignore=shutil.ignore_patterns("out"))
        shutil.copy(TOP / "crates.txt", top)
        for edit in edits:
            try:
                print(f"refused/{edit.name}: refused, as it must be: {refusal(top, edit)[:200]}", flush=True)
            except Unfit as why:
                failed += 1
                print(f"refused/{edit.name}: NOT REFUSED AS IT MUST BE: {why}", flush=True)
    print(f"refused: {len(edits)} edits, {failed} failed")
    return 1 if failed else 0


sys.exit(main())
