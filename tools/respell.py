#!/usr/bin/env python3
"""Brings this repository's own definitions and lemmas to today's spelling.

usage: python3 tools/respell.py [--dry]     at the top of a checkout, once, after the kit's port.py

Words go to snake case: a definition, lemma, constructor or record field of specs/ or proofs/ that is written with dashes or humps, as
`xorPage` or `read-law`, becomes `xor_page` or `read_law`. Types, facts and modules keep their capitals; names that join an operator, as
`found-++`, keep their dash; names that Rattle makes (the goals in Answers.antt, the invariants) are its own and stay.
The crate `log` becomes `parity_log`, since the kit has a library of the name `log`. Names given by `as` in an import are turned too; an edit gets
only the crate's new name. It prints names that would fall together or are taken; with --dry it writes nothing.
"""

import os
import re
import subprocess
import sys

# A crate may not have the name of a library of the kit.
CRATES = {"log": "parity_log"}

# Names whose plain snake case is taken: a definition beside the Rust function that it speaks of gets `_of`, a lemma beside its definition `_lem`.
BY_HAND = {
    "eitherDone": "either_done_of",
    "noneOrGone": "none_or_gone_of",
    "memberCount": "member_count_of",
    "openNext": "open_next_rule",
    "members-on": "members_on_lem",
    "next-free": "next_free_lem",
    "none-or-gone": "none_or_gone_lem",
    "when-open": "when_open_lem",
}

TOKEN = re.compile(r"[^\s(){}:;,.\"\[\]∷→×≡λ]+")


def files(root):
    for folder, dirs, names in os.walk(os.path.join(root, "crates")):
        dirs[:] = sorted(d for d in dirs if d not in ("out", "data"))
        for name in sorted(names):
            if name.endswith((".rt", ".antt", ".edit")):
                yield os.path.join(folder, name)


def snake(name):
    name = re.sub(r"(?<=[a-z0-9])([A-Z])", lambda m: "_" + m.group(1).lower(), name)
    return name.replace("-", "_")


def respelled(name):
    if re.search(r"(^|-)[A-Z]", name) or not re.fullmatch(r"[a-z][a-z0-9]*([-A-Z_]?[a-z0-9]+)*'*", name, re.I):
        return None
    new = BY_HAND.get(name, snake(name))
    return new if new != name else None


def declared(path, text):
    """The names that a file declares, and is free to spell."""
    answers = os.path.basename(path) in ("Answers.antt", "Invariants.antt")
    for m in re.finditer(r"(?m)^[ ]*(?:(?:abbrev|unfoldable) )?((?:pub )?)((?:[^\s(){}:;,.]+ )*?[^\s(){}:;,.]+)(?: [({][^\n]*?[)}])* : ", text):
        if answers and (m.group(1) or "goal." in text[m.end():m.end() + 40]):
            continue
        names = m.group(2).split(" ")
        if not {"=", "let", "in", "λ", "→"} & set(names):
            yield from names


def turn(text, names):
    # Behind a dot stands a field, or the step of a call, which keeps the function's name.
    def one(m):
        name = m.group(0)
        if name not in names:
            return name
        return snake(name) if text[: m.start()].endswith(".") else names[name]

    return TOKEN.sub(one, text)


def main():
    root = subprocess.run(["git", "rev-parse", "--show-toplevel"], capture_output=True, text=True, check=True).stdout.strip()
    dry = "--dry" in sys.argv
    names = {}
    texts = {}
    for path in files(root):
        with open(path, encoding="utf-8") as f:
            texts[path] = f.read()
    for path, text in texts.items():
        if path.endswith(".antt"):
            for name in declared(path, text):
                new = respelled(name)
                if new:
                    names[name] = new
        for name in re.findall(r"(?<= as )[a-z]\w*(?=[,}])", text):
            if respelled(name):
                names[name] = respelled(name)
    tokens = {}
    for path, text in texts.items():
        for token in TOKEN.findall(text):
            tokens.setdefault(token, set()).add(path)
    back = {}
    for name, new in sorted(names.items()):
        back.setdefault(new, []).append(name)
    for new, old in sorted(back.items()):
        if len(old) > 1:
            print("fall together:", " ".join(old), "->", new)
        if new in tokens:
            both = [p for p in tokens[new] if any(p in tokens.get(o, ()) for o in old)]
            print("taken:", " ".join(old), "->", new, len(tokens[new]), "in one file:" if both else "", *both[:3])
    print(len(names), "names")
    if dry:
        return
    for path, text in texts.items():
        if path.endswith(".edit"):
            new = text
        else:
            new = turn(text, names)
        for old_crate, new_crate in CRATES.items():
            new = re.sub(rf"\bRattle\.{old_crate}\b", f"Rattle.{new_crate}", new)
            if path.endswith((".rt", ".edit")):
                new = re.sub(rf"\b{old_crate}::", f"{new_crate}::", new)
        if new != text:
            with open(path, "w", encoding="utf-8") as f:
                f.write(new)
    for old_crate, new_crate in CRATES.items():
        os.rename(os.path.join(root, "crates", old_crate), os.path.join(root, "crates", new_crate))
        listing = os.path.join(root, "crates.txt")
        with open(listing, encoding="utf-8") as f:
            text = f.read()
        with open(listing, "w", encoding="utf-8") as f:
            f.write(re.sub(rf"(?m)(^|(?<= )){old_crate}\b(?=:| |$)", new_crate, text))


if __name__ == "__main__":
    main()
