#!/usr/bin/env python3
"""Gives the definitions and lemmas of this repository the library's spelling: words in snake case, types in camel case.

usage: python3 tools/respell.py       at the top, once, after the library's own script has turned the files

A name is turned where it is declared in a .antt file of crates/ and everywhere that it stands in a .rt or .antt file, but
not in comments, in strings, and among the names that the check makes for a proof (those that an answer file declares by
'goal.').
"""
import collections
import os
import re
import sys

TOKEN = re.compile(r"(?<![\w'\-«])[\w']+(?:-[\w']+)+(?![\w'\-])")
DECLARED = re.compile(r"^\s*(?:(?:pub|abbrev|unfoldable|data|record|ruleset)\s+)*([^\s:{(]+)\s*(?:\{[^}]*\}\s*)*(?:\([^)]*\)\s*)*:\s*(.*)$")

# Names that would be those of a function, and what the definition is called instead; and four that no declaration shows.
OWN = {
    "check-start": "start_check",
    "four-at": "number_at",
    "guest-refusal": "refusal_of_guest",
    "kinds-of": "named_kinds",
    "look-for": "looked_for",
    "not-past": "is_not_past",
    "operand-bytes": "operand_length",
    "read-for": "summary_for",
    "sign-extend": "sign_extended",
    "zero-page": "zero_page_address",
    "At-unit": "AtUnit",
    "next-image": "next_image",
    "start-Has": "start_has",
    "Has-All": "has_all",
}


def files(root):
    for folder, dirs, names in os.walk(os.path.join(root, "crates")):
        dirs[:] = sorted(d for d in dirs if d not in ("out", "target"))
        for name in sorted(names):
            if name.endswith((".rt", ".antt")):
                yield os.path.join(folder, name)


def parts(path, text):
    """The text in pieces: code, and what is left alone (comments and strings)."""
    kept = r'"(?:[^"\\]|\\.)*"|//[^\n]*' if path.endswith(".rt") else r"--(?![\w'\-])[^\n]*"
    at = 0
    for m in re.finditer(kept, text):
        yield True, text[at : m.start()]
        yield False, m.group()
        at = m.end()
    yield True, text[at:]


def code(path, text):
    return "".join(piece for turned, piece in parts(path, text) if turned)


def spelled(name):
    if name in OWN:
        return OWN[name]
    if name[0].isupper():
        return "".join(word[0].upper() + word[1:] for word in name.split("-"))
    return name.replace("-", "_")


def main():
    texts = {path: open(path, encoding="utf-8").read() for path in files(".")}
    declared, made = set(OWN), set()
    for path, text in texts.items():
        if path.endswith(".antt"):
            for line in code(path, text).splitlines():
                m = DECLARED.match(line)
                if m and TOKEN.fullmatch(m.group(1)):
                    (made if m.group(2).startswith("goal.") else declared).add(m.group(1))
    new = collections.defaultdict(set)
    for name in declared - made:
        new[spelled(name)].add(name)
    together = {k: v for k, v in new.items() if len(v) > 1}
    if together or declared & made:
        sys.exit(f"names fall together: {together or sorted(declared & made)}")
    turned = 0
    for path, text in texts.items():
        out = "".join(
            TOKEN.sub(lambda m: spelled(m.group()) if m.group() in declared else m.group(), piece) if turned_here else piece
            for turned_here, piece in parts(path, text)
        )
        if out != text:
            turned += 1
            with open(path, "w", encoding="utf-8") as f:
                f.write(out)
    print(f"{len(declared)} names in {turned} files")


if __name__ == "__main__":
    main()
