#!/usr/bin/env python3
"""Brings the repository's own names in specs/, proofs/, clauses and must-fail edits to snake case.

Run once, at the top, after the port of the language's own spelling. Types and modules keep their capitals, functions of
src/ their names. A lemma that would fall together with the definition it speaks of gets `_lem` behind its name.
"""
import re
import sys
from pathlib import Path

TOKEN = re.compile(r"[A-Za-z_0-9'₀-₉-]+")

# lemmas whose new name would be that of a definition in the same file
LEMMAS = {
    "row-at": "row_at_lem",
    "row-atF": "row_at_f",
    "cut_short": "cut_short_lem",
    "kept_entry": "kept_entry_lem",
    "met_of": "met_of_lem",
    "put_then": "put_then_lem",
    "nothing_said": "nothing_said_lem",
}
# the same, in these files alone: elsewhere the name is a function's or a crate's
LEMMAS_IN = {
    "crates/seen/proofs/Sets.antt": {"seen_of": "seen_of_lem"},
    "crates/elements/proofs/Came.antt": {"seen_of": "seen_of_lem"},
}


def snake(part):
    # an octet of src/, as b'A', is no name
    if not re.match("[a-z]", part) or not re.search("[A-Z]", part) or part.startswith("b'"):
        return part
    return re.sub(r"(?<=[a-z0-9'])([A-Z])", lambda m: "_" + m.group(1).lower(), part)


def name(token):
    return "-".join(snake(part) for part in token.split("-"))


def respell(path, text):
    lemmas = dict(LEMMAS) if path.suffix == ".antt" else {}
    lemmas.update(LEMMAS_IN.get(path.as_posix(), {}))
    return TOKEN.sub(lambda m: lemmas.get(m.group(0)) or name(m.group(0)), text)


def main():
    changed = 0
    for suffix in ("antt", "rt", "edit"):
        for path in sorted(Path("crates").rglob("*." + suffix)):
            if "out" in path.parts:
                continue
            old = path.read_text()
            new = respell(path, old)
            if new != old:
                path.write_text(new)
                changed += 1
    print(f"{changed} files respelled")


if __name__ == "__main__":
    sys.exit(main())
