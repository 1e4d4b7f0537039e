#!/usr/bin/env python3
"""Writes docs/GATE.md: lines, the words of the main clauses, what each crate's proofs take, and the bounds of `make bench`.

usage: tools/figures.py

Lines are counted, and the definitions that a clause names by itself or through others. Minutes are those of `out/gate.json`, which the last `rt ci`
by `tools/gate.py` left, and bounds those of `out/bench.txt`, which the last `make bench` left. Where such a file is missing, the table that stands in
docs/GATE.md is kept.
"""
import json
import os
import re

import inside

PAGE = "docs/GATE.md"
HEAD = """# The gate

`make test` looks first after the rules of this repository (`make lint`) and the record of refused wrong bodies. Then it runs `rt ci`: every crate's
proofs from nothing, the proofs of tests, the tests, and the programs' stored runs as two compilers build them. Then the proved program is run on the
commands, the vectors, the manual's examples, and with its requests for memory refused in turn. `make figures` writes this page, of the runs made
last.
"""
LINES = """## Lines

Lines that aren't blank.

"""
WORDS = """## Words

What a reader of a clause meets: the definitions that it names, by itself or through others, and the files that they stand in.

"""
# The main clauses, and the files that their words come from at most.
CLAUSES = (
    ("isle_program", "src/compiler.rt", "compile", "accepted", 35),
    ("isle_calls", "src/machine/road.rt", "call", "ran", 90),
)
MINUTES = """## Minutes

Of `rt ci` from nothing, with one job a check. A crate's wall clock is from the begin of its first check to the end of
its last one. What stands beside each other is in both, so they don't add up to the whole.

"""
BOUNDS = """## Bounds of `make bench`

Of the proved program: the middle of nine rounds, in processor seconds.

"""


def read(path):
    with open(path, encoding="utf-8") as it:
        return it.read()


def crates():
    return [row.split(":")[0].strip() for row in read("crates.txt").split("\n") if ":" in row and not row.startswith("#")]


def count(folder, ending, is_of=lambda _: True):
    paths = [f"{at}/{name}" for at, _, names in os.walk(folder) for name in names if name.endswith(ending)]
    return sum(1 for path in paths if is_of(path) for row in read(path).split("\n") if row.strip())


def wrong_bodies(crate):
    folder = f"tests/edits/{crate}"
    return len(os.listdir(folder)) if os.path.isdir(folder) else 0


def lines():
    """The table of lines."""
    rows, whole = ["| Crate | Code | Specs | Proofs | Tests | Wrong bodies |", "|---|---|---|---|---|---|"], [0] * 5
    for crate in crates():
        base, tests = f"crates/{crate}", "tests" in crate
        code = count(f"{base}/src", ".rt")
        its = [0 if tests else code, count(f"{base}/specs", ".antt"), count(f"{base}/proofs", ".antt"), code if tests else 0, wrong_bodies(crate)]
        rows.append(f"| `{crate}` | {' | '.join(f'{it:,}' for it in its)} |")
        whole = [a + b for a, b in zip(whole, its)]
    return "\n".join([*rows, f"| all | {' | '.join(f'{it:,}' for it in whole)} |"])


def words_of(definitions, crate, path, function, clause):
    """The definitions that a clause names, by itself or through others."""
    text = re.sub(r"(?m)//[^\n]*", "", read(f"crates/{crate}/{path}"))
    clauses = next(clauses for name, _, clauses in inside.clauses(text) if name == function)
    own = re.search(rf"(?ms)^\s*ensures {clause}\b.*?(?=^\s*(?:ensures|requires)\b|\Z)", "\n" + clauses)
    return definitions.closure(definitions.words(own[0], inside.imports(text), {}))


def words():
    """The table of the main clauses' words."""
    rows, definitions = ["| Clause | Files | At most | Definitions |", "|---|---|---|---|"], inside.Definitions()
    for crate, path, function, clause, most in CLAUSES:
        found = words_of(definitions, crate, path, function, clause)
        rows.append(f"| `{crate}::{function}` (`{clause}`) | {len({it[:2] for it in found})} | {most} | {len(found)} |")
    return "\n".join(rows)


def minutes():
    """The table of minutes of the last run, if there is one."""
    if not os.path.isfile("out/gate.json"):
        return None
    run = json.loads(read("out/gate.json"))
    row = lambda name, it: f"| {name} | {it['processor']:.1f} | {it['wall']:.1f} |"
    rows = ["| Crate | Processor minutes | Wall clock |", "|---|---|---|"]
    rows += [row(f"`{it}`", run["crates"][it]) for it in crates() if it in run["crates"]]
    return "\n".join([*rows, row("all", run["all"]), "", " ".join([f"With {run['kit']}, {run['checks']} checks at a time.", *run.get("notes", [])])])


def bounds():
    """The table of bounds that the last bench printed, and its lines of single bounds, if there was one."""
    if not os.path.isfile("out/bench.txt"):
        return None
    rows = read("out/bench.txt").split("\n")
    return "\n".join([*(it for it in rows if it.startswith("|")), "", *(f"- {it}" for it in rows if re.search(r"\(at (most|least) ", it))])


def kept(head):
    """The table below a heading as it stands."""
    text = read(PAGE) if os.path.isfile(PAGE) else ""
    title = head.split("\n")[0]
    found = re.search(rf"(?ms)^{re.escape(title)}\n.*?(^\|.*?)(?=^## |\Z)", text)
    return found[1].strip() if found else "Not measured."


def main():
    os.chdir(os.path.dirname(os.path.dirname(os.path.abspath(__file__))))
    parts = [(LINES, lines()), (WORDS, words()), (MINUTES, minutes()), (BOUNDS, bounds())]
    page = "\n".join([HEAD, *(head + (table or kept(head)) + "\n" for head, table in parts)])
    with open(PAGE, "w", encoding="utf-8") as it:
        it.write(page)


if __name__ == "__main__":
    main()
