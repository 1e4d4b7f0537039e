#!/usr/bin/env python3
"""Looks after the rules of this repository that need no judgement, and ends with 1 where one is broken.

usage: tools/lint.py

It tells lines over 150 columns outside imports, functions whose body has over 40 lines, files of over 800 lines, lemmas and files of lemmas that
nothing names, names that one file brings from two modules, and what `ruff` finds in the tools, where it is at hand, or else `pyflakes3`.
A worked case is named by nothing: it stands in a file `Cases`, or below such a folder. A lemma is named where its name stands somewhere in the
repository beside its own statement, clauses and comments.
"""
import collections
import os
import re
import shutil
import subprocess
import sys

import inside

COLUMNS, BODY, FILE = 150, 40, 800
IMPORT = re.compile(r"\s*(?:ghost |pub |unfoldable )*use\b|\s*#!?\[tactic")
FUNCTION = re.compile(r"(\s*)(?:pub(?:\(\w+\))? )?(?:const )?fn (\w+)")
WORD = re.compile(r"[^\s(){}\[\],;.λ]+")
LEMMA = re.compile(r"( {0,2})(?:(?:pub|abbrev|unfoldable|opaque|pattern)\s+)*([^\s:(){},=|]+)(?: \{[^}]*\})?\s*:(?=\s|$)")
NO_LEMMA = re.compile(r"\s*(use|mod|module|record|data|let|in|infix[lr]?|ruleset)\b")
ANSWERS = ("Answers.antt", "Invariants.antt", "Proof.antt", "Lib.antt")


def listed():
    """The files of the repository."""
    said = subprocess.run(["git", "ls-files", "-co", "--exclude-standard"], stdout=subprocess.PIPE, check=True, text=True).stdout
    return sorted(it for it in said.split("\n") if os.path.isfile(it))


def long_lines(texts):
    for path, text in texts.items():
        for at, row in enumerate(text.split("\n"), 1):
            if len(row) > COLUMNS and not IMPORT.match(row):
                yield f"{path}:{at}: a line of {len(row)} columns"


def long_files(texts):
    for path, text in texts.items():
        if text.count("\n") > FILE:
            yield f"{path}: {text.count(chr(10))} lines"


def body(rows, at, margin):
    """How many lines stand between the braces of the function whose head begins at a row."""
    opens = next(i for i in range(at, len(rows)) if rows[i] == margin + "{" or rows[i].endswith((" {", "{}", ";", "}")))
    if rows[opens].endswith(("{}", ";", "}")):
        return 0
    return rows.index(margin + "}", opens) - opens - 1


def long_functions(texts):
    for path, text in texts.items():
        rows = text.split("\n") if path.endswith(".rt") else []
        for at, row in enumerate(rows):
            head = FUNCTION.match(row)
            count = body(rows, at, head[1]) if head and "macro_rules" not in text else 0
            if count > BODY:
                yield f"{path}:{at + 1}: the body of {head[2]} has {count} lines"


def statement(rows, at, margin, name):
    """The rows of a lemma: its statement, what goes on below it, and the clauses that begin with its name."""
    end = at + 1
    while end < len(rows):
        row = rows[end]
        depth = len(row) - len(row.lstrip())
        is_own = depth == margin and re.match(re.escape(name) + r"(\s|$)|[)\]}]", row.lstrip())
        if row.strip() and depth <= margin and not is_own:
            break
        end += 1
    return rows[at:end]


def lemmas(text):
    """The lemmas of a file: the row of each, its name, and how often its own text has that name."""
    rows = text.split("\n")
    for at, row in enumerate(rows):
        found = LEMMA.match(row)
        if found and not NO_LEMMA.match(row):
            own = sum(WORD.findall(it).count(found[2]) for it in statement(rows, at, len(found[1]), found[2]))
            yield at + 1, found[2], own


def is_of_lemmas(path):
    return re.match(r"crates/\w+/proofs/.*\.antt$", path) and os.path.basename(path) not in ANSWERS and not re.search(r"Cases\b", path)


def unnamed(texts):
    spoken = {path: re.sub(r"--[^\n]*", "", text) if path.endswith(".antt") else text.replace("::", " ") for path, text in texts.items()}
    count = collections.Counter(word for text in spoken.values() for word in WORD.findall(text))
    for path, text in spoken.items():
        for at, name, own in lemmas(text) if is_of_lemmas(path) else []:
            if count[name] <= own:
                yield f"{path}:{at}: nothing names {name}"


def unbrought(texts):
    """Files of lemmas that no file brings a name from."""
    named = set()
    for path, text in texts.items():
        text = re.sub(r"\bcrate::proofs", f"{path.split('/')[1]}::proofs", text) if path.startswith("crates/") else ""
        for crate, words in re.findall(r"\b(\w+)(?:\.|::)proofs(?:\.|::)([\w.:+-]+)", text):
            parts = words.replace("::", ".").split(".")
            named |= {(crate, ".".join(parts[:end])) for end in range(1, len(parts) + 1)}
    for path in filter(is_of_lemmas, texts):
        crate, module = re.match(r"crates/(\w+)/proofs/(.*)\.antt$", path).groups()
        if (crate, module.replace("/", ".")) not in named and not os.path.isdir(path[: -len(".antt")]):
            yield f"{path}: nothing brings a lemma of it"


def brought_twice(texts):
    """Definitions of one name that a file brings from two modules."""
    defined = inside.Definitions().texts
    for path, text in texts.items():
        found = collections.defaultdict(set)
        spoken = re.sub(r"--[^\n]*", "", text) if path.endswith((".rt", ".antt")) else ""
        for crate, module, names in inside.IMPORT.findall(spoken):
            for name in names.split(","):
                key = crate, module, name.strip().partition(" as ")[0]
                found[key[2]] |= {f"{crate}.{module}"} if key in defined else set()
        for name, modules in found.items():
            if len(modules) > 1:
                yield f"{path}: {name} is brought from {' and '.join(sorted(modules))}"


def python_faults():
    tool = [it for it in (["ruff", "check", "tools"], ["pyflakes3", "tools"]) if shutil.which(it[0])][:1]
    if not tool:
        print("note: neither ruff nor pyflakes3 is at hand, so no Python is looked at")
        return []
    said = subprocess.run(tool[0], stdout=subprocess.PIPE, stderr=subprocess.STDOUT, text=True)
    return said.stdout.strip().split("\n") if said.returncode else []


def main():
    texts = {it: inside.read(it) for it in listed() if it.endswith((".rt", ".antt", ".py", ".c")) or it == "Makefile"}
    rules = (long_lines, long_files, long_functions, unnamed, unbrought, brought_twice)
    found = [*(it for rule in rules for it in rule(texts)), *python_faults()]
    print("\n".join([*found, f"{len(found)} faults of {len(texts)} files"]))
    sys.exit(1 if found else 0)


if __name__ == "__main__":
    main()
