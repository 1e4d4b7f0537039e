#!/usr/bin/env python3
"""Tries one wrong body of each crate that the list has, over what 'rt ci' just built: the prover must refuse it. Ends with 1 where one isn't refused.

usage: tools/some.py [--rooms=N] [CRATE ..]            of the crates that are named, or of all crates
       tools/some.py --list [--rooms=N] [CRATE ..]     writes tests/edits/alone.txt anew: which wrong bodies can be judged so

The commit's name chooses among the wrong bodies that tests/edits/alone.txt lists: those whose functions are proved where they alone have code, and
the others of their crate a hole for a proof. So one that is refused is refused for what it says. With --rooms=N checks go on side by side, each in
a copy of its own.
"""
import concurrent.futures
import hashlib
import os
import re
import shutil
import subprocess
import sys
import tempfile

import edits
import stubs

ALONE = f"{edits.EDITS}/alone.txt"


def commit():
    """Returns the name of the commit that is checked out."""
    return subprocess.run(["git", "rev-parse", "HEAD"], stdout=subprocess.PIPE, check=True, text=True).stdout.strip()


def listed():
    """Returns the names of the edits of each crate that can be judged alone."""
    found = {}
    for row in open(ALONE, encoding="utf-8"):
        crate, _, name = row.strip().partition("/")
        found.setdefault(crate, []).append(name)
    return found


def chosen(crate, names, by):
    """Returns one of a crate's edits, whichever a commit's name chooses."""
    number = int(hashlib.sha256(f"{by} {crate}".encode()).hexdigest(), 16)
    return edits.Edit(crate, f"{edits.EDITS}/{crate}/{names[number % len(names)]}")


def built(room, crate, below):
    """Copies the sources of a crate and of those below it, and links what 'rt ci' built of these."""
    with open(f"{room}/crates.txt", "w", encoding="utf-8") as it:
        it.write("".join(row for row in open("crates.txt", encoding="utf-8") if row.split(":")[0].strip() in [*below[crate], crate]))
    for name in below[crate]:
        if not os.path.isdir(f"crates/{name}/out/rlib"):
            sys.exit(f"{name} is not built: rt ci builds it")
        for part in edits.PARTS:
            if os.path.isdir(f"crates/{name}/{part}"):
                shutil.copytree(f"crates/{name}/{part}", f"{room}/crates/{name}/{part}")
        shutil.copytree(f"crates/{name}/out/rlib", f"{room}/crates/{name}/out/rlib", copy_function=os.link)


def mark_built(room, names):
    """Marks the libraries of a room as built, since 'rt ci' leaves no such mark: without one each would be built again."""
    for crate in stubs.load("rtlib.py").crates_below(os.path.abspath(room)):
        mark = f"{crate.folder}/out/rlib/stamp"
        if crate.name in names and not os.path.isfile(mark):
            with open(mark, "w", encoding="utf-8") as it:
                it.write(crate.stamp())


def judged(crate, functions, changed_by, below):
    """What the prover says of functions of a crate, changed by some edits, over the libraries as they are built: they alone have code there."""
    with tempfile.TemporaryDirectory(prefix=".edits-", dir=".") as room:
        built(room, crate, below)
        if changed_by:
            edits.put_in(room, changed_by)
        else:
            edits.fresh(room, crate)
        mark_built(room, below[crate])
        stubs.stub_all_but(crate, f"{room}/crates/{crate}", {(file, name) for file, name, _ in functions})
        modules = sorted({file[len("src/") : -len(".rt")].replace("/", "::") for file, _, _ in functions})
        said, _ = edits.judged(room, crate, ["--allow-holes", *[word for it in modules for word in ("--only", it)]])
    if not re.search(r"(?m)^only=\d", said):
        sys.exit(f"{crate}: the prover did not judge it:\n" + "\n".join(said.split("\n")[-12:]))
    return said


def is_refused(edit, below):
    said = judged(edit.crate, edit.functions, [edit], below)
    refused = edit.is_refused(said, [edit])
    print(f"{edit.crate}/{edit.name}: {'refused, as it must be' if refused else f'NOT REFUSED: {edits.first_error(said)}'}", flush=True)
    return refused


def judged_alone(crate, below):
    """Returns the edits of a crate whose functions are proved where they alone have code."""
    own = [it for it in edits.edits_of(crate) if it.functions]
    if not own:
        return []
    said = judged(crate, set().union(*(it.functions for it in own)), [], below)
    proved = [it for it in own if not it.is_refused(said, own)]
    print(f"{crate}: {len(proved)} of its {len(own)} edits of functions can be judged alone", flush=True)
    return [f"{crate}/{it.name}" for it in proved]


def write_list(crates, below, pool):
    kept = [row for row in open(ALONE, encoding="utf-8").read().split() if row.split("/")[0] not in crates] if os.path.isfile(ALONE) else []
    found = [row for rows in pool.map(lambda it: judged_alone(it, below), crates) for row in rows]
    with open(ALONE, "w", encoding="utf-8") as it:
        it.write("".join(f"{row}\n" for row in sorted([*kept, *found])))
    return []


def try_some(crates, below, pool):
    """Tries one edit of each crate, and returns the names of those that are not refused."""
    by, of = commit(), listed()
    some = [chosen(it, of[it], by) for it in crates if it in of]
    return [f"{edit.crate}/{edit.name}" for edit, refused in zip(some, pool.map(lambda it: is_refused(it, below), some)) if not refused]


def main(words):
    os.chdir(os.path.dirname(os.path.dirname(os.path.realpath(__file__))))
    rooms = next((int(it[len("--rooms=") :]) for it in words if it.startswith("--rooms=")), 1)
    crates = [it for it in words if not it.startswith("--")] or edits.crates_with_edits()
    with concurrent.futures.ThreadPoolExecutor(rooms) as pool:
        failed = (write_list if "--list" in words else try_some)(crates, edits.libraries(), pool)
    if failed:
        print(f"FAILED: {' '.join(failed)}")
    return 1 if failed else 0


if __name__ == "__main__":
    sys.exit(main(sys.argv[1:]))
