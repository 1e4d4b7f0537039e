#!/usr/bin/env python3
"""Tells which functions' proofs weigh most, by what the last 'rt check' of a crate kept in out/: a megabyte takes about a second to prove.

usage: tools/weights.py CRATE [ROWS]

A row has the megabytes kept of a function, or of functions that call one another ('+NAME'), its name, and the parts that weigh most. What rattle
makes for a function's code (Lts, Proof, Tie) grows with its steps times the values that it holds, and with what is dropped at each
way out; Answers and lemmas are those of proofs/. What is kept of a function that is gone counts until out/ is removed.
"""
import collections
import os
import re
import sys

PART = r"(Lts|Proof|Tie|Layout|Reads|Kinds|Mir|Named|Code|Statement|Met|Goals|Given|View|Symbol|Carried|Answers|Invariants|Key|The\w+)(-.*)?"


def weights(crate):
    """Returns for each function of the crate the bytes of each part that was kept."""
    found = collections.defaultdict(collections.Counter)
    for at, _, names in os.walk(f"crates/{crate}/out/incremental"):
        if os.path.basename(at) == "records":
            continue
        for name in names:
            words = name[: -len(".oantt")].split(".")
            if not name.endswith(".oantt") or not words[0].startswith(f"Rattle-{crate}"):
                continue
            part = re.fullmatch(PART, words[-1])
            while re.fullmatch(PART, words[-1]):
                words.pop()
            function = ".".join(it for it in words[1:] if it != "contracts")
            found[function][part[1] if part else "own"] += os.path.getsize(f"{at}/{name}")
    return found


def main(words):
    os.chdir(os.path.dirname(os.path.dirname(os.path.realpath(__file__))))
    if not 1 <= len(words) <= 2 or len(words) == 2 and not words[1].isdigit():
        sys.exit(__doc__)
    found = weights(words[0])
    if not found:
        sys.exit(f"crates/{words[0]}/out has nothing of a check: rt check in its folder")
    ranked = sorted(found.items(), key=lambda it: -sum(it[1].values()))
    print(f"{sum(sum(it.values()) for it in found.values()) / 1e6:.0f} MB of {words[0]}")
    for function, parts in ranked[: int(words[1]) if len(words) == 2 else 20]:
        told = " ".join(f"{part} {size / 1e6:.1f}" for part, size in parts.most_common(3))
        print(f"{sum(parts.values()) / 1e6:6.1f} {function}  ({told})")


if __name__ == "__main__":
    main(sys.argv[1:])
