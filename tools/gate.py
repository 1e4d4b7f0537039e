#!/usr/bin/env python3
"""Runs `rt ci`, a check for each processor, three at most, and tells what each crate took. Each check takes 2 to 6 GB.

usage: tools/gate.py [WORD ..]     with the words for `rt ci`

What a check takes is read from /proc while it runs, once a second, so up to a second of each is missed. `out/gate.json` has the figures of the last
run that passed, which `tools/figures.py` writes into docs/GATE.md. Where `rt ci` takes a crate as it was proved before, the run has no figures of it.
"""
import json
import os
import re
import resource
import subprocess
import sys
import threading
import time

TICKS = os.sysconf("SC_CLK_TCK")
MOST = 3


def processes():
    """The processes: for each its parent, its words, and the processor seconds that it took."""
    found = {}
    for pid in filter(str.isdigit, os.listdir("/proc")):
        try:
            with open(f"/proc/{pid}/cmdline", "rb") as it:
                words = it.read().decode(errors="replace").split("\0")
            with open(f"/proc/{pid}/stat", encoding="utf-8", errors="replace") as it:
                row = it.read().rpartition(")")[2].split()
        except OSError:
            continue
        found[int(pid)] = int(row[1]), words, sum(int(it) for it in row[11:15]) / TICKS
    return found


def is_below(pid, top, found):
    while pid in found and pid != top:
        pid = found[pid][0]
    return pid == top


def crate_of(words):
    return words[words.index("--crate-name") + 1] if "--crate-name" in words[:-1] else None


class Watch(threading.Thread):
    """Watches the processes below one, and keeps of each that is of a crate when it was seen first and last, and the most that it took."""

    def __init__(self, top):
        super().__init__(daemon=True)
        self.top, self.seen = top, {}

    def run(self):
        while True:
            found, now = processes(), time.monotonic()
            for pid, (_, words, seconds) in found.items():
                crate = crate_of(words)
                if crate and is_below(pid, self.top, found):
                    first = self.seen.get(pid, (crate, now))[1]
                    self.seen[pid] = crate, first, now, seconds
            time.sleep(1)

    def figures(self):
        """For each crate its processor minutes, and the minutes from its first to its last process."""
        made = {}
        for crate, first, last, seconds in self.seen.values():
            its = made.setdefault(crate, {"processor": 0, "first": first, "last": last})
            its.update(processor=its["processor"] + seconds / 60, first=min(first, its["first"]), last=max(last, its["last"]))
        return {crate: {"processor": it["processor"], "wall": (it["last"] - it["first"]) / 60} for crate, it in made.items()}


def main(words):
    os.chdir(os.path.dirname(os.path.dirname(os.path.abspath(__file__))))
    begun = time.monotonic()
    checks = os.environ.get("RT_JOBS", str(min(os.cpu_count(), MOST)))
    ran = subprocess.Popen(["rt", "ci", *words], env=os.environ | {"RT_JOBS": checks})
    watch = Watch(ran.pid)
    watch.start()
    status = ran.wait()
    used = resource.getrusage(resource.RUSAGE_CHILDREN)
    whole = {"processor": (used.ru_utime + used.ru_stime) / 60, "wall": (time.monotonic() - begun) / 60}
    crates = watch.figures()
    for name, it in [*sorted(crates.items()), ("all", whole)]:
        print(f"{name}: {it['processor']:.1f} processor minutes, {it['wall']:.1f} of wall clock")
    if not status:
        os.makedirs("out", exist_ok=True)
        version = re.search(r"\S+", subprocess.run(["rt", "version"], stdout=subprocess.PIPE, check=True, text=True).stdout)[0]
        with open("out/gate.json", "w", encoding="utf-8") as it:
            json.dump({"kit": version, "checks": int(checks), "crates": crates, "all": whole}, it, indent=1)
    return status


if __name__ == "__main__":
    sys.exit(main(sys.argv[1:]))
