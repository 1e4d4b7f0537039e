#!/usr/bin/env python3
"""Runs commands of `islec`, or calls of the library, with each of their requests for memory refused in turn.

    refusals.py PROGRAM [FILE.json]

The cases of FILE, by default those of tests/refusals/cases.json, are commands as tests/commands/README.md describes
them, where `stdout` may be a list of replies, and `wants` lists what else is written where memory is wanted, each text in
some run. tests/refusals/refuse.c is compiled by `cc` and loaded into the program by LD_PRELOAD. A case is first run with
ample memory, and must be as it says. Then its N-th request is refused, and then all from the N-th on, for N from 1 upwards
until a run ends with none refused; past REQUESTS in steps of STEP. Each run must end as with ample memory, byte for byte,
or want memory with status 5: `out of memory` behind some whole replies, or what the case lists.
Prints each run that ends otherwise, with REFUSALS_SHOWN=1 also each case with its requests, and last how many runs there
were. Exits with 1 where one ended otherwise.
"""

import concurrent.futures
import json
import os
import struct
import subprocess
import sys
import tempfile

from commands import bytes_of, text_of

ROOT = os.path.join(os.path.dirname(os.path.abspath(__file__)), os.pardir)
FOLDER = os.path.join(ROOT, "tests", "refusals")
SECONDS = 60
# Each of so many requests is refused, and of those behind them every STEP-th.
REQUESTS = 2000
STEP = 37
# So many runs are under way before the end of one is looked at.
AHEAD = 64
WANT = b"out of memory\n"
OUT_OF_MEMORY = 5
SHOWN = 5


def library(folder):
    """Compiles the library that refuses requests, and gives its path."""
    path = os.path.join(folder, "refuse.so")
    subprocess.run(["cc", "-O2", "-shared", "-fPIC", "-o", path, os.path.join(FOLDER, "refuse.c")], check=True)
    return path


class Runs:
    """The runs of a case, in a folder with its files."""

    def __init__(self, program, refuse, case, folder):
        self.words = [program, *case["args"]]
        self.refuse = refuse
        self.folder = folder
        self.stdin = os.path.join(folder, ".stdin")
        for name, text in [*case["files"].items(), (".stdin", case["stdin"])]:
            with open(os.path.join(folder, name), "wb") as file:
                file.write(bytes_of(text_of(text)))

    def run(self, at, onwards):
        """Output, errors, status and the two counts of a run whose request of this number is refused, of none for 0."""
        environment = {"LD_PRELOAD": self.refuse, "REFUSE_AT": str(at)}
        if onwards:
            environment["REFUSE_ALL"] = "1"
        with tempfile.NamedTemporaryFile() as counts, open(self.stdin, "rb") as given:
            counts.write(bytes(16))
            counts.flush()
            environment["REFUSE_COUNTS"] = counts.name
            done = subprocess.run(self.words, cwd=self.folder, env=environment, stdin=given, capture_output=True,
                                  timeout=SECONDS, check=False)
            with open(counts.name, "rb") as file:
                requests, refused = struct.unpack("QQ", file.read())
        return done.stdout, done.stderr, done.returncode, requests, refused


def numbers():
    """The numbers of the requests that are refused, in order."""
    at = 1
    while True:
        yield at
        at += 1 if at < REQUESTS else STEP


def wants_of(case):
    """What may be written where memory is wanted: `out of memory` behind the first replies, however many, or what the case lists."""
    stdout = case.get("stdout", "")
    replies = stdout if isinstance(stdout, list) else []
    return {bytes_of("".join(replies[:count])) + WANT for count in range(len(replies) + 1)} | listed_of(case)


def listed_of(case):
    """What a case lists that is written where memory is wanted."""
    return {bytes_of(text) for text in case.get("wants", [])}


def ample_faults(case, ample):
    """How a run with ample memory differs from what its case says."""
    output, errors, status, requests, refused = ample
    found = []
    if status != case["status"]:
        found.append(f"status {status}, wanted {case['status']}")
    if "stdout" in case and output != bytes_of(text_of(case["stdout"])):
        found.append(f"wrote {output!r}, wanted {bytes_of(text_of(case['stdout']))!r}")
    if not output.startswith(bytes_of(case.get("stdout_begins", ""))):
        found.append(f"wrote {output!r}, wanted a beginning of {bytes_of(case['stdout_begins'])!r}")
    if errors:
        found.append(f"wrote {errors!r} to standard error")
    if requests == 0 or refused:
        found.append(f"{requests} requests were counted and {refused} refused")
    return found


def refused_runs(pool, runs, onwards):
    """The runs with refused requests, each with its number, up to the first one with none refused."""
    started = []
    for at in numbers():
        started.append((at, pool.submit(runs.run, at, onwards)))
        if len(started) < AHEAD:
            continue
        for number, future in started:
            run = future.result()
            yield number, run
            if run[4] == 0:
                for _, left in started:
                    left.cancel()
                return
        started = []


def faults(pool, program, refuse, case):
    """The lines that tell which runs of a case end otherwise than they may, and how many runs there were."""
    with tempfile.TemporaryDirectory() as folder:
        runs = Runs(program, refuse, case, folder)
        ample = runs.run(0, False)
        found = ample_faults(case, ample)
        if found:
            return found, 1, 0
        wants, missing = wants_of(case), listed_of(case)
        count = 1
        for onwards in (False, True):
            wanted = 0
            for at, run in refused_runs(pool, runs, onwards):
                output, errors, status, _, refused = run
                count += 1
                is_want = refused > 0 and status == OUT_OF_MEMORY and output in wants and not errors
                wanted += is_want
                missing.discard(output)
                if not is_want and run[:3] != ample[:3]:
                    which = f"all from request {at} on" if onwards else f"request {at}"
                    found.append(f"{which}: status {status}, wrote {output!r}, to standard error {errors!r}")
            if wanted == 0:
                found.append("no run wanted memory")
        found += [f"no run wrote {text!r}" for text in sorted(missing)]
    return found, count, ample[3]


def main():
    if len(sys.argv) not in (2, 3):
        sys.exit(__doc__)
    program = os.path.abspath(sys.argv[1])
    with open(sys.argv[2] if len(sys.argv) > 2 else os.path.join(FOLDER, "cases.json"), encoding="utf-8") as file:
        cases = json.load(file)
    failed = total = 0
    with tempfile.TemporaryDirectory() as folder, concurrent.futures.ThreadPoolExecutor(len(os.sched_getaffinity(0))) as pool:
        refuse = library(folder)
        for case in cases:
            found, count, requests = faults(pool, program, refuse, case)
            total += count
            if os.environ.get("REFUSALS_SHOWN"):
                print(f"{case['name']}: {requests} requests, {count} runs", flush=True)
            if found:
                failed += 1
                print(case["name"])
                for line in found[:SHOWN]:
                    print(f"    {line}")
    print(f"{len(cases) - failed} passed, {failed} failed, {total} runs")
    sys.exit(1 if failed else 0)


if __name__ == "__main__":
    main()
