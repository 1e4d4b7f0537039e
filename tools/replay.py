#!/usr/bin/env python3
"""Runs `islec check`, `run`, `run --plain` or `blocks` on programs with known answers; `world` runs them without queries, and `steps` and
`plain-steps` run them with the steps of each call.

    replay.py PROGRAM check|run|plain|steps|plain-steps|world|blocks FILE.json ..

Each FILE is a list of cases, as tests/vectors/README.md describes them. Prints the name of each
case that fails with what differs, and last `N passed, M failed`. Exits with 1 where one failed.
"""

import concurrent.futures
import difflib
import json
import os
import re
import subprocess
import sys
import tempfile

SECONDS = 60
COMMANDS = ("check", "run", "plain", "steps", "plain-steps", "world", "blocks")
UNANSWERED = ("stuck", "spent", "ill-typed")
SHOWN_LINES = 12

FAULT = re.compile(r"^(?P<place>.+:\d+:\d+): (?P<kind>parse error|type error|unreachable rule"
                   r"|overlapping rules|shadowing rule|too large)$")


def without_messages(text):
    """The lines of faults, and the partners of overlapping and shadowing rules."""
    kept = []
    has_partners = False
    for line in text.split("\n"):
        fault = FAULT.match(line)
        if fault:
            has_partners = fault["kind"] in ("overlapping rules", "shadowing rule")
        elif line.startswith("  ") and not has_partners:
            continue
        kept.append(line)
    return "\n".join(kept)


def kind_alone(text):
    """The kind of the first line where it is a type error, since no more of that is fixed."""
    fault = FAULT.match(text.split("\n", 1)[0])
    return "type error\n" if fault and fault["kind"] == "type error" else text


def answered_steps(text):
    """The lines of a run, without the steps of calls that aren't answered, of which nothing is fixed."""
    kept = []
    for line in text.split("\n"):
        if not (line.startswith("# steps ") and kept and kept[-1].startswith(UNANSWERED)):
            kept.append(line)
    return "\n".join(kept)


def comparable(output, status):
    """What two outputs of one status have in common where both are right."""
    text = answered_steps(output.decode("utf-8", "backslashreplace"))
    return kind_alone(without_messages(text)) if status == 1 else text


def words_of(command, case):
    """The words of a command on a case, without the names of its files."""
    if command in ("check", "blocks"):
        return [command]
    words = ["run", "--depth", str(case["depth"])]
    if command.startswith("plain"):
        words.append("--plain")
    if command.endswith("steps"):
        words.append("--steps")
    return words if case["world"] is None else [*words, "--world", "world"]


def run(program, command, case):
    """The output and the exit status of a command of the program on a case."""
    texts = dict(case["files"])
    if case["world"] is not None:
        texts["world"] = case["world"]
    with tempfile.TemporaryDirectory() as folder:
        for name, text in texts.items():
            with open(os.path.join(folder, name), "wb") as file:
                file.write(text.encode())
        words = words_of(command, case)
        done = subprocess.run(
            [program, *words, *sorted(case["files"])],
            cwd=folder,
            input=b"" if command in ("world", "blocks") else case["queries"].encode(),
            stdout=subprocess.PIPE,
            stderr=subprocess.PIPE,
            timeout=SECONDS,
            check=False,
        )
    return done.stdout + done.stderr, done.returncode


def wanted_of(command, case):
    """What the command must write, and its exit status."""
    if command == "world":
        # A run without queries writes something only where texts or world are refused.
        return (case["run"], 1) if case["run_status"] == 1 else ("", 0)
    if command == "blocks":
        return case["blocks"], 0
    if command == "check":
        return case["check"], case["check_status"]
    if command.endswith("steps"):
        text = case["run_steps" if command == "plain-steps" else "blocks_run_steps"]
        return text, 3 if any(line.startswith(("refused", *UNANSWERED)) for line in text.split("\n")) else 0
    return case["run" if command == "plain" else "blocks_run"], case["run_status"]


def differences(program, command, case):
    """The lines that tell how a case fails: none where it passes."""
    try:
        output, status = run(program, command, case)
    except subprocess.TimeoutExpired:
        return [f"no end within {SECONDS} seconds"]
    found = []
    text, wanted_status = wanted_of(command, case)
    if status != wanted_status:
        found.append(f"status {status}, wanted {wanted_status}")
    wanted = comparable(text.encode(), wanted_status)
    given = comparable(output, status)
    if given != wanted:
        found += difflib.unified_diff(
            wanted.split("\n"), given.split("\n"), "wanted", "given", n=1, lineterm="")
    return found


def main():
    if len(sys.argv) < 4 or sys.argv[2] not in COMMANDS:
        sys.exit(__doc__)
    program = os.path.abspath(sys.argv[1])
    command = sys.argv[2]
    cases = []
    for path in sys.argv[3:]:
        with open(path, encoding="utf-8") as file:
            cases += json.load(file)
    failed = 0
    with concurrent.futures.ThreadPoolExecutor(os.cpu_count() or 1) as pool:
        results = pool.map(lambda case: differences(program, command, case), cases)
        for case, found in zip(cases, results):
            if found:
                failed += 1
                print(case["name"])
                for line in found[:SHOWN_LINES]:
                    print(f"    {line}")
    print(f"{len(cases) - failed} passed, {failed} failed")
    sys.exit(1 if failed else 0)


if __name__ == "__main__":
    main()
