#!/usr/bin/env python3
"""Runs commands of `islec` with known answers.

    commands.py PROGRAM FILE.json ..

Each FILE is a list of cases, as tests/commands/README.md describes them. Prints the name of each
case that fails with what differs, and last `N passed, M failed`. Exits with 1 where one failed.
"""

import contextlib
import json
import os
import resource
import signal
import socket
import subprocess
import sys
import tempfile
import threading
import time

SECONDS = 60
# Bytes of native stack that the program has.
STACK = 8 << 20
# How long one turn of a program that is given its input in turns may take.
TURN_SECONDS = 10


def bytes_of(text):
    """The bytes of a text, in which U+DC80 to U+DCFF stand for the bytes 0x80 to 0xFF."""
    return text.encode("utf-8", "surrogateescape")


def text_of(parts):
    """A text, or its parts one after the other, of which some stand for many with the numbers from 0."""
    if isinstance(parts, str):
        return parts
    return "".join(part if isinstance(part, str) else repeated(part["each"], part["count"]) for part in parts)


def repeated(each, count):
    """A text so many times, with the numbers from 0 in the place of `#`."""
    if "#" not in each:
        return each * count
    return "".join(each.replace("#", str(number)) for number in range(count))


def fill(filled, text, step):
    """Gives a text in steps of so many bytes, until the other end is closed, and ends the input."""
    with filled, contextlib.suppress(OSError):
        for at in range(0, len(text), step):
            filled.sendall(text[at:at + step])


def comes(output, text):
    """Whether all that is written comes to be a text, within some seconds."""
    end = time.monotonic() + TURN_SECONDS
    while time.monotonic() < end:
        if os.pread(output.fileno(), len(text) + 1, 0) == text:
            return True
        time.sleep(0.005)
    return False


def take_turns(filled, turns, output, missed):
    """Gives each text once all that is written is what the one before wants, and ends the input."""
    with filled, contextlib.suppress(OSError, ValueError):
        for given, wanted in turns:
            filled.sendall(bytes_of(given))
            if not comes(output, bytes_of(wanted)):
                missed.append(f"no {wanted!r} was written before more than {given!r} was given")
                return


def turns_of(case, output, missed):
    """A socket that gives the input of a case in turns, and then ends."""
    given, filled = socket.socketpair(socket.AF_UNIX, socket.SOCK_STREAM)
    threading.Thread(target=take_turns, args=(filled, case["turns"], output, missed), daemon=True).start()
    return given


def input_of(case):
    """A socket that gives the input of a case, and then ends or fails."""
    step = case.get("stdin_step")
    kind = socket.SOCK_SEQPACKET if step else socket.SOCK_STREAM
    given, filled = socket.socketpair(socket.AF_UNIX, kind)
    if case.get("stdin_fails"):
        # What is left unread at the other end makes reading fail once the bytes are read.
        given.send(b"unread")
    text = bytes_of(text_of(case["stdin"]))
    # An input that is longer than what a socket holds is given while the program reads.
    threading.Thread(target=fill, args=(filled, text, step or max(len(text), 1)), daemon=True).start()
    return given


def limits_of(case):
    """What the program's process sets before it starts: its native stack, and how many bytes a file may have."""
    room, most = case.get("stdout_room"), case.get("killed_at")

    def set_limits():
        resource.setrlimit(resource.RLIMIT_STACK, (STACK, resource.getrlimit(resource.RLIMIT_STACK)[1]))
        if room is not None:
            signal.signal(signal.SIGXFSZ, signal.SIG_IGN)
            resource.setrlimit(resource.RLIMIT_FSIZE, (room, room))
        if most is not None:
            resource.setrlimit(resource.RLIMIT_CORE, (0, 0))
            resource.setrlimit(resource.RLIMIT_FSIZE, (most, most))

    return set_limits


def lay_down(folder, case):
    """Writes the files of a case, with their modes, and its links."""
    for name, text in case["files"].items():
        with open(os.path.join(folder, name), "wb") as file:
            file.write(bytes_of(text_of(text)))
    for name, mode in case.get("modes", {}).items():
        os.chmod(os.path.join(folder, name), int(mode, 8))
    for name, target in case.get("links", {}).items():
        os.symlink(target, os.path.join(folder, name))


def changes_in(folder, case):
    """The lines that tell how the files in a folder aren't those that a case wants afterwards."""
    wanted = {name: bytes_of(text_of(text)) for name, text in case.get("files_after", case["files"]).items()}
    links = case.get("links", {})
    found = []
    for name in sorted({*os.listdir(folder), *wanted, *links}):
        path = os.path.join(folder, name)
        if name in links:
            if not os.path.islink(path) or os.readlink(path) != links[name]:
                found.append(f"{name} is no link to {links[name]} afterwards")
        elif name not in wanted:
            found.append(f"{name} stands there afterwards")
        elif not os.path.isfile(path):
            found.append(f"{name} doesn't stand there afterwards")
        else:
            with open(path, "rb") as file:
                text = file.read()
            if text != wanted[name]:
                found.append(f"{name} is {text!r} afterwards, wanted {wanted[name]!r}")
    for name, mode in case.get("modes", {}).items():
        has = os.stat(os.path.join(folder, name)).st_mode & 0o7777
        if has != int(mode, 8):
            found.append(f"{name} has the mode {has:o} afterwards, wanted {mode}")
    return found


def run(program, case, missed):
    """The output and the exit status of the program on a case. Turns that are missed and files that aren't as they are wanted are told."""
    with tempfile.TemporaryDirectory() as folder, tempfile.TemporaryFile() as output:
        lay_down(folder, case)
        with turns_of(case, output, missed) if "turns" in case else input_of(case) as given:
            done = subprocess.run(
                [program, *map(bytes_of, case["args"])],
                cwd=folder,
                stdin=given,
                stdout=output,
                stderr=subprocess.DEVNULL,
                preexec_fn=limits_of(case),
                timeout=SECONDS,
                check=False,
            )
        missed += changes_in(folder, case)
        output.seek(0)
        return output.read(), done.returncode


def differences(program, case):
    """The lines that tell how a case fails: none where it passes."""
    found = []
    try:
        output, status = run(program, case, found)
    except subprocess.TimeoutExpired:
        return [f"no end within {SECONDS} seconds"]
    if status != case["status"]:
        found.append(f"status {status}, wanted {case['status']}")
    if "stdout" in case and output != bytes_of(text_of(case["stdout"])):
        found.append(f"wrote {output!r}, wanted {bytes_of(text_of(case['stdout']))!r}")
    if not output.startswith(bytes_of(case.get("stdout_begins", ""))):
        found.append(f"wrote {output!r}, wanted a beginning of {bytes_of(case['stdout_begins'])!r}")
    return found


def main():
    if len(sys.argv) < 3:
        sys.exit(__doc__)
    program = os.path.abspath(sys.argv[1])
    cases = []
    for path in sys.argv[2:]:
        with open(path, encoding="utf-8") as file:
            cases += json.load(file)
    failed = 0
    for case in cases:
        found = differences(program, case)
        if found:
            failed += 1
            print(case["name"])
            for line in found:
                print(f"    {line}")
    print(f"{len(cases) - failed} passed, {failed} failed")
    sys.exit(1 if failed else 0)


if __name__ == "__main__":
    main()
