#!/usr/bin/env python3
"""Runs the examples that README.md and docs/LANGUAGE.md show, and compares what they show with what is there.

    manual.py PROGRAM

An example of a command is an indented line `$ islec WORDS < FILE`, in which `< FILE` may be missing and a comment may stand behind
a `#`; the lines below it, as far as they are indented as much or more and are no command, are what it writes. `$ cat FILE` shows a
file. The commands are run at the top of the repository. A block of lines that begins with ```isle FILE is the whole
file, one that begins with ```isle part of FILE stands in it. Prints each example that is other than shown, and last
`N passed, M failed`. Exits with 1 where one failed.
"""

import os
import re
import shlex
import subprocess
import sys

ROOT = os.path.join(os.path.dirname(os.path.abspath(__file__)), os.pardir)
DOCUMENTS = ("README.md", "docs/LANGUAGE.md")
SECONDS = 60
COMMAND = re.compile(r"( {4,})\$ (.*)")
BLOCK = re.compile(r"```isle (part of )?(\S+)$")


def commands_of(lines):
    """The commands of a document: each one's line, words and what it writes."""
    at = 0
    while at < len(lines):
        command = COMMAND.fullmatch(lines[at])
        at += 1
        if not command:
            continue
        number, indent = at, command[1]
        written = []
        while at < len(lines) and lines[at].startswith(indent) and not COMMAND.fullmatch(lines[at]):
            written.append(lines[at][len(indent):] + "\n")
            at += 1
        yield number, command[2], "".join(written)


def blocks_of(lines):
    """The blocks of a document that show a file: each one's line, name, text, and whether it is a part alone."""
    for at, line in enumerate(lines):
        block = BLOCK.fullmatch(line)
        if block:
            end = lines.index("```", at)
            yield at + 1, block[2], "".join(text + "\n" for text in lines[at + 1:end]), bool(block[1])


def read(name):
    """The text of a file of the repository."""
    with open(os.path.join(ROOT, name), encoding="utf-8") as file:
        return file.read()


def output_of(program, command):
    """What a command writes."""
    words = shlex.split(command, comments=True)
    if words[0] == "cat":
        return "".join(map(read, words[1:]))
    if words[0] != "islec":
        return None
    given = ""
    if "<" in words:
        at = words.index("<")
        given = read(words[at + 1])
        words = words[:at]
    done = subprocess.run([program, *words[1:]], cwd=ROOT, input=given.encode(), stdout=subprocess.PIPE, timeout=SECONDS, check=False)
    return done.stdout.decode("utf-8", "backslashreplace")


def differences(program, document):
    """How many examples a document has, and the lines that tell which are other than shown."""
    lines = read(document).split("\n")
    count, found = 0, []
    for number, command, wanted in commands_of(lines):
        count += 1
        output = output_of(program, command)
        if output != wanted:
            found.append(f"{document}:{number}: {command}\n    shown {wanted!r}\n    wrote {output!r}")
    for number, name, text, is_part in blocks_of(lines):
        count += 1
        whole = read(name)
        if text != whole and not (is_part and text in whole):
            found.append(f"{document}:{number}: {name} is another one")
    return count, found


def main():
    if len(sys.argv) != 2:
        sys.exit(__doc__)
    program = os.path.abspath(sys.argv[1])
    total = failed = 0
    for document in DOCUMENTS:
        count, found = differences(program, document)
        total += count
        failed += len(found)
        for text in found:
            print(text)
    print(f"{total - failed} passed, {failed} failed")
    sys.exit(1 if failed else 0)


if __name__ == "__main__":
    main()
