#!/usr/bin/env python3
"""Runs `islec` on texts of tests and examples that are changed at random, and looks that it behaves.

    fuzz.py PROGRAM [COUNT [FIRST]]

COUNT texts, by default 20,000, are made, which are numbered from FIRST on; the text of a number is always the same. One is
a program of tests/commands, tests/vectors or examples in which bytes, tokens, lists or whole files are changed, taken out,
doubled, or put in from another program. `check`, `fmt`, `run` and `run --plain` are run on it. What is looked at:

- no command ends by a signal, with a status outside 0 to 5, or after more than 10 seconds;
- `run` writes what `check` writes where the files are refused;
- both roads refuse the same queries, and where both answer one the answer and its effects are the same, if each type has a value;
- what `fmt` prints is printed again to itself, and `check` says the same of it but for places;
- `fmt --keep` prints a text exactly where `fmt` does; it changes nothing but white space, prints what it printed to itself, and `fmt` and `check` say
  the same of that as of the text; `--check` names the text exactly where it isn't its print, and what `--diff` tells makes the one of the other;
- where each type has a value no query is stuck at a term of which `check --missing` tells nothing, nor at any where it says so, and a query that is
  as it says that a call is missing is answered by no value, and by none only where its term is partial.

Prints each fault with the number of its text, and last how many texts there were and how they ended. With COUNT 1 the
files of the text are printed. Exits with 1 where there was a fault.
"""

import collections
import json
import os
import random
import re
import resource
import signal
import subprocess
import sys
import tempfile

import missing
from commands import bytes_of, text_of

ROOT = os.path.join(os.path.dirname(os.path.abspath(__file__)), os.pardir)
SECONDS = 10
COUNT = 20000
# Longer files are left out: they are tests of sizes.
LONGEST = 6000
# Longer outputs are cut off there; what is printed of lists that nest deep grows with the square of their depth.
ROOM = 1 << 26
# A call without end takes that much room, and no more.
DEEPEST = 10000
UNANSWERED = ("stuck", "spent", "ill-typed")
PLACE = re.compile(rb":\d+:\d+")
TOKEN = re.compile(rb"[()@]|[^\s()@;]+|;[^\n]*|\s+")
PIECES = [b"(", b")", b"@", b"_", b"0", b"1", b"255", b"256", b"-1", b"true", b"and", b"let", b"if", b"if-let", b"else", b"none", b"multi",
          b"partial", b"pure", b"rec", b"extern", b"extractor", b"constructor", b"convert", b"const", b"$X", b"v0", b"u8", b"x", b"f", b";",
          b"(;", b";)", b"\xff", b"\x00", b"340282366920938463463374607431768211455", b"(rule (f x) x)", b"(decl f (u8) u8)", b"\xc3\xa9"]

Program = collections.namedtuple("Program", "files world queries depth")


def is_long(case):
    """Whether a text of a case has a part that stands for many."""
    texts = [*case["files"].values(), case.get("stdin", "")]
    return any(part["count"] * len(part["each"]) > LONGEST for text in texts for part in text if isinstance(part, dict))


def texts_of(case):
    """A case's program: its rule files, its world or none, its queries, and a depth."""
    files = {name: bytes_of(text_of(text)) for name, text in case["files"].items()}
    world = case.get("world")
    if world is None and "--world" in case.get("args", []):
        at = case["args"].index("--world") + 1
        world = files.pop(case["args"][at], None) if at < len(case["args"]) else None
    elif world is not None:
        world = world.encode()
    queries = bytes_of(text_of(case.get("stdin", case.get("queries", ""))))
    return Program(files, world, queries, case.get("depth", 50))


def programs():
    """The programs that are changed."""
    found = []
    for folder in ("tests/commands", "tests/vectors"):
        for name in sorted(os.listdir(os.path.join(ROOT, folder))):
            if name.endswith(".json"):
                with open(os.path.join(ROOT, folder, name), encoding="utf-8") as file:
                    found += [texts_of(case) for case in json.load(file) if not is_long(case)]
    examples = os.path.join(ROOT, "examples")
    for name in sorted(os.listdir(examples)):
        stem, kind = os.path.splitext(name)
        if kind == ".isle":
            texts = [name, stem + ".world", stem + ".queries"]
            rules, world, queries = (read(os.path.join(examples, text)) for text in texts)
            found.append(Program({"a.isle": rules}, world, queries or b"", 50))
    kept, seen = [], set()
    for program in found:
        size = sum(map(len, [*program.files.values(), program.world or b"", program.queries]))
        key = (tuple(sorted(program.files.items())), program.world, program.queries)
        if program.files and size <= LONGEST and key not in seen:
            seen.add(key)
            kept.append(program)
    return kept


def read(path):
    """A file's bytes, or none where there is no such file."""
    if not os.path.exists(path):
        return None
    with open(path, "rb") as file:
        return file.read()


def lists(text):
    """Where the lists of a text begin and end, as far as they are closed."""
    found, open_at = [], []
    for token in TOKEN.finditer(text):
        if token[0] == b"(":
            open_at.append(token.start())
        elif token[0] == b")" and open_at:
            found.append((open_at.pop(), token.end()))
    return found


def changed_bytes(chance, text, _):
    """A text with some bytes other than before, taken out or put in."""
    at = chance.randrange(len(text) + 1)
    size = chance.choice((0, 1, 1, 2, 8))
    piece = chance.choice((b"", bytes([chance.randrange(256)]), bytes([chance.randrange(32, 127)])))
    return text[:at] + piece + text[at + size:]


def changed_tokens(chance, text, other):
    """A text with a token taken out, doubled, or another one in its place."""
    tokens = TOKEN.findall(text)
    solid = [at for at, token in enumerate(tokens) if not token.isspace()]
    if not solid:
        return chance.choice(PIECES)
    at = chance.choice(solid)
    others = [token for token in TOKEN.findall(chance.choice((text, other))) if not token.isspace()] or PIECES
    piece = chance.choice((b"", tokens[at] + b" " + tokens[at], chance.choice(PIECES), chance.choice(others), chance.choice(others)))
    return b"".join([*tokens[:at], piece, *tokens[at + 1:]])


def changed_lists(chance, text, other):
    """A text with a list taken out, doubled, put into itself, or another one in its place."""
    spans = lists(text)
    if not spans:
        return text + b" " + other
    begin, end = chance.choice(spans)
    here = text[begin:end]
    source = chance.choice((text, text, other))
    there = [source[a:b] for a, b in lists(source)] or [b"()"]
    nested, copies = chance.randrange(1, 5), chance.choice((2, 2, 3, 50))
    piece = chance.choice((b"", here + b" " + here, b"(and " * nested + here + b")" * nested, b" ".join([here] * copies),
                           chance.choice(there), chance.choice(there), chance.choice(there), here + b" " + chance.choice(there)))
    return text[:begin] + piece + text[end:]


def changed_lines(chance, text, other):
    """A text with its lines in another order, or a line of another text among them."""
    lines = text.split(b"\n")
    if chance.random() < 0.5:
        chance.shuffle(lines)
    else:
        lines.insert(chance.randrange(len(lines) + 1), chance.choice(other.split(b"\n")))
    return b"\n".join(lines)


CHANGES = (changed_bytes, changed_tokens, changed_tokens, changed_tokens, changed_lists, changed_lists, changed_lists, changed_lines)


def changed(chance, all_programs):
    """A program that is changed in some places."""
    program = chance.choice(all_programs)
    other = chance.choice(all_programs)
    files, world, queries = dict(program.files), program.world, program.queries
    kind = chance.random()
    if kind < 0.03:
        files[chance.choice(list(files))] = chance.choice(list(other.files.values()))
    elif kind < 0.06:
        files["other.isle"] = chance.choice(list(other.files.values()))
    elif kind < 0.09:
        world, queries = other.world, other.queries
    for _ in range(chance.choice((1, 1, 1, 2, 2, 3, 5))):
        change = chance.choice(CHANGES)
        where = chance.random()
        if where < 0.7:
            name = chance.choice(list(files))
            files[name] = change(chance, files[name], chance.choice(list(other.files.values())))
        elif where < 0.85:
            queries = change(chance, queries, other.queries or b"(f 1)\n")
        elif world is not None:
            world = change(chance, world, other.world or b"(constructor f else none)\n")
    return Program(files, world, queries, min(chance.choice((program.depth, 1, 50, 1000)), DEEPEST))


def few_seconds():
    """Sets how long a process may have the processor."""
    resource.setrlimit(resource.RLIMIT_CPU, (SECONDS, SECONDS))


class Fault(Exception):
    """What a command does that it mustn't."""


class Folder:
    """A folder with a program's files, in which commands are run."""

    def __init__(self, program, path):
        self.program = program
        self.path = path

    def write(self, name, text):
        with open(os.path.join(self.path, name), "wb") as file:
            file.write(text)

    def once(self, words, stdin, output, seconds, limit):
        """A run of a command from a file to another one, within so many seconds, and within what is set before."""
        return subprocess.run([self.program, *words], cwd=self.path, stdin=stdin, stdout=output, stderr=subprocess.PIPE,
                              timeout=seconds, preexec_fn=limit, check=False)

    def run(self, *words, given=b""):
        """The output and the status of a command."""
        with tempfile.TemporaryFile() as output, tempfile.TemporaryFile() as stdin:
            stdin.write(given)
            stdin.seek(0)
            try:
                done = self.once(words, stdin, output, SECONDS, None)
            except subprocess.TimeoutExpired:
                # Other work may have had the processor: what counts are the seconds that the program had it.
                stdin.seek(0)
                output.seek(0)
                output.truncate()
                done = self.once(words, stdin, output, None, few_seconds)
                if done.returncode == -signal.SIGXCPU:
                    raise Fault(f"{words}: no end within {SECONDS} seconds") from None
            output.seek(0)
            written = output.read(ROOM)
        if not 0 <= done.returncode <= 5:
            raise Fault(f"{words}: status {done.returncode}, {done.stderr[-300:]!r}")
        if done.returncode in (2, 4, 5):
            raise Fault(f"{words}: status {done.returncode}, {written[-300:]!r}")
        if done.stderr:
            raise Fault(f"{words}: to standard error {done.stderr[-300:]!r}")
        return written, done.returncode


def replies(output):
    """What a run writes, query by query: the effects of each with its answer."""
    found, lines = [], []
    for line in output.split(b"\n")[:-1]:
        lines.append(line)
        if not line.startswith(b"! "):
            found.append(lines)
            lines = []
    return found if not lines else [*found, lines]


def compare_roads(by_trees, by_rules, each_has_value):
    """A fault where the two roads refuse different queries, or answer one differently."""
    if len(by_trees) != len(by_rules):
        raise Fault(f"{len(by_trees)} replies by trees, {len(by_rules)} by rules")
    for tree, rule in zip(by_trees, by_rules):
        if tree[-1].startswith(b"refused") or rule[-1].startswith(b"refused"):
            if tree != rule:
                raise Fault(f"by trees {tree!r}, by rules {rule!r}")
        ended = any(reply[-1].decode("utf-8", "replace").startswith(UNANSWERED) for reply in (tree, rule))
        if each_has_value and not ended and tree != rule:
            raise Fault(f"by trees {tree!r}, by rules {rule!r}")


def kinds_of(output):
    """What `check` says, without places and messages."""
    lines = [PLACE.sub(b"", line) for line in output.split(b"\n") if not line.startswith(b"  ") or PLACE.search(line)]
    return [line for line in lines if not line.startswith(b"  ") or line.endswith(b".isle")]


def without_space(text):
    """A text without the white space between its tokens and comments, and at the line ends of comments."""
    found, at = [], 0
    while at < len(text):
        begin = at
        if text[at:at + 1] == b";":
            at = len(text) if text.find(b"\n", at) < 0 else text.find(b"\n", at)
            found.append(text[begin:at].rstrip(b" \t\r\f"))
        elif text[at:at + 2] == b"(;":
            at = behind_comment(text, at)
            found.append(b"\n".join(line.rstrip(b" \t\r\f") for line in text[begin:at].split(b"\n")))
        else:
            at += 1
            found.append(text[begin:at].strip(b" \t\r\n\f"))
    return b"".join(found)


def behind_comment(text, at):
    """Where a comment between parentheses that begins there ends; or the text's end, where it isn't closed."""
    depth = 0
    while at < len(text):
        mark = text[at:at + 2]
        depth += (mark == b"(;") - (mark == b";)")
        at += 2 if mark in (b"(;", b";)") else 1
        if not depth:
            return at
    return len(text)


def patched(text, diff):
    """What a unified diff makes of a text."""
    made, at = [], 0
    old = [line + b"\n" for line in text.split(b"\n")[:-1]] + ([text.split(b"\n")[-1]] if not text.endswith(b"\n") and text else [])
    rows = diff.split(b"\n")[2:-1]
    for number, row in enumerate(rows):
        bare = rows[number + 1:number + 2] == [b"\\ No newline at end of file"]
        line = row[1:] + (b"" if bare else b"\n")
        if row.startswith(b"@@"):
            begin, _, count = row.split()[1][1:].partition(b",")
            upto = int(begin) - (count != b"0")
            made += old[at:upto]
            at = upto
        elif row[:1] in (b" ", b"-"):
            if old[at] != line:
                raise Fault(f"the diff has {line!r} for {old[at]!r}")
            made += [line] if row[:1] == b" " else []
            at += 1
        elif row[:1] == b"+":
            made.append(line)
    return b"".join(made + old[at:])


def look_at_kept(folder, name, text, printed):
    """What `fmt --keep` does with a file, of which `fmt` printed so much: nothing where it refused it."""
    words = ["fmt", "--keep", "--width", str(len(text) % 90)]
    kept, status = folder.run(*words, name)
    if (status == 0) != (printed is not None):
        raise Fault(f"{name} is printed with its comments or without, not both")
    if status:
        return
    if without_space(kept) != without_space(text):
        raise Fault(f"{name} is kept as {kept!r}")
    if folder.run(*words, "--check", name)[0] != (b"" if kept == text else name.encode() + b"\n"):
        raise Fault(f"{name} is named, or isn't, as if it were another text")
    if patched(text, folder.run(*words, "--diff", name)[0]) != kept:
        raise Fault(f"the diff of {name} makes another text")
    folder.write(name, kept)
    if folder.run(*words, name)[0] != kept:
        raise Fault(f"{name} is kept again in another way")
    if folder.run("fmt", "--width", str(len(text) % 90), name)[0] != printed:
        raise Fault(f"{name} is printed in another way once it is kept")


def look_at_prints(folder, made, accepted):
    """What `fmt` does with the files of a program that is accepted or not, but for standard input. They are their prints afterwards, where they
    have any."""
    for name, text in made.files.items():
        if name == "-":
            continue
        printed, status = folder.run("fmt", "--width", str(len(text) % 90), name)
        if status == 0 and len(printed) < ROOM:
            look_at_kept(folder, name, text, printed)
            folder.write(name, printed)
            again, _ = folder.run("fmt", "--width", str(len(text) % 90), name)
            if again != printed:
                raise Fault(f"{name} is printed again in another way")
        elif status != 0:
            look_at_kept(folder, name, text, None)
            if accepted:
                raise Fault(f"{name} is accepted and isn't printed")


def look(binary, made, path):
    """Runs the commands on a program, and tells how it ended; a fault where one does what it mustn't."""
    folder = Folder(binary, path)
    for name, text in made.files.items():
        folder.write(name, text)
    names = list(made.files)
    readable = all(is_text(text) for text in [*made.files.values(), made.world or b""])
    if not readable:
        return "not UTF-8"
    checked, status = folder.run("check", "--terms", *names)
    options = ["--depth", str(made.depth)]
    if made.world is not None:
        folder.write("world", made.world)
        options += ["--world", "world"]
    by_trees, tree_status = folder.run("run", *options, *names, given=made.queries)
    by_rules, rule_status = folder.run("run", "--plain", *options, *names, given=made.queries)
    ending = "refused" if status else "accepted"
    if status == 1:
        if (by_trees, tree_status) != (checked, 1) or (by_rules, rule_status) != (checked, 1):
            raise Fault("a run says something else than a check of files that are refused")
    elif (tree_status == 1) != (rule_status == 1):
        raise Fault("one road alone refuses the world")
    elif tree_status == 1:
        ending = "world refused"
        if by_trees != by_rules:
            raise Fault("the world is refused in two ways")
    else:
        compare_roads(replies(by_trees), replies(by_rules), b"some type has no value" not in checked.split(b"\n"))
        if any(not reply[-1].startswith(b"refused") for reply in replies(by_trees)):
            ending = "called"
        if look_at_missing(folder, made, options):
            ending += ", some call missing"
    look_at_prints(folder, made, status == 0)
    formatted, formatted_status = folder.run("check", "--terms", *names)
    if formatted_status != status or kinds_of(formatted) != kinds_of(checked):
        raise Fault(f"a check says {kinds_of(checked)!r}, and of what is printed {kinds_of(formatted)!r}")
    return ending


def look_at_missing(folder, made, options):
    """How queries are answered of which `check --missing` says whether rules match them. How many were missing calls."""
    output, _ = folder.run("check", "--missing", "--partial", "--terms", *made.files)
    output = output.decode()
    texts = missing.Texts([text.decode() for text in made.files.values()])
    runnable, calls, undecided = missing.told(output)
    if not texts.read or "some type has no value" in output.split("\n"):
        return 0
    found = [missing.queries_of(texts, call, lines) for call, *lines in calls]
    found = [(term, query) for term, query in found if query and term in runnable]
    open_terms = undecided.union(lines[0][1:].split(" ")[0].rstrip(")") for lines in calls)
    others = [query for term in sorted(runnable) for query in missing.queries_at(texts, term, 20)]
    given = "\n".join([*(query for _, query in found), *others, ""]).encode()
    for words in (["run"], ["run", "--plain"]):
        written, status = folder.run(*words, *options, *made.files, given=given)
        if status == 1:
            return 0
        ends = [reply[-1].decode() for reply in replies(written)]
        for (term, query), end in zip(found, ends):
            if not end.startswith(UNANSWERED) and (end != "none" or not texts.terms[term][1]):
                raise Fault(f"{words}: {query} is told to have no rule, and is {end!r}")
        stuck = {end[len("stuck ("):].split(" ")[0].rstrip(")") for end in ends if end.startswith("stuck (")}
        if not stuck <= open_terms or stuck and "no call is ever stuck" in output.split("\n"):
            raise Fault(f"{words}: stuck at {sorted(stuck)}, which are told to be covered")
    return len(found)


def is_text(text):
    """Whether bytes are UTF-8."""
    try:
        text.decode("utf-8")
    except UnicodeDecodeError:
        return False
    return True


def main():
    if len(sys.argv) not in (2, 3, 4):
        sys.exit(__doc__)
    binary = os.path.abspath(sys.argv[1])
    count = int(sys.argv[2]) if len(sys.argv) > 2 else COUNT
    first = int(sys.argv[3]) if len(sys.argv) > 3 else 0
    all_programs = programs()
    endings = collections.Counter()
    failed = 0
    for number in range(first, first + count):
        made = changed(random.Random(number), all_programs)
        with tempfile.TemporaryDirectory() as path:
            try:
                endings[look(binary, made, path)] += 1
            except Fault as fault:
                failed += 1
                print(f"text {number}: {fault}", flush=True)
        if count == 1:
            for name, text in [*made.files.items(), ("world", made.world), ("queries", made.queries)]:
                print(f"{name}:", (text or b"").decode("utf-8", "backslashreplace"), sep="\n")
    told = ", ".join(f"{number} {ending}" for ending, number in endings.most_common())
    print(f"{count} texts of {len(all_programs)} programs: {told}, {failed} faults")
    sys.exit(1 if failed else 0)


if __name__ == "__main__":
    main()
