#!/usr/bin/env python3
"""Tries the wrong bodies of tests/edits: the prover must refuse each. Ends with 1 where one is not refused.

usage: tools/edits.py [--all] [--rooms=N] [--stubs] [CRATE ..]     those of the crates that are named, or of all crates
       tools/edits.py --known                            tries nothing, and ends with 1 where a crate's wrong bodies are still to be tried

tests/edits/CRATE/NAME.edit has a line 'file: src/FILE.rt' and pairs of lines 'old: TEXT' and 'new: TEXT', where the old TEXT stands once in that
file and the new one says something else. tests/edits/counts.txt has the number of edits of each crate.
A function is proved from the contracts of those that it calls and not from their bodies, so one check tries many edits, as long as they are of
different functions: each must leave a goal of its own function unproved, or an answer to one refused for more than a name that is gone.
An answer is known by the file of its function, or by its name alone where no other edit of the check is of a function of that name.
What isn't told apart so, as a constant, is tried once more by itself: then a goal or an answer of any function counts.
With --rooms=N checks of N rounds go on side by side, each in a copy of its own, which wants 2 to 4 GB.
With --stubs a check has only the code of the functions that edits are of, over libraries without any (tools/stubs.py): a function is proved from
the contracts of what it calls, and so it fails over these as it does over the libraries themselves. First the same functions are checked without
the edits. What is judged so is marked in the record, and counts as untried.

tests/edits/tried.txt has for each edit a sum of all that its refusal hangs on (`sums_of` says what), the text of the judge and the program logic
that 'rt version' names among it. The kit's own name is left out: machines have kits of one logic under several names, and what a body breaks is
false under each. Where that sum is still the edit's, it was refused already, and is tried only with --all. A check goes on from what the last
'rt check' of the crate kept, where there is such work.
"""
import concurrent.futures
import fcntl
import functools
import hashlib
import os
import re
import shutil
import subprocess
import sys
import tempfile

import inside

EDITS = "tests/edits"
TRIED = f"{EDITS}/tried.txt"
COUNTS = f"{EDITS}/counts.txt"
PARTS = ("src", "specs", "proofs")
# What judges edits: where its text changes, all are to be tried again.
JUDGE = ("tools/edits.py", "tools/inside.py", "tools/stubs.py")
# What stands behind the sum of an edit that was refused over libraries without code.
OVER_STUBS = "over-stubs"


class Edit:
    def __init__(self, crate, path):
        self.crate, self.name, self.pairs, self.lines, self.functions = crate, os.path.basename(path), [], [], set()
        file, old = "", ""
        for line in open(path, encoding="utf-8").read().split("\n"):
            word, _, text = line.partition(": ")
            if word == "file":
                file = text.strip()
            elif word == "old":
                old = text
            elif word.rstrip(":") == "new":
                self.pairs.append((file, old, text))
        if not self.pairs:
            sys.exit(f"{self.crate}/{self.name}: it changes nothing")
        for file, old, new in self.pairs:
            if spoken(old) == spoken(new):
                sys.exit(f"{self.crate}/{self.name}: its old and its new text say the same")
            self.place(file, old)

    def place(self, file, old):
        """Finds the function around the text, and its first and last line."""
        whole = open(f"crates/{self.crate}/{file}", encoding="utf-8").read()
        if not file.startswith("src/") or whole.count(old) != 1:
            sys.exit(f"{self.crate}/{self.name}: an old text is in {file} {whole.count(old)} times, and not once")
        rows, at = whole.split("\n"), whole[: whole.index(old)].count("\n")
        first = next((i for i in range(at, -1, -1) if re.match(r"\s*(pub(\(\w+\))? )?(const )?fn \w+", rows[i])), None)
        if first is None:
            return
        margin = re.match(r"\s*", rows[first])[0]
        last = next((i for i in range(first, len(rows)) if rows[i] == margin + "}"), len(rows) - 1)
        if first <= at <= last:
            self.functions.add((file, re.search(r"fn (\w+)", rows[first])[1], first))
            self.lines.append((file, first + 1, last + 1))

    def names(self):
        return {name for _, name, _ in self.functions}

    def is_refused(self, said, beside):
        """Returns whether some goal of its function was not proved, or an answer to one refused for more than a name that is gone."""
        if any(file == its and first <= int(line) <= last for its, line in goals(said) for file, first, last in self.lines):
            return True
        parts = [(file[len("src/") : -len(".rt")], name) for file, name, _ in self.functions]
        if any(re.fullmatch(rf"{re.escape(module)}/(\w+/)?{name}", its) for its in answers(said) for module, name in parts):
            return True
        own = self.names().difference(*(it.names() for it in beside if it is not self))
        return any(its.rsplit("/", 1)[-1] in own for its in answers(said))


def spoken(text):
    """Returns a text of code without its comment and its spaces."""
    return re.sub(r"//.*|\s", "", text)


def goals(said):
    """Returns where the goals are that were not proved: the file and the line of each."""
    return re.findall(r"(?m)^note: (src/\S+?):(\d+):\d+: it is not proved", said)


def answers(said):
    """Returns the functions of which an answer was refused for more than a name that is gone."""
    found = re.findall(r"(?m)^(?:\./)?proofs/(\S+)/(?:Answers|Invariants)\.antt:\d+:\d+: error: (.*)", said)
    return [its for its, why in found if not re.search(r"has no field|is not in scope|has no `|was not admitted", why)]


def text_of(path):
    with open(path, "rb") as it:
        return it.read()


def crates_with_edits():
    return sorted(it for it in os.listdir(EDITS) if os.path.isdir(f"{EDITS}/{it}"))


def edits_of(crate):
    return [Edit(crate, path) for path in files_below(f"{EDITS}/{crate}")]


def files_below(folder):
    return sorted(f"{at}/{name}" for at, _, files in os.walk(folder) for name in files)


def libraries():
    """Returns the repository's libraries below each crate."""
    given = {}
    for line in open("crates.txt", encoding="utf-8"):
        name, _, deps = line.partition("#")[0].partition(":")
        if name.strip():
            given[name.split()[0]] = [it for it in deps.split() if it in given]
    for name, deps in given.items():
        given[name] = list(dict.fromkeys(it for dep in deps for it in [*given[dep], dep]))
    return given


def logic():
    """Returns the name of the program logic, which 'rt version' gives behind that of the kit."""
    said = subprocess.run(["rt", "version"], stdout=subprocess.PIPE, check=True, text=True).stdout
    found = re.search(r"\blogic (\w+)", said)
    return found[1] if found else sys.exit(f"rt version names no program logic: {said.strip()}")


def end_of_head(rows, at, margin):
    """Returns where the head of a function ends: at the brace that opens its body, or at its end where it has none."""
    while not rows[at].endswith((";", "{}")) and rows[at] != margin + "{" and not (rows[at].endswith(" {") and re.match(margin + r"\S", rows[at])):
        at += 1
    return at


# Of a method that a trait has.
TRAIT = "trait"
SOURCES = {}
# A field, in a row that doesn't begin with `pub`.
FIELD = re.compile(r"\s+\w+: \S.*,$")
BLOCK = re.compile(r"(?:pub(?:\(\w+\))? )?(struct|enum|trait) (\w+)|(impl)\b(?:<.*?>)? (?:(\w+).* for )?(\w+)")


def is_hidden(block, row):
    """Whether a row of a type or of what is implemented for it is seen in its own module alone: a private field, or how a model reads fields."""
    return bool(block[0] == "struct" and FIELD.match(row) or block[3] == "Model" and not re.match(r"\s+ghost Value", row))


def pieces(crate, of_others):
    """Returns the heads of a crate's functions with their contracts, each with the type of which it is a method, or `TRAIT`, or nothing; and the
    rows of the definitions of its types and traits and of what is implemented for them, each with the file where alone it is seen, if there is one:
    lists by name, each with the file where it stands. Of another crate only functions that can be called count, and rows that are seen."""
    functions, types = {}, {}
    for path in files_below(f"crates/{crate}/src"):
        rows, at, block = [it for it in text_of(path).decode().split("\n") if not re.match(r"\s*//", it)], 0, None
        while at < len(rows):
            row, first = rows[at], at
            function = re.match(r"(\s*)(?:pub(?:\(\w+\))? )?(?:const )?fn (\w+)", row)
            begun = BLOCK.match(row)
            block = begun.groups() if begun else None if row == "}" else block
            if function:
                at = end_of_head(rows, at, function[1])
                head = [re.sub(r"^(\s*)pub(\(\w+\))? ", r"\1", row), *rows[first + 1 : at + 1]]
                owner = function[1] and block and (block[4] or TRAIT)
                if not of_others or re.match(r"\s*pub (const )?fn ", row) or rows[at].endswith(";") or block and block[3]:
                    functions.setdefault(function[2], []).append((owner, path, "\n".join(head)))
                at = at if rows[at].endswith((";", "{}")) else rows.index(function[1] + "}", at)
            elif block and (block[0] or block[3]) and not (of_others and is_hidden(block, row)):
                only = path if is_hidden(block, row) else None
                types.setdefault(block[1] or block[4], []).append((only, path, re.sub(r"^(\s*)pub(\(\w+\))? ", r"\1", row)))
            at += 1
    return functions, types


def reached(file, text, whole, owners, functions, types):
    """Returns the heads of the functions that a part of a file's text may call, and the rows of the types that it may meet, each with its file. A
    function is one of the file, or one that it brings or names by its module; a method is one of a type that the part names, or that such a head or
    row names, since no value of another type can be at hand, or of a trait."""
    called = set(re.findall(r"\b(\w+)(?:::<[^>]*>)?\(", whole))
    is_brought = lambda name: f"::{name}" in whole or re.search(rf"\buse [^;]*\b{name}\b", text)
    is_seen = lambda only: not only or file == only or file.startswith(only[: -len(".rt")] + "/")
    words, before = {*re.findall(r"\b[A-Z]\w*", whole), *owners}, None
    while words != before:
        before, found = words, set()
        for name in called:
            for owner, path, head in functions.get(name, []):
                if owner in words or owner == TRAIT or not owner and (path == file or is_brought(name)):
                    found.add((head, path))
        found |= {(row, path) for word in words for only, path, row in types.get(word, []) if is_seen(only)}
        words = words.union(*(re.findall(r"\b[A-Z]\w*", it) for it, _ in found))
    return sorted(found)


def lemmas(crate, text):
    """Returns the files of lemmas of this crate that a text names."""
    found = set()
    for path in re.findall(rf"Rattle\.{crate}\.proofs\.([\w.]+)", text):
        parts = path.rstrip(".").split(".")
        names = [f"crates/{crate}/proofs/{'/'.join(parts[:end])}.antt" for end in range(len(parts), 0, -1)]
        found.update([it for it in names if os.path.isfile(it)][:1])
    return found


def owner_of(rows, at):
    """Returns the head of the block around a method, as `BLOCK` parts it; nothing of a function that is none."""
    return next((BLOCK.match(rows[i]) for i in range(at, -1, -1) if BLOCK.match(rows[i])), None) if re.match(r"\s", rows[at]) else None


def source(path):
    """Returns a file's text without comments."""
    if path not in SOURCES:
        SOURCES[path] = re.sub(r"--[^\n]*|(?m:^\s*//.*\n)", "", text_of(path).decode())
    return SOURCES[path]


def named(text, path):
    """Returns the definitions that a text in a file names, of those that the file brings."""
    tokens = {it for token in re.findall(r"[^\s(){}\[\],;]+", text) for it in (token, token.split(".")[0])}
    found = set()
    for crate, module, names in inside.IMPORT.findall(source(path)):
        for name in names.split(","):
            name, _, alias = name.strip().partition(" as ")
            word, key = alias.strip() or name, (crate, module, name)
            if word in tokens or "◌" in word and any(it in text for it in word.split("◌") if it):
                found.add(key if key in definitions().texts else definitions().owners.get(key))
    return found - {None}


@functools.cache
def definitions():
    return inside.Definitions()


def own_texts(edit, functions, types):
    """Returns the texts on which the refusal of an edit hangs, and the definitions that they name."""
    texts, found = [text_of(f"{EDITS}/{edit.crate}/{edit.name}").decode()], set()
    for file in sorted({file for file, _, _ in edit.pairs}):
        path = f"crates/{edit.crate}/{file}"
        rows = text_of(path).decode().split("\n")
        spans = [it[1:] for it in edit.lines if it[0] == file]
        parts = [rows[first - 1 : last] for first, last in spans] or [rows]
        whole = "\n".join(it for part in parts for it in part if not re.match(r"\s*//", it))
        owners = [begun[5] for first, _ in spans for begun in [owner_of(rows, first - 1)] if begun]
        texts.append(whole)
        found |= named(whole, path)
        for text, its in reached(path, source(path), whole + str(edit.pairs), owners, functions, types):
            texts.append(text)
            found |= named(text, its)
    left = {path for path in files_below(f"crates/{edit.crate}/proofs") if os.path.basename(os.path.dirname(path)) in edit.names()}
    seen = set()
    while left - seen:
        path = min(left - seen)
        seen.add(path)
        left |= lemmas(edit.crate, source(path))
        found |= named(source(path), path)
    # where words are brought from says nothing: their definitions are among the texts
    texts += [re.sub(r"(?m)^(pub )?use .*\n", "", source(path)) for path in sorted(seen)]
    return texts, definitions().closure(found)


def sums_of(crate, below):
    """Returns for each edit of a crate a sum of all that its refusal hangs on. A body is refused for a goal that its contract and those of the
    functions which it calls make false, whatever their bodies and proofs are. So there count the judge, its function with its proof, the heads of the
    functions that it may call, in this crate and those below, the types that it may meet, as far as they are seen there, and the definitions,
    wherever they stand, and own lemmas that these stand on."""
    functions, types = {}, {}
    for name in [*below[crate], crate]:
        for all_of, own in zip((functions, types), pieces(name, name != crate)):
            for word, heads in own.items():
                all_of.setdefault(word, []).extend(heads)
    judged = "\n\n".join([logic(), *(text_of(it).decode() for it in JUDGE)])
    sums = {}
    for edit in edits_of(crate):
        texts, found = own_texts(edit, functions, types)
        texts += sorted(f"{key[2]}\n{definitions().texts[key]}" for key in found)
        sums[f"{crate}/{edit.name}"] = hashlib.sha256("\n\n".join([judged, *texts]).encode()).hexdigest()[:32]
    return sums


def rounds(edits):
    """Parts the edits into rounds of different functions. An edit of no function has a round of its own."""
    made = []
    for edit in edits:
        free = [it for it in made if edit.functions and all(other.functions and not other.functions & edit.functions for other in it)]
        if free:
            free[0].append(edit)
        else:
            made.append([edit])
    return made


def fresh(room, crate):
    """Copies the sources of a crate anew."""
    for part in PARTS:
        shutil.rmtree(f"{room}/crates/{crate}/{part}", ignore_errors=True)
        if os.path.isdir(f"crates/{crate}/{part}"):
            shutil.copytree(f"crates/{crate}/{part}", f"{room}/crates/{crate}/{part}")


def put_in(room, edits):
    """Copies the sources of a crate anew, and changes them by edits."""
    crate = edits[0].crate
    fresh(room, crate)
    for edit in edits:
        for file, old, new in edit.pairs:
            path = f"{room}/crates/{crate}/{file}"
            text = text_of(path).decode()
            if text.count(old) != 1:
                sys.exit(f"{crate}/{edit.name}: its old text is in {file} {text.count(old)} times beside other edits")
            open(path, "w", encoding="utf-8").write(text.replace(old, new))


def check(room, edits, over_stubs):
    """Checks the crate with these edits, and returns what the prover said of it and whether all of it is proved."""
    crate = edits[0].crate
    put_in(room, edits)
    said, is_proved = judged_over_stubs(room, crate, edits) if over_stubs else judged(room, crate)
    if not re.search(r"(?m)^(logic=(not-)?proved|only=\d)", said):
        names = " ".join(it.name for it in edits)
        sys.exit(f"{crate}: the prover did not judge {names}:\n" + "\n".join(said.split("\n")[-12:]))
    return said, is_proved


def judged(room, crate, flags=()):
    how = {"stdin": subprocess.DEVNULL, "stdout": subprocess.PIPE, "stderr": subprocess.STDOUT, "text": True, "errors": "replace"}
    ran = subprocess.run(["rt", "check", "--jobs", "1", *flags], cwd=f"{room}/crates/{crate}", **how)
    return ran.stdout, ran.returncode == 0


def judged_over_stubs(room, crate, edits):
    """The same of the functions of these edits alone, over libraries without code."""
    import stubs

    wanted = {(file, name) for edit in edits for file, name, _ in edit.functions}
    wanted |= {(file, "") for edit in edits if not edit.functions for file, _, _ in edit.pairs}
    stubs.stub_all_but(crate, f"{room}/crates/{crate}", wanted)
    modules = sorted({file[len("src/") : -len(".rt")].replace("/", "::") for file, _ in wanted})
    said = stubs.ran(crate, f"{room}/crates/{crate}", ["--jobs", stubs.JOBS, *[word for it in modules for word in ("--only", it)]])
    # (the code that was taken away leaves a goal where no hole could be given, as in a method of a trait)
    spans = [span for edit in edits for span in edit.lines] + [(file, 0, 1 << 30) for file, name in wanted if not name]
    is_own = lambda row: any(file == its and first <= int(line) <= last for its, line in goals(row) for file, first, last in spans)
    said = "\n".join(row for row in said.split("\n") if not goals(row) or is_own(row))
    return said, not goals(said) and not answers(said)


def first_error(said):
    """Returns the first error that the prover told, or its first note of what isn't proved."""
    found = re.search(r"(?m)^.*(?:: error|: it is not proved).*", said)
    return found[0].strip()[:200] if found else "nothing told"


def tried(room, part, over_stubs):
    """Tries a round of edits, and returns the names of those that are not refused."""
    said, _ = check(room, part, over_stubs)
    let_through = []
    for edit in part:
        refused, why = edit.is_refused(said, part), ""
        if not refused:
            alone, is_proved = check(room, [edit], over_stubs)
            refused = bool(goals(alone) or answers(alone))
            why = "" if is_proved else f", but for what tells nothing of its contract: {first_error(alone)}"
        print(f"{edit.crate}/{edit.name}: {'refused, as it must be' if refused else f'NOT REFUSED{why}'}", flush=True)
        let_through += [] if refused else [edit.name]
    return let_through


def make_stubs(room, crate):
    import stubs

    stubs.make_libraries(crate)
    stubs.copy_kept(crate, f"{room}/crates/{crate}")


def copied(room, crate, below):
    """Copies the sources of all crates, what was kept of this one, and the libraries below it, which a check only reads."""
    shutil.copyfile("crates.txt", f"{room}/crates.txt")
    for name in below:
        for part in PARTS:
            if os.path.isdir(f"crates/{name}/{part}"):
                shutil.copytree(f"crates/{name}/{part}", f"{room}/crates/{name}/{part}")
        if name in below[crate] and os.path.isdir(f"crates/{name}/out/rlib"):
            shutil.copytree(f"crates/{name}/out/rlib", f"{room}/crates/{name}/out/rlib", copy_function=os.link)
    if os.path.isdir(f"crates/{crate}/out/incremental"):
        shutil.copytree(f"crates/{crate}/out/incremental", f"{room}/crates/{crate}/out/incremental")
    else:
        print(f"{crate}: nothing is kept of a check, or rt ci has it aside: this one begins from nothing", flush=True)


def stop_where_open(crate, edits):
    """Ends where the functions of edits aren't proved without these, over libraries without code."""
    with tempfile.TemporaryDirectory(prefix=".edits-") as room:
        make_stubs(room, crate)
        fresh(room, crate)
        said, is_proved = judged_over_stubs(room, crate, edits)
        if not is_proved:
            sys.exit(f"{crate}: not proved as it stands: {first_error(said)}")


def tried_in_a_copy(crate, below, parts, over_stubs):
    """Tries rounds of edits that no other room takes, in a room of its own."""
    let_through = []
    with tempfile.TemporaryDirectory(prefix=".edits-", dir=None if over_stubs else ".") as room:
        if over_stubs:
            make_stubs(room, crate)
        else:
            copied(room, crate, below)
        for part in parts:
            let_through += tried(room, part, over_stubs)
    return let_through


def tried_in_rooms(crate, below, edits, rooms, over_stubs):
    """Tries edits of a crate, some rounds at a time, and returns the names of those that are not refused."""
    parts = rounds(edits)
    taken = iter(parts)
    if over_stubs:
        stop_where_open(crate, edits)
    with concurrent.futures.ThreadPoolExecutor(rooms) as pool:
        tries = [pool.submit(tried_in_a_copy, crate, below, taken, over_stubs) for _ in range(min(rooms, len(parts)))]
        return [name for it in tries for name in it.result()]


def known(over_stubs=False):
    """Returns the sums that are written down; those judged over libraries without code only where that counts."""
    rows = [it.split() for it in open(TRIED, encoding="utf-8")] if os.path.isfile(TRIED) else []
    return {row[0]: row[1] for row in rows if over_stubs or row[2:] != [OVER_STUBS]}


def write_down(crate, sums, over_stubs):
    """Writes down of which texts a crate's edits were refused. Other crates may be tried at the same time."""
    mark = f" {OVER_STUBS}" if over_stubs else ""
    with open(TRIED, "a+", encoding="utf-8") as file:
        fcntl.flock(file, fcntl.LOCK_EX)
        file.seek(0)
        before = dict(it.rstrip("\n").split(" ", 1) for it in file)
        rows = {name: it for name, it in before.items() if not name.startswith(f"{crate}/")}
        # (what was judged over the libraries themselves stays so)
        rows |= {name: made if before.get(name) == made else made + mark for name, made in sums.items()}
        file.truncate(0)
        file.write("".join(f"{name} {it}\n" for name, it in sorted(rows.items())))


def miscounted():
    """Returns the crates whose number of edits isn't that of the list, which is to be changed with the edits."""
    listed = dict(it.split() for it in open(COUNTS, encoding="utf-8"))
    found = {it: str(len(files_below(f"{EDITS}/{it}"))) for it in crates_with_edits()}
    return sorted(it for it in {*listed, *found} if listed.get(it) != found.get(it))


def tell_known(below):
    """Tells which crates' edits were all refused on just this text, and returns the others."""
    failed = miscounted()
    for crate in failed:
        print(f"{crate}: it has not as many edits as {COUNTS} says")
    for crate in crates_with_edits():
        sums, refused = sums_of(crate, below), known()
        left = [it for it in sums if refused.get(it) != sums[it]]
        if left:
            print(f"{crate}: {len(left)} of its {len(sums)} edits are still to be tried, as {left[0]}: rt check in its folder,")
            print(f"  make edits CRATES={crate}, and commit {TRIED}")
            failed.append(crate)
        else:
            print(f"{crate}: its {len(sums)} edits were all refused on just this text")
    return failed


def try_crate(crate, below, rooms, words):
    """Tries the edits of a crate that are still to be tried, or all of them, and returns the names of those that are not refused."""
    over_stubs = "--stubs" in words
    sums, refused = sums_of(crate, below), known(over_stubs)
    left = [it for it in sums if refused.get(it) != sums[it] or "--all" in words]
    if not left:
        print(f"{crate}: its {len(sums)} edits were all refused on just this text")
        return []
    let_through = tried_in_rooms(crate, below, [Edit(crate, f"{EDITS}/{it}") for it in left], rooms, over_stubs)
    write_down(crate, {it: made for it, made in sums.items() if it.split("/")[1] not in let_through}, over_stubs)
    return let_through


def main(words):
    os.chdir(os.path.dirname(os.path.dirname(os.path.realpath(__file__))))
    below = libraries()
    names = [it for it in words if not it.startswith("--")] or crates_with_edits()
    rooms = next((int(it[len("--rooms=") :]) for it in words if it.startswith("--rooms=")), 1)
    if "--known" in words:
        failed = tell_known(below)
    else:
        failed = [it for crate in names for it in try_crate(crate, below, rooms, words)]
    if failed:
        print(f"FAILED: {' '.join(failed)}")
    return 1 if failed else 0


if __name__ == "__main__":
    sys.exit(main(sys.argv[1:]))
