#!/usr/bin/env python3
"""Checks a crate, or tries wrong bodies of its functions, over libraries without code: in minutes, where the libraries take hours to be proved.

usage: tools/stubs.py check CRATE [FLAG ..]       checks the crate with its proofs, with rattle's flags, as --only PATH
       tools/stubs.py plant CRATE WORD ..         tries the wrong bodies of 'rt plant' in the functions whose file, line and path contain a word

The functions of the libraries below the crate, and for 'plant' its own too, have no code and a hole for a proof, so that what calls them is proved
from their contracts alone. A line 'fn F: no holes' or 'fn F: depends on a hole in ..' says that F is proved, given those contracts. It is no verdict:
that is the gate's. 'plant' prints a row for each body that its function's clauses let through, and counts the others.
Work is kept in STUBS, a folder of the temporary ones if it isn't set. JOBS is how many jobs a check has, MINUTES how long 'plant' goes on.
"""
import collections
import importlib.machinery
import os
import re
import shutil
import subprocess
import sys
import tempfile
import time
import types

KIT = os.path.dirname(os.path.dirname(os.path.realpath(shutil.which("rt") or sys.exit("rt is not on the PATH"))))
TOP = os.path.dirname(os.path.dirname(os.path.abspath(__file__)))
ROOM = os.environ.get("STUBS", f"{tempfile.gettempdir()}/stubs-{os.path.basename(TOP)}")
JOBS = os.environ.get("JOBS", "2")
NO_CODE = b"{ unreachable!() %s}"
ANSWERS = ("Answers.antt", "Invariants.antt", "Proof.antt")
# A check begins by reading all sources, which takes minutes: so it has many plants at once, and much time.
BATCH, SECONDS = 160, 3600


def load(name):
    """A module of the toolchain's command, which is no file of the library path."""
    sys.path.insert(0, f"{KIT}/bin")
    module = types.ModuleType(name)
    module.__file__ = f"{KIT}/bin/{name}"
    importlib.machinery.SourceFileLoader(name, module.__file__).exec_module(module)
    return module


sys.dont_write_bytecode = True
plants = load("rt-plant")
bodies = plants.bodies
plants.BATCH, plants.SECONDS = BATCH, SECONDS


def dependencies():
    """The libraries that each crate names in crates.txt."""
    found = {}
    for line in open(f"{TOP}/crates.txt", encoding="utf-8"):
        name, _, deps = line.partition("#")[0].partition(":")
        if name.strip():
            found[name.split()[0]] = deps.split()
    return found


DEPS = dependencies()


def below(crate):
    """The repository's libraries below a crate, lowest first."""
    found = []
    for dep in DEPS[crate]:
        if dep in DEPS:
            found += [it for it in [*below(dep), dep] if it not in found]
    return found


def of_kit(crate):
    return ["std", *[it for it in DEPS[crate] if it not in DEPS]]


def root_of(crate):
    return "src/main.rt" if os.path.isfile(f"{TOP}/crates/{crate}/src/main.rt") else "src/lib.rt"


def words(crate, flags):
    """The words of a check of a crate with its libraries as source."""
    more = {"core", *[it for dep in below(crate) for it in of_kit(dep)]} - {*of_kit(crate)}
    found = ["--crate-name", crate, root_of(crate), "-L", f"dependency={KIT}/rlibs"]
    for name in [*of_kit(crate), *sorted(more)]:
        found += ["--extern", f"{name}={KIT}/rlibs/{name}.rlib"]
    for dep in below(crate):
        uses = dict.fromkeys(["core", *of_kit(dep), *[it for it in DEPS[dep] if it in DEPS]])
        found += ["--lib", f"{dep}:{','.join(uses)}={ROOM}/crates/{dep}/src/lib.rt"]
    found += ["--antt-project", f"{KIT}/rattle/logic/antt-project.json", "--logic-built", f"{KIT}/logic_built", "--links", f"{crate}="]
    return [*found, "--allow-holes", "--progress", "--incremental", "out/kept", *flags]


def is_const(source, f):
    return b"const fn" in source.data[f.file][f.first : f.named[0]]


def without_code(source, f):
    """The changes that take a function's code away, and leave each other line where it is: a const one keeps it."""
    if not f.has_body or is_const(source, f):
        return []
    data = source.data[f.file]
    cycles = re.finditer(rb"#\[cycle\([^)]*\)\]", data[f.first : f.start])
    code = NO_CODE % (b"\n" * data[f.opens : f.end].count(b"\n"))
    return [(f.opens, f.end, code, None), *[(f.first + it.start(), f.first + it.end(), b"", None) for it in cycles]]


def changed(source, file, changes):
    """The text of a file with changes, and for each line of a plant the plant."""
    data, text, at, lines = source.data[file], b"", 0, {}
    for first, end, new, plant in sorted(changes, key=lambda it: it[:2]):
        text += data[at:first]
        above = text.count(b"\n") + 2
        text, at = text + new, end
        lines.update({(file, line): plant for line in range(above, text.count(b"\n") + 2) if plant})
    return text + data[at:], lines


def hole(crate, folder, path):
    shutil.rmtree(f"{folder}/proofs/{'/'.join(path)}", ignore_errors=True)
    os.makedirs(f"{folder}/proofs/{'/'.join(path)}")
    with open(f"{folder}/proofs/{'/'.join(path)}/Proof.antt", "w", encoding="utf-8") as it:
        it.write(f"use Rattle.{crate}.proofs.{'.'.join(path)}.Statement.{{statement}}\n\n")
        it.write(f"pub {path[-1]}_spec : {{M : Type 1}} → statement M\n{path[-1]}_spec = ?\n")


def copied(crate, folder):
    for part in ("src", "specs", "proofs"):
        shutil.rmtree(f"{folder}/{part}", ignore_errors=True)
        if os.path.isdir(f"{TOP}/crates/{crate}/{part}"):
            shutil.copytree(f"{TOP}/crates/{crate}/{part}", f"{folder}/{part}")
    os.makedirs(f"{folder}/out/kept", exist_ok=True)


def copy_kept(crate, folder):
    """What checks of a crate kept."""
    kept = f"{ROOM}/crates/{crate}/out/kept"
    if os.path.isdir(kept):
        shutil.copytree(kept, f"{folder}/out/kept")
    os.makedirs(f"{folder}/out/kept", exist_ok=True)


def is_of(path, f, where):
    """Whether a folder of proofs is that of a function. Of a trait's method it is named after the type and the trait."""
    if path[-1] != f.name:
        return False
    if not f.block:
        return path[:-1] == [*f.module]
    owner = bodies.named(f.block.ty)[0]
    return path[:-2] == [*where.get(owner, f.module)] and path[-2].startswith(owner)


def stub(crate, source, folder, kept=()):
    """Takes from the functions of a copied crate, but those that are kept, their code, and gives them a hole for a proof."""
    where = {name: found[0][0] for name, found in source.declared.items()}
    has_cycle = any(f.in_cycle for f in kept)
    for at, _, files in os.walk(f"{folder}/proofs"):
        path = os.path.relpath(at, f"{folder}/proofs").split("/")
        for name in files:
            if name in ANSWERS and not any(is_of(path, f, where) for f in kept) and not (has_cycle and path[-1].startswith("+")):
                os.remove(f"{at}/{name}")
    lost = [f for f in source.functions if f not in kept]
    for file in source.data:
        text, _ = changed(source, file, [it for f in lost if f.file == file for it in without_code(source, f)])
        with open(f"{folder}/{file}", "wb") as it:
            it.write(text)
    for f in lost:
        if f.has_body and not f.in_trait and not is_const(source, f) and f.name != "main":
            owner = bodies.named(f.block.ty)[0] if f.block else None
            hole(crate, folder, [*where.get(owner, f.module), owner, f.name] if owner else [*f.module, f.name])


def stub_all_but(crate, folder, wanted):
    """Takes the code of all functions of a copied crate but the wanted ones, each a file and a name, and those of their cycles."""
    source = read(crate, folder)
    kept = [f for f in source.functions if (f.file, f.name) in wanted or (f.file, "") in wanted]
    cycles = {f.file for f in kept if f.in_cycle}
    stub(crate, source, folder, [*kept, *[f for f in source.functions if f.in_cycle and f.file in cycles and f not in kept]])


def ran(crate, folder, flags, seconds=None):
    """What a check says, without the holes of functions that rattle doesn't know by that path, and with one for each method of a trait."""
    how = {"cwd": folder, "stdin": subprocess.DEVNULL, "stdout": subprocess.PIPE, "stderr": subprocess.STDOUT}
    how |= {"encoding": "utf-8", "errors": "replace"}
    try:
        said = subprocess.run([f"{KIT}/bin/rattle", "check", *words(crate, flags)], timeout=seconds, **how).stdout
    except subprocess.TimeoutExpired:
        return None
    for lost in re.findall(r"(?m)^(\S+)/Proof\.antt: error: .* has no function", said):
        shutil.rmtree(lost if lost.startswith("/") else f"{folder}/{lost}", ignore_errors=True)
    for name, path in re.findall(r"(?m)^fn (\w+)::(\S+): no proof: expected answers", said):
        if name != crate:
            hole(name, f"{ROOM}/crates/{name}", path.split("::"))
    return said


def read(crate, folder=None):
    source = bodies.Source(folder or f"{TOP}/crates/{crate}")
    source.read(root_of(crate))
    return source


def make_libraries(crate):
    for dep in below(crate):
        if not os.path.isdir(f"{ROOM}/crates/{dep}/src"):
            copied(dep, f"{ROOM}/crates/{dep}")
            stub(dep, read(dep), f"{ROOM}/crates/{dep}")


def check(crate, flags):
    make_libraries(crate)
    copied(crate, f"{ROOM}/crates/{crate}")
    said = ran(crate, f"{ROOM}/crates/{crate}", ["--jobs", JOBS, *flags])
    print(re.sub(r"(?m)^(statements|checked|so far:) .*\n", "", said), end="")


class Copy(plants.Copy):
    """A copy of a crate without code, in which plants are written and checked."""

    def __init__(self, crate, source, folder):
        self.crate, self.source, self.folder, self.lines = types.SimpleNamespace(name=crate), source, folder, {}
        self.end = time.monotonic() + 60 * int(os.environ.get("MINUTES", "60"))

    def write(self, planted):
        self.lines = {}
        for file, data in self.source.data.items():
            changes = [it for f in self.source.functions if f.file == file for it in without_code(self.source, f)]
            for it in planted:
                f = it.f
                if f.file == file:
                    head = data[f.start : f.named[0]] + it.name.encode() + data[f.named[1] : f.opens]
                    text = self.attribute(f).encode() + b"unsafe " * f.is_unsafe + head + f"{{ {it.body} }}".encode()
                    changes.append((f.end, f.end, b"\n" + text, it))
            text, lines = changed(self.source, file, changes)
            self.lines.update(lines)
            with open(f"{self.folder}/{file}", "wb") as it:
                it.write(text)

    def check(self, names):
        only = [word for name in names for word in ("--only", name)]
        said = ran(self.crate.name, self.folder, ["--jobs", JOBS, *only], max(min(SECONDS, self.end - time.monotonic()), 0))
        return said and re.sub(r"(?m)^(fn \S+: )(no holes|depends on a hole.*)$", r"\1proved", said)


def plant(crate, wanted):
    make_libraries(crate)
    source, folder = read(crate), f"{ROOM}/plants/{crate}-{os.getpid()}"
    source.read_specs()
    for dep in below(crate):
        source.add_library(dep, f"{TOP}/crates/{dep}")
    for name in dict.fromkeys(["core", *[it for at in [crate, *below(crate)] for it in of_kit(at)]]):
        if os.path.isfile(f"{KIT}/rlibs/{name}.rlib/lang/src/lib.rt"):
            source.add_library(name, f"{KIT}/rlibs/{name}.rlib/lang")
    while any(plants.Plant.stem.encode() in it for it in source.data.values()):
        plants.Plant.stem += "_"
    copied(crate, folder)
    stub(crate, source, folder)
    chosen = [f for f in source.functions if f.has_body and f.has_ensures and not f.in_trait and any(it in f.shown for it in wanted)]
    found = plants.plant(types.SimpleNamespace(name=crate), Copy(crate, source, folder), chosen, chosen, 4000)
    shutil.rmtree(folder, ignore_errors=True)
    tell(crate, chosen, found)


def tell(crate, chosen, found):
    for it in sorted(found, key=lambda it: it.f.shown):
        if it.kind in ("proves", "same", "not-judged", "elsewhere"):
            print(f"{it.kind:<10}  {it.f.shown}: {{ {it.body} }}  ({it.why})")
    judged = {it.f for it in found if it.kind in ("proves", "same", "refused", "elsewhere") and it.form in plants.GIVES_UP}
    for f in chosen:
        if f not in judged:
            print(f"untested    {f.shown}")
    count = collections.Counter(it.kind for it in found)
    kinds = " ".join(f"{it}={count[it]}" for it in plants.KINDS)
    print(f"plants crate={crate} planted-in={len(chosen)} untested={len(chosen) - len(judged)} {kinds}")


def main():
    if len(sys.argv) < 3 or sys.argv[1] not in ("check", "plant") or sys.argv[2] not in DEPS:
        sys.exit(__doc__)
    (check if sys.argv[1] == "check" else plant)(sys.argv[2], sys.argv[3:])


if __name__ == "__main__":
    main()
