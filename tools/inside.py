#!/usr/bin/env python3
"""Looks which definitions public contracts cite, by themselves or through other definitions. Those that none does stand in specs/Inside.

usage: tools/inside.py          ends with 1 where a public contract cites a definition of specs/Inside, or where no word of a file outside is cited
       tools/inside.py --words  also lists the words that no public contract cites of each file outside

It reads texts alone: what a crate exports by its root (`pub mod`, `pub use`), the clauses of these functions, of the methods of these types and
traits, what models and traits of these types show, and of each definition the words that it names and that its file brings or has.
"""
import collections
import os
import re
import sys

os.chdir(os.path.dirname(os.path.dirname(os.path.abspath(__file__))))
CRATES = [line.split(":")[0].strip() for line in open("crates.txt", encoding="utf-8") if ":" in line and not line.startswith("#")]
# Programs export nothing: their public functions are their contracts.
PROGRAMS = [it for it in CRATES if not os.path.isfile(f"crates/{it}/src/lib.rt")]
# The toolchain reads links of generic types here; worked cases for tests alone.
KEPT = ("formers.", "Recorders")
IMPORT = re.compile(r"(?m)^\s*(?:ghost |pub |unfoldable )*use\s+Rattle\.(\w+)\.specs\.([^\s{};]+?)\.\{([^}]*)\}")
DEFINED = re.compile(
    r"(?:  )?(?:(?:pub|abbrev|unfoldable|opaque)\s+)+(?:(record|data)\s+)?([^\s:(){},]+)\s*(?=[:({]|$)"
    r"|(?!\s)([^\s:(){},=]+)\s*:(?=\s)"
)
FUNCTION = re.compile(r"(?m)^( *)(pub(?:\([a-z]+\))? )?(?:const )?fn (\w+)")
ITEM = re.compile(r"(?m)^(?=(?:pub |pub\(crate\) |impl|fn |trait |const |struct |enum |#\[|mod |use |ghost use ))")


def read(path):
    with open(path, encoding="utf-8") as it:
        return it.read()


def files_below(folder, ending):
    return sorted(f"{at}/{name}" for at, _, names in os.walk(folder) for name in names if name.endswith(ending))


def imports(text):
    """The definitions that a text brings, by the names under which it does."""
    found = {}
    for crate, module, names in IMPORT.findall(text):
        for name in names.split(","):
            name, _, alias = name.strip().partition(" as ")
            if name and crate in CRATES:
                found[alias.strip() or name] = (crate, module, name)
    return found


class Definitions:
    def __init__(self):
        self.texts, self.owners, self.own, self.brought = {}, {}, collections.defaultdict(dict), {}
        for crate in CRATES:
            base = f"crates/{crate}/specs"
            for path in files_below(base, ".antt"):
                self.read((crate, path[len(base) + 1 : -len(".antt")].replace("/", ".")), re.sub(r"--[^\n]*", "", read(path)))
        self.cites = {key: self.words(text, self.brought[key[:2]], self.own[key[:2]]) for key, text in self.texts.items()}

    def read(self, module, text):
        self.brought[module], key, is_record = imports(text), None, False
        for row in text.split("\n"):
            found = DEFINED.match(row)
            if re.match(r"\s*(pub |unfoldable )*(use|mod|module)\b", row):
                key = None
            elif found and not (is_record and row.startswith("  pub ")) and not row.startswith("   "):
                key, is_record = (*module, found[2] or found[3]), found[1] == "record"
                self.texts.setdefault(key, "")
                self.own[module][key[2]] = key
            if key:
                self.texts[key] += row + "\n"
        for key, whole in [it for it in self.texts.items() if it[0][:2] == module]:
            if re.match(r"\s*(?:(?:pub|abbrev|unfoldable)\s+)*data\b", whole):
                for name in re.findall(r"(?m)^\s+([^\s:(){},]+)\s*:", whole):
                    self.owners[(*module, name)] = key
                    self.own[module].setdefault(name, key)

    def words(self, text, brought, own):
        """The definitions that a text names."""
        found = {own[it] for token in re.findall(r"[^\s(){}\[\],;]+", text) for it in (token, token.split(".")[0]) if it in own}
        tokens = {it for token in re.findall(r"[^\s(){}\[\],;]+", text) for it in (token, token.split(".")[0])}
        for name, what in brought.items():
            if name in tokens or "◌" in name and any(it in text for it in name.split("◌") if it):
                found.add(what if what in self.texts else self.owners.get(what))
        return found - {None}

    def closure(self, begun):
        found, left = set(begun), [*begun]
        while left:
            more = self.cites.get(left.pop(), set()) - found
            found |= more
            left += more
        return found


def exported(crate):
    """The names that a crate exports, or nothing of a program, all of whose public functions count."""
    names, left = set(), [] if crate in PROGRAMS else [f"crates/{crate}/src/lib.rt"]
    while left:
        path = left.pop()
        text = read(path)
        folder = os.path.dirname(path) if path.endswith("/lib.rt") else path[: -len(".rt")]
        names.update(re.findall(r"(?m)^pub (?:struct|enum|trait|fn|const|type) (\w+)", text))
        for uses in re.findall(r"(?m)^pub use ([^;]+);", text):
            inner = re.search(r"\{([^}]*)\}", uses, re.S)
            parts = inner[1].split(",") if inner else [uses.split("::")[-1]]
            names.update(it.split(" as ")[0].strip() for it in parts if it.strip())
        left += [it for it in (f"{folder}/{name}.rt" for name in re.findall(r"(?m)^pub mod (\w+);", text)) if os.path.isfile(it)]
    return names


def clauses(text):
    """The functions of an item: the name of each, whether it is public, and its clauses."""
    found = [*FUNCTION.finditer(text)]
    for at, head in enumerate(found):
        whole = text[head.start() : found[at + 1].start() if at + 1 < len(found) else len(text)]
        rows = whole.split("\n")
        end = next((i for i, row in enumerate(rows) if i and row == head[1] + "{"), len(rows))
        first = re.search(r"\b(requires|ensures)\b", "\n".join(rows[:end]))
        if first:
            yield head[3], (head[2] or "").strip() == "pub", "\n".join(rows[:end])[first.start() :]


def cited_in(crate, definitions):
    """The definitions that a crate's public contracts name."""
    names, found = exported(crate), set()
    is_of = lambda name: name in names or crate in PROGRAMS
    for path in files_below(f"crates/{crate}/src", ".rt"):
        text = re.sub(r"(?m)//[^\n]*", "", read(path))
        brought = imports(text)
        for item in ITEM.split(text):
            head, known = item.split("\n", 1)[0], {**brought, **imports(item)}
            impl = re.match(r"impl(?:<[^>]*>)?\s+(?:(\w[\w:]*(?:<.*>)?)\s+for\s+)?&?(?:'\w+ )?(\w+)", head)
            if re.match(r"(pub(\(crate\))? )?trait ", head):
                cites = [item] if is_of(re.search(r"trait (\w+)", head)[1]) else []
            elif impl:
                members = re.findall(r"(?ms)^    ghost (?!use)(\w+)[^=]*=\s*\{(.*?)\};\s*$", item)
                shown = [body for name, body in members if name not in ("invariant", "laws", "coded")]
                cites = [*shown, *(text for _, is_public, text in clauses(item) if impl[1] or is_public)] if is_of(impl[2]) else []
            else:
                cites = [text for name, is_public, text in clauses(item) if is_public and is_of(name)]
            for text_cited in cites:
                found |= definitions.words(text_cited, known, {})
    return found


def main():
    definitions = Definitions()
    public = definitions.closure(set().union(*(cited_in(it, definitions) for it in CRATES)))
    files, wrong = collections.defaultdict(list), 0
    for key in definitions.texts:
        files[key[:2]].append(key)
    for (crate, module), keys in sorted(files.items()):
        cited = [it[2] for it in keys if it in public]
        if module.startswith("Inside.") and cited:
            print(f"{crate}: {module} has words that a public contract cites: {' '.join(cited)}")
            wrong += 1
        elif not module.startswith(("Inside.", *KEPT)) and not cited:
            print(f"{crate}: no public contract cites a word of {module}")
            wrong += 1
        elif "--words" in sys.argv[1:] and len(cited) < len(keys) and not module.startswith(("Inside.", *KEPT)):
            print(f"{crate}: of {module} no public contract cites {' '.join(it[2] for it in keys if it not in public)}")
    print(f"{len(public)} of {len(definitions.texts)} definitions are cited by public contracts")
    sys.exit(1 if wrong else 0)


if __name__ == "__main__":
    main()
