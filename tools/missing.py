"""Queries that `check --missing` says no rule matches, made of what it prints and of the types that the texts declare.

`told` reads the output of `check --missing --partial --terms`, `queries_of` makes a query of a told call without lines about calls, and `queries_at`
some of any term. Texts that aren't accepted aren't read.
"""

import itertools
import re

WORD = re.compile(r"\(;|;[^\n]*|[()@]|[^\s()@;]+")
RANGES = {f"{sign}{bits}": (-(1 << bits - 1), (1 << bits - 1) - 1) if sign == "i" else (0, (1 << bits) - 1)
          for sign in "iu" for bits in (8, 16, 32, 64, 128)}
RANGES.update(isize=RANGES["i64"], usize=RANGES["u64"])
LINE = re.compile(r"(\S+) (?:isn't|is none of|is not) (.*)")
MORE = re.compile(r" and \d+ more$")
# How deep values of data are made, how many of a type, and how many choices of names are tried.
DEPTH, VALUES, CHOICES = 3, 8, 400


def trees(text):
    """The lists of a text, or none where it has comments between parentheses."""
    stack = [[]]
    for word in WORD.findall(text):
        if word == "(;":
            return None
        if word == "(":
            stack.append([])
        elif word == ")":
            stack[-2].append(stack.pop())
        elif not word.startswith(";"):
            stack[-1].append(word)
    return stack[0]


def type_of(field):
    """The type of a field, with a name or without."""
    return field if isinstance(field, str) else field[1]


class Texts:
    """What accepted texts declare: types, terms and constants."""

    def __init__(self, texts):
        self.types, self.terms, self.constants, self.literals = {}, {}, {}, {"0"}
        self.read = True
        for text in texts:
            found = trees(text)
            self.read &= found is not None
            self.literals.update(WORD.findall(text))
            for definition in found or []:
                self.declare(definition)

    def declare(self, definition):
        """Reads a definition."""
        if definition[0] == "type":
            body = definition[-1]
            variants = [[definition[1], *body[1:]]] if body[0] == "struct" else [
                [f"{definition[1]}.{part[0]}", *part[1:]] if isinstance(part, list) else [f"{definition[1]}.{part}"] for part in body[1:]]
            self.types[definition[1]] = None if body[0] == "primitive" else {name: [type_of(field) for field in fields] for name, *fields in variants}
        elif definition[0] == "decl":
            self.terms[definition[-3]] = (definition[-2], "partial" in definition[1:-3])
        elif definition[:2] == ["extern", "const"]:
            self.constants.setdefault(definition[3], []).append(definition[2])

    def values(self, ty, depth=DEPTH):
        """Some values of a type, at most so many."""
        if ty in RANGES:
            low, high = RANGES[ty]
            unnamed = [number for number in (77, 101, 43, 99, high - 5, low + 3, 0, 1) if str(number) not in self.literals]
            return [str(number) for number in unnamed if low <= number <= high][:VALUES]
        if ty == "bool":
            return ["false", "true", *self.constants.get(ty, [])]
        if self.types.get(ty) is None:
            return ["v7001", "v7002", "v7003", *self.constants.get(ty, [])]
        if depth == 0:
            return []
        made = []
        for name, fields in self.types[ty].items():
            choices = itertools.product(*(self.values(field, depth - 1) for field in fields))
            made += [f"({' '.join([name, *choice])})" for choice in itertools.islice(choices, VALUES)]
        return made[:4 * VALUES]


def told(output):
    """What is told of terms: those that can be run, the calls that are missing, each with its lines, and those that aren't decided."""
    runnable, missing, undecided = set(), [], set()
    for line in output.split("\n"):
        words = line.split(" ")
        if words[1:2] == ["runnable"]:
            runnable.add(words[0])
        elif " matches no rule" in line:
            missing.append([line.strip()[:-len(" matches no rule")]])
        elif missing and line.startswith("     "):
            missing[-1].append(line.strip().removeprefix("where ").removeprefix("and "))
        elif ": not decided within" in line:
            undecided.add(line.split(":")[0])
    return runnable, missing, undecided


def patterns_at(texts, pattern, ty, names):
    """The value of a pattern for a choice of names: a function of that. The names are listed, each with its type and the value of what it binds."""
    if isinstance(pattern, list) and pattern[1:2] == ["@"]:
        made = patterns_at(texts, pattern[2], ty, names)
        names[pattern[0]] = (ty, made)
        return made
    if isinstance(pattern, list):
        fields = texts.types[ty][pattern[0]]
        parts = [patterns_at(texts, part, field, names) for part, field in zip(bound(pattern[1:]), fields)]
        return lambda choice: f"({' '.join([pattern[0], *(part(choice) for part in parts)])})"
    if pattern in ("true", "false") or pattern[0] == "$" or re.fullmatch(r"-?\d+", pattern):
        return lambda choice: pattern
    key = pattern if pattern != "_" else f"_{len(names)}"
    names.setdefault(key, (ty, None))
    return lambda choice: choice[key]


def bound(parts):
    """A list of patterns, in which a name, `@` and what it binds are one."""
    made = []
    at = 0
    while at < len(parts):
        if parts[at + 1:at + 2] == ["@"]:
            made.append(parts[at:at + 3])
            at += 3
        else:
            made.append(parts[at])
            at += 1
    return made


def agrees(lines, choice):
    """Whether a choice of values is as the lines say."""
    for name, values in lines:
        if choice.get(name) in [choice.get(value, value) for value in values]:
            return False
    return True


def queries_of(texts, call, lines):
    """A query that is as a told call says, or none where none is found; and its term."""
    read = [LINE.fullmatch(line) for line in lines]
    tree = trees(call)[0]
    term, arguments = tree[0], bound(tree[1:])
    if not all(read) or any(line.split(" ")[1] in ("gives", "fails") for line in lines) or any("(" in line for line in lines):
        return term, None
    wanted = [(line[1], MORE.sub("", line[2]).split(", ")) for line in read]
    names = {}
    makers = [patterns_at(texts, pattern, ty, names) for pattern, ty in zip(arguments, texts.terms[term][0])]
    free = [name for name, (_, made) in names.items() if made is None]
    for values in itertools.islice(itertools.product(*(texts.values(names[name][0]) for name in free)), CHOICES):
        choice = dict(zip(free, values))
        choice.update({name: made(choice) for name, (_, made) in names.items() if made is not None})
        if agrees(wanted, choice):
            return term, f"({' '.join([term, *(maker(choice) for maker in makers)])})"
    return term, None


def queries_at(texts, term, count):
    """Some calls of a term."""
    lists = [texts.values(ty) for ty in texts.terms[term][0]]
    return [f"({' '.join([term, *values])})" for values in itertools.islice(itertools.product(*lists), count)]
