"""Times reading, typing and formatting generated rule files, trees of rules, worlds and queries, answering calls, and a
sorted map: MB a second, or seconds, and the most memory it took.

    bench.py ISLE_CALLERS ISLEC
"""

import atexit
import contextlib
import os
import random
import shutil
import subprocess
import sys
import tempfile

RULE = """(rule number_{i} {i} (lower_{i} (Op.Add x (Op.Neg y @ (Op.Imm 0x{i:x})) _))
  (if-let (two z) (small x $LIMIT)) ; a comment
  (let ((sum u64 (add x y)) (big u64 {i}))
    (put (pair sum z) (shift big 3))))
"""

# As deep as lists may nest.
NESTED = "(attr " + "(a " * 999 + "b" + ")" * 999 + ")\n"


def rules(size):
    """A text of at least `size` bytes, and how many rules it has."""
    parts, length, i = [], 0, 0
    while length < size:
        parts.append(RULE.format(i=i))
        length += len(parts[-1])
        i += 1
    return "".join(parts), i


def enums(number, variants):
    """A text of so many enums of so many variants; a field's type is the enum before."""
    parts = []
    for i in range(number):
        fields = f" (a u64) (b E{max(i - 1, 0)})"
        body = " ".join(f"(V{j}{fields})" for j in range(variants))
        parts.append(f"(type E{i} (enum {body}))\n")
    return "".join(parts)


# A rule of a backend's style: an extractor that is put in twice, a clause, a converter and a `let`.
TYPED = """(rule r{i} {i} ({term} (op{o} x (op{p} y z)))
  (if-let c (small z))
  (let ((a Reg x) (b Reg (emit (Opcode.Op{p}) y a))) (emit_imm (Opcode.Op{o}) b c)))
"""

TERMS = """(type Value (primitive Value)) (type Reg (primitive Reg))
(type InstData (enum (Binary (op Opcode) (a Value) (b Value)) (Unary (op Opcode) (a Value))))
(decl inst_data (InstData) Value) (extern extractor inst_data inst_data)
(decl pure partial small (Value) u64) (extern constructor small small)
(decl put (Value) Reg) (extern constructor put put) (convert Value Reg put)
(decl emit (Opcode Reg Reg) Reg) (extern constructor emit emit)
(decl emit_imm (Opcode Reg u64) Reg) (extern constructor emit_imm emit_imm)
"""

OPCODES = 200

ISLEC = os.path.abspath(sys.argv[2])
USAGE = []


def typed_rules(number, terms=("lower",), outer=OPCODES):
    """A text of so many rules of these terms in turn, over 200 opcodes with an extractor each; so many are the outer ones."""
    parts = [TERMS, "(type Opcode (enum " + " ".join(f"Op{i}" for i in range(OPCODES)) + "))\n"]
    parts.extend(f"(decl partial {term} (Value) Reg)\n" for term in terms)
    for i in range(OPCODES):
        parts.append(f"(decl op{i} (Value Value) Value)\n")
        parts.append(f"(extractor (op{i} a b) (inst_data (InstData.Binary (Opcode.Op{i}) a b)))\n")
    for i in range(number):
        place = i // len(terms)
        parts.append(TYPED.format(i=i, term=terms[i % len(terms)], o=place % outer, p=place // outer % OPCODES))
    return "".join(parts)


def backend(number):
    """So many rules, twenty a term, of five outer opcodes."""
    return typed_rules(number, [f"lower{i}" for i in range(number // 20)], 5)


def constants(number):
    """So many rules of one term, each for a constant of its own."""
    return "(decl f (u32) u32)\n" + "".join(f"(rule (f {i}) {i})\n" for i in range(number))


NESTING = "(type N (enum (Z) (S (p N))))\n"


def nested(inner, depth):
    """A pattern under so many fields."""
    return "(N.S " * depth + inner + ")" * depth


def extractor_chain(extractors, depth, arguments):
    """A rule whose arguments are each a use of the last of so many extractors; each puts the one before it under so many fields."""
    parts = [NESTING]
    for i in range(extractors):
        inner = f"(e{i - 1} a)" if i else "a"
        parts.append(f"(decl e{i} (N) N)\n(extractor (e{i} a) {nested(inner, depth)})\n")
    uses = " ".join(f"(e{extractors - 1} x{i})" for i in range(arguments))
    return "".join(parts) + f"(decl f ({'N ' * arguments}) N)\n(rule (f {uses}) x0)\n"


def equal_arguments(arguments, depth):
    """A rule whose arguments are equal, each under so many fields."""
    pattern = f"(and x {nested('_', depth)}) "
    return NESTING + f"(decl f ({'N ' * arguments}) N)\n(rule (f {pattern * arguments}) x)\n"


def equal_fields(fields):
    """A rule of a struct of so many fields, which are equal."""
    return f"(type S (struct{' u8' * fields}))\n(decl f (S) u8)\n(rule (f (S{' x' * fields})) x)\n"


def lets(number):
    """A rule of so many variables, each with the value of the one before it."""
    variables = " ".join(f"(x{i + 1} u8 x{i})" for i in range(number))
    return f"(decl f (u8) u8)\n(rule (f x0) (let ({variables}) x{number}))\n"


def path(structs, fields):
    """A rule of a test for each of so many fields of so many structs, for each of these and for the struct of all."""
    return (
        f"(type S (struct{' u8' * fields}))\n(type R (struct{' S' * structs}))\n"
        f"(decl s () S)\n(extractor (s) (S{' 1' * fields}))\n(decl r () R)\n(extractor (r) (R{' (s)' * structs}))\n"
        "(decl f (R) u8)\n(rule (f (r)) 7)\n"
    )


def keys(number, mixed):
    """So many keys, each on a line, in descending or in mixed order."""
    ordered = list(range(number, 0, -1))
    if mixed:
        random.Random(1).shuffle(ordered)
    return "".join(f"{key}\n" for key in ordered)


def usage():
    """The program that runs another and tells what it took, compiled once."""
    if not USAGE:
        folder = tempfile.mkdtemp()
        atexit.register(shutil.rmtree, folder)
        USAGE.append(os.path.join(folder, "usage"))
        subprocess.run(["cc", "-O1", "-o", USAGE[0], os.path.join(os.path.dirname(os.path.abspath(__file__)), "usage.c")], check=True)
    return USAGE[0]


def timed(words, path):
    """Seconds, the most memory in MB, what was printed, and processor seconds, of a program that reads a file as its standard input."""
    with open(path, "rb") as source, tempfile.TemporaryFile() as told:
        ran = subprocess.run([usage(), str(told.fileno()), *words], stdin=source, stdout=subprocess.PIPE, pass_fds=[told.fileno()], check=False)
        told.seek(0)
        seconds, processor, memory = told.read().split()
    return float(seconds), int(memory) / 1024, ran.stdout.decode() if ran.returncode == 0 else "failed", float(processor)


def measure(title, words, text, check):
    """Prints the best of three runs on a text."""
    with tempfile.NamedTemporaryFile("w", suffix=".isle") as file:
        file.write(text)
        file.flush()
        named = [file.name] if words[0] == ISLEC else []
        source = os.devnull if "run" in words else file.name
        runs = [timed([*words, *named], source) for _ in range(3)]
    seconds, memory, printed, _ = min(runs)
    if not check(printed):
        sys.exit(f"{title}: {printed[:80]}")
    print(f"{title}: {len(text) / 1e6 / seconds:.1f} MB a second, {seconds:.3f} s, {memory:.0f} MB of memory")


FIRST = """(type Op (enum (Add (a u8) (b u8)) (Neg (a u8))))
(decl partial simp (Op) u8)
(rule (simp (Op.Add x 0)) x)
(rule (simp (Op.Neg y)) y)
"""

HOST = "(decl pure partial m (u64) u64) (extern constructor m m)\n"


def best_run(title, program, world, queries, check, options=()):
    """The seconds and the memory of the best of three runs on a program, a world and queries."""
    with files_of(program, world, queries) as paths:
        runs = [timed([ISLEC, "run", *options, "--world", paths[1], paths[0]], paths[2]) for _ in range(3)]
    seconds, memory, printed, _ = min(runs)
    if not check(printed):
        sys.exit(f"{title}: {printed[:80]}")
    return seconds, memory


def measure_run(title, program, world, queries, check):
    """Prints the best of three runs on a program, a world and queries."""
    seconds, memory = best_run(title, program, world, queries, check)
    print(f"{title}: {(len(world) + len(queries)) / 1e6 / seconds:.1f} MB a second, {seconds:.3f} s, {memory:.0f} MB of memory")


# One call below another for each `N.S` of a value.
DOWN = """(type N (enum (Z) (S (p N))))
(decl down (N) u8)
(rule (down (N.Z)) 5)
(rule (down (N.S n)) (down n))
"""


def chain(number):
    """A query of a chain of so many calls."""
    return "(down " + "(N.S " * (number - 1) + "(N.Z)" + ")" * number + "\n"


def instructions(number):
    """A world in which value 2i is an instruction that rule i of so many typed ones is of."""
    parts = ["(constructor small else 7)\n(constructor put else v1)\n(constructor emit else v2)\n(constructor emit_imm else v3)\n"]
    for i in range(number):
        outer, inner = f"(Opcode.Op{i % OPCODES})", f"(Opcode.Op{i // OPCODES % OPCODES})"
        parts.append(f"(extractor inst_data v{2 * i} ((InstData.Binary {outer} v0 v{2 * i + 1})))\n")
        parts.append(f"(extractor inst_data v{2 * i + 1} ((InstData.Binary {inner} v0 v0)))\n")
    return "".join(parts)


def measure_calls(title, program, world, queries, check):
    """Prints the best of three runs on queries whose calls may be 100,000 deep, by trees and by rules."""
    for road, options in (("by trees", []), ("by rules", ["--plain"])):
        seconds, memory = best_run(title, program, world, queries, check, [*options, "--depth", "100000"])
        print(f"{title} {road}: {seconds:.3f} s, {memory:.0f} MB of memory")


def in_rounds(jobs):
    """What some jobs take in nine rounds, in each of which all run once, one after the other: a row of processor seconds for each round, and the
    most memory of each job in bytes. What else the machine does so falls on all jobs alike. A job is words, the file of the standard input, and
    a check."""
    rounds, most = [], [0] * len(jobs)
    for _ in range(9):
        rounds.append([])
        for at, (words, path, check) in enumerate(jobs):
            _, memory, printed, processor = timed(words, path)
            if not check(printed):
                sys.exit(f"{words}: {printed[:80]}")
            rounds[-1].append(processor)
            most[at] = max(most[at], memory * 2**20)
    return rounds, most


def middle(figures):
    ordered = sorted(figures)
    return ordered[len(ordered) // 2]


@contextlib.contextmanager
def files_of(*texts):
    """A file for each text, for a while."""
    with tempfile.TemporaryDirectory() as folder:
        paths = [os.path.join(folder, f"{at}.isle") for at in range(len(texts))]
        for path, text in zip(paths, texts):
            with open(path, "w") as file:
                file.write(text)
        yield paths


def is_number(printed):
    return printed.strip().isdigit()


EXCEEDED = []


def held(figure, most, digits):
    """A figure as it is printed, with a mark where it is more than it may be."""
    if figure > most:
        EXCEEDED.append(figure)
    return f"{figure:.{digits}f}{'' if figure <= most else ' (too much)'}"


def multiples(bench):
    """Prints what checks and trees of generated backends take as multiples of the time to read their texts, and the most that they may take."""
    memory = "Bytes of memory for each of the text"
    print(f"| Rules | Check, as a multiple of reading | At most | Trees, as a part of check | At most | {memory} | At most |")
    print("|---|---|---|---|---|---|---|")
    for number, most in ((500, 3), (1_000, 3), (2_000, 3), (4_000, 3), (8_000, 3.5)):
        text, has_sets = backend(number), lambda it: it == f"{number // 20}\n"
        with files_of(text) as [path]:
            accepted = ([ISLEC, "check", path], path, lambda it: it == "accepted\n")
            rounds, memory = in_rounds([(bench, path, is_number), ([*bench, "sets"], path, has_sets), ([*bench, "trees"], path, has_sets), accepted])
        multiple = middle(check / reading for reading, check, *_ in rounds)
        part = max(middle((trees - check) / check for _, check, trees, _ in rounds), 0)
        print(f"| {number:,} | {held(multiple, most, 1)} | {most} | {held(part, 0.5, 2)} | 0.5 | {held(memory[3] / len(text), 100, 0)} | 100 |")


def worlds_of_rules(bench):
    """Prints how much memory reading rules takes, and at which part of its speed worlds are read."""
    text, world = rules(4_000_000)[0], mixed_world(100_000)
    with files_of(text, HOST, world) as [path, host, entries]:
        rounds, memory = in_rounds([(bench, path, is_number), ([ISLEC, "run", "--world", entries, host], os.devnull, lambda it: it == "")])
    print(f"reading 4 MB takes {held(memory[0] / len(text), 33, 1)} bytes of memory for each of the text (at most 33)")
    part = middle(len(world) / taken / (len(text) / reading) for reading, taken in rounds)
    print(f"a world of 100,000 entries is read at {part:.2f} of the speed of rules (at least 0.5)")
    if part < 0.5:
        EXCEEDED.append(part)


def queries_of_a_backend():
    """Prints what a thousand queries of a backend of 2,000 rules take on blocks."""
    seconds, _ = best_run("queries", typed_rules(2_000), instructions(2_000), backend_queries(), answers_all)
    print(f"a thousand queries of 2,000 rules take {held(seconds / 10, 0.1, 3)} s by trees (at most 0.1), reading the world among it")


def backend_queries():
    """10,000 queries of a term of 2,000 rules."""
    places = random.Random(1).choices(range(2_000), k=10_000)
    return "".join(f"(lower v{2 * place})\n" for place in places)


def answers_all(printed):
    """Whether each of 10,000 queries made its four effects."""
    return printed.count("\n") == 50_000 and printed.count("! (emit_imm ") == 10_000


def mixed_world(number):
    """So many entries, in mixed order."""
    entries = [f"(constructor m ({i}) {i})\n" for i in range(number)]
    random.Random(1).shuffle(entries)
    return "".join(entries)


def truths(number, rules):
    """So many rules, in the order of their priorities, each of which wants three of so many truth values."""
    chance = random.Random(1)
    parts = [f"(decl f ({'bool ' * number}) u8)\n"]
    for i in range(rules):
        wanted = dict.fromkeys(chance.sample(range(number), 3))
        pattern = " ".join(chance.choice(("true", "false")) if place in wanted else "_" for place in range(number))
        parts.append(f"(rule {i} (f {pattern}) 1)\n")
    return "".join(parts)


def missing_calls():
    """Prints what it takes to tell which calls have no rule."""
    whole = lambda it: it.startswith("accepted\n")
    texts = (("2,000 rules of one term", typed_rules(2_000)), ("2,000 rules of 100 terms", backend(2_000)))
    for title, text in texts:
        with files_of(text) as [path]:
            rounds, _ = in_rounds([([ISLEC, "check", path], path, whole), ([ISLEC, "check", "--missing", "--partial", path], path, whole)])
        check, told = middle(row[0] for row in rounds), middle(row[1] for row in rounds)
        part = max(middle((missing - alone) / alone for alone, missing in rounds), 0)
        print(f"{title}: check --missing takes {held(part, 1, 2)} times more than check ({told:.2f} s and {check:.2f} s) (at most 1)")
    ends = lambda it: it == "accepted\nf: not decided within 10000000 steps\n"
    covered = lambda it: it == "accepted\nno call is ever stuck\n"
    for title, text, most, right in (("4,000 constants", constants(4_000), 1, whole), ("600 rules of 100 truth values", truths(100, 600), 5, covered),
                                     ("450 rules of 100 truth values, which it doesn't decide", truths(100, 450), 5, ends)):
        with files_of(text) as [path]:
            seconds, _, printed, _ = min(timed([ISLEC, "check", "--missing", path], path) for _ in range(3))
        if not right(printed):
            sys.exit(f"{title}: {printed[:80]}")
        print(f"{title}: check --missing takes {held(seconds, most, 2)} s (at most {most})")


def measure_trees(title, bench, text, sets):
    """Prints what rule sets of a text take, and what they take with their trees."""
    measure(f"check {title}", [*bench, "sets"], text, lambda it: it == f"{sets}\n")
    measure(f"check {title} and make trees", [*bench, "trees"], text, lambda it: it == f"{sets}\n")


def all_trees(bench):
    """Trees of generated backends, of one term, of one match and of one path."""
    for number in (500, 1_000, 2_000, 4_000, 8_000):
        measure_trees(f"{number:,} rules, 20 a term", bench, backend(number), number // 20)
    for number in (500, 1_000, 2_000, 4_000):
        measure_trees(f"{number:,} rules of a term", bench, typed_rules(number), 1)
    for number in (4_000, 8_000, 16_000):
        measure_trees(f"{number:,} constants", bench, constants(number), 1)
    for depth in (225, 450, 900):
        measure_trees(f"a rule of {64 * depth:,} nested tests", bench, extractor_chain(4, depth, 16), 1)
    # The time grows with the tests that can be made at once at each step of a path, and with the cube of the number of equal sites.
    for structs in (4, 8, 16):
        measure_trees(f"a rule of {structs * 256 + 1:,} tests", bench, path(structs, 255), 1)
    measure_trees("a rule of 60 equal arguments of 30 fields", bench, equal_arguments(60, 30), 1)
    measure_trees("a rule of 255 equal fields", bench, equal_fields(255), 1)


def main():
    bench, islec = [os.path.abspath(sys.argv[1]), "count"], ISLEC
    for megabytes in (2, 4, 8):
        text, number = rules(megabytes * 1_000_000)
        measure(f"read {megabytes} MB", bench, text, lambda it: it == f"{number}\n")
    for number in (500, 1_000, 2_000):
        measure(f"type {number:,} enums of 50 variants", [*bench, "types"], enums(number, 50), lambda it: it == f"{number + 13}\n")
    for number in (5_000, 10_000, 20_000):
        measure(f"compile {number:,} rules", [islec, "check"], typed_rules(number), lambda it: it == "accepted\n")
    for number in (500, 1_000, 2_000, 4_000):
        measure(f"check {number:,} rules", [islec, "check"], typed_rules(number), lambda it: it == "accepted\n")
    for title, text in (("16 arguments of 3,600 fields", extractor_chain(4, 900, 16)),
                        ("60 equal arguments of 990 fields", equal_arguments(60, 990)), ("65,000 variables", lets(65_000))):
        measure(f"check a rule of {title}", [islec, "check"], text, lambda it: it == "accepted\n")
    all_trees(bench)
    multiples(bench)
    for number in (16_384, 65_536):
        for order in ("descending", "mixed"):
            text = keys(number, order == "mixed")
            measure(f"put {number:,} keys in {order} order", [*bench, "keys"], text, lambda it: it == f"{number}\n")
    for number in (100_000, 200_000):
        queries = "(simp (Op.Add 7 0))\n" * number
        measure_run(f"answer {number:,} queries", FIRST, "", queries, lambda it: it == "7\n" * number)
    measure_calls("answer 100 chains of 1,000 calls", DOWN, "", chain(1_000) * 100, lambda it: it == "5\n" * 100)
    measure_calls("answer a chain of 100,000 calls", DOWN, "", chain(100_000), lambda it: it == "5\n")
    measure_calls("answer 10,000 queries by 2,000 rules", typed_rules(2_000), instructions(2_000), backend_queries(), answers_all)
    for number in (50_000, 100_000, 200_000):
        measure_run(f"read a world of {number:,} entries", HOST, mixed_world(number), "", lambda it: it == "")
    worlds_of_rules(bench)
    queries_of_a_backend()
    missing_calls()
    text, _ = rules(4_000_000)
    for width in (20, 80):
        measure(f"format 4 MB at {width}", [islec, "fmt", "--width", str(width)], text, lambda it: it.startswith("(rule"))
    for width in (80, 1_000_000):
        measure(f"format 1,000 nested lists at {width}", [islec, "fmt", "--width", str(width)], NESTED * 20, lambda it: it.startswith("(attr"))
    if EXCEEDED:
        sys.exit(f"{len(EXCEEDED)} figures are not what is asked")


if __name__ == "__main__":
    main()
