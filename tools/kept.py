#!/usr/bin/env python3
"""Looks at what no clause says of texts that are laid out with their comments.

    kept.py PROGRAM FILE ..

Each FILE is laid out, and what comes out is laid out to itself; a text of 8 MB takes at most 1.5 times the processor seconds of `fmt` without
`--keep`, the least of three runs of each. Prints what isn't so, and exits with 1 where there is any.
"""
import os
import resource
import subprocess
import sys
import tempfile

MOST = 1.5
SIZE = 8_000_000
RULE = "(rule prio_{i} {i} (lower (Inst.Iadd x@(value ty) (iconst 0x{i:x}))) ; of number {i}\n      (if-let y (fits x)) (add_imm ty x y {i}))\n\n"


def laid_out(program, path, *words):
    """What the program makes of a file, and the processor seconds that it took."""
    with tempfile.TemporaryFile() as output:
        before = resource.getrusage(resource.RUSAGE_CHILDREN)
        status = subprocess.run([program, "fmt", *words, path], stdin=subprocess.DEVNULL, stdout=output, check=False).returncode
        after = resource.getrusage(resource.RUSAGE_CHILDREN)
        output.seek(0)
        if status:
            sys.exit(f"{path}: status {status}, {output.read(300)!r}")
        return output.read(), after.ru_utime + after.ru_stime - before.ru_utime - before.ru_stime


def is_settled(program, path):
    """Whether what a file is laid out as is laid out to itself."""
    kept, _ = laid_out(program, path, "--keep")
    with tempfile.NamedTemporaryFile(suffix=".isle") as file:
        file.write(kept)
        file.flush()
        return laid_out(program, file.name, "--keep")[0] == kept


def multiple(program):
    """How many times as long as without comments a long text takes."""
    with tempfile.NamedTemporaryFile("w", suffix=".isle") as file:
        number = 0
        while file.tell() < SIZE:
            file.write(RULE.format(i=number))
            number += 1
        file.flush()
        kept = min(laid_out(program, file.name, "--keep")[1] for _ in range(3))
        return kept / min(laid_out(program, file.name)[1] for _ in range(3))


def main():
    if len(sys.argv) < 2:
        sys.exit(__doc__)
    program = os.path.abspath(sys.argv[1])
    failed = [f"{path} isn't laid out to itself" for path in sys.argv[2:] if not is_settled(program, path)]
    times = multiple(program)
    if times > MOST:
        failed.append(f"a text of {SIZE / 1e6:.0f} MB takes {times:.2f} times as long with its comments, at most {MOST}")
    for row in failed:
        print(row)
    print(f"{len(sys.argv) - 2} files laid out, {len(failed)} failed; {times:.2f} times as long with comments")
    sys.exit(1 if failed else 0)


if __name__ == "__main__":
    main()
