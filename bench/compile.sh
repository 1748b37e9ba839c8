#!/bin/sh
# Prints the time and the greatest memory of the built compiler on the example of a sum, and beside them those of
# `gfortran -fsyntax-only` on the same file; and then the times of statements of ever more continuations, which grow
# with the number of their literals. It is no part of the gate.
set -eu
. "$(dirname "$0")/setup.sh"
needs compile python3 /usr/bin/time
in_a_new_folder
cp "$top/examples/sum/p1.f90" .
python3 - "$program" << 'PYTHON'
import os
import shutil
import sys

from runs import greatest_memory, timed

RUNS = 20


def measured(words):
    """The shortest time of a run in seconds and the greatest memory of one in kilobytes, or None where one fails."""
    found = [(*timed(words), greatest_memory(words)) for _ in range(RUNS)]
    if any(status != 0 for status, _, _ in found):
        return None
    return min(took for _, took, _ in found), max(memory for _, _, memory in found) // 1024


def row(name, tool, words):
    if tool is None or not os.access(tool, os.X_OK):
        print(f"{name:32} skipped: it is missing")
        return
    found = measured([tool, *words])
    if found is None:
        print(f"{name:32} skipped: it failed")
        return
    print(f"{name:32} {found[0] * 1000:10.2f} ms {found[1]:10} KB")


def literals(count):
    """So many literals: products of rising length, added up so that no value is deeper than 256 operations."""
    lengths = []
    while count > 0:
        length = min(count, 250 - len(lengths))
        lengths.append(length)
        count -= length
    return "+".join("*".join(["1"] * length) for length in reversed(lengths))


def continued(continuations):
    """A program that prints one value over so many continuations, and the number of its literals."""
    value = literals(64 * (continuations + 1))
    lines = [value[at : at + 128] for at in range(0, len(value), 128)]
    return "program p\nprint *, &\n&" + "&\n&".join(lines) + "\nend program p\n", (len(value) + 1) // 2


def growth(tool):
    before = None
    for continuations in (1, 30, 62, 126, 253):
        source, count = continued(continuations)
        with open("long.f90", "w") as file:
            file.write(source)
        found = measured([tool, "compile", "long.f90"])
        if found is None:
            print("a long statement was refused")
            return
        fold = "" if before is None else f" {found[0] / before:6.2f}-fold"
        print(f"{f'{count} literals, {source.count(chr(10)) - 3} continuations':32} {found[0] * 1000:10.2f} ms {found[1]:10} KB{fold}")
        before = found[0]


print(f"{'of ' + str(RUNS) + ' runs':32} {'least time':>13} {'most memory':>13}")
row("lfortran_cli compile p1.f90", sys.argv[1], ["compile", "p1.f90"])
row("gfortran -fsyntax-only p1.f90", shutil.which("gfortran"), ["-fsyntax-only", "p1.f90"])
if os.access(sys.argv[1], os.X_OK):
    growth(sys.argv[1])
PYTHON
