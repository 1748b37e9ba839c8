#!/bin/sh
# Prints the time and the greatest memory of `lfortran_cli ast` on made sources, and beside the one of ordinary code
# those of `gfortran -fsyntax-only` on the same source: the ratio of the times, the growth from half the source to the
# whole, and the memory a byte of source. It is no part of the gate.
set -eu
. "$(dirname "$0")/setup.sh"
needs ast python3 /usr/bin/time
in_a_new_folder
python3 - "$program" << 'PYTHON'
import os
import shutil
import sys

from runs import greatest_memory, timed

PROGRAM = sys.argv[1]
KIB = 1024
GREATEST = 1024 * KIB


def code(size):
    """Ordinary code of about so many bytes: loops, conditions, sums and output."""
    lines = ["program big", "implicit none", "integer :: a, b, c, i, j, k, n, total"]
    held, turn = sum(len(line) + 1 for line in lines), 0
    while True:
        block = [
            "do i = 1, n",
            "  if (a + b * c > k .and. j /= 3) then",
            "    total = total + mod(a * (b - c), 17) ! a note",
            "  else",
            f"    total = total - 2 * (i + j) + {turn}",
            "  end if",
            "end do",
            "print *, total, a, b",
        ]
        more = sum(len(line) + 1 for line in block)
        if held + more + 16 > size:
            break
        lines += block
        held += more
        turn += 1
    return "\n".join(lines + ["end program big", ""])


def filled(line):
    """The line again and again, up to the greatest source."""
    return (line * (GREATEST // len(line) + 1))[:GREATEST]


def in_program(body):
    return "program p\n" + body + "end program p\n"


def continued():
    """One statement of 255 continuations, with some 6,600 expressions."""
    first = "print *, " + "1, " * 40 + "&\n"
    return in_program(first + ("(1), " * 26 + "&\n") * 254 + "1\n")


def nested():
    """Statements of 120 parentheses within one another, which are within the limits."""
    one = "x = " + "(" * 60 + "&\n" + "(" * 60 + "1&\n" + ")" * 120 + "\n"
    return in_program(one * ((GREATEST - 64) // len(one)))


def written(name, source):
    with open(name, "w", newline="") as file:
        file.write(source)
    return [PROGRAM, "ast", name], len(source)


def told(name, status, took, memory, size):
    print(f"{name:36} status {status} {took * 1000:9.2f} ms {memory / size:8.1f} bytes a byte")


def row(name, source, runs=5):
    """The shortest of some runs."""
    words, size = written("s.f90", source)
    found = [timed(words) for _ in range(runs)]
    told(name, found[0][0], min(took for _, took in found), greatest_memory(words), size)


def beside_gfortran(runs=12):
    """Code of 512 KiB and of 1 MiB, run in turns, half of them in front of gfortran and half behind it."""
    half, half_size = written("half.f90", code(512 * KIB))
    whole, whole_size = written("whole.f90", code(GREATEST))
    gfortran = shutil.which("gfortran")
    times = {"half": [], "whole": []}
    for turn in range(runs):
        if gfortran and turn == runs // 2:
            status, took_there = timed([gfortran, "-fsyntax-only", "whole.f90"])
        for name, words in (("half", half), ("whole", whole)):
            times[name].append(timed(words)[1])
    least, most = min(times["half"]), min(times["whole"])
    told("code of 512 KiB", timed(half)[0], least, greatest_memory(half), half_size)
    told("code of 1 MiB", timed(whole)[0], most, greatest_memory(whole), whole_size)
    print(f"{'from 512 KiB to 1 MiB':36} {most / least:.2f}-fold (at most 2.2)")
    if gfortran:
        ratio = took_there / most
        print(f"{'gfortran -fsyntax-only on 1 MiB':36} status {status} {took_there * 1000:9.2f} ms: {ratio:.0f}-fold (at least 20)")
    else:
        print("gfortran is missing, its time was not measured")


if not os.access(PROGRAM, os.X_OK):
    print(f"ast: {PROGRAM} is missing: build it by 'rt run' in crates/lfortran_cli")
    sys.exit(0)
for size in (64, 128, 256):
    row(f"code of {size} KiB", code(size * KIB))
beside_gfortran()
row("lines of 132 blanks", filled(" " * 132 + "\n"))
row("one name a line", filled("a\n"))
row("( within the limits", nested())
row("( in every byte of the lines", filled("(" * 132 + "\n"))
row("200,000 ;", in_program((";" * 125 + "\n") * 1600))
row("a statement of 255 continuations", continued())
PYTHON
