#!/bin/sh
# Prints the time and the greatest memory of `order` over files of one module each, in three shapes: a chain that is given
# backwards; a crowd of files that all hold one module beside as many that use it; and a knot of files that all hold and use
# one module, of which there is no order, but a cycle to be named. For each shape it takes 2,000 and 20,000 files, prints the
# ratio of the times, which is about 10 where all grows with the size, and the bytes of memory for a byte of source, and says
# whether they are within the bounds below; beside them the time of `ast` over the same files, and over ten files that hold
# all their modules, with its output dropped. It ends with 1 where a bound is passed or an answer is wrong. It is no part of
# the gate.
set -eu
. "$(dirname "$0")/setup.sh"
needs order python3 /usr/bin/time
in_a_new_folder
python3 - "$program" << 'PYTHON'
import subprocess
import sys

from runs import greatest_memory, timed

SMALL = 2_000
LARGE = 20_000
RUNS = 3
EACH = 20
MOST_RATIO = 13
MOST_BYTES = 60
ORDERED = 0
CYCLE = 8
BODY = "".join(f"  integer, parameter :: c{i} = {i} + 2 * {i}\n" for i in range(12))


def chain(count):
    """Module by module: each uses the next one."""
    for i in range(count):
        uses = f"  use m{i + 1}\n" if i + 1 < count else ""
        yield f"f{i}.f90", f"module m{i}\n{uses}{BODY}end module m{i}\n"


def crowd(count):
    """One half holds one module, the other half uses it."""
    for i in range(count // 2):
        yield f"h{i}.f90", f"module m\n{BODY}end module m\n"
    for i in range(count // 2):
        yield f"u{i}.f90", f"module u{i}\n  use m\n{BODY}end module u{i}\n"


def knot(count):
    """Each holds and uses one module."""
    for i in range(count):
        yield f"k{i}.f90", f"module m\n  use m\n{BODY}end module m\n"


def shortest(program, words, wanted=ORDERED):
    took = [timed([program, *words]) for _ in range(RUNS)]
    if any(status != wanted for status, _ in took):
        sys.exit(f"order: {words[0]} ended with a status that is not {wanted}")
    return min(seconds for _, seconds in took)


def judged(shape, what, value, most):
    """Whether a value is within its bound, which is printed."""
    within = value <= most
    print(f"{shape.__name__}: {what} {value:.1f}, {'within' if within else 'OVER'} {most}")
    return within


def is_right(shape, names, answer):
    """Whether the answer is the only right one of its shape."""
    if shape is knot:
        return answer.returncode == CYCLE and f"cycle {names[0]} {names[1]}" in answer.stderr.decode()
    order = list(reversed(names)) if shape is chain else names
    return answer.returncode == ORDERED and answer.stdout == "".join(f"{name}\n" for name in order).encode()


def written(files):
    names, size = [], 0
    for name, text in files:
        with open(name, "w") as file:
            file.write(text)
        names.append(name)
        size += len(text)
    return names, size


program = sys.argv[1]
good = True
for shape in (chain, crowd, knot):
    times = {}
    wanted = CYCLE if shape is knot else ORDERED
    for count in (SMALL, LARGE):
        names, size = written(shape(count))
        times[count] = shortest(program, ["order", *names], wanted)
        memory = greatest_memory([program, "order", *names])
        print(f"{shape.__name__} of {count:6} files, {size:9} bytes: {times[count]:7.3f} s, {memory / size:5.1f} bytes a byte of source")
    good &= judged(shape, "ten times the files, times the time:", times[LARGE] / times[SMALL], MOST_RATIO)
    good &= judged(shape, "bytes a byte of source:", memory / size, MOST_BYTES)
    with open("all.f90", "w") as file:
        file.writelines(text for _, text in shape(SMALL))
    joined = shortest(program, ["ast", "all.f90"]) * (LARGE // SMALL)
    each = sum(shortest(program, ["ast", name]) for name in names[::EACH]) * EACH
    print(f"{shape.__name__}: {times[LARGE] / joined:.2f} times the time of `ast` of ten files with all modules, "
          f"{times[LARGE] / each:.2f} times that of `ast` of each file")
    answer = subprocess.run([program, "order", *names], capture_output=True)
    if not is_right(shape, names, answer):
        print(f"order: the answer for the {shape.__name__} is wrong: status {answer.returncode}, {answer.stderr.decode()!r}")
        good = False
sys.exit(0 if good else 1)
PYTHON
