#!/bin/sh
# Feeds the built program sources that are damaged in every way of two kinds - each byte value at each of some places
# of small sources, and every front of a source that uses all forms - and counts the answers. An answer is in order
# where the status is 0 with nothing on the error output, or 1 with one line `FILE:LINE: ENNN` there, within a second.
# It is no part of the gate.
set -eu
. "$(dirname "$0")/setup.sh"
needs bytes python3
in_a_new_folder
python3 - "$program" << 'PYTHON'
import collections
import os
import re
import subprocess
import sys
import time

PROGRAM = sys.argv[1]
REFUSED = re.compile(rb"s\.f90:[1-9][0-9]*: E[1-4][0-9][0-9]\n")

SMALL = [
    b"program p\nprint *, 2+3*4\nend program p\n",
    b"program p\ncharacter(len=3) :: c = 'a''b'\nx = f(1, 2:3) & ! note\n  & + .not. y; z = 1_8\nend\n",
]

ALL_FORMS = b"""module m
use a
use b, only: c, d => e
use f, g => h
implicit none
private
public :: t, s
type, public :: t
integer(kind=8) :: x, y(3)
character(len=4) :: name
end type t
interface s
module procedure s1, s2
end interface s
integer, parameter :: n = 10, k(2) = [1, 2]
logical, save :: done
contains
recursive subroutine s1(a, b)
integer, intent(in) :: a(:)
character(*), intent(inout) :: b
if (a(1) > 2 .or. b == 'x') return
b(1:2) = "qu""ote" // 'it''s'
end subroutine s1
integer(4) function s2(v) result(r)
type(t), dimension(2:5), intent(out) :: v
r = v(2)%x ** 2 - (-3) + (/ (i, i = 1, 3, 2), 4 /)
end function
end module m
program p
integer :: i, j
outer: do i = 1, 10, 2
inner: do while (j < 3)
if (i == j) then
cycle outer
else if (.not. done .eqv. .true.) then
exit inner
else
continue
end if
end do inner
end do outer
do
select case (i)
case (1, 3:4, :0)
call s1([i, j], 'ab&
&cd')
case default
stop 3
end select
end do
print '(A)', 'x'; write (*, '(I0)', advance='no') i
print *, (k(i), i = 1, 2), n
read (*, '(A)', iostat=i) b
error stop 2
end program p
"""


def answer(source):
    with open("s.f90", "wb") as file:
        file.write(source)
    began = time.perf_counter()
    run = subprocess.run([PROGRAM, "ast", "s.f90"], stdout=subprocess.PIPE, stderr=subprocess.PIPE)
    took = time.perf_counter() - began
    if took > 1:
        return "over a second"
    if run.returncode == 0 and run.stderr == b"":
        return "0"
    if run.returncode == 1 and run.stdout == b"" and REFUSED.fullmatch(run.stderr):
        return "1 " + run.stderr.split()[-1].decode()
    return f"out of order: status {run.returncode}"


def places(source):
    """A dozen places, spread over the source."""
    return [len(source) * part // 12 for part in range(12)]


if not os.access(PROGRAM, os.X_OK):
    print(f"bytes: {PROGRAM} is missing: build it by 'rt run' in crates/lfortran_cli")
    sys.exit(0)
counts = collections.Counter()
whole = answer(ALL_FORMS)
print(f"the whole source of all forms: {whole}")
for source in SMALL + [ALL_FORMS]:
    for place in places(source):
        for byte in range(256):
            counts[answer(source[:place] + bytes([byte]) + source[place + 1 :])] += 1
for end in range(len(ALL_FORMS)):
    counts[answer(ALL_FORMS[:end])] += 1
for name, count in sorted(counts.items()):
    print(f"{count:7} {name}")
bad = sum(count for name, count in counts.items() if name.startswith("o"))
print(f"{sum(counts.values())} sources, {bad} answers out of order")
sys.exit(1 if bad or whole != "0" else 0)
PYTHON
