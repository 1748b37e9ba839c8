#!/bin/sh
# Asks gfortran for the values of the rows of crates/lf_examples/src/operations.rt, where the standard
# fixes them: rows that trap or have no rule are left out, and so are 0**0 and bytes above 127.
# It is no part of the gate. It prints how many rows agree, and each row that does not.
set -eu
. "$(dirname "$0")/setup.sh"
needs operations gfortran python3
in_a_new_folder
python3 - "$top/crates/lf_examples/src/operations.rt" "$work" << 'PYTHON'
import re
import sys

SYMBOLS = {
    "ADD": "+", "SUBTRACT": "-", "MULTIPLY": "*", "DIVIDE": "/", "POWER": "**", "CONCATENATE": "//",
    "EQ": "==", "NE": "/=", "LT": "<", "LE": "<=", "GT": ">", "GE": ">=",
    "AND": ".and.", "OR": ".or.", "EQV": ".eqv.", "NEQV": ".neqv.",
}
CALLS = {"MOD", "MODULO", "ABS", "SIGN", "MIN", "MAX", "LEN", "LEN_TRIM", "TRIM", "INDEX", "IACHAR", "ACHAR"}
NUMBERS = {"MAX4": 2**31 - 1, "MIN4": -(2**31), "MAX8": 2**63 - 1, "MIN8": -(2**63)}
VALUE = re.compile(r'Int\((\d), (-?\w+)\)|Log\((true|false)\)|Text\(b"((?:[^"\\]|\\.)*)"\)')


def number(text):
    return NUMBERS[text] if text in NUMBERS else int(text)


def integer(kind, value):
    if value == -(2 ** (8 * kind - 1)):
        return f"(-{-(value + 1)}_{kind} - 1_{kind})"
    return f"({value}_{kind})"


def fortran(match, kind):
    if match.group(1):
        return integer(kind or int(match.group(1)), number(match.group(2)))
    if match.group(3):
        return f".{match.group(3)}."
    data = match.group(4).encode().decode("unicode_escape").encode("latin-1")
    if any(byte > 127 for byte in data):
        return None
    return "//".join(["''"] + [f"achar({byte})" for byte in data])


def expression(op, args, kind):
    values = [fortran(arg, kind) for arg in args]
    if None in values:
        return None
    if op in SYMBOLS:
        return f"({values[0]}) {SYMBOLS[op]} ({values[1]})"
    if op == "NEGATE":
        return f"-({values[0]})"
    if op == "UNARY_PLUS":
        return f"+({values[0]})"
    if op == "NOT":
        return f".not. {values[0]}"
    if op.startswith("TO_KIND_"):
        return f"int({values[0]}, {op[-1]})"
    return f"{op.lower()}({', '.join(values)})"


rows = []
text = open(sys.argv[1], encoding="utf-8").read()
for row in re.finditer(r"\(\s*([A-Z]\w*),\s*&\[([^\]]*)\],\s*(" + VALUE.pattern + r"),?\s*\),", text):
    line = re.sub(r"\s+", " ", row.group(0))
    op, args, want = row.group(1), list(VALUE.finditer(row.group(2))), VALUE.fullmatch(row.group(3))
    if op == "POWER" and all(arg.group(2) == "0" for arg in args):
        continue
    kinds = {int(arg.group(1)) for arg in args if arg.group(1)}
    kind = 8 if op in CALLS and len(kinds) > 1 else None
    got, wanted = expression(op, args, kind), fortran(want, None)
    if got is None or wanted is None:
        continue
    if want.group(1):
        test = f"({got}) == {wanted} .and. kind({got}) == {want.group(1)}"
    elif want.group(3):
        test = f"({got}) .eqv. {wanted}"
    else:
        test = f"same({got}, {wanted})"
    rows.append((line, test))

with open(sys.argv[2] + "/rows.f90", "w", encoding="utf-8") as out:
    out.write("program rows\nimplicit none\ninteger :: agree = 0\n")
    for line, test in rows:
        shown = line.replace("'", "''")
        out.write(f"call row({test}, &\n'{shown}')\n")
    out.write("print '(a,i0,a)', 'operations: ', agree, ' rows agree'\ncontains\n")
    out.write("logical function same(a, b)\ncharacter(*), intent(in) :: a, b\n")
    out.write("same = len(a) == len(b) .and. a == b\nend function same\n")
    out.write("subroutine row(holds, text)\nlogical, intent(in) :: holds\ncharacter(*), intent(in) :: text\n")
    out.write("if (holds) then\nagree = agree + 1\nelse\nprint '(2a)', 'differs: ', text\nend if\nend subroutine row\nend program rows\n")
PYTHON
gfortran -w -fno-range-check -ffree-line-length-none -o "$work/rows" "$work/rows.f90"
"$work/rows"
