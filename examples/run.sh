#!/bin/sh
# Compiles each example to C by the built compiler, and the C by cc with the checks of its sanitizers; runs it, and
# compares what it prints with the example's file `expected`, and its error output with its status with the file `told`. It
# ends with 0 only if all agree, or where cc is missing.
set -u
examples=$(cd "$(dirname "$0")" && pwd)
program=${LFORTRAN_CLI:-$examples/../crates/lfortran_cli/out/lfortran_cli}
if ! command -v cc > /dev/null; then
    echo "examples: cc is missing, skipped"
    exit 0
fi
if [ ! -x "$program" ]; then
    echo "examples: $program is missing: build it by 'rt run' in crates/lfortran_cli"
    exit 1
fi
work=$(mktemp -d) || exit 1
trap 'rm -rf "$work"' EXIT
checks='-std=c99 -pedantic -fsanitize=undefined,address -fno-sanitize-recover=all'

# What an example prints, in the file `printed`, and what it tells, in the file `told`.
run_example() {
    mkdir "$work/$1" && cp "$examples/$1"/*.f90 "$work/$1" && cd "$work/$1" || return 1
    if [ -f "$examples/$1/Makefile" ] && command -v make > "$work/make"; then
        make -s -f "$examples/$1/Makefile" LFORTRAN="$program" CC=cc CFLAGS="$checks" built || return 1
    else
        for source in *.f90; do
            "$program" compile "$source" || return 1
        done
        cc $checks -o built ./*.c || return 1
    fi
    ./built > printed 2> told
    echo "status $?" >> told
}

failed=0
for folder in "$examples"/*/; do
    name=$(basename "$folder")
    if (run_example "$name") && cmp "$work/$name/printed" "$folder/expected" && cmp "$work/$name/told" "$folder/told"; then
        echo "examples: $name agrees"
    else
        echo "examples: $name differs"
        failed=1
    fi
done
exit $failed
