#!/bin/sh
# Drives the built program through what no contract tells: what the system's files and streams do. It prints what it
# drove and what it skipped, by name, and ends at the first failure with a status that is not 0. Run with no arguments;
# LFORTRAN_CLI names another program.
set -u
here=$(cd "$(dirname "$0")" && pwd)
built=${LFORTRAN_CLI:-$here/../crates/lfortran_cli/out/lfortran_cli}
if [ ! -x "$built" ]; then
    echo "outside: $built is missing: build it by 'rt run' in crates/lfortran_cli"
    exit 1
fi
umask 022
room=$(mktemp -d) || exit 1
trap 'chmod -R u+rwx "$room" 2> /dev/null; rm -rf "$room"' EXIT
chmod 755 "$room"
cp "$built" "$room/lfortran_cli" && chmod 755 "$room/lfortran_cli" || exit 1
program=$room/lfortran_cli

has() { command -v "$1" > /dev/null 2>&1; }
drove() { echo "outside: $1: as it should be"; }
skip() { echo "outside: $1: skipped, $2"; }
fail() {
    echo "outside: $1: $2"
    exit 1
}

# A clean folder with a source, and the C file that is its right one. `old` in the C file's place is an older one.
fresh() {
    cd "$room" || exit 1
    chmod -R u+rwx at 2> /dev/null
    rm -rf at && mkdir at && cd at || exit 1
    printf 'program p\nprint *, 2+3*4\nend program p\n' > p.f90
    printf 'old\n' > p.c
}

# A folder holds these names and no other.
only() {
    what=$1
    shift
    there=$(ls -A | sort | tr '\n' ' ')
    wanted=$(printf '%s\n' "$@" | sort | tr '\n' ' ')
    [ "$there" = "$wanted" ] || fail "$what" "left behind are $there, and not $wanted"
}

# Runs the command behind it, which must end with the status and tell the text.
run() {
    what=$1 wanted=$2 text=$3
    shift 3
    "$@" > "$room/out" 2> "$room/err"
    status=$?
    [ $status -eq "$wanted" ] || fail "$what" "status $status, and not $wanted: $(cat "$room/err")"
    [ "$(cat "$room/err")" = "$text" ] || fail "$what" "it tells '$(cat "$room/err")', and not '$text'"
}

kept() { [ "$(cat p.c)" = old ] || fail "$1" "the older C file has changed"; }
new() { cmp -s p.c "$room/right.c" || fail "$1" "the C file is not the right one"; }
mode() { ls -l "$1" | cut -c2-10; }

# The statuses 0, 1 and 2.
fresh
rm p.c
run 'status 0' 0 '' "$program" compile p.f90
[ -s p.c ] || fail 'status 0' 'there is no C file'
cp p.c "$room/right.c"
only 'status 0' p.f90 p.c
[ "$(mode p.c)" = rw-r--r-- ] || fail 'status 0' "the C file's mode is $(mode p.c)"
drove 'status 0, and nothing left behind'
run 'ast' 0 '' "$program" ast p.f90
[ -s "$room/out" ] || fail 'ast' 'nothing on the output'
new 'ast'
drove 'ast on the output'
fresh
printf 'x = $\n' > q.f90
run 'status 1' 1 'q.f90:1: E101' "$program" compile q.f90
only 'status 1' p.f90 p.c q.f90
drove 'status 1: a source that is refused'
usage='lf: usage: COMMAND [--turns=N] FILE ...'
run 'status 2' 2 "$usage" "$program"
run 'status 2' 2 "$usage" "$program" compile
run 'status 2' 2 "$usage" "$program" compile p.f91
run 'status 2' 2 "$usage" "$program" compile "$(printf '\377.f90')"
drove 'status 2: words that are no command'
run 'absent' 2 'lf: no such file: a.f90' "$program" compile a.f90
run 'absent' 2 'lf: no such file: none/a.f90' "$program" compile none/a.f90
run 'absent' 2 'lf: no such file: p.c/a.f90' "$program" compile p.c/a.f90
drove 'status 2: a source that is absent'

# Sources.
mkdir d.f90
run 'folder as source' 3 'lf: read fault' "$program" compile d.f90
drove 'status 3: a folder as source'
ln -s l.f90 l.f90
run 'link to itself' 3 'lf: read fault' "$program" compile l.f90
drove 'a link to itself as source'
fresh
awk 'BEGIN { print "program p"; for (i = 0; i < 5000; i++) print "! a comment of some twenty bytes"; print "print *, 7"; print "end program p" }' > p.f90
run 'long source' 0 '' "$program" ast p.f90
grep -q 5002 "$room/out" || fail 'long source' 'its end is missing'
drove 'a source that is longer than a buffer'
if has mkfifo && mkfifo f.f90; then
    printf 'program p\nprint *, 2+3*4\nend program p\n' > f.f90 &
    run 'FIFO' 0 '' "$program" compile f.f90
    [ -s f.c ] || fail 'FIFO' 'there is no C file'
    wait
    drove 'a FIFO as source'
else
    skip 'a FIFO as source' 'there are none'
fi

# As a user whom permissions bind.
if [ "$(id -u)" -ne 0 ]; then
    as=
elif has setpriv && setpriv --reuid 65534 --regid 65534 --clear-groups true 2> /dev/null; then
    as='setpriv --reuid 65534 --regid 65534 --clear-groups'
else
    as=none
fi
if [ "$as" = none ]; then
    skip 'an unreadable source' 'no permission binds this user'
    skip 'an unwritable folder' 'no permission binds this user'
else
    fresh
    chmod 000 p.f90
    run 'unreadable' 3 'lf: read fault' $as "$program" compile p.f90
    kept 'unreadable'
    drove 'status 3: an unreadable source'
    fresh
    chmod 555 .
    run 'unwritable' 4 'lf: write fault' $as "$program" compile p.f90
    kept 'unwritable'
    only 'unwritable' p.f90 p.c
    drove 'status 4: an unwritable folder'
fi

# Targets.
fresh
rm p.c
mkdir p.c
run 'folder in the way' 4 'lf: write fault' "$program" compile p.f90
only 'folder in the way' p.f90 p.c
drove 'status 4: a folder in the way'
fresh
chmod 444 p.c
run 'read-only' 0 '' "$program" compile p.f90
new 'read-only'
[ "$(mode p.c)" = r--r--r-- ] || fail 'read-only' "the mode is $(mode p.c)"
only 'read-only' p.f90 p.c
fresh
chmod 750 p.c
run 'mode' 0 '' "$program" compile p.f90
[ "$(mode p.c)" = rwxr-x--- ] || fail 'mode' "the mode is $(mode p.c)"
drove 'a read-only C file is replaced, and the mode of the older file is kept'
fresh
mv p.c .p.c.lf-0.tmp
run 'leftover' 0 '' "$program" compile p.f90
new 'leftover'
only 'leftover' p.f90 p.c .p.c.lf-0.tmp
[ "$(cat .p.c.lf-0.tmp)" = old ] || fail 'leftover' 'it was written over'
drove 'a file under a temporary name is left alone'
fresh
long=$(awk 'BEGIN { for (i = 0; i < 248; i++) printf "n" }')
wide=$(awk 'BEGIN { for (i = 0; i < 82; i++) printf "\342\202\254" }')
cp p.f90 "$long.f90" && cp p.f90 "$wide.f90" || fail 'long names' 'they cannot be made'
run 'long names' 0 '' "$program" compile "$long.f90"
run 'long names' 0 '' "$program" compile "$wide.f90"
only 'long names' p.f90 p.c "$long.f90" "$long.c" "$wide.f90" "$wide.c"
drove 'names of the greatest length'

# Limits and full devices.
fresh
run 'file size limit' 4 'lf: write fault' sh -c "ulimit -f 1; exec \"$program\" compile p.f90"
kept 'file size limit'
only 'file size limit' p.f90 p.c
drove 'status 4: a limit on the size of files'
if [ -w /dev/full ]; then
    "$program" ast p.f90 > /dev/full 2> "$room/err"
    status=$?
    [ $status -eq 4 ] || fail 'full output' "status $status, and not 4"
    "$program" compile a.f90 2> /dev/full
    status=$?
    [ $status -eq 4 ] || fail 'full error output' "status $status, and not 4"
    drove 'status 4: a full output, and a full error output'
else
    skip 'a full output' '/dev/full is missing'
fi
fresh
if has unshare && unshare -m mount -t tmpfs -o size=16k none "$room/at" 2> /dev/null; then
    cat > "$room/full.sh" <<'END'
mount -t tmpfs -o size=16k none . && cd . && cd "$PWD" || exit 9
printf 'program p\nprint *, 2+3*4\nend program p\n' > p.f90
printf 'old\n' > p.c
cat /dev/zero > fill 2> /dev/null
"$1" compile p.f90
status=$?
[ "$(cat p.c)" = old ] || exit 8
[ "$(ls -A | sort | tr '\n' ' ')" = 'fill p.c p.f90 ' ] || exit 7
exit $status
END
    run 'full disk' 4 'lf: write fault' unshare -m sh "$room/full.sh" "$program"
    drove 'status 4: a full disk'
else
    skip 'a full disk' 'none can be mounted'
fi

# Each failing system call keeps the older file.
fresh
if has strace && strace -o "$room/trace" -e trace=fsync -e inject=fsync:error=EIO true 2> /dev/null; then
    for call in fsync write fchmod rename,renameat,renameat2; do
        fresh
        run "failing $call" 4 'lf: write fault' strace -o "$room/trace" -e "trace=$call" -e "inject=$call:error=EIO:when=1" "$program" compile p.f90
        kept "failing $call"
        only "failing $call" p.f90 p.c
    done
    fresh
    run 'failing making' 4 'lf: write fault' strace -o "$room/trace" -P "$PWD/.p.c.lf-0.tmp" -P .p.c.lf-0.tmp -e trace=open,openat -e inject=open,openat:error=EMFILE "$program" compile p.f90
    kept 'failing making'
    only 'failing making' p.f90 p.c
    drove 'the older file is kept at each failing call, and nothing left behind'
    fresh
    run 'short writes' 0 '' strace -o "$room/trace" -e trace=write -e inject=write:error=EINTR:when=1 "$program" compile p.f90
    new 'short writes'
    drove 'a write that a signal interrupts'
else
    skip 'failing system calls' 'strace cannot make them fail'
fi

# Streams that are closed at the start.
fresh
"$program" compile p.f90 <&- >&- 2>&-
status=$?
[ $status -eq 0 ] || fail 'closed streams' "status $status, and not 0"
new 'closed streams'
"$program" compile a.f90 <&- >&- 2>&-
status=$?
[ $status -eq 2 ] || fail 'closed streams' "status $status, and not 2"
only 'closed streams' p.f90 p.c
drove 'closed standard streams'

# The stack that a deep source takes.
awk 'BEGIN { print "program p"; print "logical :: a"; print "if (a) then"; for (i = 0; i < 10000; i++) print "else if (a) then"; print "end if"; print "end program p" }' > e.f90
run 'stack' 0 '' sh -c "ulimit -s 8192; exec \"$program\" ast e.f90"
drove 'a chain of 10,000 arms with a stack of 8 MiB'

# Calls at once.
fresh
for i in 1 2 3 4 5 6 7 8 9 10; do
    "$program" compile p.f90 2> "$room/first" &
    first=$!
    "$program" compile p.f90 2> "$room/second" &
    second=$!
    wait $first || fail 'two at once' "status $?: $(cat "$room/first")"
    wait $second || fail 'two at once' "status $?: $(cat "$room/second")"
    new 'two at once'
    only 'two at once' p.f90 p.c
done
drove 'two compiles at once'
fresh
killed=0
for i in 0 1 2 3 4 5 6 7 8 9; do
    for j in 0 1 2 3 4 5 6 7 8 9; do
        printf 'old\n' > p.c
        "$program" compile p.f90 2> /dev/null &
        one=$!
        sleep "0.00$i$j" 2> /dev/null
        kill -9 $one 2> /dev/null && killed=$((killed + 1))
        wait $one 2> /dev/null
        [ "$(cat p.c)" = old ] || cmp -s p.c "$room/right.c" || fail 'killed' 'the C file is a part'
    done
done
rm -f .p.c.lf-*.tmp
only 'killed' p.f90 p.c
run 'killed' 0 '' "$program" compile p.f90
new 'killed'
drove "killed at 100 moments ($killed before the end): old or new, and never a part"
fresh
lines=$room/lines
{
    i=0
    while [ $i -lt 3000 ]; do
        "$program" compile "absent$i.f90" &
        i=$((i + 1))
        [ $((i % 100)) -eq 0 ] && wait
    done
    wait
} 2> "$lines"
whole=$(grep -c '^lf: no such file: absent[0-9]*\.f90$' "$lines")
different=$(sort -u "$lines" | wc -l)
all=$(wc -l < "$lines")
[ "$whole" -eq 3000 ] && [ "$different" -eq 3000 ] && [ "$all" -eq 3000 ] || fail 'lines at once' "of 3000 lines $whole are whole, $different different, $all in all"
drove '3,000 refusals at once on one stream: 3,000 whole lines'
echo 'outside: all as it should be'
