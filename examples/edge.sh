#!/usr/bin/env bash
# What the program does at its edge: standard streams that are closed or fail, files that are no store,
# two processes on one file, a file that is damaged while a run waits, and a file size limit. Each check
# prints a line, and says what status, what replies and what bytes of the file were there in place of
# those that should be.
#
# usage: edge.sh [PROGRAM]
# PROGRAM is the launcher `rss` beside this folder if none is given. Its files lie in a folder of
# their own below TMPDIR, or /tmp. The counts of system calls need strace; without it they are left out.
set -uo pipefail

top="$(cd "$(dirname "$0")/.." && pwd)"
rss="$(readlink -f "${1:-$top/rss}")"
folder="$(mktemp -d)"
trap 'rm -rf "$folder"' EXIT
cd "$folder"
failures=0

report() {
    if [ -z "$2" ]; then
        echo "ok      $1"
    else
        echo "FAILED  $1:$2"
        failures=$((failures + 1))
    fi
}

# faults_of STATUS WANTED REPLIES FILE: how a command ended, and what should be in `replies` and in
# `a`. Where FILE is `none`, there should be no file.
faults_of() {
    if [ "$1" != "$2" ]; then printf ' status %s, not %s;' "$1" "$2"; fi
    if [ "$(cat replies)" != "$3" ]; then printf ' other replies;'; fi
    if [ "$4" = none ]; then
        if [ -e a ]; then printf ' a file is there;'; fi
    elif ! cmp -s a "$4"; then
        printf ' other bytes in the file;'
    fi
}

# check BEFORE COMMAND STATUS REPLIES AFTER: the command, over a copy of the file BEFORE.
check() {
    local status=0
    rm -f a replies
    : >replies
    if [ "$1" != none ]; then cp "$1" a; fi
    eval "$2" >replies 2>errors || status=$?
    report "$2, where a is $1" "$(faults_of "$status" "$3" "$4" "$5")"
}

# Scripts, and the replies that they get.
printf 'begin 1\ninsert 1 r 7\nend 1\n' >commit
committed=$'ok\nok 0.0\nok'
printf 'begin 1\ninsert 1 r 7\ncheckpoint\n' >checkpoint
printf 'begin 1\nfetch 1 r 0.0\nfetch 1 r 0.1\n' >probe

# Files: a new store, the same with a relation and no tuple, after one commit of a tuple and after two
# of one run, those as an opening leaves them, which brings their log to rest, that after one commit
# formatted again, whose free slots hold what they held, and files that are no store.
printf 'segment s\nrelation r s a:int\n' >definitions
"$rss" format new 64 8 >replies
cp new empty && "$rss" run empty <definitions >replies
cp empty one && "$rss" run one <commit >replies
cp empty two && cat commit commit | "$rss" run two >replies
cp one opened_one && "$rss" run opened_one </dev/null >replies
cp two opened_two && "$rss" run opened_two </dev/null >replies
cp one again && "$rss" format again 64 8 >replies
echo hello >hello
: >nothing
head -c 12287 one >short
{ cat one && echo; } >long

# Standard streams that are closed.
check empty '"$rss" run a <commit >&-' 3 "" empty
check empty '"$rss" run a <&-' 2 "" empty
check empty '"$rss" run a <commit 2>&-' 0 "$committed" one
check empty '"$rss" run a <&- >&-' 2 "" empty
check empty '"$rss" run a <commit >&- 2>&-' 3 "" empty
check empty '"$rss" run a <&- 2>&-' 2 "" empty
check empty '"$rss" run a <&- >&- 2>&-' 2 "" empty
check none '"$rss" run a <commit >&-' 4 "" none
check none '"$rss" run a <&-' 4 "" none
check none '"$rss" run a <&- >&- 2>&-' 4 "" none
check none '"$rss" trial a 1 1 <&-' 4 "" none
check none '"$rss" gen 1 1 >&-' 3 "" none
check none '"$rss" gen 1 1 <&-' 0 "$(<"$top/crates/rss_examples/data/generated")" none
check none '"$rss" format a 64 8 >&-' 3 "" new
check none '"$rss" format a 64 8 <&-' 0 ok new
check none '"$rss" format a 64 8 2>&-' 0 ok new
check none '"$rss" format a 64 8 <&- >&- 2>&-' 3 "" new
check new '"$rss" run a <definitions' 0 $'ok\nok' empty
check one '"$rss" format a 64 8 >&-' 3 "" again
check one '"$rss" format a 64 8 <&- >&- 2>&-' 3 "" again
check one '"$rss" format a 1 8 >&- 2>&-' 8 "" one
check one '"$rss" run a a 2>&-' 1 "" one
check one '"$rss" run a a <&- >&- 2>&-' 1 "" one

# Standard streams that fail.
check empty '"$rss" run a <commit >/dev/full' 3 "" empty
check empty '"$rss" run a <.' 2 "" empty
check none '"$rss" format a 64 8 >/dev/full' 3 "" new

# Files that are no store.
check nothing '"$rss" run a <commit' 5 "not a store size" nothing
check hello '"$rss" run a <commit' 5 "not a store size" hello
check short '"$rss" run a <commit' 5 "not a store size" short
check long '"$rss" run a <commit' 5 "not a store size" long

# A file size limit, in KiB.
check one '(ulimit -f 16 && "$rss" format a 64 8)' 4 "" one
check empty '(ulimit -f 16 && "$rss" run a <checkpoint && true)' 4 $'ok\nok 0.0' empty

# start BEFORE: a run over a copy of the file, which waits for its input.
start() {
    cp "$1" a
    rm -f lines answers
    mkfifo lines answers
    "$rss" run a <lines >answers 2>errors &
    first=$!
    exec 7>lines 8<answers
}

# says REPLY LINE: the run that waits gets the line, and replies so.
says() {
    local reply=""
    echo "$2" >&7 2>/dev/null || true
    read -r -t 20 reply <&8 || true
    if [ "$reply" != "$1" ]; then printf ' %s got %s;' "$2" "$reply"; fi
}

# finish: how the run ended, once its input is closed.
finish() {
    exec 7>&- 8<&-
    local status=0
    wait "$first" || status=$?
    first_status=$status
}

# against COMMAND: the command, while the other run waits.
against() {
    local status=0
    cp a before
    eval "$1" >replies 2>errors || status=$?
    report "$1, while another runs" "$(faults_of "$status" "$2" "" before)"
}

# Two processes on one file.
start empty
faults="$(says ok 'begin 1'; says 'ok 0.0' 'insert 1 r 7'; says ok 'end 1')"
against '"$rss" run a <commit' 4
against '"$rss" format a 64 8' 4
against '"$rss" format a 128 8 >&-' 4
against '"$rss" format a 1 8' 8
faults+="$(says ok 'begin 1'; says 'ok 0.1' 'insert 1 r 7'; says ok 'end 1')"
finish
: >replies
report "the commits of the first of two processes stand" "$faults$(faults_of "$first_status" 0 "" two)"
check two '"$rss" run a <probe' 0 $'ok\nok 7\nok 7' opened_two

# A run that is killed holds no lock.
start one
faults="$(says ok 'begin 1')"
kill -KILL "$first"
finish 2>/dev/null
report "a run is killed" "$faults"
check one '"$rss" run a <probe' 0 $'ok\nok 7\nrefused 9 no tuple r 0.1' opened_one
check opened_one '"$rss" run a <probe' 0 $'ok\nok 7\nrefused 9 no tuple r 0.1' opened_one

# A store of 1,100 home pages, each with one tuple, in 3,072 slots behind 79 other pages, at rest. No more than
# 1,024 pages are kept in memory, and an opening looks at each page, home page 0 before all others. So
# that has left memory when a run waits for its first line, and a line that asks for it has it read from
# the file again.
text="\"$(printf '%250s' '' | tr ' ' x)\""
long="$text $text $text $text $text $text $text $text"
short='"y" "y" "y" "y" "y" "y" "y" "y"'
{
    echo 'segment s'
    echo 'relation r s a:text255 b:text255 c:text255 d:text255 e:text255 f:text255 g:text255 h:text255'
    for ((commit = 0; commit < 11; commit++)); do
        echo 'begin 1'
        for ((tuple = 0; tuple < 100; tuple++)); do echo "insert 1 r $long"; done
        echo 'end 1'
    done
    echo 'checkpoint'
} >fill
"$rss" format many 3072 64 >replies
"$rss" run many <fill >replies
if [ "$(tail -n 3 replies)" != $'ok 1099.0\nok\nok' ]; then report "a store of 1,100 home pages" " other replies;"; fi

# Where the pages of the file begin whose first 16 bytes are the header of a home page, by its number.
heads="$(od -An -v -tx1 -w4096 many | cut -c 1-48)"
place_of() {
    local found
    found="$(printf ' 01 01 00 00 00 00 00 %02x 00 00 00 00 00 00 00 00' "$1")"
    echo $((4096 * ($(grep -nxF -- "$found" <<<"$heads" | cut -d : -f 1) - 1)))
}
first_page="$(place_of 0)"
second_page="$(place_of 1)"

# Damage to the file `a`, by what is said of it.
turn_header() { printf '\2' | dd of=a bs=1 seek="$first_page" conv=notrunc status=none; }
turn_entry() { printf '\3' | dd of=a bs=1 seek=$((first_page + 16)) conv=notrunc status=none; }
set_to_zeros() { dd if=/dev/zero of=a bs=4096 seek=79 count=3072 conv=notrunc status=none; }
exchange() {
    dd if=many of=a bs=4096 skip=$((first_page / 4096)) seek=$((second_page / 4096)) count=1 conv=notrunc status=none
    dd if=many of=a bs=4096 skip=$((second_page / 4096)) seek=$((first_page / 4096)) count=1 conv=notrunc status=none
}

# meets DAMAGE WHAT LINE: the line of a run over a file that was damaged while the run waited for it.
meets() {
    local faults
    start many
    faults="$(says ok 'begin 1')"
    "$1"
    if cmp -s a many; then faults+=" no damage was done;"; fi
    cp a before
    faults+="$(says 'damaged page 1 home 0' "$3")"
    finish
    : >replies
    report "$3, where $2 while the run waited" "$faults$(faults_of "$first_status" 10 "" before)"
}
# A page that is out of form at the opening.
cp many a && turn_header && mv a turned
check turned '"$rss" run a <commit' 5 "not a store page 1 home 0" turned

for line in 'fetch 1 r 0.0' "insert 1 r $short" "update 1 r 0.0 $short" 'delete 1 r 0.0'; do
    meets turn_header 'the header of the home page was turned' "$line"
    meets turn_entry 'its entry was turned' "$line"
    meets set_to_zeros 'all data slots were set to zeros' "$line"
    meets exchange 'two home pages were exchanged' "$line"
done

# Standard output is closed by its reader after a commit.
start empty
faults="$(says ok 'begin 1'; says 'ok 0.0' 'insert 1 r 7'; says ok 'end 1')"
exec 8<&-
echo 'begin 1' >&7
finish
: >replies
report "the reader of the replies goes after a commit" "$faults$(faults_of "$first_status" 3 "" one)"

# Words that are no command, and none, as the launcher and as the program itself tests them.
for words in "" run "run -a" "format a 64" "format a 064 8" "gen 1 0" "gen 1 100001" "gen 18446744073709551616 1" \
    "trial a 1" "trial a 1 01" talk "talk a b"; do
    for command in "$rss" "$top/crates/rss_program/out/rss_program"; do
        status=0
        # shellcheck disable=SC2086
        "$command" $words >replies 2>errors || status=$?
        faults=""
        if [ "$status" != 1 ]; then faults=" status $status;"; fi
        if ! grep -qx 'usage: rss format FILE N G | run FILE | gen NUMBER COUNT | trial FILE NUMBER COUNT | talk FILE' errors; then faults+=" no usage line;"; fi
        report "${command##*/} $words" "$faults"
    done
done

# System calls.
if [ -n "$(command -v strace)" ]; then
    # How often each call of the file, and each sync, was made in a run over the script.
    calls_of() {
        cp empty a
        strace -f -y -o calls "$rss" run a <"$1" >replies 2>errors
        for call in pread64 read lseek write 'pwrite64\(.*, 4096, [0-9]+\) = 4096' fsync fdatasync; do
            grep -E "^[0-9]+ +${call%%\\*}\([0-9]+<[^>]*/a>" calls | grep -cE "$call" || true
        done
    }
    printf 'begin 1\ninsert 1 r 7\n' >uncommitted
    mapfile -t before < <(calls_of uncommitted)
    mapfile -t after < <(calls_of commit)
    found=""
    for call in "${!after[@]}"; do found+=" $((after[call] - before[call]))"; done
    names="pread64, read, lseek, write, pwrite64 of 4,096 bytes, fsync, fdatasync"
    faults=""
    if [ "$found" != " 0 0 0 0 2 0 2" ]; then faults="$found;"; fi
    report "a commit over 64 slots, by its $names: 0 0 0 0 2 0 2" "$faults"

    rm -f a
    strace -f -y -o calls "$rss" format a 64 8 >replies 2>errors
    faults=""
    if ! grep -qE "fsync\([0-9]+<$(pwd -P)>\) += 0" calls; then faults=" no fsync of the folder;"; fi
    report "a format that makes a file syncs its folder" "$faults"
else
    echo "left out: strace isn't there, so no calls are counted"
fi

if [ "$failures" -gt 0 ]; then
    echo "$failures checks failed"
    exit 1
fi
echo "all checks passed"
