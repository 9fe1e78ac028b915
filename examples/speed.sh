#!/usr/bin/env bash
# How fast the store is, beside the command sqlite3 and bare writes by dd that do the same work.
# docs/PERFORMANCE.md says what is compared, and what is not.
#
# usage: speed.sh [RUNS [WAIT]]
# RUNS is 5 if none is given. For at most WAIT seconds in all, 0 if none is given, the script
# waits for a moment at which no process wants a processor that another has.
# It needs sqlite3, awk and GNU's dd, and uses strace and GNU's time if they are there. Its files
# lie in a folder of their own below TMPDIR, or /tmp, and take at most 1 GB.
set -euo pipefail

runs="${1:-5}"
patience="${2:-0}"
top="$(cd "$(dirname "$0")/.." && pwd)"
rss="$top/crates/rss_program/out/rss_program"
folder="$(mktemp -d)"
trap 'rm -rf "$folder"' EXIT
cd "$folder"

# How many slots and tuples the stores have, and the commits that are measured on each.
stores=("64 0" "64 2000" "4096 0" "4096 200000" "65536 0" "65536 1000000")
databases=(0 2000 200000 1000000)
modes=(delete wal)
commits=200

# Scripts.

# What is defined in each store: a relation of one INT, and one of two and a TEXT.
definitions() {
    printf 'segment s\nrelation r s a:int\nrelation t s a:int b:int c:text20\n'
}

# So many inserts of three values in one transaction. The text has 20 bytes.
threes() {
    awk -v count="$1" 'BEGIN {
        print "begin 1"
        for (k = 0; k < count; k++) printf "insert 1 t %d %d \"%020d\"\n", k, -k, k
    }'
}

# So many inserts in one transaction.
inserts() {
    awk -v count="$1" 'BEGIN { print "begin 1"; for (k = 0; k < count; k++) print "insert 1 r " k }'
}

# So many transactions of one insert.
transactions() {
    awk -v count="$1" 'BEGIN { for (k = 0; k < count; k++) print "begin 1\ninsert 1 r " k "\nend 1" }'
}

# So many inserts, in transactions as large as a store of so many slots takes them.
filling() {
    awk -v slots="$1" -v count="$2" 'BEGIN {
        for (done = 0; done < count; done += some) {
            some = int((slots / 2 - 10 - int((done + 127) / 128)) / 4)
            if (some > count - done) some = count - done
            print "begin 1"
            for (k = 0; k < some; k++) printf "insert 1 r %d\n", done + k
            print "end 1"
        }
    }'
}

# So many fetches, at random among so many tuples.
fetches() {
    awk -v count="$1" -v among="$2" 'BEGIN {
        srand(1)
        print "begin 1"
        for (k = 0; k < count; k++) {
            place = int(among * rand())
            printf "fetch 1 r %d.%d\n", int(place / 128), place % 128
        }
    }'
}

# So many changes of tuples in one transaction, of one kind or of each in turn, far apart among so many
# tuples.
changes() {
    awk -v kind="$1" -v count="$2" -v among="$3" 'BEGIN {
        print "begin 1"
        for (k = 0; k < count; k++) {
            place = k * 131 % among
            tid = int(place / 128) "." place % 128
            if (kind == "insert" || kind == "each" && k % 3 == 0) print "insert 1 r " k
            else if (kind == "update" || kind == "each" && k % 3 == 1) print "update 1 r " tid " " k
            else print "delete 1 r " tid
        }
    }'
}

# The same script for sqlite3.
to_sql() {
    awk 'BEGIN { print "PRAGMA synchronous=FULL;\nSELECT count(*) FROM sqlite_master;" }
        /^begin/ { print "BEGIN;" }
        /^insert 1 r/ { print "INSERT INTO r VALUES(" $4 ");" }
        /^insert 1 t/ { print "INSERT INTO t VALUES(" $4 ", " $5 ", \047" substr($6, 2, length($6) - 2) "\047);" }
        /^update/ { split($4, tid, "."); print "UPDATE r SET v=" $5 " WHERE rowid=" tid[1] * 128 + tid[2] + 1 ";" }
        /^delete/ { split($4, tid, "."); print "DELETE FROM r WHERE rowid=" tid[1] * 128 + tid[2] + 1 ";" }
        /^fetch/ { split($4, tid, "."); print "SELECT v FROM r WHERE rowid=" tid[1] * 128 + tid[2] + 1 ";" }
        /^end/ { print "COMMIT;" }' "$1.script" >"$1.sql"
}

# part FILE COUNT: the first so many lines of a script, to which the last one of them has a reply, and
# the rest.
part() {
    head -n "$2" "$1" >"$1.first"
    tail -n +$(($2 + 1)) "$1" >"$1.rest"
}

# Files.

must_be_granted() {
    if grep -m 1 refused replies >&2; then exit 1; fi
}

make_store() {
    "$rss" format "store.$1.$2" "$1" 160 >replies
    { definitions && filling "$1" "$2"; } >filling.script
    "$rss" run "store.$1.$2" <filling.script >replies
    must_be_granted
}

make_database() {
    sqlite3 "$1.$2" "PRAGMA journal_mode=$1; CREATE TABLE r(v INTEGER);
        CREATE TABLE t(a INTEGER, b INTEGER, c TEXT);
        INSERT INTO r SELECT value FROM generate_series(0, $2 - 1);" >replies
    grep -qx "$1" replies
}

# A copy of a file, on the disk, to work on.
copy() {
    rm -f work*
    cp "$1" work
    sync work
}

# Work.

run_store() { "$rss" run work; }
run_sqlite() { sqlite3 work; }
write_lines() { dd if=/dev/zero of=lines bs=5 count="$1" 2>errors; }

# What so many commits have at least to write, to pages that are there: a root, and the selector, each
# brought to safety.
write_pages() {
    local page
    for page in root selector; do
        dd if=/dev/zero of=pages bs=4096 count="$1" oflag=dsync conv=notrunc 2>errors
    done
}

# For how many microseconds so far some process had to wait for a processor, as far as the system
# tells it.
look_for_waits() {
    local line="total=0"
    read -r line 2>/dev/null </proc/pressure/cpu || true
    waits="${line##*total=}"
}

# Waits for two seconds in which processes had to wait for less than a tenth of the time.
wait_for_quiet() {
    local before
    while [ "$patience" -gt 0 ]; do
        look_for_waits
        before="$waits"
        sleep 2
        patience=$((patience - 2))
        look_for_waits
        if [ $((waits - before)) -lt 200000 ]; then return; fi
    done
}

declare -A times works
all_times=0
all_waits=0
TIMEFORMAT='%3U %3S'

# timed NAME COMMAND..: how long the command takes from the moment that is in the file `start`, in
# microseconds, for each run, and how much of the processors' time in all, in milliseconds.
timed() {
    local name="$1" took before
    shift
    look_for_waits
    before="$waits"
    echo "${EPOCHREALTIME/[.,]/}" >start
    { time "$@" >replies; } 2>work_time
    took=$((${EPOCHREALTIME/[.,]/} - $(<start)))
    look_for_waits
    all_times=$((all_times + took))
    all_waits=$((all_waits + waits - before))
    must_be_granted
    times[$name]+="$took "
    works[$name]+="$(awk 'END { print ($1 + $2) * 1000 }' work_time) "
}

# Gives a script to the command that reads it. Where the script has a first part, the clock starts
# anew once that has its reply: the file is open then.
give() {
    local rest
    if [ -s "$1.first" ]; then
        rest="$(<"$1.rest")"
        cat "$1.first"
        until [ -s replies ]; do sleep 0.002; done
        sleep 0.03
        echo "${EPOCHREALTIME/[.,]/}" >start
        printf '%s\n' "$rest"
    fi
}

# measure FILE NAME COMMAND SCRIPT: the script, run on a copy of the file. What is compared has the
# same name but for its first word.
measure() {
    copy "$1"
    wait_for_quiet
    : >replies
    timed "$2" "$3" < <(give "$4")
}

# What is compared is measured one behind the other, and each as often as the others.
measure_all() {
    local store slots tuples mode script scripts
    for store in "${stores[@]}"; do
        slots="${store% *}" tuples="${store#* }"
        scripts=(nothing commits)
        case "$store" in
            "65536 0") scripts+=(open ended threes) ;;
            "65536 1000000") scripts+=(one less near far inserted updated deleted each updated_near deleted_near) ;;
        esac
        for script in "${scripts[@]}"; do
            measure "store.$slots.$tuples" "$script store.$slots.$tuples" run_store "$script.script"
            for mode in "${modes[@]}"; do
                measure "$mode.$tuples" "$script $mode.$slots.$tuples" run_sqlite "$script.sql"
            done
        done
        timed "nothing pages.$slots.$tuples" write_pages 0
        timed "commits pages.$slots.$tuples" write_pages "$commits"
    done
    timed "nothing lines" write_lines 0
    timed "lines lines" write_lines 1000000
}

# Figures.

commas() {
    awk -v s="$1" 'BEGIN {
        while (match(s, /[0-9][0-9][0-9][0-9]($|,)/)) s = substr(s, 1, RSTART) "," substr(s, RSTART + 1)
        print s
    }'
}

# one_of WHICH NUMBER..: the least of the numbers, or the median one.
one_of() {
    local which="$1" sorted
    shift
    mapfile -t sorted < <(printf '%s\n' "$@" | sort -n)
    case "$which" in least) echo "${sorted[0]}" ;; median) echo "${sorted[${#sorted[@]} / 2]}" ;; esac
}

time_of() { one_of "$1" ${times[$2]}; }

# rate_of WHICH COUNT SCRIPT FILE: how many a second, to three digits. Of bare writes the time of a run
# with nothing to do is left out.
rate_of() {
    local took
    took="$(time_of "$1" "$3 $4")"
    case "$4" in pages* | lines) took=$((took - $(time_of "$1" "nothing $4"))) ;; esac
    commas "$(awk -v n="$2" -v t="$took" 'BEGIN {
        if (t <= 0) { print "?"; exit }
        rate = n * 1000000 / t
        unit = 1
        while (rate / unit >= 1000) unit *= 10
        printf "%d", int(rate / unit + 0.5) * unit
    }')"
}

rate() { echo "$(rate_of least "$@") ($(rate_of median "$@"))"; }

# times_as_many SCRIPT FILE OTHER: how many times as fast the script runs on the file as on the other
# one: the median of what each run of the two, which are made one behind the other, gave. A machine that
# changes its speed from run to run changes both.
times_as_many() {
    local mine theirs run ratios=()
    mine=(${times["$1 $2"]})
    theirs=(${times["$1 $3"]})
    for run in "${!mine[@]}"; do ratios+=($((100 * theirs[run] / mine[run]))); done
    one_of median "${ratios[@]}" | awk '{ printf "%.2f", $1 / 100 }'
}

# work_of WHICH COUNT SCRIPT FILE: the processor time of one line, in microseconds. That of a run with
# nothing to do is left out.
work_of() {
    awk -v n="$2" -v all="$(one_of "$1" ${works["$3 $4"]})" -v none="$(one_of "$1" ${works["nothing $4"]})" \
        'BEGIN { printf "%.2f", (all - none) * 1000 / n }'
}

# says_something SCRIPT FILE: whether the median means something where an opening is taken off: not where
# an opening takes three times as long as the work.
says_something() {
    local none
    none="$(one_of least ${works["nothing $2"]})"
    awk -v none="$none" -v all="$(one_of least ${works["$1 $2"]})" 'BEGIN { exit !(4 * none < 3 * all) }'
}

work() {
    local median=""
    if says_something "$2" "$3"; then median=" ($(work_of median "$@"))"; fi
    echo "$(work_of least "$@")$median"
}

milliseconds() { awk -v t="$(time_of least "nothing $1")" 'BEGIN { printf "%.1f", t / 1000 }'; }

row() {
    local cell
    for cell in "$@"; do printf '| %s ' "$cell"; done
    echo "|"
}

# rates WHAT COUNT SCRIPT SLOTS TUPLES BARE
rates() {
    row "$1" "$(commas "$4")" "$(commas "$5")" "$(rate "$2" "$3" "store.$4.$5")" \
        "$(rate "$2" "$3" "delete.$4.$5")" "$(rate "$2" "$3" "wal.$4.$5")" "$6"
}

# work_row WHAT COUNT SCRIPT SLOTS TUPLES
work_row() {
    row "$1" "$(commas "$4")" "$(commas "$5")" "$(work "$2" "$3" "store.$4.$5")" \
        "$(work "$2" "$3" "delete.$4.$5")" "$(work "$2" "$3" "wal.$4.$5")"
}

# ratios WHAT SCRIPT SLOTS TUPLES
ratios() {
    row "$1" "$(commas "$3")" "$(commas "$4")" "$(times_as_many "$2" "store.$3.$4" "delete.$3.$4")" \
        "$(times_as_many "$2" "store.$3.$4" "wal.$3.$4")"
}

# calls FILE COMMAND..: the writes to a file, its journal and its log, their bytes, and all syncs, of
# each commit.
calls() {
    copy "$1"
    shift
    strace -f -y -s 0 -e trace=write,pwrite64,fsync,fdatasync -o calls "$@" >replies <"$input"
    must_be_granted
    awk -v n="$commits" '/write(64)?\([0-9]+<[^>]*\/work(-[a-z]+)?>/ { writes++; bytes += $NF }
        /sync\(/ { syncs++ }
        END { printf "%.1f writes of %.1f KiB in all, %.1f syncs", writes / n, bytes / n / 1024, syncs / n }' calls
}

store_calls() {
    local input=commits.script
    if [ -n "$(command -v strace)" ]; then
        calls "store.$1.0" "$rss" run work
    else
        echo "not counted: no strace"
    fi
}

sqlite_calls() {
    local input=commits.sql
    if [ -n "$(command -v strace)" ]; then calls "$1.0" sqlite3 work; else echo "not counted: no strace"; fi
}

peak() {
    if [ -x /usr/bin/time ]; then
        copy "store.$1.$2"
        /usr/bin/time -f %M -o peak "$rss" run work <"$3.script" >replies
        awk '{ printf "%.1f", $1 / 1024 }' peak
    else
        echo "?"
    fi
}

load() { cut -d ' ' -f 1-3 /proc/loadavg; }

# The first call of the launcher builds the program.
"$top/rss" format first 64 8 >replies

echo "preparing the files" >&2
: >nothing.script
inserts 8000 >open.script
{ inserts 8000 && echo "end 1"; } >ended.script
{ threes 8000 && echo "end 1"; } >threes.script
transactions "$commits" >commits.script
fetches 1000000 1 >one.script
fetches 100000 1 >less.script
fetches 200000 20000 >near.script
fetches 200000 1000000 >far.script
changes insert 6000 1000000 >inserted.script
changes update 6000 1000000 >updated.script
changes delete 6000 1000000 >deleted.script
changes each 6000 1000000 >each.script
changes update 6000 20000 >updated_near.script
changes delete 6000 20000 >deleted_near.script
for script in *.script; do to_sql "${script%.script}"; done
for script in *.script; do part "$script" 1; done
for script in *.sql; do part "$script" 2; done
for store in "${stores[@]}"; do make_store ${store/ / }; done
for mode in "${modes[@]}"; do
    for tuples in "${databases[@]}"; do make_database "$mode" "$tuples"; done
done
dd if=/dev/zero of=pages bs=4096 count="$commits" 2>errors
sync

# Both give the same values.
copy store.65536.1000000
run_store <far.script | sed -n 's/^ok \([0-9]\)/\1/p' >values
copy delete.1000000
run_sqlite <far.sql | tail -n +2 | cmp - values
[ "$(wc -l <values)" = 200000 ]

before="$(load)"
for ((run = 1; run <= runs; run++)); do
    echo "run $run of $runs, load average $(load)" >&2
    measure_all
done

echo "$(date -u +%F), $(nproc) processors ($(awk -F ': ' '/model name/ { print $2; exit }' /proc/cpuinfo)), $(uname -sr), $(df --output=fstype . | tail -n 1)"
echo "sqlite3 $(sqlite3 --version | cut -d ' ' -f 1); the least of $runs runs, in brackets the median; load average $before before, $(load) after"
echo "in $((100 * all_waits / all_times)) % of the time that was measured some process had to wait for a processor"
echo
row "A second" slots tuples rss "sqlite, DELETE" "sqlite, WAL" "bare writes"
row --- ---: ---: ---: ---: ---: ---:
lines="$(rate 1000000 lines lines)"
rates "inserts, 8,000 in one transaction, not ended" 8000 open 65536 0 "$lines"
rates "the same with its end" 8000 ended 65536 0 ""
rates "the same of two INTs and a TEXT of 20 bytes, with its end" 8000 threes 65536 0 ""
for store in "${stores[@]}"; do
    slots="${store% *}" tuples="${store#* }"
    rates "commits of one insert" "$commits" commits "$slots" "$tuples" "$(rate "$commits" commits "pages.$slots.$tuples")"
done
rates "inserts, 6,000 in one transaction, not ended" 6000 inserted 65536 1000000 "$lines"
rates "updates, the same" 6000 updated 65536 1000000 "$lines"
rates "deletes, the same" 6000 deleted 65536 1000000 "$lines"
rates "each in turn, the same" 6000 each 65536 1000000 "$lines"
rates "updates among 20,000 tuples, the same" 6000 updated_near 65536 1000000 "$lines"
rates "deletes among 20,000 tuples, the same" 6000 deleted_near 65536 1000000 "$lines"
rates "fetches of one tuple, 100,000" 100000 less 65536 1000000 "$lines"
rates "fetches of one tuple, 1,000,000" 1000000 one 65536 1000000 "$lines"
rates "fetches among 20,000 tuples" 200000 near 65536 1000000 "$lines"
rates "fetches among 1,000,000 tuples" 200000 far 65536 1000000 "$lines"
echo
row "Times as many as sqlite's" slots tuples DELETE WAL
row --- ---: ---: ---: ---:
ratios "inserts, 8,000 in one transaction, not ended" open 65536 0
ratios "the same with its end" ended 65536 0
ratios "the same of two INTs and a TEXT of 20 bytes, with its end" threes 65536 0
ratios "inserts, 6,000 in one transaction, not ended" inserted 65536 1000000
ratios "updates, the same" updated 65536 1000000
ratios "deletes, the same" deleted 65536 1000000
ratios "each in turn, the same" each 65536 1000000
ratios "updates among 20,000 tuples, the same" updated_near 65536 1000000
ratios "deletes among 20,000 tuples, the same" deleted_near 65536 1000000
ratios "fetches among 20,000 tuples" near 65536 1000000
ratios "fetches among 1,000,000 tuples" far 65536 1000000
echo
row "Microseconds of processor time a line" slots tuples rss "sqlite, DELETE" "sqlite, WAL"
row --- ---: ---: ---: ---: ---:
work_row "inserts, 8,000 in one transaction with its end" 8000 ended 65536 0
work_row "the same of two INTs and a TEXT of 20 bytes" 8000 threes 65536 0
work_row "fetches among 1,000,000 tuples" 200000 far 65536 1000000
echo
row "Milliseconds" slots tuples rss "sqlite, DELETE" "sqlite, WAL"
row --- ---: ---: ---: ---: ---:
for store in "${stores[@]}"; do
    slots="${store% *}" tuples="${store#* }"
    row "a run with nothing to do" "$(commas "$slots")" "$(commas "$tuples")" "$(milliseconds "store.$slots.$tuples")" \
        "$(milliseconds "delete.$slots.$tuples")" "$(milliseconds "wal.$slots.$tuples")"
done
echo
row "A commit of one insert" "To the files"
row --- ---
for slots in 64 4096 65536; do row "rss, $(commas "$slots") slots" "$(store_calls "$slots")"; done
row "sqlite, DELETE" "$(sqlite_calls delete)"
row "sqlite, WAL" "$(sqlite_calls wal)"
echo
row "Peak memory, MiB" slots tuples rss
row --- ---: ---: ---:
row "100,000 fetches" 64 2,000 "$(peak 64 2000 less)"
row "1,000,000 fetches" 64 2,000 "$(peak 64 2000 one)"
row "200,000 fetches among 1,000,000 tuples" 65,536 1,000,000 "$(peak 65536 1000000 far)"
