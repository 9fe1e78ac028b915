#!/usr/bin/env bash
# What the launcher `rss` does around the program: words that are no command, the first use, one that
# fails and one that is broken off, statuses, what it says of a run, `-k`, and prompts. A stub stands for
# the program and one for the kit's command, so nothing is proved. Each check prints a line, and says
# what was there in place of what should be.
#
# usage: launcher.sh
# Its files lie in a folder of their own below TMPDIR, or /tmp. A terminal is made by `script` of
# util-linux; without it those checks are left out.
set -uo pipefail

top="$(cd "$(dirname "$0")/.." && pwd)"
folder="$(mktemp -d)"
trap 'rm -rf "$folder"' EXIT
cd "$folder" || exit
failures=0

report() {
    if [ -z "$2" ]; then
        echo "ok      $1"
    else
        echo "FAILED  $1:$2"
        failures=$((failures + 1))
    fi
}

# The launcher in a folder of its own, with four crates of the program, and one that it doesn't need.
mkdir -p bare kit checkout/crates/rss_{base,restart,words,rows,program}/src
cp "$top/rss" checkout
touch checkout/crates/rss_{base,restart,words,rows,program}/src/lib.rt
printf '%s\n' '# crates' 'rss_base: thiserror' 'rss_restart: rss_base' 'rss_words: rss_base clap' 'rss_rows: rss_base' \
    'rss_program: rss_base rss_restart rss_words' >checkout/crates.txt

# The stub of the program: a line of a script may ask for a reply, or for the status with which it ends.
cat >program <<'END'
#!/usr/bin/env bash
trap '' PIPE
case "$1 ${2-}" in
    "run none") exit 4 ;;
    "run hello") echo "not a store size" && exit 5 ;;
    "run "*) ;;
    *) echo ok && exit "${STATUS-0}" || exit 3 ;;
esac 2>/dev/null
LC_ALL=C
while IFS= read -r line || [ -n "$line" ]; do
    call="${line#"${line%%[! ]*}"}"
    case "$((${#line} > 8192)) $call" in
        "0 " | "0 #"*) ;;
        *" say "*) echo "${call#say }" || exit 3 ;;
        *" stop "*) exit "${call#stop }" ;;
        *" wait") sleep 60 ;;
        *) echo ok || exit 3 ;;
    esac
done 2>/dev/null
END

# The stub of the kit's command: it notes what it is asked for, and does as the file `how` says.
cat >kit/rt <<'END'
#!/usr/bin/env bash
folder="$(dirname "$0")/.."
how="$(cat "$folder/how")"
if [ "$1" = version ]; then
    echo "a kit of straw"
    exit
fi
echo "${PWD##*/}: ${*/#*first.store/FILE}" >>"$folder/calls"
if [ "$1" = all ]; then
    for crate in rss_base rss_restart; do
        echo "== $crate"
        if [ "$how" != again ]; then
            printf 'fn %s::call: proved\ncrate %s: modules loaded=0 checked=1\n' "$crate" "$crate"
            echo "logic=proved functions=1"
        fi
        if [ "$how" = hangs ]; then
            sleep 60 &
            echo $! >"$folder/hanging"
            wait
        fi
    done
    echo "== summary"
    if [ "$how" = unproved ]; then
        echo "error: a clause of straw"
        exit 1
    fi
elif [ "$how" = unbuilt ]; then
    echo "error: a linker of straw"
    exit 2
else
    printf 'rt: chose --jobs 4 for %s\n' rss_words rss_program >&2
    sleep 1
    mkdir -p out
    cp "$folder/program" out/rss_program
    out/rss_program "${@:3}"
fi
END
chmod +x program kit/rt
ln -s "$(command -v bash)" bare/bash
export PATH="$folder/kit:$PATH"

# forget: as if the program was never used
forget() {
    rm -rf checkout/crates/rss_program/out
    rm -f hanging
    : >calls
}

# try WORDS..: the launcher, whose streams go to `replies` and `errors`, and its status
try() {
    status=0
    checkout/rss "$@" >replies 2>errors || status=$?
}

# faults_of STATUS REPLIES ERRORS CALLS: what is not as it should be, by the status, the replies, lines
# that standard error should have, and what the kit should have been asked for
faults_of() {
    local line
    if [ "$status" != "$1" ]; then printf ' status %s, not %s;' "$status" "$1"; fi
    if [ "$(cat replies)" != "$2" ]; then printf ' other replies;'; fi
    while IFS= read -r line; do
        if [ -n "$line" ] && ! grep -qxF -- "$line" errors; then printf ' it did not say: %s;' "$line"; fi
    done <<<"$3"
    if [ "$(cat calls)" != "$4" ]; then printf ' the kit was asked for other things;'; fi
}

jobs="$(nproc)"
memory="$(awk '/^MemAvailable:/ { print int($2 / 3000000) }' /proc/meminfo)"
if [ "$memory" -lt "$jobs" ]; then jobs="$memory"; fi
if [ "$jobs" -lt 1 ]; then jobs=1; fi
first_use="rss_restart: all check --jobs $jobs"$'\n'"rss_program: run -- format FILE 64 8"
usage="usage: rss format FILE N G | run FILE | gen NUMBER COUNT | trial FILE NUMBER COUNT | talk FILE"
echo proves >how

# Words that are no command, before any proof.
forget
while IFS= read -r words; do
    # shellcheck disable=SC2086
    try $words </dev/null
    faults="$(faults_of 1 "" "$usage" "")"
    if [ "$(head -n 1 errors)" != "$usage" ]; then faults+=" the usage is not the first line;"; fi
    report "rss $words" "$faults"
done <<'END'

run
run a b
run -a
run -k
run -k a
runs a
format a 64
format -a 64 8
format a 064 8
format a 64 8 8
gen 1
gen 1 0
gen 1 100001
gen -1 1
gen 18446744073709551616 1
trial a 1
trial a 1 01
talk
talk a b
talk -a
talk a -k
help me
--version now
END
try "" </dev/null
report "rss with an empty word" "$(faults_of 1 "" "$usage" "")"

# Help, which is what no words give, and the version.
try
mv errors help
for words in --help -h help; do
    try "$words"
    faults="$(faults_of 0 "$(cat help)" "" "")"
    for part in "format FILE N G " "run FILE " "run FILE -k " "gen NUMBER COUNT " "trial FILE NUMBER COUNT " "talk FILE " \
        "run my.store < " docs/SCRIPT.md; do
        if ! grep -qF -- "$part" replies; then faults+=" it does not tell $part;"; fi
    done
    report "rss $words" "$faults"
done
try --version
commit="$(git -C checkout describe --always --dirty --exclude='*' 2>/dev/null || echo unknown)"
report "rss --version" "$(faults_of 0 $'a kit of straw\n'"commit $commit" "" "")"

# The first use, a second one, and one after an edit.
printf 'begin 1\nend 1\n' >script
try run a <script
report "a first use" "$(faults_of 0 $'ok\nok' \
    $'rss: 3 of 4 crates are done, after 0 min\nrss: the program is built, in 0 min' "$first_use")"
: >calls
try run a <script
report "a second use" "$(faults_of 0 $'ok\nok' "" "")"
sleep 0.1
touch checkout/crates/rss_rows/src/lib.rt
try run a <script
report "a use after an edit of code that the program doesn't need" "$(faults_of 0 $'ok\nok' "" "")"
echo again >how
touch checkout/crates/rss_words/src/lib.rt
try run a <script
report "a use after an edit" "$(faults_of 0 $'ok\nok' "rss: 3 of 4 crates are done, after 0 min" "$first_use")"
forget
try format a 64 8 </dev/null
report "a first use that makes a store" "$(faults_of 0 ok "" "$first_use")"

# A first use that fails.
forget
echo unproved >how
try run a <script
report "a first use without a proof" "$(faults_of 70 "" \
    $'error: a clause of straw\nrss: the program could not be proved' "${first_use%%$'\n'*}")"
if grep -q ': proved' errors; then report "what failed" " it shows what is proved;"; fi
forget
echo unbuilt >how
try run a <script
report "a first use without a linker" "$(faults_of 70 "" \
    $'error: a linker of straw\nrss: the program could not be built' "$first_use")"
forget
PATH=bare try run a <script
report "a first use without the kit" "$(faults_of 70 "" \
    "rss: the command rt of Rattle's kit is not on the path" "")"

# kit_goes_on: a fault if what the kit started still runs after a second
kit_goes_on() {
    local wait
    for ((wait = 0; wait < 10; wait++)); do
        case "$(ps -o stat= -p "$(cat hanging)")" in
            "" | Z*) return ;;
        esac
        sleep 0.1
    done
    printf ' the kit goes on;'
}

# A first use that is broken off: it ends with what the kit does, and the next one goes on.
for signal in INT TERM HUP; do
    forget
    echo hangs >how
    # With jobs of their own, as a shell that somebody types to has them, since a job of a script has
    # the first of these signals ignored.
    set -m
    checkout/rss run a <script >replies 2>errors &
    set +m
    for ((wait = 0; wait < 100; wait++)); do
        if [ -s hanging ] && grep -q '1 of 4' errors; then break; fi
        sleep 0.1
    done
    kill -s "$signal" $! && wait $! 2>/dev/null
    status=$?
    faults="$(faults_of $((128 + $(kill -l "$signal"))) "" "rss: 1 of 4 crates are done, after 0 min" \
        "${first_use%%$'\n'*}")"
    report "a first use that is broken off by $signal" "$faults$(kit_goes_on)"
done
echo proves >how
: >calls
try run a <script
report "a first use behind it" "$(faults_of 0 $'ok\nok' "" "$first_use")"
: >calls

# Statuses are handed on, each with its cause and what is to be done.
# ends STATUS WHAT NEXT WORDS..: a command that ends with a status
ends() {
    STATUS="$1" try "${@:4}"
    report "rss ${*:4}, with status $1" "$(faults_of "$1" "$(cat replies)" "rss: $2"$'\n'"rss:     $3" "")"
}
touch there
echo "stop 2" >script && ends 2 "standard input failed" \
    "each line that has its reply was run, and transactions that didn't end are dropped" run there <script
echo "stop 3" >script && ends 3 "standard output failed" \
    "each line that has its reply was run, and the next one may have been" run there <script
echo "stop 4" >script && ends 4 "there: it can't be opened, locked, read or written" \
    "another run may work on it, the disk may be full, or it may not be yours to write" run there <script
echo "stop 6" >script && ends 6 "memory ran out" \
    "the line without a reply changed nothing, and transactions that didn't end are dropped" run there <script
echo "stop 7" >script && ends 7 "the script has 2^30 bytes or more" \
    "its whole lines up to there were run, and transactions that didn't end are dropped" run there <script
echo "stop 10" >script && ends 10 "there: the store is damaged: something else has changed it" \
    "go back to a copy; what stands at the place that is named is in checkout/docs/STORE.md" run there <script
ends 4 "none: no such file" "to make it a store, checkout/rss format none 64 8" run none <script
ends 5 "hello: not a store, or none of this kind: the place that is named is out of form; nothing was written to it" \
    "if it was one, go back to a copy; to make it an empty one, checkout/rss format hello 64 8" run hello <script
ends 3 "standard output failed" "the store is made" format a 64 8
ends 3 "standard output failed" "each line that has its reply was run, and the next one may have been" talk there
ends 8 "N is 64 to 65536 and G is 8 to 4096; nothing was touched" \
    "how large a store should be is in checkout/docs/SCRIPT.md" format a 1 8
status=0
checkout/rss gen 1 1 2>errors >&- || status=$?
: >replies
report "rss gen 1 1, with standard output closed" "$(faults_of 3 "" "rss: standard output failed" "")"
echo "stop 77" >script && try run a <script
report "a status that has no cause" "$(faults_of 77 "" "" "")"

# `-k`, over a script in a file, over a pipe, and without a refusal.
printf '%s\n' 'begin 1' '' '  # the first' 'insert 1 r 7' 'begin 2' 'abort 2' 'say refused 9 no tuple r 0.2' \
    '$x = end 1' 'say refused 1 words' >script
all=$'ok\nok\nok\nok\nrefused 9 no tuple r 0.2\nok\nrefused 1 words'
some="${all%%$'\nok\nrefused 1 words'}"
refused=$'rss: lines refused: 1, the first of them line 7: say refused 9 no tuple r 0.2
rss:     refused 9 no tuple r 0.2
rss: transactions left open: 1, so what they changed is dropped'
try run a <script
report "a run without a terminal says nothing" "$(faults_of 0 "$all" "" "")$(head -n 1 errors)"
try run a -k <script
report "rss run a -k" "$(faults_of 0 "$some" "$refused" "")"
try run a -k < <(cat script)
report "rss run a -k, behind a pipe" "$(faults_of 0 "$some" "$refused" "")"
printf 'begin 1\n%8192s\n%8193s\nsay refused 15 full 64 66' '' '' >lines
try run a -k <lines
report "rss run a -k, with long lines and a last line without an end" "$(faults_of 0 \
    $'ok\nok\nrefused 15 full 64 66' "rss: lines refused: 1, the first of them line 4: say refused 15 full 64 66" "")"
printf 'begin 1\nend 1\n\n' >lines
try run a -k <lines
report "rss run a -k, without a refusal" "$(faults_of 0 $'ok\nok' "" "")$(head -n 1 errors)"
printf 'begin 1\nstop 10\nend 1\n' >lines
try run a -k <lines
report "rss run a -k, with a status" "$(faults_of 10 ok "rss: a: the store is damaged: something else has changed it" "")"
try run none -k <script
report "rss run none -k" "$(faults_of 4 "" "rss: none: no such file" "")"
try run hello -k <script
report "rss run hello -k" "$(faults_of 5 "not a store size" "" "")"
status=0
checkout/rss run a -k <script 2>errors >/dev/full || status=$?
: >replies
report "rss run a -k, with standard output full" "$(faults_of 3 "" "rss: standard output failed" "")"

# A line is given once the one before it has its reply.
mkfifo questions answers
checkout/rss run a -k <questions >answers 2>errors &
exec 7>questions 8<answers
faults=""
for line in 'begin 1' 'say ok 0.0' 'say refused 5 no such relation'; do
    echo "$line" >&7
    read -r -t 20 reply <&8 || reply=none
    case "$line: $reply" in
        "begin 1: ok" | "say $reply: $reply") ;;
        *) faults+=" $line got $reply;" ;;
    esac
done
wait $!
status=$?
exec 7>&- 8<&-
: >replies
report "rss run a -k, line by line" "$faults$(faults_of 0 "" \
    "rss: lines refused: 1, the first of them line 3: say refused 5 no such relation" "")"

# The reader of the replies goes.
seq 1 100000 | sed 's/.*/say ok &/' >many
checkout/rss run a <many 2>errors | head -n 1 >replies
status="${PIPESTATUS[0]}"
report "a reader that goes" "$(faults_of 3 "ok 1" "rss: standard output failed" "")"

# on_terminal COMMAND: the command on a terminal, which is given standard input; `errors` is what it shows
on_terminal() {
    : >replies
    status=0
    script -qec "$1" /dev/null >shown || status=$?
    tr -d '\r' <shown >errors
}

# type_in TEXT..: types the texts, one after another
type_in() {
    sleep 1
    for text in "$@"; do
        printf '%s' "$text"
        sleep 0.3
    done
}

# shows TEXT: a fault if the terminal showed something else
shows() {
    if [ "$(cat errors)" != "$1" ]; then printf ' it shows something else;'; fi
}

if [ -n "$(command -v script)" ]; then
    words="${refused/refused: 1/refused: 2}"
    words="${words%$'\n'*}"
    on_terminal "checkout/rss run a <script" </dev/null
    report "a run on a terminal" "$(faults_of 0 "" "$words" "")$(shows "$all"$'\n'"$words")"
    on_terminal "checkout/rss run a <script >replies" </dev/null
    report "a run with replies to a file" "$(faults_of 0 "$all" "$words" "")$(shows "$words")"
    on_terminal "echo first >replies && checkout/rss run a <script >>replies" </dev/null
    report "a run with replies behind others" "$(faults_of 0 $'first\n'"$all" "$words" "")$(shows "$words")"
    on_terminal "checkout/rss run a <script >/dev/null" </dev/null
    report "a run with replies to nowhere" "$(faults_of 0 "" "$words" "")$(shows "$words")"
    on_terminal "checkout/rss run a <script | cat >replies" </dev/null
    report "a run with replies to a pipe" "$(faults_of 0 "$all" "$words" "")$(shows "$words")"
    on_terminal "(read -r && checkout/rss run a) <script >replies" </dev/null
    words="${words/line 7/line 6}"
    report "a run from the second line on" "$(faults_of 0 "${all#*$'\n'}" "$words" "")"
    on_terminal "checkout/rss run a <script >replies 2>words; cat words" </dev/null
    report "a run with standard error in a file" "$(faults_of 0 "$all" "" "")$(shows "")"
    on_terminal "checkout/rss run a <script >/dev/full" </dev/null
    report "a run with standard output full" "$(faults_of 3 "" "rss: standard output failed" "")"
    printf 'begin 1\nend 1\n' >lines
    on_terminal "checkout/rss run a <lines" </dev/null
    report "a run on a terminal of which nothing is to be said" "$(faults_of 0 "" "" "")$(shows $'ok\nok')"

    # Prompts, for lines that are typed, the last of them without an end.
    typed=($'begin 1\n' $'# a comment\n' $'say refused 9 no tuple r 0.2\n' 'end 1' $'\004' $'\004')
    words=$'rss: lines refused: 1, the first of them line 3: say refused 9 no tuple r 0.2\nrss:     refused 9 no tuple r 0.2'
    on_terminal "checkout/rss run a >replies" < <(type_in "${typed[@]}")
    faults="$(faults_of 0 $'ok\nrefused 9 no tuple r 0.2\nok' "$words" "")"
    if [ "$(grep -o '> ' errors | wc -l)" != 4 ]; then faults+=" other prompts;"; fi
    report "lines that are typed" "$faults"
    on_terminal "checkout/rss run a -k >replies" < <(type_in "${typed[@]}")
    report "lines that are typed, with -k" "$(faults_of 0 $'ok\nrefused 9 no tuple r 0.2' "$words" "")"
    on_terminal "checkout/rss run hello" < <(sleep 1)
    faults="$(faults_of 5 "" "not a store size" "")"
    if grep -q '> ' errors; then faults+=" it prompts;"; fi
    report "no line is asked for where there is no store" "$faults"

    # Ctrl-C, in a run and in a first use.
    printf 'begin 1\nwait\n' >lines
    on_terminal "checkout/rss run a <lines" < <(type_in $'\003')
    report "a run that is broken off by Ctrl-C" "$(faults_of 130 "" ok "")"
    forget
    echo hangs >how
    on_terminal "checkout/rss run a <lines" < <(sleep 1 && type_in $'\003')
    faults="$(faults_of 130 "" "rss: 1 of 4 crates are done, after 0 min" "${first_use%%$'\n'*}")"
    report "a first use that is broken off by Ctrl-C" "$faults$(kit_goes_on)"
else
    echo "left out: script isn't there, so there is no terminal"
fi

if [ "$failures" -gt 0 ]; then
    echo "$failures checks failed"
    exit 1
fi
echo "all checks passed"
