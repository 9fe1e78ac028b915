#!/usr/bin/env bash
# How fast the engine's calls are in-process, beside SQLite's C API, LMDB and Berkeley DB as libraries.
#
# usage: peers.sh [COMMITS TUPLES BATCH [RUNS [IMAGES]]]
# It builds peers.c with those of the two last whose headers are there, and runs it in turn with
# crates/rss_speed. The first table is of COMMITS commits of one insert, inserts up to TUPLES tuples in
# transactions of BATCH, fetches, updates, and a scan; the second the same of IMAGES tuples, the third of
# IMAGES tuples with an index, put in a rising and in a scattered order, and a unique one: inserts,
# look-ups by key, and a scan.
set -euo pipefail

commits="${1:-200}" tuples="${2:-200000}" batch="${3:-8000}" runs="${4:-5}" images="${5:-100000}"
top="$(cd "$(dirname "$0")/.." && pwd)"
(cd "$top/crates/rss_speed" && rt run -- >/dev/null 2>&1) || true
speed="$top/crates/rss_speed/out/rss_speed"
folder="$(mktemp -d)"
trap 'rm -rf "$folder"' EXIT
peers="$folder/program"
libraries=(-lsqlite3)
for library in lmdb db; do
    if echo "#include <$library.h>" | cc -E - >/dev/null 2>&1; then
        libraries+=("-l$library")
    fi
done
cc -O2 -o "$peers" "$top/examples/peers.c" "${libraries[@]}"

# Each engine's work, run by run: a line each of a name and its rates.
measure() {
    for ((run = 1; run <= runs; run++)); do
        mkdir "$folder/peers"
        "$speed" "$folder/store" "$@"
        "$peers" "$folder/peers" "$@"
        rm -r "$folder/peers" "$folder/store"
    done
}

# table HEAD..: the best of the runs, under these heads.
table() {
    printf "| A second, the best of the runs"
    printf " | %s" "$@"
    printf " |\n| ---"
    printf " | ---:%.0s" "$@"
    printf " |\n"
    awk '
        {
            if (!($1 in seen)) { seen[$1] = 1; names[++count] = $1; rates[$1] = NF }
            for (k = 2; k <= NF; k++) if ($k > best[$1, k]) best[$1, k] = $k
        }
        END {
            for (n = 1; n <= count; n++) {
                line = "| " names[n] " |"
                for (k = 2; k <= rates[names[n]]; k++) line = line " " best[names[n], k] " |"
                print line
            }
        }'
}

for count in "$tuples" "$images"; do
    echo "Up to $count tuples:"
    measure "$commits" "$count" "$batch" | table "commits of one insert" inserts fetches updates "tuples of a scan"
    echo
done
for keys in rising scattered unique; do
    measure "$keys" "$images" "$batch"
done | table inserts look-ups "tuples of a scan"
