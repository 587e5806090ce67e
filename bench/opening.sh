#!/usr/bin/env bash
# Times the opening of stores on real files, by how many commits they have: each of one note, the text of
# which has 100 bytes. It prints, for each, the device's bytes that are read and the best of ten runs.
#
#   bench/opening.sh
#
# It needs the toolchain alone (the command rt), and builds the program if that isn't done.
set -eu

here=$(cd "$(dirname "$0")/.." && pwd)
program=$here/crates/tdb/out/tdb
command -v rt >/dev/null || { echo "opening: the command rt isn't there; nothing is timed"; exit 0; }
[ -x "$program" ] || (cd "$here/crates/tdb" && rt run </dev/null >/dev/null 2>&1) || true
[ -x "$program" ] || { echo "opening: the program isn't built"; exit 1; }

folder=$(mktemp -d)
trap 'rm -rf "$folder"' EXIT
cd "$folder"
head -c 32 /dev/urandom >secret
printf 'quit\n' >quit
text=$(head -c 100 /dev/zero | tr '\0' x)

printf '%8s %12s %12s\n' commits 'bytes read' 'best, ms'
for commits in 1 125 250 500 999; do
    : >device
    : >anchor
    for number in $(seq "$commits"); do
        printf 'begin %d\nnew %d note %s\ncommit %d\n' "$number" "$number" "$text" "$number"
    done >script
    echo quit >>script
    "$program" device anchor secret start plain 64 <script >/dev/null
    best=
    for _ in 1 2 3 4 5 6 7 8 9 10; do
        from=$(date +%s%N)
        "$program" device anchor secret run <quit >/dev/null
        took=$(($(date +%s%N) - from))
        if [ -z "$best" ] || [ "$took" -lt "$best" ]; then
            best=$took
        fi
    done
    # The texts, the table, the opening list, and each commit's list.
    printf '%8d %12d %12s\n' "$commits" $(((commits + 2) * 256 + 576 + 208 + commits * 136)) \
        "$(printf '%d.%03d' $((best / 1000000)) $((best / 1000 % 1000)))"
done
