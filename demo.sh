#!/usr/bin/env bash
# Makes a database on real files, commits a note to it, reads it in a later run, has the device altered behind its back,
# and copies the notes. It checks every answer and place.
#
#   ./demo.sh            in a temporary folder, which is removed at the end
#   ./demo.sh FOLDER     in that folder, which must not be there yet, and stays
#
# It needs the toolchain alone (the command rt). Only what is proved is built, so the first run on a
# machine proves each crate, which takes some minutes. Later runs find the program built.
set -eu

fail() {
    printf 'demo: %s\n' "$1" >&2
    exit 1
}

# expect WHAT WANTED FOUND
expect() {
    [ "$2" = "$3" ] || fail "$1 should be: $2
demo: but it is: $3"
}

# tdb WORDS..: runs the program over the files, with the script on standard input
tdb() {
    status=0
    "$program" device anchor secret "$@" >replies || status=$?
}

# mark_of_anchor: the digest that the anchor has
mark_of_anchor() {
    od -An -v -tx1 -j8 anchor | tr -d ' \n'
}

# put_byte PLACE BYTE: the device's holder alters one byte
put_byte() {
    printf '%s' "$2" | dd of=device bs=1 seek="$1" conv=notrunc status=none
}

# begun_then_stopped: device and anchor as a stop leaves them that comes behind the sync of the second note's commit and before the
# anchor is exchanged
begun_then_stopped() {
    cp device.after device
    cp anchor.before anchor
}

# count_of_anchor: the count that the anchor has, in hexadecimal digits
count_of_anchor() {
    od -An -v -tx1 -N8 anchor | tr -d ' \n'
}

# piece PLACE LENGTH: so many bytes of the device from a place on
piece() {
    tail -c "+$(($1 + 1))" device | head -c "$2"
}

here=$(cd "$(dirname "$0")" && pwd)
program=$here/crates/tdb/out/tdb

echo "== Proving and building the program"
command -v rt >/dev/null || fail "the command rt isn't there: put the toolchain's bin on the PATH"
# 'rt run' proves, builds and runs. Run without words, the program says 'usage': then it was built.
log=$(mktemp)
(cd "$here/crates/tdb" && rt run </dev/null) 2>&1 | tee "$log"
grep -qx usage "$log" || fail "the program wasn't built"
rm "$log"

if [ $# -gt 0 ]; then
    mkdir "$1"
    cd "$1"
else
    folder=$(mktemp -d)
    trap 'rm -rf "$folder"' EXIT
    cd "$folder"
fi

echo "== An empty device, an empty anchor and a secret of 32 random bytes, in $PWD"
: >device
: >anchor
head -c 32 /dev/urandom >secret
printf '%s\n' 'begin 1' 'new 1 note hello' 'commit 1' 'quit' >script

echo "== tdb device anchor secret start plain 16 <script"
tdb start plain 16 <script
paste -d '|' script replies | sed 's/|/   ->   /'
echo "status $status"
expect "the status" 0 "$status"
expect "the replies" "begun 1
made 1 1
committed 1
bye" "$(cat replies)"

echo "== The anchor: the count of commit texts in 8 bytes, and the SHA-256 of the last text"
od -An -v -tx1 anchor
expect "the count" 0000000000000003 "$(count_of_anchor)"
expect "the mark" "$(piece 512 256 | sha256sum | head -c 64)" "$(mark_of_anchor)"

echo "== The places that were written: place, length, first 8 bytes"
while read -r place length magic what; do
    printf '%8d %6d  %s  %s\n' "$place" "$length" "$magic" "$what"
    expect "what stands at $place" "$magic" "$(piece "$place" 8)"
    end=$((place + length))
done <<'PLACES'
0 256 TDBCMT01 text 1, the checkpoint that a new store begins with
256 256 TDBCMT01 text 2, the commit that makes two partitions
512 256 TDBCMT01 text 3, the commit of the note
262144 576 TDBREC01 the segment table that text 1 names
262720 208 TDBREC01 the change list that text 2 names
262928 69 TDBREC01 the note, sealed
262997 136 TDBREC01 the change list that text 3 names
PLACES
expect "the device's length" "$end" "$(($(wc -c <device)))"
expect "the note" hello "$(piece 262992 5)"

echo "== A store isn't made twice: the same words again"
before=$(sha256sum device anchor)
tdb start plain 16 <script
cat replies
expect "the last line" "already formatted" "$(cat replies)"
expect "the status" 3 "$status"
expect "the files" "$before" "$(sha256sum device anchor)"

echo "== A later run finds the note: tdb device anchor secret run <get"
printf '%s\n' 'begin 1' 'get 1 1' 'quit' >get
tdb run <get
paste -d '|' get replies | sed 's/|/   ->   /'
expect "the status" 0 "$status"
expect "the replies" "begun 1
got 1 1 note hello
bye" "$(cat replies)"
expect "the files" "$before" "$(sha256sum device anchor)"

echo "== The device's holder alters one byte of the note, hello to jello: the same run again"
put_byte 262992 j
tdb run <get
paste -d '|' get replies | sed 's/|/   ->   /'
expect "the status" 0 "$status"
expect "the replies" "begun 1
tampered 1 1
bye" "$(cat replies)"
put_byte 262992 h

echo "== One byte of the last commit text is altered: the run doesn't start"
cp device kept
put_byte 560 x
tdb run <get
cat replies
echo "status $status"
expect "the status" 4 "$status"
expect "the last line" "tampered 512 $(mark_of_anchor) $(piece 512 256 | sha256sum | head -c 64)" "$(cat replies)"
cp kept device

echo "== Another note is committed, and the device of before is put back: the anchor tells"
cp anchor anchor.before
printf '%s\n' 'begin 2' 'new 2 note world' 'commit 2' 'quit' >script
tdb run <script
paste -d '|' script replies | sed 's/|/   ->   /'
expect "the status" 0 "$status"
expect "the replies" "begun 2
made 2 2
committed 2
bye" "$(cat replies)"
cp device device.after
cp kept device
tdb run <get
cat replies
echo "status $status"
expect "the status" 4 "$status"
expect "the last line" "tampered 768 $(mark_of_anchor) $(piece 768 256 | sha256sum | head -c 64)" "$(cat replies)"

echo "== A stop before the anchor was exchanged: the commit stands whole, and the next run takes it"
begun_then_stopped
printf '%s\n' 'begin 1' 'get 1 2' 'quit' >get
tdb run <get
paste -d '|' get replies | sed 's/|/   ->   /'
expect "the status" 0 "$status"
expect "the replies" "begun 1
got 1 2 note world
bye" "$(cat replies)"
expect "the count" 0000000000000004 "$(count_of_anchor)"

echo "== A stop that tore the commit's text: it is passed over"
begun_then_stopped
head -c 100 /dev/zero | tr '\0' '\377' | dd of=device bs=1 seek=900 conv=notrunc status=none
tdb run <get
paste -d '|' get replies | sed 's/|/   ->   /'
expect "the status" 0 "$status"
expect "the replies" "begun 1
refused no object 1 2
bye" "$(cat replies)"
expect "the count" 0000000000000003 "$(count_of_anchor)"

echo "== One that tore the note: the text stands, the note doesn't, and the commit is passed over"
begun_then_stopped
put_byte 263190 x
tdb run <get
paste -d '|' get replies | sed 's/|/   ->   /'
expect "the status" 0 "$status"
expect "the replies" "begun 1
refused no object 1 2
bye" "$(cat replies)"
expect "the count" 0000000000000003 "$(count_of_anchor)"

echo "== The holder hides such a commit, lets another be made in its place, and puts it back: the anchor tells"
begun_then_stopped
head -c 256 /dev/zero | dd of=device bs=1 seek=768 conv=notrunc status=none
printf '%s\n' 'begin 1' 'new 1 note three' 'commit 1' 'quit' >script
tdb run <script
paste -d '|' script replies | sed 's/|/   ->   /'
expect "the status" 0 "$status"
expect "the replies" "begun 1
made 1 2
committed 1
bye" "$(cat replies)"
cp device.after device
tdb run <get
cat replies
echo "status $status"
expect "the status" 4 "$status"
expect "the last line" "tampered 768 $(mark_of_anchor) $(piece 768 256 | sha256sum | head -c 64)" "$(cat replies)"

echo "== A new store under a new secret, and a copy of its notes as partition 3: a note that is committed behind the copy isn't in it"
: >device
: >anchor
head -c 32 /dev/urandom >secret
printf '%s\n' 'begin 1' 'new 1 note one' 'commit 1' 'snapshot 3' 'begin 2' 'new 2 note two' 'commit 2' 'parts' 'peek 3 1' 'peek 3 2' \
    'quit' >script
tdb start plain 16 <script
paste -d '|' script replies | sed 's/|/   ->   /'
expect "the status" 0 "$status"
expect "the replies" "begun 1
made 1 1
committed 1
snapshot 3
begun 2
made 2 2
committed 2
parts 3 1 2 3
peeked 3 1 note one
refused no object 3 2
bye" "$(cat replies)"

echo "== In a later run the copy is dropped: it is gone, and the notes stay"
printf '%s\n' 'peek 3 1' 'drop 3' 'parts' 'peek 3 1' 'begin 1' 'get 1 1' 'get 1 2' 'quit' >script
tdb run <script
paste -d '|' script replies | sed 's/|/   ->   /'
expect "the status" 0 "$status"
expect "the replies" "peeked 3 1 note one
dropped 3
parts 2 1 2
refused partition 3
begun 1
got 1 1 note one
got 1 2 note two
bye" "$(cat replies)"

echo "== All as it should be"
