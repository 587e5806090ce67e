#!/usr/bin/env bash
# Starts the program on real files in the ways that we know could hurt a database, and checks each answer, each exit status
# and that the database is whole afterwards. Of files no contract speaks, so this stands behind the proofs.
#
#   ./check-program.sh [PROGRAM]
#
# Without a word it takes the program that 'rt ci' or 'rt run' left, and builds it where there is none.
set -eu

fail() {
    printf 'check-program: %s\n' "$1" >&2
    exit 1
}

# expect WHAT WANTED FOUND
expect() {
    [ "$2" = "$3" ] || fail "$1 should be: $2
check-program: but it is: $3"
}

# tdb WORDS..: runs the program over the files. Its standard input is that of the call
tdb() {
    status=0
    "$program" device anchor secret "$@" >replies || status=$?
}

# answers WHAT STATUS REPLIES: what the last run gave
answers() {
    expect "$1: the status" "$2" "$status"
    expect "$1: the replies" "$3" "$(cat replies)"
}

# new_folder: an empty folder with a secret and two scripts in it
new_folder() {
    folder=$(mktemp -d -p "$work")
    cd "$folder"
    head -c 32 /dev/zero | tr '\0' 's' >secret
    printf '%s\n' 'begin 1' 'new 1 note hello' 'commit 1' 'quit' >script
    printf '%s\n' 'begin 1' 'get 1 1' 'quit' >get
}

# new_store: such a folder, and a store that has the note hello as object 1
new_store() {
    new_folder
    tdb start plain 16 <script
    answers "a new store" 0 "$stored"
    before=$(sha256sum device anchor)
}

# whole WHAT: the files are as they were, and the note is read
whole() {
    expect "$1: the files" "$before" "$(sha256sum device anchor)"
    tdb run <get
    answers "$1: the next run" 0 "$found"
    expect "$1: the files after it" "$before" "$(sha256sum device anchor)"
}

# nothing_left WHAT: the folder has what new_folder puts there, and the named files
nothing_left() {
    local what=$1
    shift
    expect "$what: the folder" "$(printf '%s\n' get replies script secret "$@" | sort)" "$(ls)"
}

# mark: the digest that the anchor has
mark() {
    od -An -v -tx1 -j8 anchor | tr -d ' \n'
}

# digest PLACE LENGTH: that of a piece of the device
digest() {
    tail -c "+$(($1 + 1))" device | head -c "$2" | sha256sum | head -c 64
}

# put_byte PLACE BYTE: the device's holder alters one byte
put_byte() {
    printf '%s' "$2" | dd of=device bs=1 seek="$1" conv=notrunc status=none
}

here=$(cd "$(dirname "$0")" && pwd)
program=${1:-$here/crates/tdb/out/tdb}
if [ ! -f "$program" ]; then
    # 'rt run' proves, builds and runs. Run without words, the program says 'usage'.
    (cd "$here/crates/tdb" && rt run </dev/null) || true
fi
[ -f "$program" ] || fail "the program wasn't built"
work=$(mktemp -d)
trap 'rm -rf "$work"' EXIT
cp "$program" "$work/tdb"
chmod +x "$work/tdb"
program=$work/tdb

stored='begun 1
made 1 1
committed 1
bye'
found='begun 1
got 1 1 note hello
bye'

# Files that are missing are made, each in its place: the anchor has a count and a digest, the device the pieces.
new_store
expect "the count" 0000000000000003 "$(od -An -v -tx1 -N8 anchor | tr -d ' \n')"
expect "the mark" "$(digest 512 256)" "$(mark)"
expect "the anchor's length" 40 "$(($(wc -c <anchor)))"
expect "the device's length" 263133 "$(($(wc -c <device)))"
expect "the front of the device" TDBCMT01 "$(head -c 8 device)"
expect "the note" hello "$(tail -c +262993 device | head -c 5)"
whole "a new store"

# In each suite device and anchor are byte for byte those that an independent model of the formats gives. A later run
# finds the suite and the note by itself.
# first_path SUITE DEVICE ANCHOR: the digest of the device, and the anchor
first_path() {
    new_folder
    head -c 32 /dev/zero >secret
    tdb start "$1" 16 <script
    answers "a store under $1" 0 "$stored"
    expect "the device under $1" "$2" "$(sha256sum <device | head -c 64)"
    expect "the anchor under $1" "$3" "$(od -An -v -tx1 anchor | tr -d ' \n')"
    before=$(sha256sum device anchor)
    whole "a store under $1"
}
first_path plain cab145441b0b7cc8bfa1e382ecabe0856ad3a948fed7467d0d6cddecee4460d8 \
    0000000000000003e61d82016b9524906c1d194354bbfb8ac84fe34fec2961617f0c4041f13283e2
first_path aes128 a69ae82f7f6d0df8e0f7a90ebdd4ae66c0d61be66cb30e0b6cc406785ebab267 \
    0000000000000003c33371a907ef6bb1ec664843d10678bbffb477756ad24ecb65677998cca892a0
first_path aes256 dd260e892eca912ef1817ff27a019b1dff494a2eedcc5dffa97e09453d96fad3 \
    00000000000000036fabdbd4828c747a12ce187937824df691af4c9e15310e54381f1ba2374752d9
expect "the note's text under a cipher" 0 "$(grep -c hello device || true)"

# A store isn't made twice, and files that are there aren't emptied.
new_store
tdb start plain 16 <script
answers "a second start" 3 "already formatted"
whole "a second start"

# Closed standard descriptors: a put to closed output fails, closed input is an empty source, and no reply goes to a file.
new_store
tdb_closed() {
    status=0
    "$program" device anchor secret run "$@" || status=$?
}
tdb_closed <script >&-
expect "closed output: the status" 7 "$status"
whole "closed output"
tdb_closed <script 2>&- >replies
answers "closed errors" 0 "begun 1
made 1 2
committed 1
bye"
before=$(sha256sum device anchor)
whole "closed errors"
tdb_closed <&- >replies
answers "closed input" 9 end
whole "closed input"
tdb_closed <&- >&-
expect "closed input and output: the status" 7 "$status"
whole "closed input and output"
tdb_closed <&- 2>&- >replies
answers "closed input and errors" 9 end
whole "closed input and errors"
tdb_closed <script >&- 2>&-
expect "closed output and errors: the status" 7 "$status"
whole "closed output and errors"
tdb_closed <&- >&- 2>&-
expect "all closed: the status" 7 "$status"
whole "all closed"
tdb_closed <script >/dev/full
expect "full output: the status" 7 "$status"
whole "full output"
tdb_closed <"$work" >replies
answers "a folder as input" 6 "source fault"
whole "a folder as input"
status=0
"$program" >&- || status=$?
expect "no words and closed output: the status" 7 "$status"

# The same where the store is made: it is whole, and a later run finds no object in it.
for closed in '>&-' '>&- 2>&-' '<&- >&-' '<&- >&- 2>&-'; do
    new_folder
    status=0
    eval "\"\$program\" device anchor secret start plain 16 <script $closed" || status=$?
    expect "start with $closed: the status" 7 "$status"
    tdb run <get
    answers "start with $closed: the next run" 0 "begun 1
refused no object 1 1
bye"
done

# A client that goes away closes its pipe. The first reply that can't be put ends the run, and no signal does.
# tdb_unread WORDS..: runs the program, with nobody at the other end of its output's pipe
tdb_unread() {
    local unread
    exec {unread}> >(exit 0)
    wait "$!"
    status=0
    "$program" device anchor secret "$@" >&"$unread" || status=$?
    exec {unread}>&-
}
new_store
tdb_unread run <script
expect "a client that is gone: the status" 7 "$status"
whole "a client that is gone"
nothing_left "a client that is gone" anchor device
tdb_unread start plain 16 <script
expect "a second start by a client that is gone: the status" 7 "$status"
whole "a second start by a client that is gone"
new_folder
tdb_unread run <script
expect "mistyped names by a client that is gone: the status" 7 "$status"
expect "mistyped names by a client that is gone: the folder" "$(printf '%s\n' get script secret)" "$(ls)"
tdb_unread start plain 16 <script
expect "a start by a client that is gone: the status" 7 "$status"
tdb run <get
answers "a start by a client that is gone: the next run" 0 "begun 1
refused no object 1 1
bye"

# One that goes away before its commit is answered has made it.
new_store
coproc client { "$program" device anchor secret run; }
client_input=${client[1]}
client_output=${client[0]}
client_process=$client_PID
printf '%s\n' 'begin 1' 'new 1 note world' >&"$client_input"
for wanted in 'begun 1' 'made 1 2'; do
    read -r -t 20 reply <&"$client_output" || fail "no reply: $wanted"
    expect "the reply to one that goes away" "$wanted" "$reply"
done
exec {client_output}<&-
printf '%s\n' 'commit 1' 'quit' >&"$client_input"
status=0
wait "$client_process" || status=$?
exec {client_input}>&-
expect "a commit that nobody heard of: the status" 7 "$status"
printf '%s\n' 'begin 1' 'get 1 2' 'quit' >get
tdb run <get
answers "a commit that nobody heard of: the next run" 0 "begun 1
got 1 2 note world
bye"

# A client that waits for each reply is served line by line, and while it is, no other run gets the files.
new_store
coproc client { "$program" device anchor secret run; }
client_input=${client[1]}
client_output=${client[0]}
client_process=$client_PID
say() {
    printf '%s\n' "$1" >&"$client_input"
    read -r -t 20 reply <&"$client_output" || fail "no reply to: $1"
    expect "the reply to $1" "$2" "$reply"
}
say 'begin 1' 'begun 1'
tdb run <get
answers "a run beside another" 5 "platform fault"
tdb start plain 16 <script
answers "a start beside a run" 5 "platform fault"
status=0
"$program" device other secret run <get >replies || status=$?
answers "another anchor beside a run" 5 "platform fault"
status=0
"$program" other anchor secret run <get >replies || status=$?
answers "another device beside a run" 5 "platform fault"
expect "files beside a run" "$before" "$(sha256sum device anchor)"
nothing_left "runs beside another" anchor device
say 'get 1 1' 'got 1 1 note hello'
say 'new 1 note world' 'made 1 2'
say 'commit 1' 'committed 1'
say 'quit' 'bye'
wait "$client_process" || fail "the client's run should end with status 0"
before=$(sha256sum device anchor)
whole "a served client"

# One file can't be both device and anchor, and swapped they are no store.
status=0
"$program" device device secret run <get >replies || status=$?
answers "one file for both" 5 "platform fault"
whole "one file for both"
status=0
"$program" anchor device secret run <get >replies || status=$?
answers "swapped files" 5 "platform fault"
whole "swapped files"

# Names that were mistyped leave nothing behind.
new_folder
tdb run <get
answers "mistyped names" 3 unformatted
nothing_left "mistyped names"
tdb walk <get
answers "a mistyped command" 2 usage
nothing_left "a mistyped command"
status=0
"$program" device anchor secrte run <get >replies || status=$?
answers "a mistyped secret" 11 secret
nothing_left "a mistyped secret"
status=0
"$program" device nowhere/anchor secret run <get >replies || status=$?
answers "a missing folder" 5 "platform fault"
nothing_left "a missing folder"
status=0
"$program" device anchor secret <get >replies || status=$?
answers "three words" 2 usage
nothing_left "three words"
: >device
: >anchor
tdb run <get
answers "empty files that were there" 3 unformatted
nothing_left "empty files that were there" anchor device

# An anchor file of another length than 40 is a fault.
new_store
cp anchor kept
printf . >>anchor
tdb run <get
answers "an anchor of 41 bytes" 5 "platform fault"
head -c 39 kept >anchor
tdb run <get
answers "an anchor of 39 bytes" 5 "platform fault"
cp kept anchor
rm kept
whole "anchors of other lengths"

# With another store's secret the last text isn't one, and its slot is told: that of the third text is the one at 512.
new_store
head -c 32 /dev/zero | tr '\0' 't' >foreign
status=0
"$program" device anchor foreign run <get >replies || status=$?
answers "another secret" 4 "form 512"
rm foreign
whole "another secret"

# What is altered is told: a byte of the note, a byte of the last commit text, and the device of before.
put_byte 262992 j
tdb run <get
answers "an altered note" 0 "begun 1
tampered 1 1
bye"
put_byte 262992 h
whole "an altered note"
cp device kept
put_byte 560 x
tdb run <get
answers "an altered commit text" 4 "tampered 512 $(mark) $(digest 512 256)"
cp kept device
whole "an altered commit text"
printf '%s\n' 'begin 2' 'new 2 note world' 'commit 2' 'quit' >script
tdb run <script
answers "another commit" 0 "begun 2
made 2 2
committed 2
bye"
cp kept device
tdb run <get
answers "the device of before" 4 "tampered 768 $(mark) $(digest 768 256)"

echo "check-program: all as it should be"
