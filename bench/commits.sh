#!/usr/bin/env bash
# Counts what a commit of one note of 40 bytes costs under each suite, and a get of that note: in instructions, and
# in blocks of SHA-256 and AES.
#
#   bench/commits.sh
#   PROGRAM=FILE bench/commits.sh      the program is FILE
#   NUMBER=N bench/commits.sh          N transactions and N gets are counted, 200 by default
#   TOP=N bench/commits.sh             then the N functions that take the most, of each
#
# The instructions are those of a script with N + 1 transactions, or gets, without those of a script with one,
# divided by N, so that those of starting the program and opening the store aren't among them. The system's own
# aren't either.
#
# Blocks due are by the formats: as many as it takes where each key is prepared once. Blocks done are the calls of
# the functions that hash and cipher one block, as callgrind counts them. Hashing are the instructions of the one that
# hashes a block, without its callers in sha2 and tdb_mac; ciphering are those of tdb_aes and tdb_cbc; neither are all
# others. A hyphen stands for what can't be told, where the compiler left no function of such a name.
#
# It needs valgrind, and the toolchain (the command rt) where the program isn't built yet.
set -eu

here=$(cd "$(dirname "$0")/.." && pwd)
program=${PROGRAM:-$here/crates/tdb/out/tdb}
number=${NUMBER:-200}
top=${TOP:-0}
case $program in
/*) ;;
*) program=$PWD/$program ;;
esac
for each in "$number" "$top"; do
    case $each in
    '' | *[!0-9]*)
        echo "commits: NUMBER and TOP are numbers"
        exit 1
        ;;
    esac
done
# 1,000 commits may follow a checkpoint, and the first of them makes the partitions.
if [ "$number" -lt 1 ] || [ "$number" -gt 998 ]; then
    echo "commits: NUMBER is 1 to 998"
    exit 1
fi
if ! command -v valgrind >/dev/null; then
    echo "commits: the command valgrind isn't there; nothing is counted"
    exit 0
fi
if [ -z "${PROGRAM:-}" ] && [ ! -x "$program" ]; then
    command -v rt >/dev/null || { echo "commits: the command rt isn't there; nothing is counted"; exit 0; }
    (cd "$here/crates/tdb" && rt run </dev/null >/dev/null 2>&1) || true
fi
[ -x "$program" ] || { echo "commits: the program isn't built"; exit 1; }

# The functions that hash one block, those whose instructions are ciphering, and among them those that cipher one block.
hash_block='^sha2::block256::compress'
ciphering='^tdb_(aes|cbc)::'
cipher_block='^tdb_aes::.*crypt'

folder=$(mktemp -d)
trap 'rm -rf "$folder"' EXIT
cd "$folder"
head -c 32 /dev/zero | tr '\0' s >secret
note=$(head -c 40 /dev/zero | tr '\0' x)

# new_files: a device and an anchor with nothing in them
new_files() {
    : >device
    : >anchor
}

# transactions N: a script of so many
transactions() {
    for each in $(seq "$1"); do
        printf 'begin %d\nnew %d note %s\ncommit %d\n' "$each" "$each" "$note" "$each"
    done
    echo quit
}

# gets N: a script of so many of one note
gets() {
    echo 'begin 1'
    for each in $(seq "$1"); do
        echo 'get 1 1'
    done
    echo quit
}

# counted NAME REPLY N WORDS..: runs the program with the script on standard input, where N replies have to begin by
# REPLY, and writes NAME: a line for all instructions, and for each function its own instructions and its calls
counted() {
    name=$1 reply=$2 wanted=$3
    shift 3
    valgrind -q --tool=callgrind --callgrind-out-file=profile "$program" device anchor secret "$@" >replies 2>said || {
        echo "commits: '$*' under valgrind went wrong"
        tail -n 3 said replies
        exit 1
    }
    found=$(grep -c "^$reply " replies) || true
    if [ "$found" != "$wanted" ] || [ "$(tail -n 1 replies)" != bye ]; then
        echo "commits: '$*' should reply $reply $wanted times, and then bye; it replied $found times"
        exit 1
    fi
    awk '
        # A name stands behind its number where it comes first, and later the number alone.
        function named(field) {
            match(field, /^\([0-9]+\)/)
            id = substr(field, 1, RLENGTH)
            if (length(field) > RLENGTH) names[id] = substr(field, RLENGTH + 2)
            return id
        }
        /^fn=/ { now = named(substr($0, 4)); next }
        /^cfn=/ { callee = named(substr($0, 5)); next }
        /^calls=/ { split(substr($0, 7), field, " "); calls[callee] += field[1]; is_call = 1; next }
        /^[-+*0-9]/ { if (is_call) is_call = 0; else own[now] += $2; next }
        /^totals:/ { printf "all\t%.0f\t0\n", $2 }
        END { for (id in names) printf "%s\t%.0f\t%.0f\n", names[id], own[id], calls[id] }
    ' profile >"$name"
}

# each_of NAME: what one more takes, by function
each_of() {
    awk -F '\t' -v number="$number" '
        NR == FNR { own[$1] += $2; calls[$1] += $3; next }
        { more[$1] += $2; called[$1] += $3 }
        END {
            for (name in more)
                printf "%s\t%.3f\t%.3f\n", name, (more[name] - own[name]) / number, (called[name] - calls[name]) / number
        }
    ' "$1.one" "$1.many" >"$1"
}

# blocks LENGTH: of SHA-256, with the padding of 9 bytes or more
blocks() {
    echo $((($1 + 8) / 64 + 1))
}

# tag LENGTH: of HMAC, where the key's two blocks are hashed before
tag() {
    blocks $((64 + $1))
}

# record SUITE LENGTH: the blocks of SHA-256 for a record of a plain text, its digest and its initial vector
record() {
    if [ "$1" = plain ]; then
        blocks $((48 + $2))
    else
        echo $(($(blocks $((48 + 16 * ($2 / 16 + 1)))) + $(tag $((8 + 32 + $2)))))
    fi
}

# enciphered SUITE LENGTH: the blocks of AES for it
enciphered() {
    if [ "$1" = plain ]; then
        echo 0
    else
        echo $(($2 / 16 + 1))
    fi
}

# row SUITE NAME HASH CIPHER: a line of the table, with the blocks due
row() {
    awk -F '\t' -v suite="$1" -v name="$2" -v hash="$3" -v cipher="$4" \
        -v hash_block="$hash_block" -v ciphering="$ciphering" -v cipher_block="$cipher_block" '
        function told(is_there, value) { return is_there ? sprintf("%.0f", value) : "-" }
        $1 == "all" { all = $2; next }
        $1 ~ hash_block { has_hash = 1; hashed += $3; in_hash += $2 }
        $1 ~ ciphering { ciphers = 1; in_cipher += $2 }
        $1 ~ cipher_block { has_cipher = 1; ciphered += $3 }
        END {
            if (cipher == 0) ciphers = has_cipher = 1
            printf "%-8s %-12s %12.0f %9d %9s %10d %10s %9s %9s %9s\n", suite, name, all, hash, told(has_hash, hashed), cipher,
                told(has_cipher, ciphered), told(has_hash, in_hash), told(ciphers, in_cipher),
                told(has_hash && ciphers, all - in_hash - in_cipher)
        }
    ' "$2.$1"
}

# The chunk is 16 bytes and the note, the list of one entry 16 and 72, the text 224 under its tag and 256 under its mark.
chunk=$((16 + 40))
list=$((16 + 72))

printf '%-8s %-12s %12s %9s %9s %10s %10s %9s %9s %9s\n' suite '' instructions 'hash due' 'hash done' 'cipher due' 'cipher done' \
    hashing ciphering neither
for suite in plain aes128 aes256; do
    new_files
    transactions 1 | counted "transaction.$suite.one" committed 1 start "$suite" 64
    new_files
    transactions $((number + 1)) | counted "transaction.$suite.many" committed $((number + 1)) start "$suite" 64
    gets 1 | counted "get.$suite.one" got 1 run
    gets $((number + 1)) | counted "get.$suite.many" got $((number + 1)) run
    each_of "transaction.$suite"
    each_of "get.$suite"
    row "$suite" transaction \
        $(($(record "$suite" $chunk) + $(record "$suite" $list) + $(tag 224) + $(blocks 256))) \
        $(($(enciphered "$suite" $chunk) + $(enciphered "$suite" $list)))
    row "$suite" get "$(record "$suite" $chunk)" "$(enciphered "$suite" $chunk)"
done

if [ "$top" -gt 0 ]; then
    for suite in plain aes128 aes256; do
        for name in transaction get; do
            printf '\n%s of %s: instructions, calls, function\n' "$name" "$suite"
            sort -t "$(printf '\t')" -k 2,2nr "$name.$suite" | grep -v '^all	' | head -n "$top" |
                awk -F '\t' '{ printf "%9.0f %9.2f  %s\n", $2, $3, $1 }'
        done
    done
fi
