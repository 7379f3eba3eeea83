#!/usr/bin/env bash
# Makes keys of both kinds, seals an entry with each and opens it at the desk, all from random bytes, and shows each step. Then what is
# refused, and two cases by other hands. It proves and builds what is missing.
# usage: tests/round_trip.sh [ENTRY]     ENTRY is a text of 16 ASCII characters
set -euo pipefail
export LC_ALL=C

top=$(cd "$(dirname "$0")/.." && pwd)
. "$top/tests/prove.sh"
bin=$top/target/bin
data=$top/crates/reference_vectors/data
entry=${1:-"Lane 4  00:52.31"}
room=$(mktemp -d)
trap 'rm -rf "$room"' EXIT

if [ "${#entry}" != 16 ]; then
    echo "the entry '$entry' has ${#entry} characters, and not 16" >&2
    exit 2
fi
digits=$(printf '%s' "$entry" | od -An -v -tx1 | tr -d ' \n')

echo "Proving and building make_key, seal_entry and desk, which takes some minutes the first time:"
prove programs make_key seal_entry desk

random() {
    head -c "$1" /dev/urandom
}

size() {
    wc -c <"$1" | tr -d ' '
}

# expect WHAT WANTED
expect() {
    if [ "$1" != "$2" ]; then
        echo "WRONG: expected '$2', and not '$1'" >&2
        exit 1
    fi
}

# make_keys BYTES LENGTH: from so many random bytes, with a public key of this length
make_keys() {
    # about one in sixty of these keys has a b without an inverse: key making tries once, and refuses it under number 6
    for _ in 1 2 3 4 5 6 7 8 9 10; do
        random "$1" | "$bin/make_key" >"$room/keys" 2>"$room/number"
        if [ -s "$room/keys" ]; then
            break
        fi
        echo "   refused under number $(cat "$room/number"); once more"
    done
    head -c "$2" "$room/keys" >"$room/public"
    tail -c 4357 "$room/keys" >"$room/secret"
    expect "$(size "$room/keys")" $(($2 + 4357))
    echo "   public key: $(size "$room/public") bytes, secret key: $(size "$room/secret") bytes"
}

seal() {
    { cat "$room/public"; random 1536; printf '%s' "$entry"; } | "$bin/seal_entry" >"$room/sealed"
    expect "$(size "$room/sealed")" 4133
    echo "   sealed entry: $(size "$room/sealed") bytes"
}

# opened SEALED LINE [KEY]: what the desk says of a sealed entry, each time with a dummy of its own
opened() {
    line=$({ cat "${3:-$room/secret}" "$1"; random 1536; } | "$bin/desk")
    echo "   $line"
    expect "$line" "$2"
}

# refused PROGRAM INPUT NUMBER: nothing on standard output, and the number on standard error
refused() {
    "$bin/$1" <"$2" >"$room/out" 2>"$room/number"
    echo "   $1, $(size "$2") bytes: $(cat "$room/number")"
    expect "$(size "$room/out") $(cat "$room/number")" "0 $3"
}

echo "1. make_key reads 3,712 random bytes and writes the public key and the secret key."
make_keys 3712 4101

echo "2. seal_entry reads the public key, 1,536 random bytes and the entry '$entry'."
seal

echo "3. desk reads the secret key, the sealed entry and 1,536 random dummy bytes."
opened "$room/sealed" "0 $digits"
echo "   0 is done; the digits are '$(printf '%b' "$(printf '%s' "${line#0 }" | sed 's/../\\x&/g')")'"

echo "4. The same under another dummy."
opened "$room/sealed" "0 $digits"

echo "5. A sealed entry whose last byte is another."
last=$(tail -c 1 "$room/sealed" | od -An -tu1 | tr -d ' ')
{ head -c 4132 "$room/sealed"; printf '%b' "\\x$(printf '%02x' $((last ^ 1)))"; } >"$room/damaged"
opened "$room/damaged" "10 -"
echo "   10 is a wrong tag"

echo "6. A sealed entry with a damaged word, and a secret key with one."
# off_ring FILE: its first word, behind mark and version, is 65,535
off_ring() {
    head -c 5 "$1"
    printf '\xff\xff'
    tail -c +8 "$1"
}
off_ring "$room/sealed" >"$room/damaged"
off_ring "$room/secret" >"$room/damaged_key"
opened "$room/damaged" "11 -"
opened "$room/sealed" "4 -" "$room/damaged_key"
opened "$room/damaged" "4 -" "$room/damaged_key"
echo "   11 is a word of the entry, 4 one of the key, which is judged first"

echo "7. No input at all."
line=$("$bin/desk" </dev/null)
echo "   $line"
expect "$line" "1 -"
echo "   1 is a wrong length"

echo "8. make_key reads 1,056 random bytes, a seed among them, and writes the short public key and the secret key."
make_keys 1056 2085

echo "9. seal_entry reads the short public key, 1,536 random bytes and the entry, and desk opens what it wrote."
seal
opened "$room/sealed" "0 $digits"

echo "10. One byte less and one byte more than either input has."
for length in 1055 1057 3711 3713; do
    random "$length" >"$room/in"
    refused make_key "$room/in" 1
done
for length in 3636 3638 5652 5654; do
    { cat "$room/public"; random $((length - 2085)); } >"$room/in"
    refused seal_entry "$room/in" 1
done

echo "11. A short public key in an input that is as long as with a long one: its mark is not the long one's."
{ cat "$room/public"; random $((5653 - 2085)); } >"$room/in"
refused seal_entry "$room/in" 2

# field FILE: the field behind the first `at` bytes of a file of vectors: its length (four bytes, the low one first) and its bytes
field() {
    local length
    length=$(od -An -tu4 --endian=little -j "$at" -N 4 "$1" | tr -d ' ')
    dd if="$1" iflag=skip_bytes,count_bytes skip=$((at + 4)) count="$length" bs=8192 status=none
    at=$((at + 4 + length))
}

# same PROGRAM: it makes of one case's input what the case has
same() {
    "$bin/$1" <"$room/in" >"$room/out"
    if ! cmp "$room/out" "$room/wanted"; then
        echo "WRONG: $1 wrote something else" >&2
        exit 1
    fi
    echo "   $1: the same $(size "$room/out") bytes"
}

echo "12. A key from a seed, and an entry sealed to one, by other hands (crates/reference_vectors/data)."
# seed, noise of s, noise of e, two lengths, number, no location, public key, secret key
file=$data/keygen_from_seed.bin at=0
{ field "$file"; field "$file"; field "$file"; } >"$room/in"
{ field "$file"; field "$file"; field "$file"; field "$file"; } >"$room/rest"
{ field "$file"; field "$file"; } >"$room/wanted"
same make_key
# public key, noise, entry, a length, number, no location, sealed entry: the first case with a short key
file=$data/seal.bin at=0
while [ "$at" -lt "$(size "$file")" ]; do
    { field "$file"; field "$file"; field "$file"; } >"$room/in"
    { field "$file"; field "$file"; field "$file"; } >"$room/rest"
    field "$file" >"$room/wanted"
    if [ "$(size "$room/in")" = 3637 ]; then
        break
    fi
done
expect "$(size "$room/in")" 3637
same seal_entry
