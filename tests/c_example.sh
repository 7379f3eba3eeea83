#!/usr/bin/env bash
# Compiles the C examples against include/polka.h and the archive, runs them, and fails where they print anything unexpected. Also holds
# the header to what it says: it is C and C++ of several years, and a compiler warns where an answer is not looked at.
# usage: tests/c_example.sh     from anywhere; needs gcc or clang (CC names another compiler)
set -euo pipefail

top=$(cd "$(dirname "$0")/.." && pwd)
. "$top/tests/archive.sh"
room=$(mktemp -d)
trap 'rm -rf "$room"' EXIT
strict=(-Wall -Wextra -Wpedantic -Werror -I "$top/include")

for example in seal_and_open open_log; do
    ${CC:-cc} -std=c11 -D_DEFAULT_SOURCE -O2 "${strict[@]}" "$top/examples/c/$example.c" "$archive" -o "$room/$example"
done

# warns COMPILER..: it takes the header and its functions, and warns where an answer is not looked at and only there
warns() {
    local head='#include "polka.h"\nuint32_t f(const uint8_t *k);uint32_t f(const uint8_t *k) {'
    local call='polka_check_secret_key(k, POLKA_SECRET_KEY_LENGTH);'
    local fields='polka_number(a) + polka_record(a) + polka_part(a) + polka_index(a)'
    printf '%b uint32_t a = %s return %s; }\n' "$head" "$call" "$fields" | "$@" "${strict[@]}" -c -o /dev/null -
    if printf '%b %s return 0; }\n' "$head" "$call" | "$@" "${strict[@]}" -c -o /dev/null - 2>"$room/warning"; then
        echo "WRONG: $*: an answer that is not looked at gives no warning"
        exit 1
    fi
    grep -q unused-result "$room/warning"
    echo "ok: the header by $*"
}
for year in c99 c11 c2x; do
    warns "${CC:-cc}" -xc -std=$year
done
if command -v c++ >/dev/null; then
    for year in c++11 c++17; do
        warns c++ -xc++ -std=$year
    done
fi

"$room/seal_and_open" | tee "$room/output"
# A refused try of key generation may stand before the one that is done, and the margin is another each time.
expected='key check: 0
seal "lane 4, 00:47.52": 0
open: 0 "lane 4, 00:47.52"
open with margin: 0 "lane 4, 00:47.52", margin N of at most 4096
open with a changed tag: 10 "................"
open with a damaged word: 11 "................" sealed entry, c2, word 17
seal a batch of 3: 0, 4167 bytes
open the batch: 0, 3 entries
   "lane 3, 00:48.10"
   "lane 4, 00:47.52"
   "lane 5, 00:47.90"
expand the key: 0, 6405 bytes
open the batch with it: 0, 3 entries
   "lane 3, 00:48.10"
   "lane 4, 00:47.52"
   "lane 5, 00:47.90"
compact it: 0, the same key
open it without its last entry: 10, 0 entries'
printed=$(grep -v '^key generation: ' "$room/output" | sed 's/, margin [0-9][0-9]* of/, margin N of/')
if [ "$printed" = "$expected" ] && grep -qx 'key generation: 0' "$room/output"; then
    echo "ok: an entry and a batch sealed, opened, and refused when damaged; a margin; a key expanded and compacted"
else
    echo "WRONG: the example printed something else"
    exit 1
fi

. "$top/tests/log.sh"
opens_log "$room/open_log"
