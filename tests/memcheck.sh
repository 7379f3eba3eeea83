#!/usr/bin/env bash
# Runs the archive under valgrind's memcheck.
#   1. On all vectors: no read or write outside a buffer, no use of an undefined byte, no leak. Fails on any.
#   2. With secrets marked undefined: lists by function each branch and each address that hangs on a secret, and fails where
#      tests/memcheck/allowed.txt does not list it with its reason. Memcheck sees the path of one run: this is a test, not a proof.
# usage: tests/memcheck.sh [CALL..]     calls for part 2, as tests/drivers/secrets.c names them; without any: all
#        needs Debian's valgrind and gcc; POLKA_VECTORS names the folder of the vectors
set -euo pipefail

top=$(cd "$(dirname "$0")/.." && pwd)
for tool in valgrind "${CC:-cc}"; do
    if ! command -v "$tool" >/dev/null; then
        echo "missing: $tool (apt-get install valgrind gcc)"
        exit 1
    fi
done
. "$top/tests/archive.sh"
. "$top/tests/vectors.sh"
room=$(mktemp -d)
trap 'rm -rf "$room"' EXIT
wrong=0

for driver in memory secrets; do
    ${CC:-cc} -std=c11 -g -O1 -Wall -Wextra -Werror -I "$top/include" "$top/tests/drivers/$driver.c" "$archive" -o "$room/$driver"
done

echo "memcheck on vectors"
if valgrind --quiet --error-exitcode=9 --leak-check=full --show-leak-kinds=all --errors-for-leak-kinds=all \
    "$room/memory" "$vectors"; then
    echo "ok: no invalid read or write, no leak"
else
    echo "WRONG: a mismatch or a report of memcheck above"
    wrong=1
fi

# The list that -s prints at the end of a report, as lines "KIND FUNCTION SECRET PLACES TIMES ADDRESSES". Each error there is a line
# "N errors in context ..", its kind, its frames, and the driver's function that marked the secret. One place may have several, by what
# stood on the stack, and counts once.
by_function() {
    awk '
        function show() {
            if (count == "") return
            key = kind " " function_name " " secret
            times[key] += count
            if (!known[key, address]++) {
                places[key]++
                addresses[key] = addresses[key] " " address
            }
            count = ""
        }
        /errors in context/ { show(); count = $2; kind = "other"; function_name = ""; secret = "?"; origin = 0; next }
        /ERROR SUMMARY/ { show() }
        count == "" { next }
        /Conditional jump or move/ { kind = "branch" }
        /Use of uninitialised value/ { kind = "address" }
        /Uninitialised value was created/ { origin = 1 }
        / at 0x/ && origin { secret = $4 }
        / at 0x/ && !origin { function_name = $4; address = $3; sub(/:$/, "", address) }
        END { for (key in places) print key, places[key], times[key] addresses[key] }
    ' "$1" | sort
}

calls=("$@")
[ "${#calls[@]}" -gt 0 ] || calls=(keygen keygen_from_seed check_secret_key check_secret_key_expanded expand_secret_key
    compact_secret_key encapsulate encapsulate_seeded decapsulate decapsulate_expanded seal seal_seeded open open_expanded open_with_margin
    open_with_margin_expanded seal_batch_1 seal_batch_255 seal_batch_seeded_255 open_batch_1 open_batch_255 open_batch_expanded_255
    shake128 shake256)
for call in "${calls[@]}"; do
    echo "memcheck with the secrets of $call marked undefined"
    if ! valgrind -s --track-origins=yes --error-limit=no --num-callers=6 "$room/secrets" "$call" >"$room/stdout" 2>"$room/report"; then
        cat "$room/stdout" "$room/report"
        echo "WRONG: the driver failed"
        wrong=1
        continue
    fi
    by_function "$room/report" >"$room/list"
    while read -r kind function secret places times addresses; do
        # the list has the most places that were looked at
        most=$(sed -n "s/^$call $kind $function $secret \([0-9]*\)$/\1/p" "$top/tests/memcheck/allowed.txt")
        if [ "$places" -le "${most:-0}" ]; then
            verdict="listed"
        else
            verdict="WRONG, not listed with so many places"
            wrong=1
        fi
        echo "$verdict: $call $kind $function $secret"
        echo "    $places places, $times times, at $addresses"
    done <"$room/list"
    [ -s "$room/list" ] || echo "ok: no branch and no address hangs on a secret"
done

exit "$wrong"
