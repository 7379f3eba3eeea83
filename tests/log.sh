# shellcheck shell=bash disable=SC2034,SC2154
# Read by the scripts beside it: a key and a log for the examples that open one, made of the first vector of `open`: its entry, the same
# with another tag, with another mark, with a damaged word, once more as it is, and cut off. The paths stand in `key` and `log`, what an
# example prints in `expected`. The expanded key is of the first vector of `expand_secret_key`.
. "$top/tests/vectors.sh"

# bytes FROM COUNT [CALL]: of the vectors of `open`, or of this call; a field is its length (four bytes) and its bytes
bytes() {
    head -c "$(($1 + $2))" "$vectors/${3:-open}.bin" | tail -c "$2"
}

# damaged FROM COUNT WORD [CALL]: the same, but the 16-bit word so many bytes behind FROM is 65,535
damaged() {
    bytes "$1" "$3" "${@:4}"
    printf '\xff\xff'
    bytes $(($1 + $3 + 2)) $(($2 - $3 - 2)) "${@:4}"
}

# secret key, sealed entry, dummy noise, length of the output, number, no location, entry
sealed_at=$((4 + 4357 + 4))
entry_at=$((sealed_at + 4133 + 4 + 1536 + 8 + 8 + 4 + 4))
# secret key, length of the output, number, no location, expanded key
expanded_at=$((4 + 4357 + 8 + 8 + 4 + 4))
key=$room/key
log=$room/log
# word 17 of the second element, behind mark, version and the first one
word_at=$((5 + 2 * (1024 + 17)))
bytes 4 4357 >"$key"
damaged 4 4357 "$word_at" >"$room/damaged_key"
bytes 4 4356 >"$room/short_key"
bytes 4 4358 >"$room/long_key"
bytes "$expanded_at" 6405 expand_secret_key >"$room/expanded_key"
# word 17 of the stored inverse, behind s
damaged "$expanded_at" 6405 $((4357 + 2 * 17)) expand_secret_key >"$room/damaged_expanded_key"
: >"$room/empty"
{
    bytes "$sealed_at" 4133
    bytes "$sealed_at" 4132
    printf '%b' "\\x$(printf '%02x' $((0x$(bytes $((sealed_at + 4132)) 1 | od -An -tx1 | tr -d ' ') ^ 1)))"
    printf 'p'
    bytes $((sealed_at + 1)) 4132
    damaged "$sealed_at" 4133 "$word_at"
    bytes "$sealed_at" 4133
    bytes "$sealed_at" 1000
} >"$log"
digits=$(bytes "$entry_at" 16 | od -An -v -tx1 | tr -d ' \n')
expected="1: 0 $digits
2: 10 -
3: 2 -
4: 11 - sealed entry, c2, word 17
5: 0 $digits
6: 1 -
6 entries: 2 opened, 4 refused
refused under 1, misfit: 6
refused under 2, stranger: 3
refused under 10, bad tag: 2
refused under 11, off the ring: 4"

# refuses_key KEY WHY PROGRAM..: it answers 2 and tells why on standard error
refuses_key() {
    local status=0
    "${@:3}" "$1" "$log" 2>"$room/why" || status=$?
    cat "$room/why"
    [ "$status" = 2 ] && [ "$(cat "$room/why")" = "$1: refused under $2" ]
}

# opens_log PROGRAM..: it prints what it should, answers 1 since some are refused, 0 on a sound log and 2 without a key or a log
opens_log() {
    local status=0 wrong=0
    "$@" "$key" "$log" >"$room/printed" || status=$?
    cat "$room/printed"
    [ "$status" = 1 ] && [ "$(cat "$room/printed")" = "$expected" ] || wrong=1
    head -c 4133 "$log" >"$room/sound"
    "$@" "$key" "$room/sound" >/dev/null || wrong=1
    "$@" "$room/expanded_key" "$room/empty" >/dev/null || wrong=1
    refuses_key "$room/damaged_expanded_key" "4, off the ring: secret key, stored inverse, word 17" "$@" || wrong=1
    refuses_key "$room/damaged_key" "4, off the ring: secret key, b, word 17" "$@" || wrong=1
    refuses_key "$room/short_key" "1, misfit" "$@" || wrong=1
    refuses_key "$room/long_key" "1, misfit" "$@" || wrong=1
    for words in "$key $room/missing" "$room/missing $log"; do
        status=0
        # shellcheck disable=SC2086
        "$@" $words >/dev/null 2>>"$room/errors" || status=$?
        [ "$status" = 2 ] || wrong=1
    done
    if [ "$wrong" = 0 ]; then
        echo "ok: opened a log, took a key of either version, and told the refused entries and damaged keys"
    else
        echo "WRONG: another answer on a log; expected"
        echo "$expected"
    fi
    return "$wrong"
}
