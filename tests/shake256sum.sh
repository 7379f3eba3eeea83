#!/usr/bin/env bash
# Compares shake256sum with openssl on inputs of several lengths, and fails where they differ.
# usage: tests/shake256sum.sh     from the top of the repository, after `tests/programs.sh shake256sum`
set -euo pipefail

top=$(cd "$(dirname "$0")/.." && pwd)
program=$top/target/bin/shake256sum
room=$(mktemp -d)
trap 'rm -rf "$room"' EXIT
wrong=0

for n in 0 1 135 136 137 272 1000 65536 1048575 1048576; do
    head -c "$n" /dev/urandom >"$room/input"
    expected=$(openssl dgst -shake256 -xoflen 32 -r <"$room/input" | cut -d' ' -f1)
    actual=$("$program" <"$room/input" 2>"$room/errors")
    if [ "$actual" = "$expected" ] && [ ! -s "$room/errors" ]; then
        echo "ok: $n bytes"
    else
        echo "WRONG: $n bytes: openssl has $expected, shake256sum $actual"
        wrong=1
    fi
done

for n in 1048577 3000000; do
    head -c "$n" /dev/urandom >"$room/input"
    "$program" <"$room/input" >"$room/output" 2>"$room/errors"
    if [ ! -s "$room/output" ] && [ "$(wc -l <"$room/errors")" = 1 ]; then
        echo "ok: $n bytes are refused"
    else
        echo "WRONG: $n bytes are not refused"
        wrong=1
    fi
done

exit "$wrong"
