#!/usr/bin/env bash
# Runs nist_shake on damaged copies of NIST's files, and fails where a report is not the expected one.
# usage: tests/nist_damaged.sh     from the top of the repository, after `tests/programs.sh nist_shake`
set -euo pipefail

top=$(cd "$(dirname "$0")/.." && pwd)
program=$top/target/bin/nist_shake
data=$top/crates/nist_shake/data
room=$(mktemp -d)
trap 'rm -rf "$room"' EXIT
wrong=0

short=SHAKE256ShortMsg.rsp
long=SHAKE256LongMsg.rsp
variable=SHAKE256VariableOut.rsp
monte=SHAKE256Monte.rsp
short128=SHAKE128ShortMsg.rsp
long128=SHAKE128LongMsg.rsp
variable128=SHAKE128VariableOut.rsp
monte128=SHAKE128Monte.rsp

fresh() {
    rm -rf "$room/run"
    mkdir "$room/run"
    cp "$data"/*.rsp "$room/run/"
}

# try WHAT FILE REPORT: the line of FILE is `FILE: REPORT`, and the other lines are those of the sound files
try() {
    local expected actual
    expected=$(sed "s/^$2: .*/$2: $3/" "$top/crates/nist_shake/stdout")
    actual=$(cd "$room/run" && "$program")
    if [ "$actual" = "$expected" ]; then
        echo "ok: $1: $2: $3"
    else
        echo "WRONG: $1: expected"
        echo "$expected"
        echo "but the program wrote"
        echo "$actual"
        wrong=1
    fi
    fresh
}

# in_file FILE SED-SCRIPT: edits FILE, whose lines end with a carriage return
in_file() {
    sed -i "$2" "$room/run/$1"
    if cmp -s "$data/$1" "$room/run/$1"; then
        echo "WRONG: the edit $2 does not change $1"
        wrong=1
    fi
}

fresh
try "sound files" "$short" "273 agreed, 0 differed"

for file in "$short128" "$long128" "$variable128" "$monte128" "$short" "$long" "$variable" "$monte"; do
    rm "$room/run/$file"
    try "a missing file" "$file" "missing"
    : >"$room/run/$file"
    try "an empty file" "$file" "malformed at line 1"
    printf 'Len = 8' >"$room/run/$file"
    try "one line that does not end" "$file" "malformed at line 1"
    head -c 3000000 /dev/zero >"$room/run/$file"
    try "a file of 3,000,000 bytes" "$file" "too long"
    rm "$room/run/$file"
    mkdir "$room/run/$file"
    try "a directory" "$file" "missing"
done

head -c 2097152 /dev/zero >"$room/run/$short"
try "a file that just fits, of zeros" "$short" "malformed at line 1"
head -c 2097153 /dev/zero >"$room/run/$short"
try "a file of one byte more" "$short" "too long"

# cut in the middle
head -c 50000 "$data/$short" >"$room/run/$short"
try "cut in the middle of a message" "$short" "malformed at line $(($(head -c 50000 "$data/$short" | wc -l) + 1))"
head -n 10 "$data/$short" >"$room/run/$short"
try "cut before the output of a case" "$short" "malformed at line 11"
head -n 11 "$data/$short" >"$room/run/$short"
try "cut after the first case" "$short" "1 agreed, 0 differed"
head -n 8 "$data/$short" >"$room/run/$short"
try "no case" "$short" "malformed at line 9"
head -c -1 "$data/$short" >"$room/run/$short"
try "cut before the last line feed" "$short" "malformed at line 1100"
head -n 14 "$data/$variable" >"$room/run/$variable"
try "cut after the first case" "$variable" "1 agreed, 0 differed"
head -n 12 "$data/$variable" >"$room/run/$variable"
try "cut before the output of a case" "$variable" "malformed at line 13"
head -n 13 "$data/$monte" >"$room/run/$monte"
try "cut before the output of a case" "$monte" "malformed at line 14"

# a changed digit
in_file "$short" '11s/4/5/'
try "a digit of an output changed" "$short" "272 agreed, 1 differed"
in_file "$short" '15s/= aabb/= AABB/'
try "uppercase digits" "$short" "273 agreed, 0 differed"
in_file "$long" '10s/dc/dd/'
try "a digit of a message changed" "$long" "99 agreed, 1 differed"
in_file "$variable" '13s/23ce/23cf/'
try "a digit of an output changed" "$variable" "1245 agreed, 1 differed"
in_file "$monte" '18s/c5e5/c5e6/'
try "a digit of an output changed" "$monte" "99 agreed, 1 differed"
in_file "$monte" '10s/48a0/48a1/'
try "a digit of the first message changed" "$monte" "0 agreed, 100 differed"
in_file "$monte" '17s/88/80/;18s/2a\r/\r/'
try "an output that is a byte short" "$monte" "99 agreed, 1 differed"
in_file "$short128" '11s/7f9c/7f9d/'
try "a digit of an output changed" "$short128" "336 agreed, 1 differed"
in_file "$long128" '10s/a6fe/a6ff/'
try "a digit of a message changed" "$long128" "99 agreed, 1 differed"
in_file "$variable128" '13s/8599/8598/'
try "a digit of an output changed" "$variable128" "1125 agreed, 1 differed"
in_file "$monte128" '18s/0ed1/0ed0/'
try "a digit of an output changed" "$monte128" "99 agreed, 1 differed"
in_file "$monte128" '10s/c8b3/c8b2/'
try "a digit of the first message changed" "$monte128" "0 agreed, 100 differed"
in_file "$short" '11s/46/4g/'
try "a byte that is no digit" "$short" "malformed at line 11"
in_file "$short" '10s/00/01/'
try "the empty message not written 00" "$short" "malformed at line 10"

# lengths that do not fit
in_file "$short" '13s/8/16/'
try "Len that does not fit Msg" "$short" "malformed at line 14"
in_file "$short" '13s/8/7/'
try "Len that is no whole byte" "$short" "malformed at line 13"
in_file "$short" '13s/8/x/'
try "Len that is no number" "$short" "malformed at line 13"
in_file "$short" '13s/8/18446744073709551624/'
try "Len that is too large" "$short" "malformed at line 13"
in_file "$short" '7s/256/128/'
try "a header's Outputlen that does not fit" "$short" "malformed at line 11"
in_file "$short" '7d'
try "no header with Outputlen" "$short" "malformed at line 8"
in_file "$variable" '11s/16/24/'
try "Outputlen that does not fit Output" "$variable" "malformed at line 13"
in_file "$variable" '11s/16/0/;13s/23ce//'
try "Outputlen of 0" "$variable" "malformed at line 13"
in_file "$variable" '7s/256/128/'
try "a header's Input Length that does not fit" "$variable" "malformed at line 12"
in_file "$monte" '8s/2000/1000/'
try "another maximum" "$monte" "malformed at line 10"
in_file "$monte128" '8s/1120/2000/'
try "another maximum" "$monte128" "malformed at line 10"
in_file "$monte128" '6s/128/16/'
try "another minimum" "$monte128" "malformed at line 10"
in_file "$monte" '10s/fd\r/\r/'
try "a first message of 15 bytes" "$monte" "malformed at line 10"

# the file of the other function
for kind in ShortMsg LongMsg VariableOut; do
    for pair in "128 256" "256 128"; do
        read -r asked given <<<"$pair"
        cp "$data/SHAKE$given$kind.rsp" "$room/run/SHAKE$asked$kind.rsp"
        try "the file of SHAKE$given" "SHAKE$asked$kind.rsp" "0 agreed, $(grep -c '^Output = ' "$data/SHAKE$given$kind.rsp") differed"
    done
done
cp "$data/$monte" "$room/run/$monte128"
try "the file of SHAKE256" "$monte128" "malformed at line 10"
cp "$data/$monte128" "$room/run/$monte"
try "the file of SHAKE128" "$monte" "malformed at line 10"
cp "$data/$monte" "$room/run/$monte128"
in_file "$monte128" '6s/16/128/;8s/2000/1120/'
try "the file of SHAKE256 under the headers of SHAKE128" "$monte128" "0 agreed, 100 differed"

# lines out of place
in_file "$short" '12a extra\r'
try "an extra line" "$short" "malformed at line 13"
in_file "$short" '13a \\r'
try "a blank line in a case" "$short" "malformed at line 14"
in_file "$short" '12a # comment\r'
try "a comment between cases" "$short" "malformed at line 13"
in_file "$short" '5a # comment\r'
try "one more comment at the top" "$short" "273 agreed, 0 differed"
in_file "$short" '5a comment\r'
try "another line at the top" "$short" "malformed at line 6"
in_file "$short" '10d'
try "a missing line" "$short" "malformed at line 10"
in_file "$short" '10s/Msg/msg/'
try "another name" "$short" "malformed at line 10"
in_file "$variable" '15s/1/2/'
try "COUNT out of sequence" "$variable" "malformed at line 15"
in_file "$monte" '16s/1/0/'
try "COUNT out of sequence" "$monte" "malformed at line 16"
sed -i 's/\r$//' "$room/run/"*.rsp
try "lines that end with a line feed only" "$long" "100 agreed, 0 differed"

exit "$wrong"
