#!/usr/bin/env bash
# Runs the desk program on cases by other hands and on endless input, and fails where a line is not the expected one.
# usage: tests/desk.sh [FOLDER]     after `tests/programs.sh desk`; FOLDER holds desk.bin, and is crates/reference_vectors/data by default
set -euo pipefail

top=$(cd "$(dirname "$0")/.." && pwd)
program=$top/target/bin/desk
data=${1:-$top/crates/reference_vectors/data}
wrong=0

# desk.bin: for each case standard input, the number, an empty field (the desk tells no location) and the line; a field is its length
# (four bytes, the low one first) and its bytes
python3 - "$program" "$data/desk.bin" <<'END' || wrong=1
import subprocess
import sys

program, path = sys.argv[1:]
with open(path, "rb") as file:
    data = file.read()
at = 0


def field():
    global at
    start = at + 4
    at = start + int.from_bytes(data[at:start], "little")
    return data[start:at]


agreed = differed = 0
while at < len(data):
    given, number, _, line = field(), field(), field(), field()
    wrote = subprocess.run([program], input=given, capture_output=True)
    if wrote.stdout == line + b"\n" and wrote.stderr == b"":
        agreed += 1
    else:
        differed += 1
        print(f"case {agreed + differed}: expected {line}, the desk wrote {wrote.stdout}")
print(f"desk: {agreed} agreed, {differed} differed")
sys.exit(differed > 0 or agreed == 0)
END

# endless NAME COMMAND: the desk answers although its input does not end
endless() {
    local line
    line=$("${@:2}" 2>/dev/null | timeout 10 "$program" || true)
    if [ "$line" = "1 -" ]; then
        echo "ok: $1: 1 -"
    else
        echo "WRONG: $1: the desk wrote '$line'"
        wrong=1
    fi
}

endless "endless lines" yes
endless "endless zeros" cat /dev/zero

exit "$wrong"
