#!/usr/bin/env bash
# Runs the Rust examples, linked with an archive of another name, and fails where they print anything unexpected.
# usage: tests/rust_examples.sh     from anywhere
set -euo pipefail

top=$(cd "$(dirname "$0")/.." && pwd)
. "$top/tests/archive.sh"
room=$(mktemp -d)
trap 'rm -rf "$room"' EXIT

cp "$archive" "$room/other.a"
# a folder of its own, so that the package's is left as it is
POLKA_ARCHIVE=$room/other.a cargo build --release --examples --manifest-path "$top/rust/Cargo.toml" --target-dir "$room/target"
examples=$room/target/release/examples

"$examples/seal_and_open" | tee "$room/output"
if grep -qx 'opened "lane 4, 00:47.52"' "$room/output" && grep -q '^with a changed tag: .*(10, bad tag)$' "$room/output" &&
    grep -qEx 'opened "lane 4, 00:47.52" with margin [0-9]+ of at most 4096' "$room/output" &&
    grep -q '^with a damaged word: .*: sealed entry, c2, word 17 (11, off the ring)$' "$room/output" &&
    grep -qx 'opened "lane 3, 00:48.10", "lane 4, 00:47.52", "lane 5, 00:47.90"' "$room/output" &&
    grep -q '^without its last entry: .*(10, bad tag)$' "$room/output" &&
    grep -qx 'opened "lane 4, 00:47.52" with it' "$room/output" && grep -q '^compact again: .*, the same$' "$room/output"; then
    echo "ok: an entry and a batch sealed, opened, and refused when damaged; a margin; a key expanded and compacted"
else
    echo "WRONG: the example printed something else"
    exit 1
fi

. "$top/tests/log.sh"
opens_log "$examples/open_log"
