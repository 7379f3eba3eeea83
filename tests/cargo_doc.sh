#!/usr/bin/env bash
# Makes the Rust package's documentation where there is no archive, and fails on a warning or where that starts a prover.
# usage: tests/cargo_doc.sh     from anywhere
set -euo pipefail

top=$(cd "$(dirname "$0")/.." && pwd)
room=$(mktemp -d)
trap 'rm -rf "$room"' EXIT

mkdir "$room/rust" "$room/bin"
cp -r "$top/rust"/{Cargo.toml,Cargo.lock,build.rs,src,examples,tests} "$room/rust"
printf '#!/bin/sh\ntouch %s\nexit 1\n' "$room/started" >"$room/bin/rt"
chmod +x "$room/bin/rt"
PATH=$room/bin:$PATH RUSTDOCFLAGS="-D warnings" cargo doc --no-deps --manifest-path "$room/rust/Cargo.toml"
if [ -e "$room/started" ]; then
    echo "WRONG: cargo doc started a prover"
    exit 1
fi
echo "ok: documentation without a warning and without a prover"
