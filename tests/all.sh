#!/usr/bin/env bash
# Runs every check that stands outside the gate (.ci/run), prints a line for each and a count, and answers 1 if one failed or could not
# run. It proves and builds what is missing first. What a check printed stands in target/log/all/NAME.txt.
# usage: tests/all.sh [NAME..]     only the checks of these names
set -uo pipefail

top=$(cd "$(dirname "$0")/.." && pwd)
. "$top/tests/prove.sh"
manifest=$top/rust/Cargo.toml
logs=$top/target/log/all
mkdir -p "$logs"
wanted=" $* "
passed=0 failed=0 missing=0

# package TOOL: the Debian package that brings it
package() {
    case $1 in
    cargo) echo "Rust, by rustup" ;;
    cc) echo "Debian's gcc" ;;
    rt) echo "the Rattle kit" ;;
    *) echo "Debian's $1" ;;
    esac
}

# check NAME "TOOL.." COMMAND..: one line; a tool that is not there is named
check() {
    local name=$1 tools=$2 start=$SECONDS tool lacks="" verdict
    shift 2
    [[ $wanted == "  " || $wanted == *" $name "* ]] || return
    for tool in $tools; do
        command -v "$tool" >/dev/null || lacks="$lacks $tool ($(package "$tool"))"
    done
    if [ -n "$lacks" ]; then
        missing=$((missing + 1))
        echo "missing $name: needs$lacks"
        return
    fi
    if "$@" >"$logs/$name.txt" 2>&1 </dev/null; then
        passed=$((passed + 1))
        verdict="ok     "
    else
        failed=$((failed + 1))
        verdict="FAILED "
    fi
    printf '%s %-16s %5d s' "$verdict" "$name" $((SECONDS - start))
    [ "$verdict" = "ok     " ] && echo || echo "   see target/log/all/$name.txt"
}

# Proofs come first, so that no check below starts a prover in silence.
if command -v rt >/dev/null; then
    echo "Proving and building the programs and the archive, which takes some minutes the first time:"
    prove programs make_key seal_entry desk shake256sum nist_shake || exit 1
    . "$top/tests/archive.sh" || exit 1
fi

check round_trip    "rt"                 "$top/tests/round_trip.sh"
check desk          "rt python3"         "$top/tests/desk.sh"
check shake256sum   "rt openssl"         "$top/tests/shake256sum.sh"
check nist_damaged  "rt"                 "$top/tests/nist_damaged.sh"
check c_example     "cc"                 "$top/tests/c_example.sh"
check memcheck      "cc valgrind"        "$top/tests/memcheck.sh"
check stack         "cc"                 "$top/tests/stack.sh"
check cargo_doc     "cargo cc"           "$top/tests/cargo_doc.sh"
check cargo_test    "cargo cc"           cargo test --release --manifest-path "$manifest" -- --nocapture
check cargo_ignored "cargo cc rt"        cargo test --release --manifest-path "$manifest" -- --ignored --nocapture
check rust_examples "cargo cc"           "$top/tests/rust_examples.sh"

echo "all: $passed ok, $failed failed, $missing could not run"
[ "$passed" -gt 0 ] && [ "$failed" = 0 ] && [ "$missing" = 0 ]
