#!/usr/bin/env bash
# Measures the stack that each call takes over all vectors, and fails where it is more than include/polka.h says.
# usage: tests/stack.sh     from anywhere; needs gcc or clang (CC names another compiler); POLKA_VECTORS names the folder of the vectors
set -euo pipefail

top=$(cd "$(dirname "$0")/.." && pwd)
. "$top/tests/archive.sh"
. "$top/tests/vectors.sh"
room=$(mktemp -d)
trap 'rm -rf "$room"' EXIT

${CC:-cc} -std=c11 -D_DEFAULT_SOURCE -O1 -Wall -Wextra -Werror -pthread -Wl,-z,now -I "$top/include" "$top/tests/drivers/stack.c" "$archive" -o "$room/stack"
"$room/stack" "$vectors"
