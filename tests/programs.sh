#!/usr/bin/env bash
# Proves and builds programs, and puts them into target/bin.
# usage: tests/programs.sh NAME..     from anywhere
set -euo pipefail

top=$(cd "$(dirname "$0")/.." && pwd)
. "$top/tests/prove.sh"
prove programs "$@"
