# shellcheck shell=bash disable=SC2154
# Read by the scripts beside it: the archive's path in `archive`, made by `rt` where it is missing or older than the sources.
# POLKA_ARCHIVE names another one, which is taken as it is, as by the Rust package.
. "$top/tests/prove.sh"
archive=${POLKA_ARCHIVE:-$top/target/staticlib/libpolka.a}
if [ -z "${POLKA_ARCHIVE:-}" ] && outdated "$archive" polka; then
    echo "Proving and building the archive, which takes some minutes the first time:"
    prove archive polka polka
fi
