# shellcheck shell=bash disable=SC2154
# Read by the scripts beside it: the folder of the vectors by other hands in `vectors`. POLKA_VECTORS names another one.
vectors=${POLKA_VECTORS:-}
if [ -z "$vectors" ] && [ -f "$top/crates/reference_vectors/data/open.bin" ]; then
    vectors=$top/crates/reference_vectors/data
fi
if [ -z "$vectors" ]; then
    echo "no vectors: name their folder in POLKA_VECTORS"
    exit 1
fi
