# shellcheck shell=bash disable=SC2154
# Read by the scripts beside it. `prove programs NAME..` proves and builds programs and puts them into target/bin; `prove archive CRATE NAME`
# does so with a static library, into target/staticlib/libNAME.a. A line says which crates took time and how many are left. What `rt` says
# stands in target/log/prove.txt, and is shown where it fails.

# reached NAME..: these crates and all that they use, by crates.txt, a line each, those that others use first
reached() {
    awk -v names="$*" '
        /^[a-z]/ { name = $1; sub(/:$/, "", name); $1 = ""; uses[name] = $0 }
        function reach(name, used, count, i) {
            if (!(name in uses) || name in seen) return
            seen[name] = 1
            count = split(uses[name], used, " ")
            for (i = 1; i <= count; i++) reach(used[i])
            print name
        }
        END {
            count = split(names, wanted, " ")
            for (i = 1; i <= count; i++) reach(wanted[i])
        }
    ' "$top/crates.txt"
}

# outdated ARCHIVE NAME: it is missing, or older than code or definitions that the crate reaches
outdated() {
    local crate folders=()
    for crate in $(reached "$2"); do
        folders+=("$top/crates/$crate/src" "$top/crates/$crate/specs")
    done
    [ ! -f "$1" ] || [ -n "$(find "${folders[@]}" -type f -newer "$1" -print -quit 2>/dev/null)" ]
}

# build_crate NAME: a library, a static library, or a program, which is run once without input
build_crate() {
    cd "$top/crates/$1" || return
    if [ -f src/main.rt ]; then
        # rt answers with the program's own status: that it was built, this line says
        rt run </dev/null 2>&1 | tee "$top/target/log/run.txt"
        grep -q "^rt: running out/$1;" "$top/target/log/run.txt"
    else
        rt lib </dev/null 2>&1
    fi
}

# build NAME..: each with all that it uses
build() {
    local log=$top/target/log/prove.txt all left crate began start=$SECONDS
    mkdir -p "$top/target/log"
    : >"$log"
    all=$(reached "$@")
    left=$(wc -l <<<"$all")
    for crate in $all; do
        began=$SECONDS
        if ! (build_crate "$crate") >>"$log"; then
            cat "$log"
            echo "crate $crate failed: target/log/prove.txt" >&2
            return 1
        fi
        left=$((left - 1))
        [ $((SECONDS - began)) -lt 5 ] || echo "   $crate proved, $left left ($((SECONDS - start)) s)"
    done
}

prove() {
    local name
    case $1 in
    programs)
        shift
        build "$@" || return
        mkdir -p "$top/target/bin"
        for name in "$@"; do
            cp "$top/crates/$name/out/$name" "$top/target/bin/$name" || return
        done
        ;;
    archive)
        build "$2" || return
        mkdir -p "$top/target/staticlib"
        cp "$top/crates/$2/out/lib$2.a" "$top/target/staticlib/lib$3.a"
        ;;
    esac
}
