# shellcheck shell=bash
# For the scripts `run`, which set `name`: finds the installed library, and makes the folder `work`, which goes at the end.
# The library is the one below $PLURALS_PREFIX; else, in the repository, one that tools/install makes in examples/build/prefix; else
# the one that these examples were installed with.
examples=$(dirname "$(readlink -f "${BASH_SOURCE[0]}")")
prefix=${PLURALS_PREFIX:-}
if [ -z "$prefix" ] && [ -x "$examples/../tools/install" ]; then
    prefix=$examples/build/prefix
    "$examples/../tools/install" --library "$prefix" >&2
elif [ -z "$prefix" ]; then
    prefix=$(readlink -f "$examples/../../..")
fi
for libdir in "$prefix"/lib "$prefix"/lib/*; do
    [ ! -f "$libdir/pkgconfig/plurals.pc" ] || break
done
if [ ! -f "$libdir/pkgconfig/plurals.pc" ]; then
    echo "$name: no library is installed below $prefix" >&2
    exit 1
fi
export PKG_CONFIG_PATH=$libdir/pkgconfig LD_LIBRARY_PATH=$libdir${LD_LIBRARY_PATH:+:$LD_LIBRARY_PATH}
work=$(mktemp -d)
trap 'rm -rf "$work"' EXIT

# Ends with a message if one of these programs isn't on the PATH.
need() {
    local program
    for program; do
        if ! command -v "$program" >/dev/null; then
            echo "$name: there is no program $program on the PATH" >&2
            exit 1
        fi
    done
}

# Prints what a command prints, and compares it with a file of the examples.
compare_with() {
    local file=$1
    shift
    "$@" | tee "$work/stdout"
    if ! cmp -s "$work/stdout" "$examples/$file"; then
        echo "$name: it isn't what examples/$file has" >&2
        exit 1
    fi
}
compare() { compare_with stdout "$@"; }
