# shellcheck shell=bash
# For `plurals` and `plural_forms`, after tools/built.sh: the program of the crate, compiled without a proof as `rt try` does it, with checks
# that stop it at an index out of bounds, an overflow, a failed unwrap or a bad access. `rt try` compiles at each call and keeps
# nothing, so here it runs in a folder of links to its kit, where the linker is a script that keeps what it has linked.
: "${top:?}" "${crate:?}"

# Prints what that program is made of: the kit, this file, the lines of crates.txt, and each source that is compiled, by its bytes.
tried_from() {
    kit
    lines "${crate##*/}"
    sources -name '*.rt' -print | (cd "$top" && xargs -d '\n' sha256sum tools/tried.sh)
}

# Makes the folder KEEPING of links to the kit, in which `rt` leaves the program as the file PROGRAM.
#   make_kit KIT KEEPING PROGRAM
make_kit() {
    local it kept
    mkdir -p "$2/bin" "$2/toolchain/bin"
    # `rt` takes the kit that it lies in. The check that it runs beside a try only warns of names that a proof refuses.
    cp "$1/bin/rt" "$1/bin/rtlib.py" "$2/bin"
    ln -s "$(type -P true)" "$2/bin/rattle"
    printf '#!/usr/bin/env bash\n%q "$@" && cp program %q\n' "$1/toolchain/bin/ld.lld" "$3" >"$2/toolchain/bin/ld.lld"
    chmod +x "$2/toolchain/bin/ld.lld"
    for it in "$1"/{,bin/,toolchain/,toolchain/bin/}*; do
        kept=$2${it#"$1"}
        [ -e "$kept" ] || ln -s "$it" "$kept"
    done
}

# Sets `program` to the one that is kept, or compiles it before by running it with these words. Exits with 70 where there is none.
#   try_program NAME WORD..      NAME: who says what goes on
try_program() {
    local name=$1 from kept
    shift
    if ! command -v rt >/dev/null; then
        echo "$name: no program is built, and the command rt of the Rattle kit is not on the PATH" >&2
        exit 70
    fi
    from=$(tried_from | sha256sum)
    kept=$crate/out/tried/${from%% *}
    program=$kept
    if [ ! -x "$kept" ]; then
        echo "$name: compiling the program takes about a minute; the next calls find it" >&2
        room=$(mktemp -d)
        trap 'rm -rf "$room"' EXIT
        trap 'exit 130' INT
        program=$room/program
        make_kit "$(dirname "$(rt doc)")" "$room/kit" "$program"
        (cd "$crate" && "$room/kit/bin/rt" try -- "$@") </dev/null >"$room/said" 2>&1 || true
        if [ ! -x "$program" ]; then
            cat "$room/said" >&2
            echo "$name: the program could not be compiled" >&2
            exit 70
        fi
        # A clone that was edited meanwhile, or can't be written to, keeps none.
        if [ "$(tried_from | sha256sum)" = "$from" ]; then
            { mkdir -p "${kept%/*}" && rm -f "${kept%/*}"/* && cp "$program" "$kept.$$" && mv "$kept.$$" "$kept"; } 2>/dev/null || true
        fi
    fi
    echo "$name: this run isn't proved; tools/build proves the program and keeps it" >&2
}

# Runs the program, and returns its status, 0, 1 or 2. Exits with 70 where it has another.
#   run_tried NAME WORD..
run_tried() {
    local name=$1 status=0
    shift
    "$program" "$@" || status=$?
    [ "$status" -gt 2 ] || return "$status"
    echo "$name: the program has stopped at a fault; rt try -- WORD.. in crates/${crate##*/} says where" >&2
    exit 70
}
