# shellcheck shell=bash
# For `plurals`, `plural_forms`, and what proves in tools/, which set `top` and `crate`, the folder of the crate that is built: whether what was
# built of it is from the present sources.

# The output of `state` before it was built.
built=${crate:?}/out/sources

# Prints the kit that `rt` belongs to; without `rt`, the kit of the build, since what is built runs without a kit.
kit() {
    local rt
    if rt=$(command -v rt); then
        rt=$(readlink -f "$rt")
        cat "${rt%/bin/rt}/KIT-ID" 2>/dev/null || echo "a kit without KIT-ID"
    else
        head -n 1 "$built"
    fi
}

# Prints the lines of crates.txt of the named crates and of all that they stand on, each after those that it uses. The kit's libraries have none.
lines() {
    awk -v wanted="$*" '
        function print_with_lower(name, words, count, at) {
            if (!(name in line) || printed[name]++) return
            count = split(line[name], words, /[: \t]+/)
            for (at = 2; at <= count; at++) print_with_lower(words[at])
            print line[name]
        }
        { sub(/#.*/, "") }
        NF { name = $1; sub(/:.*/, "", name); line[name] = $0 }
        END { count = split(wanted, names, " "); for (at = 1; at <= count; at++) print_with_lower(names[at]) }' "${top:?}/crates.txt"
}

# Prints, in order, what `find` says by these words of the sources of the crate and of all that it stands on.
sources() {
    local names
    mapfile -t names < <(lines "${crate##*/}")
    names=("${names[@]%%[: ]*}")
    (cd "$top" && find "${names[@]/#/crates/}" -name out -prune -o "$@") | LC_ALL=C sort
}

# Prints what the crate is made of: the kit, the lines of crates.txt, and each source by its path below the top, with its time and size.
state() {
    kit
    lines "${crate##*/}"
    sources '(' -name '*.rt' -o -name '*.antt' ')' -printf '%p %T@ %s\n'
}

# Returns whether this file was built from the present sources.
is_built() {
    [ -f "$1" ] && [ -f "$built" ] && [ "$(state)" = "$(<"$built")" ]
}

# Reads what rt says, and shows on standard error which crate it proves, of how many, and how long it all has taken: a line for each crate,
# which a terminal shows anew every two seconds. PLURALS_BUILT names the crates that a whole command builds, if these are several.
show_progress() {
    local line names name='' place what said='' start='' end=$'\n'
    mapfile -t names < <(lines "${PLURALS_BUILT:-${crate##*/}}")
    names=("${names[@]%%[: ]*}")
    what="reading ${#names[@]} crates"
    [ ! -t 2 ] || start=$'\r' end=''
    while IFS= read -r -t 2 line || [ $? -gt 128 ]; do
        if [[ $line =~ ^rt:\ chose\ --jobs\ .*\ for\ (.*) && ${BASH_REMATCH[1]} != "$name" ]]; then
            name=${BASH_REMATCH[1]}
            for place in "${!names[@]}"; do
                [ "${names[place]}" != "$name" ] || break
            done
            what="proving $name, crate $((place + 1)) of ${#names[@]}"
            [ -z "$said" ] || [ -n "$end" ] || echo
        elif [ -n "$end" ] || [ "$said" = "$SECONDS" ]; then
            continue
        fi
        said=$SECONDS
        printf '%s%s, %d:%02d so far%s' "$start" "$what" $((said / 60)) $((said % 60)) "$end"
    done >&2
    [ -z "$said" ] || [ -n "$end" ] || echo >&2
}

# Runs a command of rt in the crate, which proves it and all that it stands on, and keeps what it says in the file `log`.
#   prove NAME FILE COMMAND..      NAME: who says what went wrong; FILE: what has to be there afterwards
prove() {
    local name=$1 file=$2 log=$crate/out/build.log before
    shift 2
    mkdir -p "$crate/out"
    rm -f "$built"
    before=$(state)
    if ! (cd "$crate" && "$@") 2>&1 </dev/null | tee "$log" | show_progress || [ ! -f "$file" ]; then
        echo "$name: it is not proved, or not built:" >&2
        grep -E '\.(rt|antt):[0-9]+' "$log" | grep -E ': error|not proved|no proof' >&2 || tail -n 20 "$log" >&2
        echo "$name: the whole log is ${log#"$top/"}" >&2
        return 1
    fi
    if [ "$(state)" != "$before" ]; then
        echo "$name: a source was edited meanwhile: run it again" >&2
        return 1
    fi
    printf '%s\n' "$before" >"$built"
}
