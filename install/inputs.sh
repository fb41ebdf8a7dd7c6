# shellcheck shell=sh
# For `plural_forms`, here and installed: whether the words of a check name a file that only translation-input reads (Android's XML, a
# catalog in another charset), or whether its lines go to a terminal, where they have colours. Both need python3.

# needs_input WORD..
needs_input() {
    [ "${1-}" = check ] && command -v python3 >/dev/null || return 1
    [ ! -t 1 ] || return 0
    for word; do
        [ -f "$word" ] || continue
        case $word in
        *.[xX][mM][lL]) return 0 ;;
        *.[pP][oO] | *.[pP][oO][tT])
            # The first line alone is the header's, others are of messages.
            LC_ALL=C grep -ai -m1 '^"Content-Type:' -- "$word" | LC_ALL=C grep -aqiE 'charset=(utf-?8|charset|us-ascii|ascii)' || return 0
            ;;
        esac
    done
    return 1
}
