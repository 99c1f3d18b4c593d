#!/usr/bin/env bash
# How much stack each call takes, by stack.c, as a Markdown table. Fails if a call takes more than include/gawherino.h says.
# --write puts the figures, rounded up to a multiple of 256 bytes, into the header, and the table into docs/PERFORMANCE.md.
set -u
cd "$(dirname "$0")/.." || exit 2
room=$(mktemp -d) || exit 2
trap 'rm -rf "$room"' EXIT
archive=${GAWHERINO_STATICLIB:-target/staticlib}/libgawherino.a
[ -f "$archive" ] || { echo "there is no $archive: run 'bash tools/build.sh gawherino' first"; exit 2; }

# bound at the start, so that no call is measured with the dynamic linker's own work in it
measure() {
    gcc -std=c99 -O2 -Wall -Wextra -Wpedantic -Werror -Iinclude conformance/stack.c "$archive" -Wl,-z,now -o "$room/stack" || exit 2
    "$room/stack" >"$room/figures"
}

table() {
    echo '| call | bytes of stack | least of the plans | header |'
    echo '|---|---|---|---|'
    while read -r name greatest least _ said; do
        printf '| `%s` | %s | %s | %s |\n' "$name" "$greatest" "$least" "$said" | perl -pe '1 while s/\b(\d+)(\d{3})\b/$1,$2/'
    done <"$room/figures"
}

if [ "${1-}" = --write ]; then
    measure 2>/dev/null
    most=0
    while read -r name greatest _; do
        up=$(((greatest + 255) / 256 * 256))
        [ "$up" -gt "$most" ] && most=$up
        macro=GAWHERINO_STACK_$(echo "${name#gawherino_}" | tr '[:lower:]' '[:upper:]')
        perl -pi -e "s/^(#define $macro) \\d+u\$/\$1 ${up}u/" include/gawherino.h
    done <"$room/figures"
    perl -pi -e "s/^(#define GAWHERINO_MAX_STACK) \\d+u\$/\$1 ${most}u/" include/gawherino.h
fi
measure
status=$?
# none is left out
diff <(cut -d ' ' -f 1 "$room/figures" | sort) <(grep -o '^uint32_t gawherino_[a-z0-9_]*' include/gawherino.h | cut -c 10- | sort) || status=1
table | tee "$room/table"
if [ "${1-}" = --write ]; then
    TABLE=$(cat "$room/table") perl -0pi -e 's/(<!-- stack\.sh -->\n).*?(<!-- end -->)/$1$ENV{TABLE}\n$2/s' docs/PERFORMANCE.md
fi
exit "$status"
