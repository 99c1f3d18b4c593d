#!/usr/bin/env bash
# Proves and builds what is made of the crates: the archive for C and the programs.
#
#   bash tools/build.sh             all: target/staticlib/libgawherino.a, target/bin/report and target/bin/page
#   bash tools/build.sh NAME..      of these, gawherino, report or page alone
#
# What is proved already is not proved again. The toolchain builds a program only to run it, so each is run once, on no input.
set -uo pipefail
cd "$(dirname "$0")/.." || exit 2
command -v rt >/dev/null || { echo "build.sh: there is no rt: the Rattle toolchain is needed" >&2; exit 1; }
log=$(mktemp) || exit 2
trap 'rm -f "$log"' EXIT

make() { # the crate, the command that builds it, what it leaves in out/, the folder under target/
    local crate=$1 command=$2 made=$3 folder=target/$4
    # the functions that are proved are shown as they come
    (cd "crates/$crate" && rt "$command" </dev/null 2>&1 | tee "$log" | sed -u -n 's/^checked /build.sh: checked /p' >&2) || { cat "$log" >&2; echo "build.sh: $crate could not be proved and built" >&2; exit 1; }
    mkdir -p "$folder" && cp "crates/$crate/out/$made" "$folder/" || exit 1
}

[ $# -gt 0 ] || set -- gawherino report page
for name in "$@"; do
    case $name in
        gawherino) make gawherino lib libgawherino.a staticlib ;;
        report | page) make "$name" run "$name" bin ;;
        *) echo "build.sh: gawherino, report or page, not $name" >&2; exit 2 ;;
    esac
done
