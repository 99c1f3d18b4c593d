# What report.sh and page.sh have in common: a program is proved and built, and run. Sourced by them, which say before what is run:
# program (its crate), made (what it writes, in a word), and a function usage.

fail() {
    echo "$program.sh: $*" >&2
    exit 1
}

home=$(cd "$(dirname "${BASH_SOURCE[0]}")/.." && pwd) || exit 1
case ${1-} in
    -h | --help) usage && exit ;;
esac
[ $# -le 1 ] || { usage >&2; exit 2; }

# the input is opened first of all, so that what cannot be read is refused before anything is proved
input=${1-$home/crates/$program/stdin}
if [ "$input" = - ]; then
    { exec 3<&0; } 2>/dev/null || fail "standard input is closed"
else
    [ ! -d "$input" ] || fail "$input is a folder"
    { exec 3<"$input"; } 2>/dev/null || fail "$input cannot be read"
fi
command -v rt >/dev/null || fail "there is no rt: the Rattle toolchain is needed"

errors=$(mktemp) || exit 1
trap 'rm -f "$errors"' EXIT

echo "$program.sh: the $made is proved and built, which takes some minutes the first time" >&2
(cd "$home" && bash tools/build.sh "$program" </dev/null 3<&-) >&2 || fail "it could not be proved and built"

# the program has no exit status: what it could not do is a line on its standard error
# (a pipe that nobody reads any more is one that cannot be written, which the program says: the signal is ignored, by the program too)
(trap '' PIPE && exec "$home/target/bin/$program") <&3 2>"$errors"
status=$?
[ ! -s "$errors" ] || { cat "$errors" >&2; status=1; }
exit "$status"
