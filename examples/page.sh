#!/usr/bin/env bash
# Proves and builds the page program, and runs it.
set -u
program=page made=page

usage() {
    cat <<'END'
usage: page.sh [FILE | -]

Makes the page for the hut wall of a file of plan bytes, of standard input with '-', or, without either, of a sample. Bytes behind the
plan, as the legs of a report's file, are not looked at. The program is proved and built first, which takes some minutes the first time.

The page goes to standard output, or, if the plan is refused, the line of the refusal. The exit status is 0 once either is written; it
is 1, with a line on standard error, if the input could not be read or the page not be written.
END
}

. "$(dirname "$0")/program.sh"
