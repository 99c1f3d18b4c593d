#!/usr/bin/env bash
# Proves and builds the report, and runs it.
set -u
program=report made=report

usage() {
    cat <<'END'
usage: report.sh [FILE | -]

Reports on a file of plan bytes and then one byte a leg, on standard input with '-', or, without either, on document 01's sample.
From standard input a leg is reported as it arrives. The program is proved and built first, which takes some minutes the first time.

The lines go to standard output. The exit status is 0 once the report is written whole, refusals and all; it is 1, with a line on
standard error, if the input could not be read or the lines not be written.
END
}

. "$(dirname "$0")/program.sh"
