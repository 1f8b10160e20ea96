#!/usr/bin/env bash
# Measures the main figures of RESULTS.md in one run, with peers and goals: packets through the
# engine, reads and lines of sessions, captures, and texts. A goal is a maximum for the ratio to the
# peer, unless its row says otherwise. Each script that is called here checks the outputs of what it
# measures, and stops if one is wrong or a number is missing.
#
#   bench/speed.sh [packets|reads|captures|texts]..    measures these parts, or all
#
# The programs are the proved ones that ./test.sh built, and bench/drive, which is proved and built
# first. DRIVE, PROGRAM and PCAP name other ones, such as those that bench/unproved/build.py makes.
# Needs rt, rustc, cc, python3, GNU time and valgrind, and uses tcpdump if it is installed. Captures
# are timed, so nothing else should run in parallel. This is not a part of the gate.
set -eu
here="$(cd "$(dirname "$0")" && pwd)"
. "$here/lib/counting.sh"

packets() {
    drive_built
    "$here/engine/measure.sh" cases
}
reads() {
    drive_built
    "$here/handlers/measure.sh" reads sessions
}
captures() { "$here/pcap/measure.sh"; }
texts() {
    drive_built
    "$here/texts/measure.sh"
}

parts 'packets reads captures texts' "$@"
