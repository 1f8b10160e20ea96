#!/usr/bin/env bash
# Runs the router's program, for example
#
#   ./run.sh -e 'Idle -> c :: Counter -> Discard;' < crates/click_prog/stdin
#
#   ./run.sh ARG..           runs the proved program. Proves and builds it first, in about an hour,
#                            if it is not built from the present sources.
#
#   ./run.sh --quick ARG..   runs the same program UNPROVED. Builds it first, in some minutes, if it
#                            is not built from the present sources.
#
# The arguments, standard input, standard output and the exit status are those of the program
# (docs/CONTROL.md): the script replaces itself by it. Progress of a build is reported on standard
# error. If there is no program to run, the script prints the reason and exits with status 5.
set -eu
. "$(dirname "$(readlink -f "$0")")/tools/lib/built.sh"

# stop LINE..: prints the lines on standard error and exits with status 5.
stop() {
    printf 'run.sh: %s\n' "$@" >&2
    exit 5
}

command -v rt > /dev/null || stop 'the command rt of the toolchain is not on the PATH, so the program can neither be built nor be known to be up to date'

if [ "${1:-}" = --quick ]; then
    shift
    quick=$top/crates/click_prog/out/quick/click_prog
    was=$(stat -c %i "$quick" 2> /dev/null || true)
    echo 'run.sh: this program is NOT PROVED (--quick)' >&2
    "$top/tools/quick_build.py" click_prog < /dev/null >&2 || stop 'the program was not built'
    if [ "$(stat -c %i "$quick")" != "$was" ]; then echo 'run.sh: this program is NOT PROVED; ./run.sh without --quick proves it' >&2; fi
    exec "$quick" "$@"
fi

sources=$(sum_of_sources) || stop 'the sources could not be read'
if ! is_built_from "$sources"; then
    . "$top/tools/lib/prove.sh"
    prove_program "$sources"
fi
exec "$built" "$@"
