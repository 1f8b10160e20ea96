#!/usr/bin/env bash
# Runs the cases of tools/hostile.py, or only the named ones, against a program of its own for each.
#
#   tools/hostile.sh [CASE..]
set -eu
. "$(dirname "$(readlink -f "$0")")/lib/checking.sh"
is_built "$program"
if [ $# = 0 ]; then set -- devices memory blank commands neighbours crowd local readonly rounds; fi
for case in "$@"; do
    ran timeout 300 python3 "$top/tools/hostile.py" "$program" "$case"
    same_status 0 "$status" "$case: $(cat "$work/err")"
done
echo "hostile use: $*: passed"
