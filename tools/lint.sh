#!/usr/bin/env bash
# lint.sh: checks the scripts of this workspace with shellcheck and ruff, if they are installed. What
# is not installed is left out, which a line says. .shellcheckrc has the exceptions of shellcheck.
set -eu
cd "$(dirname "$(readlink -f "$0")")/.."

# list PATTERN: prints the files with such names, without what builds left.
list() { find . \( -name out -o -name .git -o -name target \) -prune -o -type f -name "$1" -print; }

status=0
if command -v shellcheck > /dev/null; then
    mapfile -t scripts < <(list '*.sh' && list '*.bash' && echo .ci/run)
    shellcheck "${scripts[@]}" || status=1
    echo "shellcheck: ${#scripts[@]} scripts checked"
else
    echo 'left out: shellcheck is not installed'
fi
if command -v ruff > /dev/null; then
    mapfile -t scripts < <(list '*.py' && echo clients/clickctl)
    ruff check --select E4,E7,E9,F,B --quiet "${scripts[@]}" || status=1
    echo "ruff: ${#scripts[@]} scripts checked"
else
    echo 'left out: ruff is not installed'
fi
exit "$status"
