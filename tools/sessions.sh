#!/usr/bin/env bash
# Runs the cases of tools/sessions.py, or only the named ones. Without names it also checks README's
# command that listens, and a session by nc, if it is installed.
#
#   tools/sessions.sh [CASE..]
set -eu
. "$(dirname "$(readlink -f "$0")")/lib/checking.sh"
is_built "$program"

# tried CASE: runs a case.
tried() {
    ran timeout 120 python3 "$top/tools/sessions.py" "$program" "$1"
    same_status 0 "$status" "$1: $(cat "$work/err")"
}

if [ $# -gt 0 ]; then
    for case in "$@"; do tried "$case"; done
    exit 0
fi
for case in counting swapping clients reading taken checked staying requests; do tried "$case"; done

# README's command that listens, taken from the page.
command=$(grep -m 1 '^    \./run\.sh.* -p 7777' "$top/README.md" | sed 's/^    //')
if [ -z "$command" ]; then fail 'README has no indented line that begins with ./run.sh and has -p 7777'; fi
mkdir "$work/top"
ln -s "$program" "$work/top/run.sh"
(cd "$work/top" && exec timeout 60 bash -c "$command" > "$work/said" 2>&1) &
pid=$!
ran timeout 60 python3 "$top/tools/sessions.py" 7777 attached
same_status 0 "$status" "README's command that listens: $(cat "$work/err")"
status=0
wait "$pid" || status=$?
is_empty "$work/said" "what README's command that listens says"
same_status 0 "$status" "README's command that listens"

# nc, if it is installed: it sends all commands at once, and its output is the whole session.
if command -v nc > /dev/null; then
    port=$((20000 + RANDOM % 20000))
    timeout 60 "$program" -e 'Idle -> c :: Counter -> Discard;' -p "$port" > "$work/said" 2>&1 &
    pid=$!
    sleep 0.5
    printf 'READ c.count\r\nQUIT\r\n' | timeout 20 nc 127.0.0.1 "$port" > "$work/came" || fail "nc ended with $?"
    printf "Click::ControlSocket/1.3\r\n200 Read handler 'c.count' OK\r\nDATA 1\r\n0200 Goodbye!\r\n" > "$work/wanted"
    same_bytes "$work/wanted" "$work/came" 'a session by nc'
    status=0
    wait "$pid" || status=$?
    is_empty "$work/said" 'what the program says'
    same_status 0 "$status" 'a session by nc'
fi
echo 'sessions over TCP: each reply is one that a single thread could get'
