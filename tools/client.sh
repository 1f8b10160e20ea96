#!/usr/bin/env bash
# Checks the program with a client as operators write it. The client sends a command only after it
# has read the complete reply to the one before, and reads a value by its length. A program that
# answers late, or writes more or less than its reply, fails.
set -eu
. "$(dirname "$(readlink -f "$0")")/lib/checking.sh"
is_built "$program"
export LC_ALL=C
seconds=${SECONDS_TO_WAIT:-20}
sent='nothing yet'

coproc session { exec "$program" -e 'Idle -> c :: Counter -> Discard; FromDevice(a) -> q :: Queue(5) -> ToDevice(b);' 2> "$work/err"; }
pid=$session_PID
exec 3<&"${session[0]}" 4>&"${session[1]}"

# next_line: reads the next line into $line, without its CR LF.
next_line() {
    if ! IFS= read -r -t "$seconds" line <&3; then fail "no line came in reply to: $sent"; fi
    if [ "${line%$'\r'}" = "$line" ]; then fail "a line has no CR in reply to: $sent" "$line"; fi
    line=${line%$'\r'}
}

# ask COMMAND REPLY [VALUE]: sends the command and checks its reply: these lines, separated by `|`,
# and then this value.
ask() {
    local reply='' value='' size
    sent=$1
    printf '%s\n' "$sent" >&4
    while true; do
        next_line
        reply+=${reply:+|}$line
        case $line in
        [0-9][0-9][0-9]-*) ;;
        *) break ;;
        esac
    done
    same "$2" "$reply" "the reply to $sent"
    if [ $# = 3 ]; then
        next_line
        size=${line#DATA }
        same "DATA ${#3}" "$line" "the length of $sent"
        if ! IFS= read -r -t "$seconds" -N "$size" value <&3; then fail "the value of $sent did not come whole"; fi
        same "$3" "$value" "the value of $sent"
    fi
}

next_line
same 'Click::ControlSocket/1.3' "$line" 'the greeting'
ask 'READ c.count' "200 Read handler 'c.count' OK" 0
ask 'READ list' "200 Read handler 'list' OK" $'6\nIdle@1\nc\nDiscard@3\nFromDevice@4\nq\nToDevice@6\n'
ask 'write q.capacity 9' "200 Write handler 'q.capacity' OK"
ask 'READ q.capacity' "200 Read handler 'q.capacity' OK" 9
ask $'WRITEDATA q.capacity 2\n12' "200 Write handler 'q.capacity' OK"
ask 'READ q.capacity' "200 Read handler 'q.capacity' OK" 12
ask 'WRITE q.capacity 0' "520-Write handler 'q.capacity' error:|520 out of range"
ask 'CHECKREAD q.length' "200 Read handler 'q.length' OK"
ask 'CHECKWRITE q.length' "530 Handler 'q.length' read-only"
ask 'READ q.reset' "530 Handler 'q.reset' write-only"
ask 'READ x.count' "510 No element named 'x'"
ask 'READ c.none' "511 No handler named 'c.none'"
ask 'READDATA c.count 1x' '500 Syntax error'
ask 'FOO bar' "501 Unimplemented command 'FOO'"
ask 'QUIT' '200 Goodbye!'
cat <&3 > "$work/rest"
is_empty "$work/rest" 'what comes after QUIT'
status=0
wait "$pid" || status=$?
same_status 0 "$status" 'the session of a client'
is_empty "$work/err" 'standard error at the session of a client'
echo 'a client that waits for each reply is answered'
