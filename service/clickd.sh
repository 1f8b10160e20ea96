#!/usr/bin/env bash
# clickd: starts a router from a file, and changes it while it runs. The unit click@NAME calls it.
#
#   clickd run FILE OPTION..      becomes click_prog --live, with the text of FILE.
#
#   clickd wait FILE OPTION..     blocks until that router answers, at most 60 seconds.
#
#   clickd reload FILE OPTION..   swaps the text of FILE into that router.
#
# The OPTIONs are those of click_prog, with -p PORT. The exit status is 1 if the router refuses the
# text, and 2 if the words or the file are wrong. It is 4 if no router answers, also if only the
# reply to a swap is missing. After `run` it is that of click_prog.
set -eu
bin=$(cd "$(dirname "$(readlink -f "$0")")/../../bin" && pwd)
# An argument of a program in Linux has at most 131,072 bytes, with the byte at its end.
max_argument_bytes=131071
# A configuration has at most 1 MiB, as the payload of a control session.
max_text_bytes=1048576
wait_seconds=60
# A session may have to wait for a free session slot, and a swap for other calls.
reply_seconds=60

# stop STATUS LINE..: prints the lines on standard error and exits.
stop() {
    local status=$1
    shift
    printf 'clickd: %s\n' "$@" >&2
    exit "$status"
}

# find_port OPTION..: leaves the value of -p in $port.
find_port() {
    local word is_value=''
    port=''
    for word; do
        if [ -n "$is_value" ]; then port=$word is_value='' && continue; fi
        case $word in
        -p) is_value=1 ;;
        -p*) port=${word#-p} port=${port#=} ;;
        esac
    done
    if [ -z "$port" ]; then stop 2 'the options have no -p PORT, so the router could not be reloaded'; fi
    case $port in
    *[!0-9]* | ??????*) ;;
    *) if [ "$((10#$port))" -ge 1 ] && [ "$((10#$port))" -le 65535 ]; then return; fi ;;
    esac
    stop 2 "-p: '$port' is not a number from 1 to 65535 in decimal digits"
}

# read_text FILE: leaves the text of the file in $text and its length in $size. $is_argument is not
# empty if it can be an argument of a program. Such a text is not too long, has no byte 0, and is
# UTF-8.
read_text() {
    local LC_ALL=C
    [ -f "$1" ] || stop 2 "$1: there is no such file"
    [ -r "$1" ] || stop 2 "$1: the file cannot be read by $(id -un 2> /dev/null || id -u); make it readable by all (chmod a+r)"
    size=$(stat -L -c %s "$1")
    if [ "$size" -gt $max_text_bytes ]; then stop 2 "$1: the text has $size bytes, and at most $max_text_bytes are allowed"; fi
    # A program that failed while it wrote the file leaves such a text, and a swap to it would remove
    # all queues and counts.
    grep -qa '[^[:space:]]' "$1" || stop 2 "$1: the text is empty or has only white space; a comment is enough for a router without elements"
    text='' is_argument=''
    if [ "$size" -le $max_argument_bytes ]; then
        # The last byte 0 that `read` looks for is not in a text, so it reads the whole file.
        IFS= read -r -d '' text < "$1" || true
        if [ ${#text} = "$size" ] && iconv -f UTF-8 -t UTF-16 < "$1" > /dev/null 2>&1; then is_argument=1; fi
    fi
}

# run FILE OPTION..: becomes the router. If the text cannot be an argument, the router starts with
# an empty configuration, and `wait` swaps the text in.
run() {
    local file=$1 word live=--live is_readonly=''
    shift
    find_port "$@"
    read_text "$file"
    for word; do
        case $word in
        --live) live='' ;;
        --readonly) is_readonly=1 ;;
        esac
    done
    if [ -z "$is_argument" ] && [ -n "$is_readonly" ]; then
        stop 2 "$file: the text has $size bytes; with --readonly at most $max_argument_bytes bytes of UTF-8 without a byte 0 are allowed" \
            'another text is swapped in after the start, which --readonly refuses: change the text, or leave out --readonly'
    fi
    if [ -z "$is_argument" ]; then
        text=''
        echo "clickd: $file: the text cannot be an argument, so the router starts empty until the text is swapped in" >&2
    fi
    exec "$bin/click_prog" ${live:+$live} -e "$text" "$@"
}

# has_ended: succeeds if the unit says which process the router is, and that process has ended.
has_ended() { [ -n "${MAINPID:-}" ] && ! kill -0 "$MAINPID" 2> /dev/null; }

# connect SECONDS: opens a control session as descriptor 3. Fails with 1 if no router answers, and
# with 2 if a program listens there and sends nothing in this time.
connect() {
    local greeting='' status=1
    { exec 3<> "/dev/tcp/127.0.0.1/$port"; } 2> /dev/null || return 1
    # A status above 128 of `read` stands for the end of the time.
    IFS= read -r -t "$1" greeting <&3 || { if [ $? -gt 128 ]; then status=2; fi; }
    case $greeting in Click::ControlSocket/*) return 0 ;; esac
    exec 3<&-
    return $status
}

# wait_for FILE OPTION..: waits until the router answers, and swaps the text in if it was not an
# argument. A router whose process runs and whose clients keep all session slots counts as up.
wait_for() {
    local file=$1 ends=$((SECONDS + wait_seconds)) status
    shift
    find_port "$@"
    while :; do
        status=0
        connect 5 || status=$?
        if [ $status = 0 ]; then
            printf 'QUIT\n' >&3 || true
            exec 3<&-
            break
        fi
        if has_ended; then stop 4 'the router has ended'; fi
        if [ $status = 2 ] && [ -n "${MAINPID:-}" ]; then
            echo 'clickd: clients keep all session slots of the router' >&2
            break
        fi
        if [ $SECONDS -ge $ends ]; then stop 4 "no router answers at 127.0.0.1:$port"; fi
        sleep 0.05
    done
    # Another program may have answered at the port.
    if has_ended; then stop 4 'the router has ended'; fi
    read_text "$file"
    if [ -z "$is_argument" ]; then reload "$file" "$@"; fi
}

# reload FILE OPTION..: swaps the text in, by clickctl if it is installed. If the unit says which
# process the router is, the port is the one that this process was started with. The options may
# have changed since then, and another router may have their port.
reload() {
    local file=$1 words=()
    shift
    if [ -r "/proc/${MAINPID:-none}/cmdline" ]; then
        mapfile -d '' -t words < "/proc/$MAINPID/cmdline"
        while [ "${words[0]:-}" ] && [ "${words[0]}" != -e ]; do words=("${words[@]:1}"); done
    fi
    # The text of the configuration follows -e.
    if [ ${#words[@]} -gt 2 ]; then set -- "${words[@]:2}"; fi
    find_port "$@"
    read_text "$file"
    if [ -x "$bin/clickctl" ] && command -v python3 > /dev/null; then
        "$bin/clickctl" -p "$port" --timeout $reply_seconds swap "$file" || not_swapped $? "$file"
    else
        swap "$file"
    fi
    echo "clickd: $file: swapped in"
}

# not_swapped STATUS FILE: stops with this status of clickctl, and says what it means for the router.
# Only after a refusal, or if nothing was sent, the router is known to be unchanged.
not_swapped() {
    case $1 in
    1) stop 1 "$2: the swap was refused, and the router goes on unchanged" ;;
    2) stop 2 "$2: nothing was sent, and the router goes on unchanged" ;;
    *) stop "$1" "$2: the router did not confirm the swap; it may have done it, or still do it" \
        "to see what it runs: clickctl -p $port read config | cmp - $2" ;;
    esac
}

# swap FILE: swaps the text in by a control session.
swap() {
    local line='' reply='' why='the router ended the session without a complete reply'
    copy=$(mktemp)
    trap 'rm -f "$copy"' EXIT
    cat "$1" > "$copy"
    connect $reply_seconds || stop 4 "no router answers at 127.0.0.1:$port"
    {
        printf 'WRITEDATA hotconfig %s\n' "$(stat -c %s "$copy")"
        cat "$copy"
        printf 'QUIT\n'
    } >&3 2> /dev/null || true
    while IFS= read -r -t $reply_seconds line <&3 || { if [ $? -gt 128 ]; then why="no complete reply within $reply_seconds s"; fi && false; }; do
        reply=${line%$'\r'}
        case $reply in ???-*) ;; *) break ;; esac
    done
    case $reply in
    '200 Write handler'*) ;;
    [0-9][0-9][0-9]' '*) stop 1 "$1: the swap was refused, and the router goes on unchanged: ${reply#520 }" ;;
    *)
        echo "clickd: $1: $why" >&2
        not_swapped 4 "$1" ;;
    esac
}

usage='usage: clickd run|wait|reload FILE OPTION..'
[ $# -ge 2 ] || stop 2 "$usage"
word=$1
shift
case $word in
run | reload) "$word" "$@" ;;
wait) wait_for "$@" ;;
*) stop 2 "$usage" ;;
esac
