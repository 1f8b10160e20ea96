#!/usr/bin/env bash
# Checks that the scripts of the gate can fail. Each of them has to refuse wrong programs, pages and
# test scripts, one for each kind of check, with status 1 and a message.
#
#     tools/wrong_programs.sh [SECTION..]    checks these sections, or all
#
# The sections are programs, network, scripts, pages, gate and planted.
#
# A wrong program runs the real one and changes its output or status. A wrapper that changes nothing
# has to pass, which shows that it is the change that is refused. The programs must have been built.
set -eu
. "$(dirname "$(readlink -f "$0")")/lib/checking.sh"
cd "$top"
refused=0

# wrapped FILE PROGRAM CHANGE: makes a wrong program. CHANGE is a piece of shell script that changes
# $status and the files $out and $err. If standard output is /dev/full the real program writes to
# it, so that its write fails.
wrapped() {
    local answer
    answer=$(mktemp -d "$work/answer.XXXX")
    cat > "$1" << E
#!/bin/sh
out=$answer/out err=$answer/err status=0
: > "\$out"
if [ /dev/stdout -ef /dev/full ]; then
    "$2" "\$@" 2> "\$err" || status=\$?
else
    "$2" "\$@" > "\$out" 2> "\$err" || status=\$?
fi
$3
if [ -s "\$out" ]; then cat "\$out"; fi
if [ -s "\$err" ]; then cat "\$err" >&2; fi
exit \$status
E
    chmod +x "$1"
}
# is_refused WHAT COMMAND..: checks that the command ends with status 1 and a message, as a failed
# check does. A script that ends for another reason has another status.
is_refused() {
    local what=$1
    shift
    ran "$@"
    same_status 1 "$status" "$what: $*"
    is_not_empty "$work/err" "$what: $*: why"
    refused=$((refused + 1))
}

# passes WHAT COMMAND..: checks that the script passes over wrappers that change nothing.
passes() {
    local what=$1
    shift
    ran "$@"
    same_status 0 "$status" "$what, with programs that change nothing"
}

# refuses VARIABLE PROGRAM SCRIPT WHAT CHANGE: checks that the script refuses the program with the
# change. VARIABLE is the variable that names the program, and SCRIPT may have arguments.
refuses() {
    wrapped "$work/wrong" "$2" "$5"
    # shellcheck disable=SC2086 # $3 is a script with its arguments
    is_refused "$1 with $4" env "$1=$work/wrong" $3
}

# --- Programs: examples, refused allocations, swaps, captures, a client. ---

# wrong_prog, wrong_calls, wrong_pcap, wrong_player SCRIPT WHAT CHANGE: check that the script refuses
# click_prog, or one of its modes --calls and --pcap, or click_player, with the change.
wrong_player() { refuses PLAYER "$player" "$@"; }
wrong_prog() { refuses PROGRAM "$program" "$@"; }
wrong_calls() { refuses CALLS "$calls" "$@"; }
wrong_pcap() { refuses PCAP "$pcap" "$@"; }

# other_calls CHANGE: makes $work/wrong, a click_prog for --calls that gets the calls with the
# change, a script of sed. Replies to lines that the change marks by `+` are left out.
other_calls() {
    local folder
    folder=$(mktemp -d "$work/other.XXXX")
    cat > "$work/wrong" << E
#!/bin/sh
sed '$1' > "$folder/sent"
status=0
sed 's/^+//' "$folder/sent" | "$calls" "\$@" > "$folder/out" || status=\$?
awk 'NR == FNR { added[FNR] = /^[+]/; next } !added[FNR]' "$folder/sent" "$folder/out"
exit \$status
E
    chmod +x "$work/wrong"
}

programs() {
    local script
    wrapped "$work/click_prog" "$program" ''
    # The wrapper writes only after the program has ended, which is too late for `call_limits` and
    # tools/client.sh.
    for script in 'tools/examples.py commands client files arguments limits refused opens faults pictures books sections dialogue wrong_lines' \
        'tools/alloc_failures.py pictures pcap' tools/swap_faults.sh tools/swap_sizes.sh tools/pcap_example.sh 'tools/filters.py --patterns 3'; do
        # shellcheck disable=SC2086
        QUICK=1 passes "$script" env "PROGRAM=$work/click_prog" $script
    done
    wrong_examples
    wrong_calls_of_examples
    wrong_allocations
    wrong_swaps
    wrong_captures
    wrong_client
    wrong_filters
}

# wrong_examples: wrong statuses, outputs and messages in each kind of example.
wrong_examples() {
    local change
    wrong_prog 'tools/examples.py commands' 'another value' 'sed -i "s/^0/7/" "$out"'
    wrong_prog 'tools/examples.py dialogue' 'another value' 'sed -i "s/^0/7/" "$out"'
    wrong_prog 'tools/examples.py client' 'status 1 instead of 0' 'if [ $status = 0 ]; then status=1; fi'
    wrong_prog 'tools/examples.py files' 'no answer' ': > "$out"; : > "$err"; status=0'
    wrong_prog 'tools/examples.py files' 'status 2 instead of 1' 'if [ $status = 1 ]; then status=2; fi'
    wrong_prog 'tools/examples.py files' 'junk on standard error' 'if [ $status = 0 ]; then echo junk >> "$err"; fi'
    wrong_prog 'tools/examples.py files' 'the first reply left out' 'sed -i 2d "$out"'
    wrong_prog 'tools/examples.py files' 'lines that end without CR' 'sed -i "s/\r//" "$out"'
    wrong_prog 'tools/examples.py refused' 'a fault on standard output' 'if [ $status = 1 ]; then mv "$err" "$out"; : > "$err"; fi'
    wrong_prog 'tools/examples.py refused' 'a fault that is served' 'if [ $status = 1 ]; then printf "Click::ControlSocket/1.3\r\n" > "$out"; : > "$err"; status=0; fi'
    wrong_prog 'tools/examples.py opens' 'no greeting' 'sed -i 1d "$out"'
    wrong_prog 'tools/examples.py arguments' 'status 0 at wrong arguments' 'if [ $status = 2 ]; then status=0; fi'
    wrong_prog 'tools/examples.py arguments' 'another range' 'if [ $status = 2 ]; then sed -i "s/65535/65536/" "$err"; fi'
    for line in 'is not a device' 'has the same address twice' 'needs --link'; do
        wrong_prog 'tools/examples.py arguments' "a session where the line '$line' belongs" \
            "if grep -q -e '$line' \"\$err\"; then : > \"\$err\"; printf 'Click::ControlSocket/1.3\r\n200 Goodbye!\r\n' > \"\$out\"; status=0; fi"
    done
    wrong_prog 'tools/examples.py limits' 'another status if a device fails' 'if [ $status = 4 ]; then status=3; fi'
    wrong_prog 'tools/examples.py limits' 'no line if a device fails' 'if [ $status = 4 ]; then : > "$err"; fi'
    wrong_prog 'tools/examples.py pictures' 'no line if a picture cannot be written' 'if [ $status = 4 ]; then : > "$err"; fi'
    wrong_prog 'tools/examples.py limits' 'a line that is never too long' 'sed -i "s/^500 Line too long/200 Goodbye!/" "$out"'
    wrong_prog 'tools/examples.py faults' 'a fault without its place' 'sed -i "s/ \(at\|in\) .*//" "$err"'
    wrong_prog 'tools/examples.py readings' 'a fault of another number' 'sed -i "s/: [0-9]*/: 99/" "$err"'
    wrong_prog 'tools/examples.py pictures' 'another picture than that of the page' 'sed -i "s/ class=.pull./ class=\"push\"/" "$out"'
    # Pictures that no page shows are compared with the lists of a session. The changes are of a
    # name, of the number of a box, and of the end of a line.
    for change in 's/>Discard</>Idle</' 's/id="e1"/id="e0"/' 's/ \([0-9,]*\)"\/>$/ 1\1"\/>/'; do
        wrong_prog 'tools/examples.py pictures' "the change $change" "if ! grep -q out0 \"\$out\"; then sed -i '$change' \"\$out\"; fi"
    done
    wrong_frames
    wrong_prog 'tools/examples.py pictures' 'a session behind the picture' 'if grep -q "^<svg" "$out"; then printf "Click::ControlSocket/1.3\r\n" >> "$out"; fi'
    wrong_prog 'tools/examples.py books' 'a book with other seats' 'sed -i "s/^0/1/" "$err"'
}

# wrong_frames: frames that are inserted, moved, renamed or left out. The picture of the page stays.
wrong_frames() {
    local frame='<g class="frame" transform="translate(0,0)"><rect rx="8" width="999" height="999"\/><text x="8" y="14">x<\/text><\/g>'
    wrong_frame 'a frame where no compound is' 'the frames of the picture' "if grep -q '>x/z<' \"\$out\"; then sed -i '/id=\"e0\"/s/^/$frame/' \"\$out\"; fi"
    wrong_frame 'a frame of all elements' 'foreign elements in the frame' "sed -i '/id=\"e0\"/s/^/$frame/' \"\$out\""
    wrong_frame 'a frame that cuts a box' 'boxes that the frame .* cuts' 'sed -i "/class=.frame/s/width=.[0-9]*/width=\"50/" "$out"'
    wrong_frame 'a frame elsewhere' 'there is nothing of the frame' 'sed -i "/class=.frame/s/translate(/&9/" "$out"'
    wrong_frame 'a frame with another name' 'foreign elements in the frame' 'sed -i "/class=.frame/s/<.text/z&/" "$out"'
    wrong_frame 'a frame twice' 'a second frame' 'sed -i "/class=.frame/p" "$out"'
    wrong_frame 'no frame' 'the frames of the picture' 'sed -i "/class=.frame/d" "$out"'
}

# wrong_frame WHAT MESSAGE CHANGE: checks that the pictures of click_prog with the change are refused
# with this message.
wrong_frame() {
    wrong_prog 'tools/examples.py pictures' "$1" "if ! grep -q out0 \"\$out\"; then $3; fi"
    if ! grep -q "$2" "$work/err"; then fail "pictures with $1: wanted a message with: $2" "$(shown "$work/err")"; fi
}

wrong_calls_of_examples() {
    wrong_calls 'tools/examples.py books' 'a book that always holds' 'echo "replayed 3 calls, all replies the same" > "$out"; status=0'
    wrong_calls 'tools/examples.py books' 'another line of a book' 'sed -i "s/^line 2/line 1/" "$out"'
    wrong_calls 'tools/examples.py files' 'another value' 'sed -i "s/^value 353132/value 353131/" "$out"'
    wrong_calls 'tools/examples.py files' 'packets that enter from a device without a source' 'sed -i "s/^nodevice/entered 2/" "$out"'
    wrong_calls 'tools/examples.py files' 'no paint' 'sed -i "s/ 7 / 0 /" "$out"'
    wrong_calls 'tools/examples.py sections' 'another byte' 'sed -i "s/ 255 / 254 /" "$out"'
    wrong_calls 'tools/examples.py dialogue' 'another value' 'sed -i "s/^value 3/value 2/" "$out"'
    wrong_calls 'tools/examples.py wrong_lines' 'a reply to a line that is no call' 'if [ $status = 2 ]; then echo nodevice >> "$out"; fi'
    wrong_calls 'tools/examples.py call_limits' 'late replies' ''
    wrong_calls 'tools/examples.py call_limits' 'no line if a device fails' 'if [ $status = 4 ]; then : > "$err"; fi'
}

# wrong_allocations: wrong replies and statuses after a refused allocation.
wrong_allocations() {
    wrong_prog 'tools/alloc_failures.py session' 'another answer if out of memory' 'sed -i "s/^520 .*/511 No handler named '"'c.count'"'\r/" "$out"'
    wrong_prog 'tools/alloc_failures.py session' 'status 0 if out of memory' 'if [ $status = 3 ]; then status=0; fi'
    wrong_prog 'tools/alloc_failures.py session' 'a line if out of memory' 'if [ $status = 3 ]; then echo "click_prog: 7 NoMemory" > "$err"; fi'
    wrong_prog 'tools/alloc_failures.py drivers' 'junk if out of memory' 'if [ $status = 3 ]; then echo junk >> "$out"; fi'
    wrong_prog 'tools/alloc_failures.py swaps' 'the other configuration after a refused swap' 'sed -i "/^520 Out/,\$ s/Queue(3)/Queue(2)/" "$out"'
    wrong_prog 'tools/alloc_failures.py pictures' 'a piece of a picture if out of memory' 'if [ $status = 3 ]; then echo "<svg>" > "$out"; fi'
    wrong_calls 'tools/alloc_failures.py calls' 'a reply if out of memory' 'if [ $status = 3 ]; then echo done >> "$out"; fi'
    wrong_pcap 'tools/alloc_failures.py pcap' 'no word of what stops it' 'if [ $status = 3 ]; then sed -i /^error/d "$err"; fi'
    printf 'case\tA case.\nopen\troom=9 views=1 Idle -> c :: Counter -> Discard;\topened\nview\t0 names\tIdle@1 c Discard@3 \nview\t0 read c.count\tyes\n' > "$work/names.script"
    SCRIPT=$(realpath --relative-to=. "$work/names.script")
    export SCRIPT
    wrapped "$work/click_player" "$player" ''
    passes 'a view that lists names' env "PLAYER=$work/click_player" tools/alloc_failures.py scripts
    wrong_player 'tools/alloc_failures.py scripts' 'another configuration in a view after a refused list of names' \
        "if grep -q ':3: out of memory' \"\$out\"; then printf '%s\n' \"\$SCRIPT:4: A case.\" '  expected: yes' '  actual:   NoElement' '0 cases passed, 1 failed' >> \"\$out\"; status=1; fi"
    wrong_player 'tools/alloc_failures.py scripts' 'no word of a refused list of names' "sed -i '/:3: out of memory/d' \"\$out\""
    wrong_player 'tools/alloc_failures.py scripts' 'a run that ends with a refused list of names' "if grep -q ':3: out of memory' \"\$out\"; then : > \"\$out\"; status=3; fi"
    unset SCRIPT
    # Without a C compiler no allocation can be refused, which has to be a failure.
    mkdir "$work/without"
    is_refused 'no C compiler' env "PATH=$work/without" "$(python3 -c 'import sys; print(sys.executable)')" tools/alloc_failures.py pcap
}

wrong_swaps() {
    local change script
    # The changes: no swap is made, a swap empties a queue, and a packet is lost.
    for change in 's/^swap .*/checkwrite hotconfig/' '/^swap /a+write q.reset' '/^swap /a+transmit b'; do
        other_calls "$change"
        for script in tools/swap_faults.sh tools/swap_sizes.sh; do CALLS=$work/wrong is_refused "the calls $change" $script; done
    done
    wrong_calls tools/swap_faults.sh 'faults without a place' 'sed -i "s/^\(refused Config [0-9]* [a-zA-Z]*\) .*/\1/" "$out"'
    wrong_prog tools/swap_faults.sh 'no word of a refused swap' 'sed -i "/^520-Write/,+1d" "$out"'
    wrong_calls tools/swap_sizes.sh 'two packets exchanged' 'sed -i "/^sent 00c3f0 /{h;d};/^sent 00c3f1/G" "$out"'
    wrong_calls tools/swap_sizes.sh 'drops that are not counted' 'sed -i "s/^value 33393939$/value 30/" "$out"'
}

wrong_captures() {
    local at change
    # A byte of the file header, of a record header, of a time to live, and of a payload.
    for at in 20 32 62 82; do
        QUICK=1 wrong_pcap tools/pcap_example.sh "another byte $at" "python3 -I '$top/tools/pcap_edit.py' \"\$out\" bump $at"
    done
    QUICK=1 wrong_pcap tools/pcap_example.sh 'a record that is lost' "python3 -I '$top/tools/pcap_edit.py' \"\$out\" drop"
    QUICK=1 wrong_pcap tools/pcap_example.sh 'status 3 instead of 1' 'if [ $status = 1 ]; then status=3; fi'
    for change in 's/entered \([0-9]*\)/entered 1\1/' 's/packet 2/packet 1/' '/^error/d'; do
        QUICK=1 wrong_pcap tools/pcap_example.sh "the change $change on standard error" "sed -i '$change' \"\$err\""
    done
}

wrong_client() {
    cat > "$work/own" << 'E'
#!/bin/bash
printf 'Click::ControlSocket/1.3\r\n'
while read -r _; do printf "200 Read handler 'c.count' OK\r\nDATA 1\r\n7"; done
E
    chmod +x "$work/own"
    PROGRAM=$work/own SECONDS_TO_WAIT=1 is_refused 'a program with another value at once' tools/client.sh
    PROGRAM=$work/click_prog SECONDS_TO_WAIT=1 is_refused 'a program with late replies' tools/client.sh
}

# wrong_filters: other outputs, packets and faults. tools/filters.py --wrong has wrong meanings.
wrong_filters() {
    local script='tools/filters.py --patterns 3'
    wrong_calls "$script" 'a packet at another output' 'sed -i "0,/ 11 0.0.0.0$/s// 10 0.0.0.0/" "$out"'
    wrong_calls "$script" 'another byte in a packet' 'sed -i "0,/^sent 45/s//sent 46/" "$out"'
    wrong_calls "$script" 'a packet less' 'sed -i "0,/^sent .* 1 0.0.0.0$/s//sent none/" "$out"'
    wrong_calls "$script" 'a reply less' 'sed -i 2d "$out"'
    wrong_calls "$script" 'a wrong text that is taken' 'sed -i "0,/^refused Config 26.*/s//done/" "$out"'
    wrong_calls "$script" 'a text that is refused' 'if ! grep -q "^sent" "$out"; then sed -i "0,/^done$/s//refused Config 26 BadEntry in f/" "$out"; fi'
    wrong_calls "$script" 'no fault of unused outputs' 'sed -i "s/^refused Config 32 .*/done/" "$out"'
    wrong_calls "$script" 'another fault' 'sed -i "0,/26 BadEntry/s//25 BadAddress/" "$out"'
    wrong_calls "$script" 'status 3 instead of 0' 'status=3'
}

# --- Sessions over TCP, hostile clients, links over UDP, the gateway. ---

# case_wrong SCRIPT CASE WHAT LINE..: checks that the case of the script refuses a program that is
# started by these lines of shell script.
case_wrong() {
    local script=$1 case=$2 what=$3
    shift 3
    { echo '#!/bin/sh'; printf '%s\n' "program='$program'" "$@"; } > "$work/listening"
    chmod +x "$work/listening"
    PROGRAM=$work/listening SECONDS_TO_WAIT=${SECONDS_TO_WAIT:-3} PACKETS=20000 is_refused "a program with $what" "$script" ${case:+"$case"}
}
sessions_wrong() { case_wrong tools/sessions.sh "$@"; }
hostile_wrong() { case_wrong tools/hostile.sh "$@"; }
links_wrong() { case_wrong tools/udp_links.py "$@"; }
# named_wrong SCRIPT CASE WHAT MESSAGE LINE..: does the same. The message has to name the check,
# because a program or a configuration that does not start is refused too.
named_wrong() {
    local script=$1 case=$2 what=$3 message=$4
    shift 4
    case_wrong "$script" "$case" "$what" "$@"
    if ! grep -q -e "$message" "$work/err"; then fail "a program with $what: wanted a message with: $message" "$(shown "$work/err")"; fi
}
service_wrong() { named_wrong tools/service.py "$@"; }
log_wrong() { named_wrong tools/session_log.py "$@"; }
requests_wrong() { named_wrong tools/sessions.sh requests "$@"; }
# gateway_wrong, ethernet_wrong WHAT MESSAGE LINE..
gateway_wrong() { named_wrong examples/gateway/run.sh '' "$@"; }
ethernet_wrong() { named_wrong examples/ethernet/run.sh '' "$@"; }

# exchanged FROM TO: prints lines that start the program with one argument replaced.
exchanged() { printf 'for word; do shift; if [ "$word" = %s ]; then word=%s; fi; set -- "$@" "$word"; done\nexec "$program" "$@"\n' "$1" "$2"; }
# reworded FROM TO: prints lines that start the program with a text replaced in each argument.
reworded() { printf 'for word; do shift; set -- "$@" "$(printf %%s "$word" | sed "s/%s/%s/g")"; done\nexec "$program" "$@"\n' "$1" "$2"; }
# retold SED: prints lines that start the program and change its standard error. The started process
# is still that of the program, so it ends when a script ends it.
retold() { echo "told=\$(mktemp -u '$work/told.XXXX'); mkfifo \"\$told\"; sed -u '$1' < \"\$told\" >&2 & exec \"\$program\" \"\$@\" 2> \"\$told\""; }
# preloaded CODE: prints lines that start the program with these functions in C instead of those of
# the C library.
preloaded() {
    local library
    library=$(mktemp "$work/library.XXXX.so")
    printf '%s\n' '#define _GNU_SOURCE' '#include <errno.h>' '#include <fcntl.h>' '#include <pthread.h>' '#include <stdlib.h>' '#include <string.h>' '#include <sys/socket.h>' \
        '#include <sys/syscall.h>' '#include <sys/time.h>' '#include <unistd.h>' "$1" | cc -shared -fPIC -xc -o "$library" -
    echo "exec env LD_PRELOAD='$library' \"\$program\" \"\$@\""
}
# option CODE: prints lines for a program that does this first when it sets an option of a socket.
option() { preloaded "int setsockopt(int fd, int level, int name, const void *value, socklen_t size) { $1; return syscall(SYS_setsockopt, fd, level, name, value, size); }"; }
# accepts CODE: prints lines for a program that does this first when it accepts a connection.
accepts() { preloaded "int accept4(int fd, struct sockaddr *from, socklen_t *size, int flags) { $1; return syscall(SYS_accept4, fd, from, size, flags); }"; }
# discards CODE: prints lines for a program that does this after it receives bytes of a session that
# it has ended. `got` is their number, and `taken` is 0 at first. Each session has a thread.
discards() {
    preloaded "static __thread int ended = -1; static __thread long taken;
        int shutdown(int fd, int how) { ended = fd; return syscall(SYS_shutdown, fd, how); }
        int accept4(int fd, struct sockaddr *from, socklen_t *size, int flags) { ended = -1; taken = 0; return syscall(SYS_accept4, fd, from, size, flags); }
        ssize_t recv(int fd, void *to, size_t size, int flags) { long got = syscall(SYS_recvfrom, fd, to, size, flags, 0, 0); if (fd != ended) return got; $1; }"
}
# interrupted CALL TYPE NUMBER: prints lines for a program in which a call of this name fails for good
# if a signal interrupts it. TYPE is that of its bytes, and NUMBER that of the system call.
interrupted() {
    preloaded "ssize_t $1(int fd, $2 bytes, size_t size, int flags) {
        long done = syscall($3, fd, (void *)bytes, size, flags, 0, 0); if (done < 0 && errno == EINTR) errno = EIO; return done; }"
}
# begun CODE: prints lines for a program that does this after it receives the first bytes of a
# session. They are at `to`, with room for one more, and `got` is their number.
begun() {
    preloaded "static __thread int is_new;
        int accept4(int fd, struct sockaddr *from, socklen_t *size, int flags) { is_new = 1; return syscall(SYS_accept4, fd, from, size, flags); }
        ssize_t recv(int fd, void *to, size_t size, int flags) {
            long got = syscall(SYS_recvfrom, fd, to, size - is_new, flags, 0, 0); if (is_new && got > 0) { is_new = 0; $1; } return got; }"
}
# frees CONDITION: prints lines for a program that keeps a block with this condition of its size.
frees() { preloaded "size_t malloc_usable_size(void *); void __libc_free(void *); void free(void *p) { size_t size = malloc_usable_size(p); if ($1) memset(p, 1, 4096); else __libc_free(p); }"; }
# relayed FAULT: prints lines that start the program behind the relay.
relayed() { echo "exec python3 '$work/relay.py' $1 \"\$program\" \"\$@\""; }

# make_stand_ins: makes a program that serves the sessions of a port one after another, each with
# its own router, and a program that stores all of its input.
make_stand_ins() {
    cat > "$work/alone.py" << 'E'
import os
import socket
import subprocess
import sys

program, words = sys.argv[1], sys.argv[2:]
with socket.create_server((os.environ.get("ADDRESS", "127.0.0.1"), int(words[words.index("-p") + 1]))) as listening:
    for _ in range(int(words[words.index("-n") + 1])):
        with listening.accept()[0] as one:
            subprocess.run([program, "-e", words[1]], stdin=one, stdout=one, stderr=subprocess.DEVNULL)
E
    cat > "$work/keeps.py" << 'E'
import os
import subprocess
import sys

kept, program = [], subprocess.Popen(sys.argv[1:], stdin=subprocess.PIPE)
while piece := os.read(0, 65536):
    kept.append(piece)
    program.stdin.write(piece)
    program.stdin.flush()
program.stdin.close()
sys.exit(program.wait())
E
    alone="exec python3 '$work/alone.py' \"\$program\" \"\$@\""
    keeps="exec python3 '$work/keeps.py' \"\$program\" \"\$@\""
    make_relay
}

# make_relay: makes a relay between the peers and the links of the program, with one of these
# faults. With `open` it also forwards datagrams from other senders and too long ones; otherwise it
# drops them without a count. With `loses` it drops one packet in a thousand. With `gives_up` it
# ends a link if no process listens at the peer.
make_relay() {
    cat > "$work/relay.py" << 'E'
import os
import socket
import sys
import threading
import time

fault, program, *words = sys.argv[1:]
HOST = "127.0.0.1"


def bound(port=0):
    it = socket.socket(socket.AF_INET, socket.SOCK_DGRAM)
    it.bind((HOST, port))
    return it


def carry(come, go, to, known):
    for count in range(1, 1 << 40):
        packet, sender = come.recvfrom(65536)
        if known and fault != "open" and (sender[1] != known or len(packet) > 1600):
            continue
        if fault == "gives_up" and not known:
            go.send(packet)
        elif fault != "loses" or count % 1000:
            go.sendto(packet, to)


links = []
for at, word in enumerate(words):
    # A peer that is given with an address is not relayed.
    if at and words[at - 1] == "--link" and ":" not in word:
        device, ports = word.split("=")
        here, there = map(int, ports.split(","))
        outer, inner, free = bound(here), bound(), bound()
        words[at] = f"{device}={free.getsockname()[1]},{inner.getsockname()[1]}"
        links.append((outer, inner, free.getsockname(), (HOST, there)))
        free.close()
main = os.getpid()
if os.fork():
    os.execv(program, [program, *words])
os.closerange(0, 3)
for outer, inner, own, peer in links:
    giving = outer
    if fault == "gives_up":
        giving = bound()
        giving.connect(peer)
    threading.Thread(target=carry, args=(outer, inner, own, peer[1]), daemon=True).start()
    threading.Thread(target=carry, args=(inner, giving, peer, 0), daemon=True).start()
while os.getppid() == main:
    time.sleep(0.1)
E
}

# wrong_service: sessions that end too early, too late or with a reset, and what they leave behind.
wrong_service() {
    service_wrong replies 'connections that it resets' 'reset\|Broken pipe\|ends early' "$(preloaded 'int shutdown(int fd, int how) { return -1; }')"
    service_wrong limits 'connections that it closes at once' 'does not close took' "$(preloaded 'int shutdown(int fd, int how) { return -1; }')"
    service_wrong limits 'connections that it never closes' 'does not close took\|timed out' "$(option 'if (name == SO_RCVTIMEO) return 0')"
    service_wrong limits 'input that it discards without a limit' 'bytes after QUIT' "$(discards 'return got > 1 ? 1 : got')"
    service_wrong limits 'input that it hardly discards' 'bytes after QUIT' "$(discards 'return (taken += got) > 100000 ? 0 : got')"
    service_wrong silent 'a read that waits forever' 'timed out' "$(option 'if (name == SO_RCVTIMEO) return 0')"
    service_wrong silent 'clients that it ends at once' 'ended early\|while silent clients' "$(option 'struct timeval t = {0, 1000}; if (name == SO_RCVTIMEO) value = &t')"
    service_wrong unread 'a write that waits forever' 'timed out' "$(option 'if (name == SO_SNDTIMEO) return 0')"
    service_wrong slow 'a limit that is too short' 'slowly\|reset\|Broken pipe' "$(option 'struct timeval t = {0, 250000}; if (name == SO_RCVTIMEO) value = &t')"
    service_wrong slow 'a limit of writes that is too short' 'slowly\|reset\|Broken pipe' "$(option 'struct timeval t = {0, 50000}; if (name == SO_SNDTIMEO) value = &t')"
    service_wrong stopped 'reads that a signal ends' 'a client that was silent' "$(interrupted recv 'void *' SYS_recvfrom)"
    service_wrong stopped 'writes that a signal ends' 'a client that reads late' "$(interrupted send 'const void *' SYS_sendto)"
    service_wrong stopped 'input that it discards until a signal comes' 'Broken pipe\|reset' "$(discards 'if (got < 0 && errno == EINTR) errno = EIO; return got')"
    service_wrong unlimited 'a limit that was not asked for' 'ended early' "$(option 'struct timeval t = {1, 0}; if (name == SO_RCVTIMEO) value = &t')"
    service_wrong keepalive 'no probes' 'whether peers are probed' "$(option 'if (name == SO_KEEPALIVE) return 0')"
    service_wrong keepalive 'late probes' 'the time before the first probe' "$(option 'if (level == 6 && name == 4) return 0')"
    service_wrong keepalive 'other probes' 'the number of probes' "$(option 'if (level == 6 && name == 6) return 0')"
    service_wrong many 'a descriptor for each session' 'leave descriptors behind' "$(accepts 'open("/dev/null", O_RDONLY)')"
    service_wrong many 'a thread for some sessions' 'threads after 100 sessions' \
        "$(accepts 'static int count; pthread_t it; if (++count % 100 == 0) pthread_create(&it, 0, (void *(*)(void *))pause, 0)')"
    service_wrong many 'memory for each session' 'memory after 100 sessions' "$(accepts 'memset(malloc(8192), 1, 8192)')"
    service_wrong queues 'large blocks that it keeps' 'does not return the memory' "$(frees 'size > 1000000')"
    service_wrong queues 'blocks of empty queues that it keeps' 'swaps of empty queues' "$(frees 'size > 1000000 && size < 16000000')"
    service_wrong queues 'the limit of the C library' 'does not return the memory' 'unset MALLOC_MMAP_THRESHOLD_' 'exec "$program" "$@"'
    service_wrong queues 'twice the memory for a queue' 'full queues took' \
        "$(preloaded 'void *__libc_malloc(size_t n); void *malloc(size_t n) { if (n < 1000000) return __libc_malloc(n); return memset((char *)__libc_malloc(2 * n) + n, 1, n) - n; }')"
}

# wrong_log: lines of --log that are left out, wrong, mixed, forged or not asked for.
wrong_log() {
    local unlogged='case " $* " in *" --link "*) for word; do shift; if [ "$word" != --log ]; then set -- "$@" "$word"; fi; done ;; esac; exec "$program" "$@"'
    local page_line='echo "$(date -u +%FT%T.%3NZ) page write=c.reset_counts bytes=0 outcome=done" >&2'
    log_wrong ends 'another cause' 'the lines of session 1' "$(retold 's/cause=quit/cause=end-of-input/')"
    log_wrong ends 'another number' 'the numbers of sessions' "$(retold 's/session=2/session=3/')"
    log_wrong ends 'another number of reads' 'the lines of session 2' "$(retold 's/reads=2/reads=3/')"
    log_wrong ends 'another number of checks' 'the lines of session 2' "$(retold 's/checks=2/checks=1/')"
    log_wrong ends 'another slot' 'the lines of session 1' "$(retold 's/slot=1/slot=2/')"
    log_wrong ends 'a time of another year' 'the time is not' "$(retold 's/^2/1/')"
    # The end of a client that never reads takes more than three seconds.
    SECONDS_TO_WAIT=20 log_wrong unread 'another cause of an end' 'the end of a client that never reads' "$(retold 's/cause=write-failed/cause=read-failed/')"
    SECONDS_TO_WAIT=20 log_wrong unread 'no end of a client that never reads' 'the end of a client that never reads' "$(retold '/cause=write-failed/d')"
    log_wrong swaps 'a swap that is left out' 'the lines of session 1' "$(retold '/outcome=installed/d')"
    log_wrong swaps 'another position of a fault' 'the lines of session 1' "$(retold 's/ at 1:9/ at 1:8/')"
    log_wrong page_swaps 'a swap of the page that is left out' 'the lines of the page' "$(retold '/page swap.*installed/d')"
    log_wrong page_swaps 'a swap of the page as one of a session' 'the lines of the page' "$(retold 's/ page / session=1 /')"
    log_wrong writes 'a name with the end of a line' 'not a line of the log' "$(retold 's/\\x0b/\n/')"
    log_wrong page_writes 'a name of the page with the end of a line' 'not a line of the log' "$(retold 's/\\x0a/\n/')"
    log_wrong page_writes 'another outcome' 'the lines of the page' "$(retold 's/outcome=no-element/outcome=no-handler/')"
    log_wrong page_links 'no log if it has a link' 'the lines of the page' "$unlogged"
    log_wrong page_links 'a write of the page that is left out' 'the lines of the page' "$(retold '/page write=c.reset_counts/d')"
    log_wrong readonly 'writes though it may only read' 'the lines of session 1' "$writes"
    log_wrong page_reads 'a line that no write has' 'the lines of the page' "$page_line" 'exec "$program" "$@"'
    log_wrong full 'another cause of a failed call' 'about a full book' "$(retold 's/history-full/no-memory/')"
    log_wrong full 'another number of failed calls' 'the end of a session at a full book' "$(retold 's/failed=1/failed=0/')"
    log_wrong page_full 'another cause of a failed call of the page' 'about a full book' "$(retold 's/history-full/no-memory/')"
    log_wrong parallel 'two lines in one' 'not a line of the log' "$(retold 'N;s/\n//')"
    log_wrong parallel 'a slot that is not there' 'the slots are in their range' "$(retold 's/slot=[0-9]*/slot=0/')"
    log_wrong slots 'the same slot for all sessions' 'the slots of sessions that are open' "$(retold 's/slot=[0-9]*/slot=1/')"
    log_wrong without 'a line without --log' 'the outputs' 'echo junk >&2' 'exec "$program" "$@"'
    log_wrong page_without 'a line of the page without --log' 'the lines of the page' "$page_line" 'exec "$program" "$@"'
    log_wrong page_without 'a line of the page next to standard input' 'next to standard input' \
        'case " $* " in *" -p "*) ;; *) echo "page write=c.reset_counts bytes=0 outcome=done" >&2 ;; esac; exec "$program" "$@"'
    log_wrong unwritable 'an end if no line can be written' 'refused' 'if ! echo > /dev/stderr; then exit 4; fi' 'exec "$program" "$@"'
}

# The gate shows that the scripts pass over the program. Here a starter that changes nothing is
# tried in one case of each script.
network() {
    local writes='for word; do shift; if [ "$word" != --readonly ]; then set -- "$@" "$word"; fi; done; exec "$program" "$@"'
    make_stand_ins
    printf '#!/bin/sh\nexec "%s" "$@"\n' "$program" > "$work/listening"
    chmod +x "$work/listening"
    PROGRAM=$work/listening passes tools/sessions.sh tools/sessions.sh counting
    PROGRAM=$work/listening passes tools/hostile.sh tools/hostile.sh neighbours
    PROGRAM=$work/listening passes tools/service.py tools/service.py replies many
    PROGRAM=$work/listening passes tools/session_log.py tools/session_log.py swaps parallel
    PROGRAM=$work/listening PACKETS=20000 passes tools/udp_links.py tools/udp_links.py carrying

    sessions_wrong counting 'a router for each session, one after another' "$alone"
    sessions_wrong counting 'a round less' "$(exchanged 1000 999)"
    sessions_wrong reading 'writes though it may only read' "$writes"
    sessions_wrong clients 'a status that is always 0' '"$program" "$@"' 'exit 0'
    sessions_wrong taken 'a status that is always 0' '"$program" "$@"' 'exit 0'
    sessions_wrong taken 'another user of a port' "$(retold 's/page: cannot/sessions: cannot/')"
    sessions_wrong taken 'no message' 'exec "$program" "$@" 2> /dev/null'
    sessions_wrong checked 'no line of a check' "$(retold '/^check /d')"
    sessions_wrong checked 'another word for a check' "$(retold 's/NoHandler/NoElement/')"
    sessions_wrong swapping 'junk on standard output' 'echo junk' 'exec "$program" "$@"'
    requests_wrong 'a line before the first bytes' 'is answered by' "$(begun 'memmove((char *)to + 1, to, got++); *(char *)to = 10')"
    requests_wrong 'an end at POST without a slash' 'ended early' "$(begun 'if (got > 4 && !memcmp(to, "POST", 4)) got = 0')"
    requests_wrong 'an end at a method in lower case' 'ended early' "$(begun 'if (got > 5 && !strncasecmp(to, "post /", 6)) got = 0')"
    requests_wrong 'an end at a request after a command' 'ended early' "$(begun 'if (memmem(to, got, "POST /", 6)) got = 0')"
    sessions_wrong staying 'an end' "$(printf '%s' "$writes" | sed s/--readonly/--live/)"

    hostile_wrong devices 'a status that is always 0' '"$program" "$@"' 'exit 0'
    hostile_wrong devices 'no line if a device fails' 'exec "$program" "$@" 2> /dev/null'
    # The part that changes a reply gets unlimited memory.
    hostile_wrong memory 'another answer if out of memory' "\"\$program\" \"\$@\" > '$work/kept'" 'status=$?' 'ulimit -S -v unlimited' \
        "sed 's/^520 Out of memory/520 History full/' '$work/kept'" 'exit $status'
    hostile_wrong blank 'memory for what it read' "$keeps"
    hostile_wrong commands 'memory for what it read' "$keeps"
    hostile_wrong neighbours 'a session less' "$(exchanged 64 63)"
    hostile_wrong crowd 'a driver less' "$(exchanged 16 15)"
    hostile_wrong local 'an open door' 'export ADDRESS=0.0.0.0' "$alone"
    hostile_wrong readonly 'writes though it may only read' "$writes"
    hostile_wrong rounds 'a round less' "$(exchanged 200000 199999)"

    wrong_service
    wrong_log

    links_wrong refused 'status 0 at wrong arguments' '"$program" "$@"' 'exit 0'
    links_wrong refused 'a fault as out of memory' '"$program" "$@" || { status=$?; if [ $status = 1 ]; then exit 3; fi; exit $status; }'
    links_wrong sizes 'an open door' "$(relayed open)"
    links_wrong sizes 'a first byte that is gone' "$(reworded '-> c ' '-> Strip(1) -> c ')"
    links_wrong addresses 'a stranger less in its counts' "$(retold '1 s/from elsewhere 1/from elsewhere 0/')"
    links_wrong endless 'no end' '"$program" "$@"' 'exec sleep 30'
    links_wrong nobody 'a link that is given up' "$(relayed gives_up)"
    links_wrong away 'another count of what found no room' "$(retold 's/no room /&1/')"
    links_wrong telling 'no lines while it runs' "$(exchanged 1 3600)"
    links_wrong unread 'an end of all packets' '(sleep 2; kill -STOP $$) &' 'exec "$program" "$@"'
    links_wrong memory 'other causes of its drops' "$(retold 's/no room 7, no memory 4/no room 4, no memory 7/')"
    links_wrong failing 'a link that goes on though its socket failed' 'exec env -u LD_PRELOAD "$program" "$@"'
    links_wrong late 'an end before the last packet enters' "$(retold 's/entered 1, sent 1/entered 0, sent 0/')"
    links_wrong ending 'an end while packets wait' "$(retold 's/entered [0-9]*, sent [0-9]*/entered 320, sent 320/')"
    links_wrong flood 'more in its counts than entered' "$(retold 's/entered /&1/')"
    links_wrong carrying 'a packet in a thousand that is lost' "$(relayed loses)"
    if tools/udp_links.py blocked | grep -q '^left out'; then
        echo 'left out: links with a full send buffer'
    else
        wrong_blocked
    fi
    # The gateway between two networks, if this machine has what it needs.
    if [ "$(examples/gateway/run.sh | tail -n 1)" = passed ]; then
        wrong_gateways
    else
        echo 'left out: the gateway'
    fi
    if [ "$(examples/ethernet/run.sh | tail -n 1)" = passed ]; then wrong_ethernets; else echo 'left out: the Ethernets'; fi
}

# wrong_blocked: sends that wait for a send buffer without a limit, and a link whose sends all fail
# after the first one that found its send buffer full.
wrong_blocked() {
    links_wrong blocked 'a send that waits forever' "$(option 'if (name == SO_SNDTIMEO) return 0')"
    named_wrong tools/udp_links.py blocked 'a link that stays blocked' 'has room again' "$(preloaded '#include <errno.h>
static int full;
ssize_t sendto(int fd, const void *bytes, size_t size, int flags, const struct sockaddr *to, socklen_t length)
{
    if (fd == full) return errno = EAGAIN, -1;
    ssize_t sent = syscall(SYS_sendto, fd, bytes, size, flags, to, length);
    if (sent < 0 && errno == EAGAIN) full = fd;
    return sent;
}')"
}

# wrong_ethernets: a change of the router's configuration, its packets or its counts for each kind of
# check. In a change, `\$` is a `$` of the configuration.
wrong_ethernets() {
    ethernet_wrong 'another Ethernet address in its ARP replies' 'the first ping of the router by left' "$(reworded 'ARPResponder(\$ip \$ether)' 'ARPResponder(\$ip 2:0:0:0:0:9)')"
    ethernet_wrong 'another Ethernet address in its queries' 'the first ping of the router by left' "$(reworded 'ARPQuerier(\$ip, \$ether)' 'ARPQuerier(\$ip, 2:0:0:0:0:9)')"
    ethernet_wrong 'ARP replies that it ignores' 'the first ping of the router by left' "$(reworded 'kind \[1\] -> \[1\] arp' 'kind [1] -> Discard')"
    ethernet_wrong 'ARP replies for its neighbours' 'answers an ARP request for a neighbour' "$(reworded 'ARPResponder(\$ip ' 'ARPResponder(\$ip\/16 ')"
    ethernet_wrong 'a time to live that it does not decrement' 'a ping of right by left' "$(reworded ' ttl :: DecIPTTL' ' ttl :: CheckLength(1600)')"
    ethernet_wrong 'reports from another address' 'traceroute from left, the first hop' "$(reworded 'ICMPError(\$ip, timeexceeded)' 'ICMPError(10.9.9.9, timeexceeded)')"
    ethernet_wrong 'another code in a report' 'a protocol of the router' "$(reworded 'unreachable, 2)' 'unreachable, 3)')"
    ethernet_wrong 'redirects to strangers' 'two datagrams that get no redirect' "$(reworded 'Classifier(0\/45 12\/\$net)' 'Classifier(-)')"
    ethernet_wrong 'redirects about datagrams that it does not forward' 'two datagrams that are not forwarded' "$(reworded ' fits :: CheckLength(1500) -> back :: PaintTee(\$colour)' ' back :: PaintTee(\$colour) -> fits :: CheckLength(1500)')"
    ethernet_wrong 'no MTU in its reports' 'the path MTU of right' "$(reworded 'unreachable, 4, 1500' 'unreachable, 4')"
    ethernet_wrong 'reports about long datagrams from another address' 'a datagram of 1586 bytes' "$(reworded 'ICMPError(\$ip, unreachable, 4' 'ICMPError(10.9.9.9, unreachable, 4')"
    ethernet_wrong 'reports about broadcast frames' 'what answers a broadcast frame' "$(reworded '12\/0800 0\/\$digits' '12\/0800')"
    ethernet_wrong 'reports to a broadcast address' 'addresses that the router asked for' "$(reworded 'CheckIPHeader(10\.1\.0\.0 ' 'CheckIPHeader(')"
    ethernet_wrong 'announcements that it ignores' 'after its announcement' "$(reworded 'both \[1\] -> \[1\] arp' 'both [1] -> Discard')"
    ethernet_wrong 'a table that a swap loses' 'asked for after a swap' "$(reworded '\barp\b' asks)"
    ethernet_wrong 'a packet in a thousand that is lost' wanted "$(relayed loses)"
    ethernet_wrong 'datagrams that it does not count' 'right/datagrams.count' "$(reworded 'datagrams :: Counter' 'datagrams :: Null')"
    ethernet_wrong 'more in its counts than entered' 'the counts of the links' "$(retold 's/entered /&1/')"
}

# wrong_gateways: checks that the gateway's script refuses a wrong route and wrong rules.
wrong_gateways() {
    gateway_wrong 'a way back that is missing' 'the gateway: pings' "$(reworded '10\.1\.0\.0\/16 0, ' '10.3.0.0\/16 0, ')"
    gateway_wrong 'rules that keep all packets' 'the gateway: pings' "$(reworded 'allow ' '1 ')"
    gateway_wrong 'rules that let all packets through' 'pings from outside: wanted status 1' "$(reworded '1 all' 'allow none, 1 none, allow all')"
    gateway_wrong 'rules that let pings in' 'packets of pings from outside' "$(reworded 'icmp type echo-reply' icmp)"
    gateway_wrong 'rules that let all TCP out' 'curl at port 22: packets that kept_in counts: 0' "$(reworded 'tcp dst port 80' tcp)"
    gateway_wrong 'rules without the test of ACK' 'curl from outside: wanted status 28' "$(reworded ' and tcp opt ack' '')"
}

# --- Test scripts. ---

# scripts: checks that the player reports a wrong expected value in the first step of each test
# script, and a wrong line of a session's output. The other kinds of steps, and faults of scripts,
# are in tools/wrong_scripts.py.
scripts() {
    local script line
    for script in tests/*.script; do
        # A step with fails=each-.. is left out, because its reply has to have a certain form.
        line=$(awk -F '\t' '!/^[#<>]/ && !/fails=each-/ && $1 != "case" && NF > 2 { print NR; exit }' "$script")
        wrong_script "$script" "$line" "${line}s/\$/x/"
        line=$(awk '/^> [0-9]/ { print NR; exit }' "$script")
        if [ -n "$line" ]; then wrong_script "$script" '' "${line}s/^> ./> x/"; fi
    done
}

# wrong_script SCRIPT LINE CHANGE: checks that the player reports the script with the change, in
# that line if one is given.
wrong_script() {
    changed "$1" "$3"
    ran "$player" "$work/page"
    same_status 1 "$status" "$1 with the change $3"
    if ! grep -q "^$work/page:${2:-[0-9]*}: " "$work/out"; then fail "$1 with the change $3: wanted a report of line ${2:-}, came:" "$(shown "$work/out")"; fi
    if tail -n 1 "$work/out" | grep -q -v ' [1-9][0-9]* failed$'; then fail "$1 with the change $3: the last line is $(tail -n 1 "$work/out")"; fi
    refused=$((refused + 1))
}

# --- Wrong pages and files. ---

# changed FILE CHANGE: writes the file with the change, a script of sed, to $work/page. Fails if the
# script changes nothing.
changed() {
    sed "$2" "$1" > "$work/page"
    if cmp -s "$1" "$work/page"; then fail "$2 changes nothing in $1"; fi
}
# wrong_example KIND FILE CHANGE..: checks that this kind of examples refuses the file with each of
# the changes.
wrong_example() {
    local kind=$1 file=$2 change
    shift 2
    for change in "$@"; do
        changed "$file" "$change"
        is_refused "$file with the change $change" tools/examples.py --with "$work/page" "$file" "$kind"
    done
}
# wrong_names PAGE CHANGE..: checks that tools/links.py refuses the page with each of the changes.
wrong_names() {
    local page=$1 change
    shift
    for change in "$@"; do
        changed "$page" "$change"
        is_refused "$page with the change $change" tools/links.py "$work/page" "$page"
    done
}
# wrong_definitions PAGE CHANGE..: checks that tools/definitions.py refuses the page with each of
# the changes.
wrong_definitions() {
    local page=$1 change
    shift
    for change in "$@"; do
        changed "$page" "$change"
        is_refused "$page with the change $change" tools/definitions.py "$work/page" "$page"
    done
}

pages() {
    PROGRAM=$program wrong_example commands README.md 's/^    200 Read/    201 Read/' '/^The line is/d' 's/`rattle-kit-[^`]* logic ./&0/'
    wrong_example tries README.md '/^    cd crates/d'
    wrong_example dialogue docs/CONTROL.md 's/^    510/    511/' '/^An example, with/d'
    wrong_example client docs/CONTROL.md 's/^READ c.none \["511/READ c.none ["510/'
    wrong_example dialogue docs/HOTSWAP.md 's/^    520 31/    520 32/' 's/^    value 36/    value 30/'
    wrong_example dialogue docs/CALLS.md 's/^    value 32/    value 33/'
    wrong_example pictures docs/PICTURE.md '/^    \.\/run\.sh --draw/d' 's/calls\/ip_router\.click/calls\/priorities.click/'
    wrong_example script docs/LINKS.md 's/entered 1, sent 0/entered 2, sent 0/'
    wrong_example driver docs/FEEDS.md '/thread::yield_now/d'
    QUICK=1 wrong_example captures docs/PCAP.md 's/^    read 3/    read 4/' '/^The configuration/d'
    wrong_example sections docs/ELEMENTS.md 's/^sent 61 255 /sent 61 254 /' '0,/^```calls$/s//```/'
    wrong_example faults docs/FAULTS.md '/^| 23 /d' 's/at 1:48/at 1:49/'
    wrong_example faults crates/click_classes/src/fault.rt 's/"23 /"99 /'
    wrong_example readings docs/LANGUAGE.md '/^Fault: 11 /d' 's/^x :: { y :: Idle };/x :: { z :: Idle };/' '$a ```click\nIdle;\n```'
    wrong_example readings examples/readings.txt 1d 's/^3 statements/2 statements/'
    wrong_example texts examples/texts.txt '1s/^0 statements/1 statements/'
    wrong_example refused examples/faults.txt '1s/1:6/1:7/'
    wrong_example opens examples/opens.txt '$a Idle => Discard;'
    wrong_example wrong_lines examples/calls/wrong_lines.txt '1s/not a call/a call/'
    wrong_example arguments examples/arguments.txt '1s/were/was/' 's/\tgood$/\tclick_prog 1/'
    wrong_example files examples/counter.transcript 's/^0/1/'
    wrong_example files examples/mixed.status 's/1/0/'
    wrong_example files examples/calls/counter.out '$p'
    wrong_example books examples/books/session.book 's/^0/1/'
    wrong_example books examples/books/session_changed.out 's/^line 3/line 2/'
    wrong_names README.md 's/(docs\/CALLS\.md)/(docs\/CALL.md)/' '1s/$/'"$(printf '%120s' '')"'/'
    wrong_names docs/TESTS.md 's/tools\/client\.sh/tools\/clients.sh/' 's/(DEFINITIONS\.md)/(DEFINITIONS.md#no-heading)/'
    wrong_names docs/ARCHITECTURE.md '$a `src/nowhere.rt`' '$a `NoSuchThing`'
    wrong_names examples/README.md '/^| `hotswap` /d'
    wrong_definitions crates/click_packet/README.md '/^| `longest_packet` /d' 's/^\(| `longest_packet` .*\)| Packet |/\1| Header |/' '/^What it stands on: /d'
    wrong_definitions crates/click_expand/README.md 's/`IsFlat c flat`/`flatten`/'
    wrong_page_text
    wrong_tests_page
    wrong_elements_page
    wrong_tutorial 's/^    100520-Write/    101520-Write/' 's/31 Count at q/32 Count at q/' 's/13 UnknownClass at 1:23/13 UnknownClass at 1:24/'
    wrong_prose
}

# wrong_tests_page: checks that tools/tests_page.py refuses docs/TESTS.md without the sentence of a
# test.
wrong_tests_page() {
    mkdir -p "$work/listed"
    tar --exclude='crates/*/out' -cf - crates docs tests tools examples | tar -xf - -C "$work/listed"
    changed docs/TESTS.md '0,/^- /{/^- /d}'
    cp "$work/page" "$work/listed/docs/TESTS.md"
    is_refused 'docs/TESTS.md without a sentence' "$work/listed/tools/tests_page.py" --check
}

# wrong_elements_page: checks that tools/elements_page.py refuses docs/ELEMENTS.md with another name,
# text or configuration, and a class without a manual page.
wrong_elements_page() {
    local tree=$work/manual classes=crates/click_classes/src/classes change
    mkdir -p "$tree/docs" "$tree/tools" "$tree/crates/click_base/src" "$tree/$classes"
    cp tools/elements_page.py "$tree/tools"
    cp crates/click_base/src/class.rt "$tree/crates/click_base/src"
    cp "$classes"/*.rt "$tree/$classes"
    for change in 's/^## Tee$/## Tea/' 's/Packets pass unchanged\./Packets pass./' 's/Tee(4) -> q/Tee(5) -> q/'; do
        changed docs/ELEMENTS.md "$change"
        cp "$work/page" "$tree/docs/ELEMENTS.md"
        is_refused "docs/ELEMENTS.md with the change $change" "$tree/tools/elements_page.py" --check
    done
    cp docs/ELEMENTS.md "$tree/docs"
    changed "$classes/paint.rt" 's/^\/\/\/ `Paint(/\/\/\/ Paint(/'
    cp "$work/page" "$tree/$classes/paint.rt"
    is_refused 'a maker without a manual page' "$tree/tools/elements_page.py" --check
}

# wrong_tutorial CHANGE..: checks that tools/tutorial.py refuses docs/TUTORIAL.md with each of the
# changes.
wrong_tutorial() {
    local change
    for change in "$@"; do
        changed docs/TUTORIAL.md "$change"
        is_refused "docs/TUTORIAL.md with the change $change" env "PROGRAM=$program" tools/tutorial.py "$work/page"
    done
}

# wrong_prose: checks that tools/prose.py refuses a page with one finding more than is stored, and
# one with fewer.
wrong_prose() {
    local tree=$work/prose count
    mkdir -p "$tree/docs" "$tree/tools"
    cp docs/GLOSSARY.md "$tree/docs"
    cp tools/prose.py tools/prose-allow.txt "$tree/tools"
    echo 'Somebody waits for a packet.' > "$tree/docs/ONE.md"
    echo 1 > "$tree/tools/prose-count.txt"
    ran "$tree/tools/prose.py" --check-count
    same_status 0 "$status" 'a page with one finding, which is stored'
    for count in 0 2; do
        echo "$count" > "$tree/tools/prose-count.txt"
        is_refused "a page with one finding, where $count are stored" "$tree/tools/prose.py" --check-count
    done
}

# wrong_page_text: checks that tools/page_text.py refuses a page with one more byte than the program
# has.
wrong_page_text() {
    mkdir -p "$work/pages/tools" "$work/pages/crates/click_page/page" "$work/pages/crates/click_page/src"
    cp tools/page_text.py "$work/pages/tools"
    cp crates/click_page/src/page_text.rt "$work/pages/crates/click_page/src"
    changed crates/click_page/page/page.html '$s/$/ /'
    cp "$work/page" "$work/pages/crates/click_page/page/page.html"
    is_refused 'a page that the program does not have' "$work/pages/tools/page_text.py" --check
}

# --- test.sh. ---

# gate_tree: makes a tree with the runner of the gate and stand-ins for its scripts. Each of them
# passes, unless the variable FAILS names it, and leaves nothing out, unless LEAVES names it. Those
# that build programs write trivial ones, unless BUILDS is `nothing`.
gate_tree() {
    local file made
    mkdir -p "$work/gate/tools/lib" "$work/gate/examples/gateway" "$work/gate/examples/ethernet" "$work/gate/examples/testbed" "$work/gate/crates"
    cp test.sh "$work/gate"
    cp tools/gate.py "$work/gate/tools"
    cp tools/lib/running.py tools/lib/programs.py "$work/gate/tools/lib"
    : > "$work/gate/crates.txt"
    : > "$work/gate/HANDLES"
    # shellcheck disable=SC2013
    for file in $(grep -o '\(tools\|examples\)/[a-z_/]*\.\(py\|sh\)' tools/gate.py | sort -u); do
        case $file in
        tools/gate.py | tools/lib/proofs.sh | tools/quick_build.py) continue ;;
        esac
        printf '#!/bin/sh\necho "%s $* over ${PROGRAM:-the proved program}"\n%s\n%s\n' "$file" \
            "case \" \$LEAVES \" in *\" $file \"*) echo 'left out: a check, because there is no tool'; echo 'not left out: one' ;; esac" \
            "case \" \$FAILS \" in *\" $file \"*) exit 1 ;; esac" > "$work/gate/$file"
    done
    made='mkdir -p "$at" && cp /bin/true "$at/$it"'
    printf '#!/bin/sh\ncase $BUILDS in nothing) exit ;; esac\nfor it; do at=crates/$it/out/quick; %s; done\n' "$made" > "$work/gate/tools/quick_build.py"
    printf '#!/bin/sh\ncase " $FAILS " in *proofs*) exit 1 ;; esac\nfor it in click_prog click_player; do at=crates/$it/out; %s; done\n' "$made" > "$work/gate/tools/lib/proofs.sh"
    find "$work/gate" \( -name '*.py' -o -name '*.sh' \) -exec chmod +x {} +
}

# gate_ends STATUS WHAT OPTION..: checks that the gate ends with this status and a last line that
# agrees.
gate_ends() {
    local wanted=$1 what=$2 last='^[0-9]* passed, 0 failed$'
    shift 2
    if [ "$wanted" = 1 ]; then last='^[0-9]* passed, [1-9][0-9]* failed$'; fi
    ran "$work/gate/test.sh" "$@"
    same_status "$wanted" "$status" "the gate with $what"
    if ! grep -v '^test.sh --quick' "$work/out" | tail -n 1 | grep -q "$last"; then fail "the last line of the gate with $what" "$(tail -n 2 "$work/out")"; fi
    refused=$((refused + 1))
}

# gate_says LINE..: checks that the last run of the gate printed each of these lines.
gate_says() {
    local line
    for line in "$@"; do
        if ! grep -q -x -e "$line" "$work/out"; then fail "the gate does not say: $line" "$(tail -n 60 "$work/out")"; fi
    done
}

# gate: checks that each part that fails or is not run fails the gate, that the parts after it still
# run, and that the scripts get the right programs.
gate() {
    gate_tree
    gate_ends 0 'parts that pass'
    gate_says "tools/client.sh  over $work/gate/crates/click_prog/out/quick/click_prog" 'tools/client.sh  over the proved program' 'client  *proved .* passed' \
        'tools/mutants.py --changed --record-to out/mutants.txt over the proved program'
    gate_says 'test.sh: nothing was left out'
    LEAVES='tools/links.py tools/client.sh' gate_ends 0 'parts that leave a check out'
    same "test.sh: left out for lack of a package or a right:
    links: a check, because there is no tool
    client (unproved): a check, because there is no tool
    client (proved): a check, because there is no tool" "$(grep -A 3 '^test.sh: left out' "$work/out")" 'what the gate says of parts that leave a check out'
    gate_ends 0 'programs that were proved before' client
    gate_says 'tools/client.sh  over the proved program'
    FAILS='tools/links.py' gate_ends 1 'a part that fails before one that passes' links definitions
    gate_says 'test.sh: FAILED: links: status 1' 'definitions  *[0-9. ]* passed'
    FAILS='tools/links.py tools/mutants.py' gate_ends 1 'two parts that fail'
    gate_says 'test.sh: FAILED: links: status 1' 'test.sh: FAILED: mutants: status 1' 'client  *proved .* passed'
    FAILS='proofs' gate_ends 1 'proofs that fail'
    gate_says 'test.sh: FAILED: proofs: status 1' 'client  *unproved .* passed' 'mutants  *[0-9. ]* passed' 'client  *proved .* not run: click_prog not built'
    gate_ends 1 'a program that was not proved' client
    gate_says 'test.sh: FAILED: client (proved): not run: click_prog not built'
    gate_quick
    ran "$work/gate/test.sh" no_such_part
    same_status 2 "$status" './test.sh with a word that is no part'
    ran "$work/gate/test.sh" --quick proofs
    same_status 2 "$status" './test.sh --quick with proofs'
}

# gate_quick: checks that ./test.sh --quick says at its beginning and at its end that nothing is
# proved, and that it runs no program that it did not build.
gate_quick() {
    gate_ends 0 'unproved programs' --quick
    same 'test.sh --quick: NOTHING IS PROVED: this tries unproved programs' "$(head -n 1 "$work/out")" 'the first line of ./test.sh --quick'
    same 'test.sh --quick: NOTHING WAS PROVED' "$(tail -n 1 "$work/out")" 'the last line of ./test.sh --quick'
    if grep -q -e '(proved)' -e '^test.sh: proofs' "$work/out"; then fail './test.sh --quick proves'; fi
    rm -r "$work/gate/crates"/*
    BUILDS=nothing gate_ends 1 'builds that make no program' --quick
    gate_says 'client  *unproved .* not run: click_prog not built'
}

# planted_tree: makes a tree with tools/planted.py, the sources of click_text and one mutant, and
# stand-ins for the build and for the test scripts. A program prints the checksum of its sources.
# The scripts fail over a program of other sources than the tree's. CATCHES changes that: they pass
# (`nothing`), always fail (`all`) or give another message (`other`). With BUILDS=nothing no program
# is built, and with BUILDS=unchanged only that of the tree.
planted_tree() {
    local file tree=$work/planted text=crates/click_text
    mkdir -p "$tree/tools/lib" "$tree/$text/by-hand"
    cp tools/planted.py tools/mutants.py "$tree/tools"
    cp tools/lib/programs.py "$tree/tools/lib"
    cp crates.txt HANDLES "$tree"
    cp -r "$text/src" "$tree/$text"
    cp "$text/by-hand/escaped__reads_a_tab_as_a_line_feed.edit" "$tree/$text/by-hand"
    cat > "$tree/tools/quick_build.py" << END
#!/bin/sh
top=\$(dirname "\$(dirname "\$(readlink -f "\$0")")")
case \$BUILDS:\$top in nothing:* | unchanged:*/planted-*) echo 'no build' >&2; exit 1 ;; esac
at=\$top/crates/\$1/out/quick
mkdir -p "\$at"
printf '#!/bin/sh\necho %s\n' "\$(cat "\$top/$text/src"/*.rt | cksum | tr ' ' -)" > "\$at/\$1"
chmod +x "\$at/\$1"
END
    cat > "$tree/tools/test_scripts.sh" << END
#!/bin/sh
is=same
if [ "\$("\$PLAYER")" != "\$(cat $text/src/*.rt | cksum | tr ' ' -)" ]; then is=other; fi
case \$CATCHES:\$is in nothing:* | it:same | other:same) exit ;; esac
if [ "\$CATCHES" = other ]; then echo 'tests/arguments.script:48: another sentence'; exit 1; fi
printf '%s\n' "\$1:48: A quoted argument is unquoted to its bytes: escapes." '  expected: \0d\09q"\5cn' '  actual:   \0d\0aq"\5cn'
exit 1
END
    for file in "$tree"/tools/*.*; do chmod +x "$file"; done
}

# planted_says STATUS LINE: checks that tools/planted.py ends with this status, and that a line of
# its output contains this one.
planted_says() {
    ran "$work/planted/tools/planted.py" click_text
    cat "$work/err" >> "$work/out"
    same_status "$1" "$status" "tools/planted.py, which must say: $2"
    if ! grep -q -F -e "$2" "$work/out"; then fail "tools/planted.py does not say: $2" "$(shown "$work/out")"; fi
    refused=$((refused + 1))
}

# planted: checks that tools/planted.py fails if a mistake cannot be made or built. It also fails if
# the script passes, has another message, or fails over the unchanged program.
planted() {
    local source=$work/planted/crates/click_text/src/argument_bytes.rt
    planted_tree
    export CATCHES=it BUILDS=all
    planted_says 0 'click_text: escaped__reads_a_tab_as_a_line_feed: caught by tools/test_scripts.sh tests/arguments.script:'
    planted_says 0 '1 passed, 0 failed'
    CATCHES=nothing planted_says 1 'NOT CAUGHT: tools/test_scripts.sh tests/arguments.script passes'
    CATCHES=all planted_says 1 'NOT CAUGHT: tools/test_scripts.sh tests/arguments.script fails over the unchanged click_player'
    CATCHES=other planted_says 1 'NOT CAUGHT: tools/test_scripts.sh tests/arguments.script does not name it'
    BUILDS=nothing planted_says 1 'NOT CAUGHT: the program is not built: no build'
    BUILDS=unchanged planted_says 1 'NOT CAUGHT: the program is not built: no build'
    sed -i "s/b't' => /b't' | b't' => /" "$source"
    planted_says 1 'stands 0 times'
    planted_says 1 '0 passed, 1 failed'
}

# shellcheck disable=SC2048
for section in ${*:-programs network scripts pages gate planted}; do
    # shellcheck disable=SC2194
    case " programs network scripts pages gate planted " in
    *" $section "*) ;;
    *) fail "there is no section $section" ;;
    esac
    refused=0
    "$section"
    echo "$section: refused $refused times"
done
