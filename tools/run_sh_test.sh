#!/usr/bin/env bash
# Tests run.sh in a small tree, with stand-ins for `rt`, the programs and tools/quick_build.py.
#
#   tools/run_sh_test.sh [CASE..]   runs all cases, or these
#
#   tools/run_sh_test.sh --wrongs   checks that each case fails over a wrong run.sh
#
# RUN_SH, BUILT_SH and PROVE_SH name files to test instead of run.sh, tools/lib/built.sh and
# tools/lib/prove.sh.
set -eu
. "$(dirname "$(readlink -f "$0")")/lib/checking.sh"
self=$(readlink -f "$0")
tree=$work/tree
script=$tree/run.sh
out=$tree/crates/click_prog/out
cases='builds changes fails no_rt signs interrupt not_kept quick'

# make_tree: makes four crates. The program stands on two of them.
make_tree() {
    local crate part
    mkdir -p "$tree/tools/lib" "$work/kit/bin" "$work/elsewhere"
    cp "${RUN_SH:-$top/run.sh}" "$script"
    chmod +x "$script"
    cp "${BUILT_SH:-$top/tools/lib/built.sh}" "$tree/tools/lib/built.sh"
    cp "${PROVE_SH:-$top/tools/lib/prove.sh}" "$tree/tools/lib/prove.sh"
    printf 'low:\nmiddle may_wait=1: low itoa # a library\nclick_prog: middle\nclick_bench: click_prog\n' > "$tree/crates.txt"
    printf 'Handles allowed: none.\n' > "$tree/HANDLES"
    for crate in low middle click_prog click_bench; do
        for part in src specs proofs must-fail; do
            mkdir -p "$tree/crates/$crate/$part"
            echo "$crate" > "$tree/crates/$crate/$part/file"
        done
    done
}

# make_program FILE WORD: makes a program that prints the word, its process number, its folder, its
# arguments and its input, and ends with status 3.
make_program() {
    printf '#!/bin/sh\necho "%s $$ $PWD"\nfor word; do echo "($word)"; done\ncat\necho fault >&2\nexit 3\n' "$2" > "$1"
    chmod +x "$1"
}

# make_rt: makes an `rt` that prints the lines of the real one. It pretends to prove each crate that
# is not proved yet, one after another, and then writes the program. The crates that it proved are
# in $work/proved. $work/middle.lasts has the seconds that the proof of middle takes.
make_rt() {
    cat > "$work/kit/bin/rt" << END
#!/bin/bash
case "\$*" in
version) cat "$work/version"; exit ;;
ci) ;;
*) exit 2 ;;
esac
echo "\$PWD" >> "$work/builds"
cat > "$work/build.input"
{ ls crates | tr '\n' ' '; find . -name must-fail; } > "$work/build.crates"
cp crates.txt "$work/build.crates.txt"
# At Ctrl-C the real one waits for the proofs at work.
trap '' INT
trap 'exit 143' TERM
trap 'rm -f "$work/at.work"' EXIT
for crate in low middle click_prog; do
    if [ -e "$work/proved/\$crate" ]; then echo "rt: \$crate is kept: an earlier run on this machine proved the same files over the same libraries"; continue; fi
    if [ \$crate = middle ] && [ -e "$work/middle.lasts" ]; then
        (cd "crates/\$crate" && exec sleep "\$(cat "$work/middle.lasts")") &
        echo \$! > "$work/at.work"
        wait
    fi
    printf '== %s\nlogic=proved func' "\$crate"
    if [ \$crate = middle ] && [ -e "$work/fails" ]; then
        printf 'tions=0\nsrc/lib.rt:1:1: error: %s/crates/middle is wrong\nrt: middle NOT PROVED\n' "\$PWD"
        echo 'rt: click_prog NOT PROVED: its library middle failed'
        for line in 1 2 3 4 5 6 7 8 9 10 11 12 13 14 15 16 17 18 19 20; do echo "line \$line"; done
        exit 1
    fi
    if [ \$crate = middle ] && [ -e "$work/slow" ]; then sleep 1.5; fi
    echo 'tions=7 sum=0 statements=trusted'
    echo "rt: \$crate proved"
    touch "$work/proved/\$crate"
done
if [ -e "$work/changes" ]; then echo more >> "$tree/crates/low/src/file"; fi
if [ -e "$work/loses" ]; then exit 0; fi
mkdir -p crates/click_prog/out
cp "$work/program" crates/click_prog/out/click_prog
echo '3 passed, 0 failed'
if [ -e "$work/denies" ]; then exit 1; fi
END
    chmod +x "$work/kit/bin/rt"
    make_program "$work/program" proved
}

# make_quick: makes a quick_build.py that writes a program unless there is one.
make_quick() {
    cat > "$tree/tools/quick_build.py" << END
#!/bin/bash
if [ "\$*" != click_prog ]; then exit 2; fi
echo quick >> "$work/builds"
cat > "$work/build.input"
if [ -e "$work/fails" ]; then exit 1; fi
if [ -e "$out/quick/click_prog" ]; then exit 0; fi
echo 'a line of the quick build'
mkdir -p "$out/quick"
cp "$work/quick" "$out/quick/click_prog"
END
    chmod +x "$tree/tools/quick_build.py"
    make_program "$work/quick" unproved
}

# make_terminal: makes a script that runs a command on a terminal and sends Ctrl-C. The background
# processes of a shell would ignore Ctrl-C.
make_terminal() {
    cat > "$work/terminal.py" << 'END'
"""terminal.py WAITING COMMAND..: runs the command with a terminal as its standard error. Two seconds after the file WAITING is there, it sends Ctrl-C to the
command's process group. It prints what the terminal got and, in the last line, the status."""
import os, pty, signal, subprocess, sys, time

ours, theirs = pty.openpty()
program = subprocess.Popen(sys.argv[2:], stdin=subprocess.DEVNULL, stdout=subprocess.DEVNULL, stderr=theirs, start_new_session=True)
os.close(theirs)
while not os.path.exists(sys.argv[1]):
    time.sleep(0.05)
time.sleep(2.5)
os.killpg(program.pid, signal.SIGINT)
came = b""
try:
    while piece := os.read(ours, 4096):
        came += piece
except OSError:
    pass  # No process has the terminal open any more.
print(came.decode().replace("\r\n", "\n").replace("\r", "<CR>").replace("\x1b[K", ""))
print(program.wait(timeout=30))
END
}

# starts ARG..: runs run.sh with an input of two lines, and $path as its PATH if that is set. Leaves
# its process number in $number, and its status and outputs as `ran` does.
starts() {
    : > "$work/builds"
    printf 'one\ntwo\n' > "$work/input"
    status=0
    PATH=${path:-$PATH} "$script" "$@" < "$work/input" > "$work/out" 2> "$work/err" &
    number=$!
    wait $number || status=$?
}

# becomes WORD WHAT: checks that run.sh became the program of that word, with the arguments, the
# input, the process and the folder of run.sh.
becomes() {
    printf '%s %s %s\n(-e)\n(a b)\n()\n(*)\none\ntwo\n' "$1" "$number" "$PWD" > "$work/wanted"
    same_bytes "$work/wanted" "$work/out" "$2: what the program was given"
    same_status 3 "$status" "$2"
    same fault "$(tail -n 1 "$work/err")" "$2: the last line of standard error"
}

# runs BUILDS WHAT: checks that run.sh becomes the proved program, after that many runs of rt ci. A
# start without a build prints nothing itself.
runs() {
    starts -e 'a b' '' '*'
    becomes proved "$2"
    same "$1" "$(wc -l < "$work/builds")" "$2: runs of rt ci"
    if [ "$1" = 0 ]; then same fault "$(cat "$work/err")" "$2: standard error"; fi
}

# says PATTERN WHAT: checks that a line of standard error matches the pattern.
says() {
    if ! grep -q -e "$1" "$work/err"; then fail "$2: wanted a line with '$1', came:" "$(shown "$work/err")"; fi
}

# stops PATTERN WHAT ARG..: checks that run.sh ends with status 5 and a line that matches the
# pattern.
stops() {
    local pattern=$1 what=$2
    shift 2
    starts "$@"
    same_status 5 "$status" "$what"
    is_empty "$work/out" "$what: standard output"
    says "^run.sh: .*$pattern" "$what"
}

# leaves_nothing WHAT: checks that run.sh removed its copy, and that no process of rt is left.
leaves_nothing() {
    same '' "$(ls "$TMPDIR")" "$1: what is left among the temporary files"
    if [ -e "$work/at.work" ]; then fail "$1: rt still runs"; fi
}

# forget: restores the state before the first start.
forget() {
    rm -rf "$work/proved" "$out" "$work/fails" "$work/slow" "$work/changes" "$work/loses" "$work/denies" "$work/middle.lasts"
    mkdir "$work/proved"
    echo one > "$work/version"
}

# A line that rt writes in two pieces is read as one line.
case_builds() {
    touch "$work/slow"
    runs 1 'the first start'
    leaves_nothing 'the first start'
    is_empty "$work/build.input" 'what rt reads'
    same 'click_prog low middle ' "$(cat "$work/build.crates")" 'the crates that rt proves, without mutants'
    same 'low: middle may_wait=1: low itoa # a library click_prog: middle ' "$(tr '\n' ' ' < "$work/build.crates.txt")" 'the crates.txt that rt reads'
    says '^run.sh: proving 3 crates' 'the first start'
    says '^run.sh: finished proofs are kept: after Ctrl-C the same command resumes' 'the first start'
    says '^run.sh: 2 of 3: middle proved, 7 functions, ' 'the first start'
    says '^run.sh: the program is proved and built' 'the first start'
    same '== low' "$(head -n 1 "$out/build.log")" 'the log of the build'
    runs 0 'the second start'
    ln -sf "$script" "$work/elsewhere/router"
    script=$work/elsewhere/router
    runs 0 'a start through a link'
    script=../tree/run.sh
    runs 0 'a start from another folder'
    script=$tree/run.sh
}

case_changes() {
    local file
    runs 1 'the first start'
    for file in crates/low/src/file crates/middle/specs/file crates/click_prog/proofs/file crates/click_prog/src/new crates.txt HANDLES; do
        echo '# more' >> "$tree/$file"
        runs 1 "a start after a change of $file"
    done
    runs 0 'the start after that'
    rm "$tree/crates/click_prog/src/new"
    runs 1 'a start after a file is removed'
    for file in crates/click_bench/src/file crates/low/must-fail/file crates/low/README.md README.md; do
        echo more >> "$tree/$file"
    done
    runs 0 'a start after changes of what the program does not stand on'
    echo two > "$work/version"
    runs 1 'a start with another toolchain'
    echo '# another program' >> "$out/click_prog"
    runs 1 'a start after the program was changed'
    rm "$out/click_prog"
    runs 1 'a start after the program is removed'
}

case_fails() {
    touch "$work/fails"
    stops 'not proved and built' 'a proof that fails' -e ''
    leaves_nothing 'a proof that fails'
    says '^run.sh: middle NOT PROVED' 'a proof that fails'
    says '^src/lib.rt:1:1: error: crates/middle is wrong$' 'a proof that fails'
    if grep -q '^line' "$work/err"; then fail 'a proof that fails: it prints the log of other crates'; fi
    stops 'not proved and built' 'a proof that fails again' -e ''
    rm "$work/fails"
    touch "$work/denies"
    stops 'not proved and built' 'an rt that proves each crate and fails' -e ''
    says '^3 passed, 0 failed$' 'the end of the log'
    rm "$work/denies"
    touch "$work/loses"
    stops 'not proved and built' 'an rt that leaves no program' -e ''
    rm "$work/loses"
    touch "$work/changes"
    stops 'changed while' 'sources that change during the build' -e ''
    rm "$work/changes"
    runs 1 'a start after all of these'
}

case_no_rt() {
    local word path=$work/without
    mkdir -p "$path"
    for word in bash dirname readlink stat; do ln -sf "$(command -v $word)" "$path/$word"; done
    stops 'the command rt of the toolchain is not on the PATH' 'no rt' -e ''
    stops 'the command rt of the toolchain is not on the PATH' 'no rt, with --quick' --quick -e ''
}

# The first line comes within 10 seconds. The stand-in of rt is silent for 9 seconds. With
# SAY_EVERY_SECONDS=2 no two lines are more than 4 seconds apart.
case_signs() {
    local begun
    echo 9 > "$work/middle.lasts"
    begun=$(date +%s%N)
    (SAY_EVERY_SECONDS=2 "$script" -e '' < /dev/null 2>&1 > /dev/null || true) |
        while IFS= read -r line; do echo "$(date +%s%N) $line"; done > "$work/timed"
    cut -d ' ' -f 2- "$work/timed" > "$work/err"
    if ! awk -v begun="$begun" 'NR == 1 && $1 - begun <= 10e9 { came = 1 } END { exit !came }' "$work/timed"; then
        fail "signs of life: wanted the first line within 10 s of $begun, came:" "$(cat "$work/timed")"
    fi
    says '^run.sh: 1 of 3 crates proved; at work: middle ([0-9]* s); [0-9]* s so far$' 'signs of life'
    if ! awk '{ now = $1 / 1e9; if (NR > 1 && now - last > 4) exit 1; last = now }' "$work/timed"; then
        fail 'signs of life: wanted a line at least every 4 s, came:' "$(cat "$work/timed")"
    fi
    case $(head -n 1 "$work/err") in
    'run.sh: proving 3 crates '*) ;;
    *) fail 'signs of life: the first line is:' "$(head -n 1 "$work/err")" ;;
    esac
    same '25 SAY_EVERY_SECONDS' "$(sed -n 's/.*"\${\(SAY_EVERY_SECONDS\):-\([0-9]*\)}".*/\2 \1/p' "$tree/tools/lib/prove.sh")" 'the seconds between two lines'
}

# On a terminal the line of progress is rewritten. At Ctrl-C run.sh ends by that signal, together
# with the processes that it started. The next start resumes.
case_interrupt() {
    echo 60 > "$work/middle.lasts"
    : > "$work/builds"
    ran timeout 60 python3 "$work/terminal.py" "$work/at.work" "$script" -e ''
    same_status 0 "$status" 'Ctrl-C'
    mv "$work/out" "$work/err"
    same -2 "$(tail -n 1 "$work/err")" 'the signal that run.sh ends by at Ctrl-C'
    says '<CR>run.sh: 1 of 3 crates proved; at work: middle ([0-9]* s); [0-9]* s so far<CR>' 'a terminal'
    says '<CR>run.sh: 1 of 3: low proved, 7 functions, [0-9]* s; [0-9]* s so far$' 'a terminal'
    says 'run.sh: interrupted; finished proofs are kept: the same command resumes' 'Ctrl-C'
    leaves_nothing 'Ctrl-C'
    same low "$(ls "$work/proved")" 'what is proved after Ctrl-C'
    rm "$work/middle.lasts"
    runs 1 'the start after Ctrl-C'
    says '^run.sh: 1 of 3: proved by an earlier run: low$' 'the start after Ctrl-C'
}

# If rt cannot store proofs, run.sh does not say that they are kept. Here the folder of stored
# proofs is a file.
case_not_kept() {
    : > "$work/rattle-kept"
    runs 1 'a start with no folder of kept proofs'
    rm "$work/rattle-kept"
    if grep -q 'are kept' "$work/err"; then fail 'it says that proofs are kept, and they are not:' "$(shown "$work/err")"; fi
    says '^run.sh: rt cannot keep what it proves here' 'a start with no folder of kept proofs'
}

case_quick() {
    starts --quick -e 'a b' '' '*'
    becomes unproved 'the first quick start'
    same 'run.sh: this program is NOT PROVED (--quick)' "$(head -n 1 "$work/err")" 'the first line of a quick start'
    same 'run.sh: this program is NOT PROVED; ./run.sh without --quick proves it' "$(tail -n 2 "$work/err" | head -n 1)" 'the last line of a quick start'
    says '^a line of the quick build$' 'the first quick start'
    is_empty "$work/build.input" 'what a quick build reads'
    same quick "$(cat "$work/builds")" 'the builds of a quick start'
    starts --quick -e 'a b' '' '*'
    becomes unproved 'the second quick start'
    same 'run.sh: this program is NOT PROVED (--quick) fault ' "$(tr '\n' ' ' < "$work/err")" 'what the second quick start prints'
    runs 1 'a start after quick ones'
    starts --quick -e 'a b' '' '*'
    becomes unproved 'a quick start with a proved program'
    runs 0 'a start after all of these'
    starts -e --quick
    same 'proved (-e) (--quick) one two ' "$(cut -d ' ' -f 1 "$work/out" | tr '\n' ' ')" '--quick that is not the first argument'
    rm -r "$out/quick"
    touch "$work/fails"
    stops 'not built' 'a quick build that fails' --quick -e ''
}

# wrong CASE FILE CHANGE..: checks that the case fails over the file with each of the changes.
wrong() {
    local case=$1 file=$2 variable=RUN_SH change
    case $2 in *built.sh) variable=BUILT_SH ;; *prove.sh) variable=PROVE_SH ;; esac
    shift 2
    for change in "$@"; do
        sed "$change" "$top/$file" > "$work/wrong"
        if cmp -s "$top/$file" "$work/wrong"; then fail "the change $change changes nothing in $file"; fi
        if env "$variable=$work/wrong" "$self" "$case" > "$work/said" 2>&1; then fail "the case $case passes over $file with the change $change"; fi
        if ! grep -q '^run_sh_test.sh: ' "$work/said"; then fail "the case $case does not end over $file with the change $change:" "$(shown "$work/said")"; fi
        refused=$((refused + 1))
    done
}

wrongs() {
    refused=0
    wrong builds run.sh 's/^if ! is_built_from.*/if true; then/' 's/^exec "\$built" "\$@"/exec "$built" $@/' 's/^exec "\$built"/"$built"/' 's/^exec "\$built"/cd "$top"; exec "$built"/'
    wrong changes run.sh 's/^if ! is_built_from.*/if ! [ -x "$built" ]; then/'
    wrong fails run.sh 's/exit 5/exit 1/'
    wrong no_rt run.sh '/command -v rt/d'
    wrong quick run.sh 's/exec "\$quick"/exec "$built"/' '/(--quick).*>&2/d' '/NOT PROVED; /d' 's/^    shift$/    :/' 's/click_prog < \/dev\/null/click_prog/' \
        's/ || stop .the program was not built.//' 's/"\${1:-}" = --quick/"$*" != "${*%--quick*}"/'
    wrong changes tools/lib/built.sh 's/in src specs proofs/in src proofs/' 's/"\$version" //' 's/find crates.txt HANDLES/find HANDLES/' 's/find crates.txt HANDLES/find crates.txt/' \
        's/crates=\$(crates_below click_prog)/crates=$(ls crates)/' 's/crates=\$(crates_below click_prog)/crates=click_prog/' 's/ \$(sum_of_program)" \]/ $(cut -d " " -f 2 "$stamp")" ]/'
    wrong builds tools/lib/prove.sh 's/for part in src specs proofs/for part in must-fail src specs proofs/' \
        's/for crate in \$(crates_below click_prog)/for crate in $(ls "$top\/crates")/' 's/head\[1\] in wanted/1/' 's/^    ended$/    :/' '/write_stamp/d' 's/heard "\$half\$line"/heard "$line"/' 's/functions=\${1#\*functions=}/functions=0/'
    wrong fails tools/lib/prove.sh '/while the program was built/d' 's/\[ "\$status" != 0 \] || //' 's/ || ! \[ -x "\$room.*; then/; then/' 's/shown "\$log" |.*/:/' \
        's/if \[ -z "\$failed_crates" \]; then/if true; then/' '/said "\$crate NOT PROVED/d'
    wrong signs run.sh 's/^sources=/sleep 11; &/' 's/^sources=/exec 2> \/dev\/null; &/'
    wrong signs tools/lib/prove.sh 's/said "\$(progress)"/:/' 's/:-25}/:-60}/' 's/at_work=\$(find .*/at_work=/'
    wrong interrupt tools/lib/prove.sh 's/trap "interrupted \$signal" "\$signal"/:/' 's/kill -s "\$1" \$\$/exit 1/' 's/kill "\$rt"/true/' 's/rm -rf "\$room"/:/' 's/before="\$before \$crate"/before=/' \
        "s/printf '.r%s/printf '%s/"
    wrong not_kept tools/lib/prove.sh 's/if keeps_proofs; then/if true; then/'
    echo "$refused times a wrong run.sh was refused"
}

if [ "${1:-}" = --wrongs ]; then
    wrongs
    exit 0
fi
make_tree
make_rt
make_quick
make_terminal
mkdir "$work/tmp"
export PATH=$work/kit/bin:$PATH TMPDIR=$work/tmp
cd "$work/elsewhere"
# shellcheck disable=SC2048
for case in ${*:-$cases}; do
    forget
    "case_$case"
done
echo 'run.sh builds if it has to, reports progress, and becomes the program'
