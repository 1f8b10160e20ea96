# shellcheck shell=bash

# Proves and builds click_prog and the crates that it stands on, and reports the progress on
# standard error. Sourced by run.sh, after tools/lib/built.sh.
#
# `rt ci` proves crates in parallel, each from the contracts of the others. It stores finished
# proofs next to the toolchain, for every checkout on the machine. It builds a program only if it
# runs over all crates of a checkout. So it runs here over a copy that has only the crates of the
# program, without their mutants.

# The folder of the copy, the process of rt while it runs, two parts of a message, and the crates
# that rt could not prove. The message says whether proofs are kept after Ctrl-C, and what a restart
# does.
room='' rt='' kept='' again='' failed_crates=''

# copy_crates FOLDER: copies the crates of the program into the folder, laid out as a checkout.
copy_crates() {
    local crate part
    # .git makes the folder the top of a repository for rt, even if it lies in another repository.
    mkdir -p "$1/.git" "$1/crates"
    for crate in $(crates_below click_prog); do
        mkdir -p "$1/crates/$crate"
        for part in src specs proofs data stdin stdout args status; do
            if [ -e "$top/crates/$crate/$part" ]; then cp -R "$top/crates/$crate/$part" "$1/crates/$crate/"; fi
        done
    done
    crates_below click_prog | awk 'NR == FNR { wanted[$1] = 1; next } { split($0, head); sub(/:$/, "", head[1]) } head[1] in wanted' - "$top/crates.txt" > "$1/crates.txt"
    cp "$top/HANDLES" "$1/HANDLES"
}

# keeps_proofs: succeeds if rt can store finished proofs. It does so in a folder next to the
# toolchain while the disk has 5 GB left.
keeps_proofs() {
    local folder
    folder=$(dirname "$(dirname "$(dirname "$(readlink -f "$(command -v rt)")")")")
    if [ -e "$folder/rattle-kept" ]; then
        folder=$folder/rattle-kept
        [ -O "$folder" ] || return 1
    fi
    [ -d "$folder" ] && [ -w "$folder" ] && [ "$(df -Pk "$folder" | awk 'NR == 2 { print $4 }')" -gt 5120000 ]
}

# in_words SECONDS: prints a duration.
in_words() { if [ "$1" -lt 60 ]; then echo "$1 s"; else printf '%d min %02d s\n' $(($1 / 60)) $(($1 % 60)); fi; }

# said LINE: prints a line that stays; on a terminal it overwrites the line of progress.
said() { if [ -t 2 ]; then printf '\r\033[Krun.sh: %s\n' "$1" >&2; else printf 'run.sh: %s\n' "$1" >&2; fi; }

# said_before: reports the crates that an earlier run proved and that no line has reported yet.
said_before() {
    if [ -n "$before" ]; then said "$proved of $count: proved by an earlier run:$before"; fi
    before=''
}

# heard LINE: reads a line of rt's output, and reports a crate that was proved or refused.
heard() {
    local crate=${1#rt: }
    crate=${crate%% *} crate=${crate%:}
    case $1 in
    '== '*) functions='' ;;
    'logic=proved functions='*) functions=${1#*functions=} functions=${functions%% *} ;;
    "rt: $crate is kept: "*) before="$before $crate" proved=$((proved + 1)) ;;
    "rt: $crate: another run on this machine is proving the same"*) elsewhere[$crate]=1 ;;
    "rt: $crate proved")
        said_before
        proved=$((proved + 1))
        said "$proved of $count: $crate proved${functions:+, $functions functions}, $(in_words $((SECONDS - ${begun[$crate]:-SECONDS}))); $(in_words $SECONDS) so far" ;;
    "rt: $crate NOT PROVED: its library "*) failed_crates="$failed_crates $crate" ;;
    "rt: $crate NOT PROVED")
        failed_crates="$failed_crates $crate"
        said "$crate NOT PROVED; rt still proves what does not stand on it (Ctrl-C ends that)" ;;
    esac
    case $1 in "rt: $crate is kept: "* | "rt: $crate proved" | "rt: $crate NOT PROVED"*) unset "elsewhere[$crate]" ;; esac
}

# read_log: reads the lines that rt has written since the last call.
read_log() {
    local line
    while IFS= read -r line <&3; do
        heard "$half$line"
        half=''
    done
    # The last line is not complete yet.
    half=$half$line
    said_before
}

# find_work ROOM: lists the crates that are being proved in $at_work. They are those in whose
# folders a process runs.
find_work() {
    local crate
    at_work=$(find /proc/[0-9]*/cwd -maxdepth 0 -lname "$1/crates/*" -printf '%l\n' 2> /dev/null | sed "s|^$1/crates/||; s|/.*||" | sort -u)
    for crate in $at_work; do begun[$crate]=${begun[$crate]:-$SECONDS}; done
}

# progress: prints one line with the progress of the proof.
progress() {
    local crate text="$proved of $count crates proved" separator='; at work: '
    for crate in $at_work; do
        text="$text$separator$crate ($(in_words $((SECONDS - begun[$crate]))))" separator=', '
    done
    if [ ${#elsewhere[@]} -gt 0 ]; then text="$text; waiting for another run that proves ${!elsewhere[*]}"; fi
    if [ "$proved" = "$count" ] && [ -z "$at_work" ]; then text="$text; trying the program"; fi
    echo "$text; $(in_words $SECONDS) so far"
}

# watch PROCESS ROOM LOG: reports the progress of rt until the process ends. Prints a line for each
# crate when it is proved, and a line of progress every 25 seconds (SAY_EVERY_SECONDS). On a
# terminal the line of progress is rewritten every second.
watch() {
    local count proved=0 functions='' half='' before='' at_work='' printed=0 columns text
    local -A begun=() elsewhere=()
    count=$(crates_below click_prog | wc -l)
    SECONDS=0
    exec 3< "$3"
    while kill -0 "$1" 2> /dev/null; do
        # At first the interval is shorter: if an earlier run proved everything, rt ends at once.
        if [ $SECONDS -lt 2 ]; then sleep 0.2; else sleep 1; fi
        read_log
        find_work "$2"
        if [ -t 2 ]; then
            columns=$(stty size <&2 2> /dev/null | cut -d ' ' -f 2)
            text="run.sh: $(progress)"
            printf '\r%s\033[K' "${text:0:$((${columns:-80} > 1 ? ${columns:-80} - 1 : 79))}" >&2
        elif [ $((SECONDS - printed)) -ge "${SAY_EVERY_SECONDS:-25}" ]; then
            said "$(progress)"
            printed=$SECONDS
        fi
    done
    read_log
    exec 3<&-
    if [ -t 2 ]; then printf '\r\033[K' >&2; fi
}

# shown LOG: prints the last lines of rt about each crate that is not proved. If there is no such
# crate, prints the last lines of the log.
shown() {
    local crate
    if [ -z "$failed_crates" ]; then tail -n 20 "$1"; fi
    for crate in $failed_crates; do
        awk -v first="== $crate" -v last="rt: $crate NOT PROVED" '$0 == first { on = 1 } on; $0 == last { on = 0 }' "$1" | tail -n 20
    done
}

# ended: ends rt, which ends the processes that it started, and removes the copy.
ended() {
    if [ -n "$rt" ]; then
        kill "$rt" 2> /dev/null || true
        wait "$rt" 2> /dev/null || true
    fi
    rm -rf "$room"
}

# interrupted SIGNAL: ends the proof, then kills this shell with the same signal, so that the parent
# process sees that it was interrupted.
interrupted() {
    trap - EXIT INT TERM HUP
    ended
    if [ -t 2 ]; then echo >&2; fi
    printf 'run.sh: interrupted; %s\n' "$kept: the same command $again" >&2
    kill -s "$1" $$
}

# prove_program SUM: proves and builds the program from the sources with this checksum, and stamps
# it. If that fails, ends run.sh with a message.
prove_program() {
    local log=$top/crates/click_prog/out/build.log status=0 signal
    if keeps_proofs; then
        kept='finished proofs are kept' again=resumes
    else
        kept='rt cannot keep what it proves here' again='begins again'
    fi
    printf 'run.sh: %s\n' "proving $(crates_below click_prog | wc -l) crates and building the program; the first time this takes about an hour on 4 cores (an estimate; here are $(nproc))" \
        "$kept: after Ctrl-C the same command $again; what rt says is in $log" './run.sh --quick builds the program unproved, in minutes' >&2
    room=$(cd "$(mktemp -d)" && pwd -P)
    trap ended EXIT
    # shellcheck disable=SC2064
    for signal in INT TERM HUP; do trap "interrupted $signal" "$signal"; done
    copy_crates "$room"
    [ "$(sum_of_sources)" = "$1" ] || stop 'the sources changed while they were copied: run it again'
    mkdir -p "$(dirname "$log")"
    # rt runs in parallel with `watch`, which reads the log, so the log has to exist first.
    : > "$log"
    (cd "$room" && RT_JOBS=${RT_JOBS:-$(jobs_at_once)} exec rt ci) < /dev/null > "$log" 2>&1 &
    rt=$!
    watch "$rt" "$room" "$log"
    wait "$rt" || status=$?
    rt=''
    if [ "$status" != 0 ] || ! [ -x "$room/crates/click_prog/out/click_prog" ]; then
        shown "$log" | sed "s|$room/||g" >&2
        stop "the program was not proved and built; all that rt said is in $log"
    fi
    mkdir -p "$(dirname "$built")"
    cp "$room/crates/click_prog/out/click_prog" "$built.new"
    mv -f "$built.new" "$built"
    [ "$(sum_of_sources)" = "$1" ] || stop 'the sources changed while the program was built: run it again'
    write_stamp "$1"
    trap - EXIT INT TERM HUP
    ended
    said "the program is proved and built, $(in_words $SECONDS)"
}
