#!/usr/bin/env bash
# Tests tools/mutants.py on a crate of two functions. There are mutants that are refused, one that is
# not, edits that are not mutants, wrong names, and the record of the crates whose mutants were
# refused. Other crates, whose edits are never made, show which crates the gate chooses.
#
#   tools/mutants_test.sh [CASE..]   runs all cases, or these
#
#   tools/mutants_test.sh --wrongs   checks that cases fail over a wrong mutants.py, such as one that
#                                    takes every edit for refused, or that tries nothing
#
# MUTANTS names a file to test instead of tools/mutants.py.
set -eu
. "$(dirname "$(readlink -f "$0")")/lib/checking.sh"
self=$(readlink -f "$0")
cd "$top"
script=${MUTANTS:-tools/mutants.py}
tree=$work/tree
small=$tree/crates/small
mutants=$small/wrong-bodies
cases='record record_to choice edits by_hand lost names none'

# make_tree: makes a tree with only the crate of two functions, without mutants.
make_tree() {
    rm -rf "$tree"
    mkdir -p "$small/src" "$tree/tools" "$mutants"
    echo 'small:' > "$tree/crates.txt"
    cat > "$small/src/lib.rt" << 'END'
//! Numbers that come next.

#![tactic(auto)]

ghost use Rattle.std.specs.Prelude.{◌≡◌, ◌+◌, ◌≤◌};

/// Returns the number after this one.
pub fn next(n: u8) -> u8
    requires { n ≤ 99 }
    ensures { result ≡ n + 1 }
{
    n + 1
}

/// Returns the number after the next.
pub fn after_next(n: u8) -> u8
    requires { n ≤ 98 }
    ensures { result ≡ n + 2 }
{
    next(n + 1)
}
END
}

# edit MUTATION OLD NEW: makes the only mutant of the second function, next to one of the first.
edit() {
    rm -rf "$mutants" "$small/by-hand"
    mkdir "$mutants"
    printf 'file: src/lib.rt\nold:     n + 1\nnew:     n + 2\n' > "$mutants/next__adds_2.edit"
    printf 'file: src/lib.rt\nold: %s\nnew: %s\n' "$2" "$3" > "$mutants/after_next__$1.edit"
}

# make_crate NAME COUNT: makes another crate with COUNT edits. None of them can be made, so that
# nothing is proved when they are tried.
make_crate() {
    local nth
    mkdir -p "$tree/crates/$1/src" "$tree/crates/$1/by-hand"
    echo "$1:" >> "$tree/crates.txt"
    echo '// Nothing.' > "$tree/crates/$1/src/lib.rt"
    for ((nth = 1; nth <= $2; nth++)); do
        printf 'file: src/lib.rt\nold: none\nnew: nothing\n' > "$tree/crates/$1/by-hand/none__is_$nth.edit"
    done
}

# note NAME..: writes a record of the present sums of these crates.
note() {
    TREE=$tree python3 -B -c '
import runpy, sys
it = runpy.run_path(sys.argv[1])
sums = it["sums_of"](it["crates_of"]())
it["write_record"](it["RECORD"], {name: sums[name] for name in sys.argv[2:]})' "$script" "$@"
}

# make_prover LINE..: makes a toolchain whose prover prints these lines before its last one, whatever
# the bodies of the functions are, and puts it first on the PATH.
make_prover() {
    mkdir -p "$work/kit/bin"
    printf '#!/bin/sh\ncase $1 in doc) echo %s/START-HERE.md ;; version) echo rt 1 logic 1 ;; esac\n' "$work/kit" > "$work/kit/bin/rt"
    printf '%s\n' '#!/bin/sh' "cat << 'E'" "$@" 'logic=1' E > "$work/kit/bin/rattle"
    chmod +x "$work/kit/bin/rt" "$work/kit/bin/rattle"
    PATH=$work/kit/bin:$PATH
}

# try OPTION..: runs mutants.py on the tree.
try() { TREE=$tree ran "$script" "$@"; }

# passes LAST OPTION..: checks that mutants.py ends with status 0 and this last line.
passes() {
    local last=$1
    shift
    try "$@"
    same_status 0 "$status" "mutants.py $*"
    same "$last" "$(tail -n 1 "$work/out")" "mutants.py $*"
}

# fails WHY OPTION..: checks that mutants.py ends with status 1 and prints this on standard error.
fails() {
    local why=$1
    shift
    try "$@"
    same_status 1 "$status" "mutants.py $*, which must say: $why"
    if ! grep -q "$why" "$work/err"; then fail "mutants.py $*: expected: $why" 'actual:' "$(shown "$work/err")"; fi
}

# chooses CHANGED TENTH WHAT: checks which crates the last run chose. TENTH is a pattern of grep.
chooses() {
    local wanted="^mutants.py: changed since their mutants were refused: $1; of the others: $2\$"
    if ! grep -q "$wanted" "$work/out"; then fail "$3" "wanted: $wanted" "came:   $(head -n 1 "$work/out")"; fi
}

# A crate is unrecorded until its mutants were all refused, and has changed if one of its sources
# has. The tenth of the others, rounded up, is the only crate.
case_record() {
    edit returns_the_next '    next(n + 1)' '    next(n)'
    passes 'small 2 unrecorded' --list
    passes '2 passed, 0 failed' --changed --record
    chooses none small 'the choice of an unrecorded crate'
    passes 'small 2 unchanged' --list
    echo >> "$small/src/lib.rt"
    passes 'small 2 changed' --list
    passes '2 passed, 0 failed' --changed
    chooses small none 'the choice of a changed crate'
}

# --record-to leaves the record alone. Its file has the crate whose mutants were refused and the
# recorded one, which was not tried, and serves as the record. It lacks a crate with a mutant that
# is not refused.
case_record_to() {
    make_prover 'fn small::next: not proved: `search` did not prove `ensures`' 'fn small::after_next: not proved: `search` did not prove `ensures`'
    edit returns_the_next '    next(n + 1)' '    next(n)'
    make_crate other 1
    make_crate faulty 1
    note other faulty
    cp "$tree/tools/mutants.txt" "$work/before"
    try --all --record-to "$work/none/record"
    same_status 2 "$status" '--record-to a folder that does not exist'
    fails 'stands 0 times' --all small faulty --record-to "$work/record"
    same_bytes "$work/before" "$tree/tools/mutants.txt" 'the record after --record-to'
    same 'other small ' "$(sed '/^#/d; s/ .*//' "$work/record" | tr '\n' ' ')" 'the crates that --record-to writes'
    cp "$work/record" "$tree/tools/mutants.txt"
    passes 'faulty 1 unrecorded' --list
    same 'small 2 unchanged other 1 unchanged ' "$(head -n 2 "$work/out" | tr '\n' ' ')" 'the crates with the new record'
}

# Of 20 mutants of crates that did not change, the gate tries two: of unrecorded crates, and then of
# recorded ones. Whatever the checksums are, no recorded crate is chosen before an unrecorded one
# that fits.
case_choice() {
    local nth one='c[0-9]*'
    make_prover 'fn small::next: not proved: `search` did not prove `ensures`'
    for ((nth = 1; nth <= 17; nth++)); do make_crate "c$nth" 1; done
    make_crate first 1
    make_crate second 1
    make_crate third 1
    note c{1..17} third
    fails 'stands 0 times' --changed
    chooses none '\(first second\|second first\)' 'the choice of two unrecorded crates'
    note c{1..17} second third
    fails 'stands 0 times' --changed
    chooses none "first \\($one\\|second\\|third\\)" 'the choice of an unrecorded crate and a recorded one'
    # A crate whose sources differ from its record has changed, and is not among the others. These
    # have ten mutants left.
    for nth in c{9..17} third; do echo >> "$tree/crates/$nth/src/lib.rt"; done
    fails 'stands 0 times' --changed
    chooses 'c9 c10 c11 c12 c13 c14 c15 c16 c17 third' first 'the choice with ten changed crates'
    # An unrecorded crate with three mutants does not fit.
    rm -r "$tree/crates/first" "$tree/crates/second" "$tree/crates/third"
    sed -i '/^c[0-9]*:/!d' "$tree/crates.txt"
    make_crate large 3
    note c{1..17}
    fails 'stands 0 times' --changed
    chooses none "$one $one" 'the choice with a crate that does not fit'
}

case_edits() {
    edit has_no_such_text '    next(n + 3)' '    next(n)'
    fails 'stands 0 times' --all
    edit calls_no_such_name '    next(n + 1)' '    next_of(n + 1)'
    fails 'did not reach the prover' --all
    same '1 passed, 1 failed' "$(tail -n 1 "$work/out")" 'the result of an edit next to one that does not compile'
    edit has_no_pair '    next(n + 1)' '    next(n)'
    sed -i '$d' "$mutants/after_next__has_no_pair.edit"
    fails 'it has no whole pair' --all
    edit names_no_such_function '    next(n + 1)' '    next(n)'
    echo 'refused: after_all' >> "$mutants/after_next__names_no_such_function.edit"
    fails 'there is no function small::after_all' --all
}

# The mutants in by-hand/ are tried too, and a crate with a mutant that is not refused is not
# recorded.
case_by_hand() {
    edit returns_the_next '    next(n + 1)' '    next(n)'
    mkdir "$small/by-hand"
    printf 'file: src/lib.rt\nold:     n + 1\nnew:     1 + n\n' > "$small/by-hand/next__adds_in_reverse.edit"
    fails 'NOT REFUSED: small::next' --all --record
    passes 'small 3 unrecorded' --list
}

# A proof that names what the edit removed shows nothing.
case_lost() {
    local name at='./proofs/after_next/Answers.antt:3:1: error: `returns`:' why='not proved: the proof has an error'
    # The name may be in a further line.
    for name in 'the term has no field `n`' '`n` is not in scope' $'expected `u8`\n    and `n` is not\n\tin scope'; do
        make_prover "$at $name" 'fn small::next: not proved: `search` did not prove `ensures`' "fn small::after_next: $why"
        edit returns_the_next '    next(n + 1)' '    next(n)'
        fails 'after_next__returns_the_next: REFUSED FOR A LOST NAME ALONE' --all
        same '1 passed, 1 failed' "$(tail -n 1 "$work/out")" 'the result of an edit that only loses a name, next to one that is refused'
    done
    # A line that is not indented belongs to no error.
    make_prover "$at the two types differ" '`n` is not in scope' './proofs/next/Answers.antt:3:1: error: the types differ' "fn small::next: $why" "fn small::after_next: $why"
    passes '2 passed, 0 failed' --all
}

# A name begins with the item that is changed, says what is wrong, and is the only such name of the
# crate.
case_names() {
    local name
    mkdir "$small/must-fail"
    for name in next__returns_the_next returns_the_next after_next; do
        edit returns_the_next '    next(n + 1)' '    next(n)'
        passes '2 passed, 0 failed' --check-names
        mv "$mutants/after_next__returns_the_next.edit" "$small/must-fail/$name.edit"
        fails "small/must-fail/$name.edit: BAD NAME: it is not FUNCTION__MUTATION.edit for after_next" --check-names
        rm "$small/must-fail/$name.edit"
    done
    cp "$mutants/next__adds_2.edit" "$small/must-fail"
    fails 'BAD NAME: another mutant of the crate has it' --check-names
}

case_none() {
    fails 'there is no mutant to try' --all
}

# wrong CASE CHANGE..: checks that the case fails over mutants.py with each of the changes.
wrong() {
    local case=$1 change
    shift
    for change in "$@"; do
        sed "$change" "$top/tools/mutants.py" > "$work/wrong"
        if cmp -s "$top/tools/mutants.py" "$work/wrong"; then fail "the change $change changes nothing"; fi
        chmod +x "$work/wrong"
        if MUTANTS=$work/wrong "$self" "$case" > "$work/said" 2>&1; then fail "the case $case passes with the change $change"; fi
        if ! grep -q '^mutants_test.sh: ' "$work/said"; then fail "the case $case does not end with the change $change:" "$(shown "$work/said")"; fi
        refused=$((refused + 1))
    done
}

wrongs() {
    refused=0
    wrong record 's/^        for it in rounds_of(folder, edits):/        for it in []:/'
    wrong record_to 's/write_record(asked.record_to, /write_record(RECORD, /' 's/, kept | {/, {/' 's/ if not failed and after/ if after/' 's/^    if asked.record_to and not .*/    if False:/' \
        's/ if it in sums and it not in counts}/ if it in sums}/'
    wrong choice 's/(it in known, hashlib/(True, hashlib/' 's/(it in known, hashlib/(it not in known, hashlib/' 's/if len(mutants_of(it)) <= left:/if True:/' 's/^SHARE = 10/SHARE = 5/' \
        's/^    changed = \[.*/    changed = []/' 's/ if it not in changed\]/]/' 's/^    return changed, tenth or .*/    return changed, others/'
    wrong edits 's/ and len(it.edits) > 1:/ and False:/' 's/ != 1:/ > 1:/' 's/^    if not pairs or .*/    if False:/' 's/^    unknown = .*/    unknown = []/'
    wrong by_hand 's/(False, f"{edit.name}: NOT REFUSED/(True, f"{edit.name}: NOT REFUSED/' 's/^KINDS = .*/KINDS = ("wrong-bodies",)/'
    wrong lost 's/^STALE = .*/STALE = re.compile("has no field")/' 's/(?:\\n\[ \\t\]+\.\*)\*//' 's/(?:\\n\[ \\t\]+\.\*)\*/(?:\\n.+)*/' 's/" "\.join(lines\.split())/lines/' 's/(lost if STALE.search(text) else errors)/errors/' 's/^        elif verdict.startswith("not proved") and place in errors:/        elif False:/'
    wrong names 's/^        elif name in names:/        elif False:/' 's/^        if not function or plain.*/        if False:/'
    wrong none 's/ or not passed else 0/ else 0/'
    echo "$refused times a wrong mutants.py was refused"
}

if [ "${1:-}" = --wrongs ]; then
    wrongs
    exit 0
fi
own_path=$PATH
# shellcheck disable=SC2048
for case in ${*:-$cases}; do
    PATH=$own_path
    make_tree
    "case_$case"
done
echo 'mutants.py: the record, the choice of crates, edits, lost names and names: passed'
