# shellcheck shell=bash

# Finds out whether crates/click_prog/out/click_prog is the proved program of the present sources.
#
# A stamp next to the program has two checksums: one of its sources and one of the program. The
# sources are the version of the toolchain, the files crates.txt and HANDLES, and the folders src/,
# specs/ and proofs/ of click_prog and of each crate that it stands on.
#
# Sourced by run.sh, tools/lib/proofs.sh and bench/drive/build.sh.

top=$(dirname "$(dirname "$(dirname "$(readlink -f "${BASH_SOURCE[0]}")")")")
built=$top/crates/click_prog/out/click_prog
stamp=$built.built-from

# crates_below NAME: prints the crate and the crates of this repository that it stands on, by
# crates.txt, one per line.
crates_below() {
    awk -v first="$1" '
        { sub(/#.*/, "") }
        /:/ { colon = index($0, ":"); split($0, head); sub(/:$/, "", head[1]); uses[head[1]] = substr($0, colon + 1) }
        END {
            wanted[1] = first; seen[first] = 1; count = 1
            for (at = 1; at <= count; at++) {
                print wanted[at]
                words = split(uses[wanted[at]], below)
                for (i = 1; i <= words; i++) if (below[i] in uses && !seen[below[i]]++) wanted[++count] = below[i]
            }
        }' "$top/crates.txt" | LC_ALL=C sort
}

# jobs_at_once: prints the number of checks to run in parallel: one for each processor, but no more
# than there are 4 GB of available memory for. By default rt reserves several times as much memory
# for a check.
jobs_at_once() {
    awk -v most="$(nproc)" '/^MemAvailable:/ { room = int($2 / 4000000); print room < 1 ? 1 : room < most ? room : most }' /proc/meminfo
}

# sum_of_sources: prints one checksum of everything that the program is built from. Returns 1 if a
# part of it cannot be read.
sum_of_sources() (
    set -o pipefail
    cd "$top" || return 1
    version=$(rt version) || return 1
    crates=$(crates_below click_prog) || return 1
    folders=()
    for crate in $crates; do
        for part in src specs proofs; do
            if [ -d "crates/$crate/$part" ]; then folders+=("crates/$crate/$part"); fi
        done
    done
    {
        printf '%s\n' "$version" "$crates"
        find crates.txt HANDLES "${folders[@]}" -type f -print0 | LC_ALL=C sort -z | xargs -0 sha256sum
    } | sha256sum | cut -d ' ' -f 1
)

# sum_of_program: prints the checksum of the program.
sum_of_program() { sha256sum < "$built" | cut -d ' ' -f 1; }

# is_built_from SUM: succeeds if the program was built from the sources with this checksum.
is_built_from() {
    [ -x "$built" ] && [ -f "$stamp" ] && [ "$(cat "$stamp")" = "$1 $(sum_of_program)" ]
}

# write_stamp SUM: records that the program was built from the sources with this checksum.
write_stamp() {
    local new=$stamp.$$
    printf '%s %s\n' "$1" "$(sum_of_program)" > "$new"
    mv -f "$new" "$stamp"
}
