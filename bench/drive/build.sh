#!/usr/bin/env bash
# build.sh FOLDER: proves and builds bench/drive, the program that the scripts of bench/ run, in a
# new folder, and prints its path. This takes minutes if ./test.sh left the libraries of the present
# sources in crates/*/out. Otherwise `rt run` proves all of them first, which takes an hour.
#
# bench/drive is not a crate of the repository, so the gate does not prove it. Its files have other
# endings here, because the gate allows no .rt and .antt files outside crates/.
set -eu
here="$(cd "$(dirname "$0")" && pwd)"
. "$here/../../tools/lib/built.sh"
folder=$(mkdir -p "$1" && cd "$1" && pwd)
crate=$folder/crates/click_drive
uses='click_base click_text click_packet click_rings click_filter click_patterns click_classes click_expand click_ports click_engine click_handlers click_router click_desk'

# library NAME: prints the folder of a library.
library() { echo "$top/crates/$1/out/rlib"; }

# build_over_libraries: proves and builds only bench/drive, over these libraries.
build_over_libraries() {
    local kit low words
    kit=$(dirname "$(rt doc)")
    words=(--crate-name click_drive src/main.rt --extern "std=$kit/rlibs/std.rlib" -L "dependency=$kit/rlibs")
    for low in $uses; do words+=(--extern "$low=$(library "$low")/$low.rlib"); done
    for low in $(for used in $uses; do crates_below "$used"; done | sort -u); do words+=(-L "dependency=$(library "$low")"); done
    words+=(--antt-project "$kit/rattle/logic/antt-project.json" --logic-built "$kit/logic_built" --links click_drive= --jobs "$(nproc)")
    mkdir -p out
    "$kit/bin/rattle" build "${words[@]}" --toolchain "$kit/toolchain" --backend llvm -o out/click_drive.o &&
        "$kit/bin/rattle-link" --target x86_64-unknown-linux-gnu --toolchain "$kit/toolchain" -o out/click_drive out/click_drive.o "$kit/c/libos_c.a" "$kit/c/liblibc_c.a"
}

# build_all: proves and builds bench/drive and all crates that it stands on. Proofs that are stored
# and still valid are not made again.
build_all() {
    cp -a "$top/crates/." "$folder/crates/"
    { cat "$top/crates.txt"; echo "click_drive: $uses"; } > "$folder/crates.txt"
    cp "$top/HANDLES" "$folder/HANDLES"
    rt run -- engine near-enter 1
}

mkdir -p "$folder/crates"
cp -r "$here" "$crate"
find "$crate" -name '*.rattle' -exec bash -c 'mv "$1" "${1%.rattle}.rt"' _ {} \;
find "$crate" -name '*.proof' -exec bash -c 'mv "$1" "${1%.proof}.antt"' _ {} \;
build=build_all
if is_built_from "$(sum_of_sources)"; then build=build_over_libraries; fi
(cd "$crate" && $build) > "$folder/log" 2>&1 || { tail -20 "$folder/log" >&2; exit 1; }
echo "$crate/out/click_drive"
