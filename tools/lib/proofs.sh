#!/usr/bin/env bash
# Proves everything from scratch with `rt ci`, which also runs the tests and the stored runs of the
# programs, and stamps the program that it builds. The last line is rt's: `N passed, M failed`. The
# processor time of each crate goes to out/crate-times.txt.
set -eu
. "$(dirname "$(readlink -f "$0")")/built.sh"
cd "$top"
sources=$(sum_of_sources)
# One check for each processor, but no more than there are 4 GB of available memory for. The largest
# check of tests takes 6.4 GB, and most others less than 3. By default rt reserves several times as
# much and leaves processors idle.
most=$(awk -v most="$(nproc)" '/^MemAvailable:/ { room = int($2 / 4000000); print room < 1 ? 1 : room < most ? room : most }' /proc/meminfo)
mkdir -p out
rm -f out/crate-times.txt
tools/lib/crate_times.py $$ out/crate-times.txt &
times=$!
status=0
RT_JOBS=${RT_JOBS:-$most} rt ci || status=$?
kill "$times" || true
wait "$times" || true
if [ "$status" != 0 ]; then exit "$status"; fi
if [ "$(sum_of_sources)" != "$sources" ]; then
    echo 'proofs.sh: the sources changed while they were proved' >&2
    exit 1
fi
write_stamp "$sources"
