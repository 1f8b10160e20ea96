#!/usr/bin/env bash
# Plays the test scripts of tests/, or the given ones, with click_player, and checks each reply. The
# last line is the player's: `N cases passed, M failed`. The program must have been built.
#
#   tools/test_scripts.sh [FILE..]
set -eu
. "$(dirname "$(readlink -f "$0")")/lib/checking.sh"
is_built "$player"
cd "$top"
if [ $# = 0 ]; then set -- tests/*.script; fi
"$player" "$@"
