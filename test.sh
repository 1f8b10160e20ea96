#!/usr/bin/env bash
# Runs the merge gate, or parts of it. The head of tools/gate.py lists the options: none, --quick,
# --list, and names of parts.
exec "$(dirname "$(readlink -f "$0")")/tools/gate.py" "$@"
