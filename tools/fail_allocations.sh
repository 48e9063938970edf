#!/bin/sh
# Refuses each request for memory of the runs of each mode in turn; it needs cc. It prints a line a run.
# The program is the one that PARCOURS names in the environment, else the script `parcours`.
tools=$(dirname -- "$(readlink -f -- "$0")")
PYTHONPATH=$tools exec python3 -B -m dossier.starting fail_allocations.sh checks.allocations "$@"
