#!/bin/sh
# Runs mutated slots of the worked dossiers, by a seed; --help tells the words. It prints a line a mode.
# The program is the one that PARCOURS names in the environment, else the script `parcours`.
tools=$(dirname -- "$(readlink -f -- "$0")")
PYTHONPATH=$tools exec python3 -B -m dossier.starting mutate.sh checks.mutations "$@"
