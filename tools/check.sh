#!/bin/sh
# Checks the tools: their stored examples, hostile rounds, and random dossiers. The program is the one that PARCOURS
# names in the environment, else the script `parcours`. The last line is `N passed, M failed`.
tools=$(dirname -- "$(readlink -f -- "$0")")
PYTHONPATH=$tools exec python3 -B -m dossier.starting check.sh checks.__main__ "$@"
