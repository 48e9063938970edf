#!/bin/sh
# Tries edges of size and odd files; --help tells the topics. The last line is `N passed, M failed`.
# The program is the one that PARCOURS names in the environment, else the script `parcours`.
tools=$(dirname -- "$(readlink -f -- "$0")")
PYTHONPATH=$tools exec python3 -B -m dossier.starting edges.sh checks.edges "$@"
