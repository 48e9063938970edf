#!/bin/sh
# Builds the program of the last commit in two folders, one after the other, and compares the two byte by byte.
# Each build proves all that the program stands on, so it takes as long as two first builds; --help says more.
tools=$(dirname -- "$(readlink -f -- "$0")")
PYTHONPATH=$tools exec python3 -B -m dossier.starting build_twice.sh checks.twice "$@"
