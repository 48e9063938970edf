#!/bin/sh
# Times the program on dossiers of extreme shapes, each at two sizes, and shows how its time and memory grow.
# The program is the one that PARCOURS names in the environment, else the script `parcours`; --help tells the shapes.
tools=$(dirname -- "$(readlink -f -- "$0")")
PYTHONPATH=$tools exec python3 -B -m dossier.starting shapes.sh checks.shapes "$@"
