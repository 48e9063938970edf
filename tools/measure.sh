#!/bin/sh
# Times each mode of the program on dossiers of national shape, at two numbers of candidates, beside `wc -l`.
# The program is the one that PARCOURS names in the environment, else the script `parcours`; --help tells the words.
tools=$(dirname -- "$(readlink -f -- "$0")")
PYTHONPATH=$tools exec python3 -B -m dossier.starting measure.sh checks.measure "$@"
