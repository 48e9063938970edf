#!/bin/sh
# Checks the pages: what stands behind `$` in a block of the README, docs/ or examples/ is run, and must print the bytes
# that stand below it. The program is the one that PARCOURS names in the environment, else the script `parcours`.
# The last line is `N passed, M failed`.
tools=$(dirname -- "$(readlink -f -- "$0")")
PYTHONPATH=$tools exec python3 -B -m dossier.starting check_pages.sh checks.pages "$@"
