#!/bin/sh
# Writes the nine slots of a made-up dossier of NUMBER candidates to FOLDER, as
# the mode `sample` has them. With QUITS each candidate of that multiple quits on
# day 2. The slots appear in the folder when all are whole.
# Status: 0 written, 1 not written, 2 bad words.
set -u
slots="groups programmes schools rankings boarding wishes state ceilings answers"

say() {
    echo "write_sample.sh: $1" >&2
}

# Whether the text is a plain number from $2 to 1,000,000.
is_number() {
    case $1 in '' | *[!0-9]* | ????????*) return 1 ;; esac
    [ "$1" -ge "$2" ] && [ "$1" -le 1000000 ]
}

not_written() {
    say "$1"
    exit 1
}

case ${1-} in
    --help | -h | help)
        echo "usage: write_sample.sh NUMBER FOLDER [QUITS]"
        sed -n '2,5s/^# //p' "$0"
        exit 0 ;;
    --version)
        "$(dirname -- "$(readlink -f -- "$0")")/in_words" --version | sed '1s/^in_words/write_sample.sh/'
        exit 0 ;;
esac
if [ $# -lt 2 ] || [ $# -gt 3 ]; then
    echo "usage: $0 NUMBER FOLDER [QUITS]" >&2
    exit 2
fi
number=$1
folder=$2
quits=${3-0}
if ! is_number "$number" 1; then
    say "'$number' is not a number of candidates from 1 to 1000000; write it with digits alone"
    exit 2
fi
if ! is_number "$quits" 0; then
    say "'$quits' is not a number from 0 to 1000000; each candidate of that multiple quits"
    exit 2
fi
for slot in $slots; do
    [ ! -e "$folder/$slot.csv" ] || not_written "$folder has slots already ($slot.csv); name another folder"
done
mkdir -p -- "$folder" || not_written "the folder $folder cannot be made"
fresh=$folder/.sample.$$
mkdir -- "$fresh" || not_written "the folder $folder cannot be written"
trap 'rm -rf -- "$fresh"' EXIT
trap 'exit 1' HUP INT TERM
rows=$(cd -- "$fresh" && awk -v number="$number" -v quits="$quits" '
function slot(name, header) { path[name] = name ".csv"; print header > path[name]; rows++ }
function halved(x) { return int(x / 2) }
function rank(candidate, multiplier) { return 1 + (candidate * multiplier) % 1073741824 }
BEGIN {
    programmes = 1 + int(number / 500)
    schools = 1 + halved(programmes - 1)
    slot("groups", "group,scholar_pct,resident_pct")
    slot("programmes", "programme,group,seats")
    slot("schools", "school,beds,ceiling")
    slot("rankings", "group,candidate,rank,scholar,resident")
    slot("boarding", "school,candidate,rank")
    slot("wishes", "wish,candidate,programme,school,preference")
    slot("state", "wish,status")
    slot("ceilings", "day,school,ceiling")
    slot("answers", "day,kind,target")
    rows += 2 * programmes + schools
    for (p = 1; p <= programmes; p++) {
        printf "%d,%d,%d\n", p, (7 * p) % 31, (11 * p) % 41 > path["groups"]
        printf "%d,%d,200\n", p, p > path["programmes"]
    }
    for (h = 1; h <= schools; h++) printf "%d,40,1073741824\n", h > path["schools"]
    choices = programmes < 3 ? programmes : 3
    rows += 2 * number * choices
    for (c = 1; c <= number; c++) {
        for (j = 0; j < choices; j++) {
            p = 1 + (c + j) % programmes
            h = 1 + halved(p - 1)
            printf "%d,%d,%d,%d,%d\n", p, c, rank(c, 1000001 + 2 * p), c % 5 == 0, (c + p) % 3 == 0 > path["rankings"]
            wish = 6 * (c - 1) + 2 * j + 1
            ranked = c % 4 == 0
            printf "%d,%d,%d,,%d\n", wish, c, p, ranked ? 2 * j + 2 : 0 > path["wishes"]
            if (c % 2 == 0) {
                printf "%d,%d,%d,%d,%d\n", wish + 1, c, p, h, ranked ? 2 * j + 1 : 0 > path["wishes"]
                rows++
                seen = 0
                for (i = 0; i < j; i++) if (1 + halved((c + i) % programmes) == h) seen = 1
                if (!seen) {
                    printf "%d,%d,%d\n", h, c, rank(c, 2000001 + 2 * h) > path["boarding"]
                    rows++
                }
            }
        }
        if (quits > 0 && c % quits == 0) {
            printf "2,quit,%d\n", c > path["answers"]
            rows++
        }
    }
    for (name in path) close(path[name])
    printf "%d\n", rows
}') && [ "$(cat -- "$fresh"/*.csv | wc -l)" -eq "$rows" ] ||
    not_written "the slots could not be written to $folder; make room and call again"
for slot in $slots; do
    mv -- "$fresh/$slot.csv" "$folder/$slot.csv" ||
        not_written "$slot.csv could not be moved to $folder; empty the folder and call again"
done
