"""Disks that are full: small ones of every size near what a tool needs, and devices that take nothing."""

from pathlib import Path

from .harness import DATA, EXAMPLES, TOOLS, Ended, Tally, contents, run, scratch

FULL_DEVICE = Path("/dev/full")
BLANK = EXAMPLES / "blank"
EXPORTS = EXAMPLES / "lycee/exports"
SLOTS = EXAMPLES / "lycee/slots"
ON_SMALL_DISK = """
disk=$1 size=$2 kept=$3
shift 3
mount -t tmpfs -o size="$size"k none "$disk" && cp -r "$slots" "$disk/slots" || exit 99
cd "$disk" && { "$@" 2> "$kept/complaint"; echo $? > "$kept/status"; cp -r . "$kept/then"; }
mount -o remount,size=16m "$disk" || exit 99
if [ "$(cat "$kept/status")" != 0 ]; then "$@" > "$kept/again" 2>&1 || exit 98; fi
cp -r . "$kept/after"
"""


def is_told(ended: Ended, statuses: tuple[int, ...]) -> bool:
    """The tool ended with one of the statuses, and with a message and no trace of its own."""
    return ended.status in statuses and ended.complaint.strip() != "" and "Traceback" not in ended.complaint


def check_full_devices(tally: Tally) -> None:
    tally.begin("the disk full: standard output, and files from some byte on")
    if FULL_DEVICE.exists():
        with open(FULL_DEVICE, "wb") as full:
            ended = run(TOOLS / "in_words", given=b"no such wish 9\n", output=full.fileno())
            tally.check("in_words", is_told(ended, (4,)), ended)
            check_output_full(tally, full.fileno())
    with scratch() as folder:
        for room in (0, 10, 30, 100):
            ended = run(TOOLS / "prepare", EXPORTS, "new", "--dates", "day-first", folder=folder, greatest_file=room)
            tally.check(f"prepare, room {room}", is_told(ended, (3,)), ended)
            tally.equal(f"prepare, room {room}: nothing is left", list(folder.iterdir()), [])
            ended = run(TOOLS / "write_sample.sh", "100", "new", folder=folder, greatest_file=room)
            tally.check(f"write_sample.sh, room {room}", is_told(ended, (1,)), ended)
            tally.equal(f"write_sample.sh, room {room}: nothing is left", list((folder / "new").iterdir()), [])
            (folder / "new").rmdir()


def check_output_full(tally: Tally, full: int) -> None:
    """What is done is done, also where it cannot be said."""
    with scratch() as folder:
        ended = run(TOOLS / "prepare", DATA / "faulty", "slots", folder=folder, output=full)
        tally.check("prepare: faults are told all the same", is_told(ended, (1,)), ended)
        ended = run(TOOLS / "prepare", BLANK, "slots", folder=folder, output=full)
        tally.check("prepare: the dossier is written", ended.status == 0 and "it is done" in ended.complaint, ended)
        ended = run(TOOLS / "next_day", "slots", folder=folder, output=full)
        tally.check("next_day: the day is made", ended.status == 0 and "it is done" in ended.complaint, ended)
        tally.equal("next_day: once", (folder / "slots/campaign.csv").read_text(), "day,date,term\n2,,\n")


def on_small_disk(size: int, place: Path, *words: str | Path) -> tuple[Ended, dict[str, bytes], dict[str, bytes]]:
    """How a tool ends on a disk of so many kilobytes, what is there then, and what is there when it has had room."""
    disk, kept = place / "disk", place / "kept"
    disk.mkdir()
    kept.mkdir()
    ended = run("unshare", "-rm", "sh", "-c", ON_SMALL_DISK, "sh", disk, str(size), kept, *words,
                environment={"slots": str(SLOTS)})
    if ended.status != 0:
        raise RuntimeError(f"{words} on a disk of {size} KB, and again with room: {ended}")
    first = Ended(int((kept / "status").read_text()), b"", (kept / "complaint").read_text())
    return first, contents(kept / "then"), contents(kept / "after")


def below(name: str, files: dict[str, bytes]) -> dict[str, bytes]:
    return {path.removeprefix(f"{name}/"): data for path, data in files.items() if path.startswith(f"{name}/")}


def check_small_disks(tally: Tally) -> None:
    """On a disk that is too small a tool leaves all as it was; with room, the same call comes to the same as ever."""
    tally.begin("small disks of many sizes")
    if run("unshare", "-rm", "true").status != 0:
        print("  skipped: no disk can be mounted here")
        return
    prepare = (TOOLS / "prepare", EXPORTS, "new", "--dates", "day-first")
    check_sizes(tally, "prepare", range(48, 104, 8), prepare, "new", 3)
    check_sizes(tally, "write_sample.sh", range(48, 340, 48), (TOOLS / "write_sample.sh", "1000", "new"), "new", 1)
    check_sizes(tally, "next_day", range(48, 128, 8), (TOOLS / "next_day", "slots"), "slots", 4)


def is_kept(then: dict[str, bytes], expected: dict[str, bytes], is_made: bool) -> bool:
    """Whether all is made; or else no file is half written, and no slot that was there is lost."""
    if is_made:
        return then == expected
    before = contents(SLOTS) if then else {}
    return before.keys() <= then.keys() and all(
        data in (before.get(name), expected.get(name)) for name, data in then.items())


def check_sizes(tally: Tally, tool: str, sizes: range, words: tuple[str | Path, ...], made: str, full: int) -> None:
    """The last size must be enough, and the first too small."""
    expected: dict[str, bytes] = {}
    statuses = []
    for size in reversed(sizes):
        with scratch() as place:
            ended, then, after = on_small_disk(size, place, *words)
        expected = expected or below(made, after)
        statuses.append(ended.status)
        name = f"{tool} on {size} KB"
        tally.check(f"{name}: how it ends", ended.status == 0 or is_told(ended, (full,)), ended)
        tally.check(f"{name}: what is there", is_kept(below(made, then), expected, ended.status == 0), then.keys())
        tally.equal(f"{name}: with room", below(made, after), expected)
    tally.check(f"{tool}: some disks are too small, and some not", {0, full} == set(statuses), statuses)
