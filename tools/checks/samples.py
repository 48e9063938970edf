"""The slots of a sample, by the rule of `docs/FORMATS.md`, without regard to speed."""

from collections.abc import Iterator

from dossier.slots import SLOTS
from dossier.writing import csv_bytes

HEADERS = {slot.name: ",".join(column.name for column in slot.columns if not column.is_optional) for slot in SLOTS}
GREATEST_CEILING = 2**30


def rank(candidate: int, multiplier: int) -> int:
    return 1 + candidate * multiplier % 2**30


def choices(count: int, candidate: int) -> Iterator[tuple[int, int, int]]:
    """A candidate's choices: the number of each from 0, its programme and its school."""
    programmes = 1 + count // 500
    for choice in range(min(3, programmes)):
        programme = 1 + (candidate + choice) % programmes
        yield choice, programme, 1 + (programme - 1) // 2


def sample_rows(count: int) -> dict[str, list[tuple[object, ...]]]:
    programmes = range(1, 2 + count // 500)
    rows: dict[str, list[tuple[object, ...]]] = {name: [] for name in HEADERS}
    rows["groups"] = [(number, 7 * number % 31, 11 * number % 41) for number in programmes]
    rows["programmes"] = [(number, number, 200) for number in programmes]
    rows["schools"] = [(number, 40, GREATEST_CEILING) for number in range(1, 2 + (len(programmes) - 1) // 2)]
    for candidate in range(1, count + 1):
        boards, prefers = candidate % 2 == 0, candidate % 4 == 0
        for choice, programme, school in choices(count, candidate):
            rows["rankings"].append((programme, candidate, rank(candidate, 1_000_001 + 2 * programme),
                                     int(candidate % 5 == 0), int((candidate + programme) % 3 == 0)))
            wish = 6 * (candidate - 1) + 2 * choice + 1
            rows["wishes"].append((wish, candidate, programme, "", 2 * choice + 2 if prefers else 0))
            if boards:
                rows["wishes"].append((wish + 1, candidate, programme, school, 2 * choice + 1 if prefers else 0))
        schools = {school: None for _, _, school in choices(count, candidate)} if boards else {}
        rows["boarding"] += [(school, candidate, rank(candidate, 2_000_001 + 2 * school)) for school in schools]
    return rows


def sample_slots(count: int) -> dict[str, bytes]:
    rows = sample_rows(count)
    return {f"{name}.csv": csv_bytes(header.split(","), rows[name]) for name, header in HEADERS.items()}
