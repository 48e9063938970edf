"""The stored examples of each tool."""

import shutil
from pathlib import Path

from .harness import DATA, EXAMPLES, TOOLS, Tally, contents, run, scratch
from .samples import sample_slots

LYCEE = EXAMPLES / "lycee"
DATED = ("--start", "2026-06-02", "--term", "1")
LANGUAGES = ("en", "fr")
BAD_WORDS = 2


def check_prepare(tally: Tally) -> None:
    tally.begin("prepare, stored examples")
    with scratch() as folder:
        ended = run(TOOLS / "prepare", LYCEE / "exports", "dossier", "--dates", "day-first", folder=folder)
        tally.equal("lycee: status", ended.status, 0)
        tally.equal("lycee: slots", contents(folder / "dossier"), contents(LYCEE / "slots"))
        tally.equal("lycee: what is said", ended.output, (LYCEE / "prepared.txt").read_bytes())
        ended = run(TOOLS / "prepare", LYCEE / "exports", "other", folder=folder)
        is_one = ended.status == 1 and ended.complaint.endswith("\n1 faute\u00a0; rien n'est écrit.\n")
        tally.check("lycee: a date with two readings", is_one, ended)
        ended = run(TOOLS / "prepare", LYCEE / "exports", "other", "--lang", "en", folder=folder)
        tally.check("lycee: in English", ended.complaint.endswith("\n1 fault; nothing is written.\n"), ended)
        ended = run(TOOLS / "prepare", EXAMPLES / "blank", "blank", folder=folder)
        tally.check("blank", ended.status == 0 and contents(folder / "blank") == contents(EXAMPLES / "blank"), ended)
        for name in ("faulty", "headers"):
            ended = run(TOOLS / "prepare", name, folder / name, folder=DATA)
            tally.equal(f"{name}: all faults", ended.complaint, (DATA / f"{name}.txt").read_text())
            tally.check(f"{name}: nothing is written", ended.status == 1 and not (folder / name).exists(), ended.status)


def check_leave_out(tally: Tally) -> None:
    """Names and towns are left out by themselves, and said once; what may be a column of the dossier is not."""
    tally.begin("prepare, a column that is no part of the dossier")
    with scratch() as folder:
        shutil.copytree(EXAMPLES / "two-days", folder / "exports", ignore=shutil.ignore_patterns("*.txt", "*.md"))
        rankings, state = folder / "exports/rankings.csv", folder / "exports/programmes.csv"
        header, *rows = rankings.read_text().splitlines()
        rankings.write_text("\n".join([f"Last name,{header},Town", *(f"Dupont,{row},Lyon" for row in rows)]))
        taken = run(TOOLS / "prepare", "exports", "slots", folder=folder)
        is_said = b"rankings.csv: not read are the columns Last name, Town\n" in taken.output
        tally.check("it is left out, and said", taken.status == 0 and is_said, taken)
        expected = {name: data for name, data in contents(EXAMPLES / "two-days").items() if name.endswith(".csv")}
        tally.equal("the slots", contents(folder / "slots"), expected)
        header, *rows = state.read_text().splitlines()
        state.write_text("\n".join([f"{header},Limits", *(f"{row},0" for row in rows)]))
        refused = run(TOOLS / "prepare", "exports", "other", folder=folder)
        is_told = refused.status == 1 and '--column "Limits=limit"' in refused.complaint
        tally.check("what may be the call limit is not left out", is_told, refused)
        for word in ("--leave-out=limits", "--column=LIMITS=limit"):
            made = run(TOOLS / "prepare", "exports", word.rpartition("=")[2], word, folder=folder)
            tally.equal(word, made.status, 0)
        tally.check("the column is read", b",limit\n" in (folder / "limit/programmes.csv").read_bytes())
        tally.check("the column is left out", b"limit" not in (folder / "limits/programmes.csv").read_bytes())


def check_next_day(tally: Tally) -> None:
    tally.begin("next_day, stored examples")
    with scratch() as place:
        folder = place / "dossier"
        shutil.copytree(LYCEE / "slots", folder)
        for day in (1, 2, 3):
            ended = run(TOOLS / "next_day", folder, *(DATED if day == 1 else ()))
            is_made = ended.status == 0 and ended.output.startswith(b"day %d " % day)
            tally.check(f"lycee: day {day} is made", is_made, ended)
            report = folder / f"days/day-00{day}/report.txt"
            tally.equal(f"lycee: the report of day {day}", report.read_bytes(), (LYCEE / f"day-{day}.txt").read_bytes())
        tally.equal("lycee: the state", (folder / "state.csv").read_bytes(), (LYCEE / "state-after.csv").read_bytes())
        tally.equal("lycee: answers to come", (folder / "answers.csv").read_text(), "day,kind,target\n")
        tally.equal("lycee: ceilings in force", (folder / "ceilings.csv").read_text(), "day,school,ceiling\n1,2,3\n")
        tally.equal("lycee: the coming day", (folder / "campaign.csv").read_text(), "day,date,term\n4,2026-06-05,1\n")
        ended = run(TOOLS / "next_day", folder, "--start", "2026-06-02", "--term", "1")
        tally.check("lycee: another start is refused", ended.status == BAD_WORDS, ended)
        shutil.copytree(LYCEE / "slots", place / "jours")
        ended = run(TOOLS / "next_day", place / "jours", *DATED, "--lang", "fr")
        is_said = ended.output.startswith("jour 1 (2026-06-02)\u00a0: propositions faites 5, caduques 0".encode())
        tally.check("lycee: a day in French", is_said, ended)
        (place / "jours/answers.csv").write_text("day,kind,target\n1,accept,1\n")
        ended = run(TOOLS / "next_day", place / "jours", "--lang", "fr")
        is_said = ended.status == 1 and "Que faire\u00a0: corrigez cette ligne" in ended.complaint
        tally.check("lycee: an answer that does not fit, in French", is_said, ended)
        shutil.copytree(EXAMPLES / "two-days", place / "two-days")
        statuses = [run(TOOLS / "next_day", place / "two-days").status for _ in range(2)]
        tally.equal("two-days", statuses, [0, 0])
        final = (EXAMPLES / "two-days/replay.txt").read_bytes().partition(b"final\n")[2]
        tally.equal("two-days: the state", (place / "two-days/state.csv").read_bytes(), final)


def cases() -> list[tuple[str, str, str]]:
    """The stored lines of `explain`, each with its sentences in English and French."""
    blocks = (DATA / "in_words.txt").read_text(encoding="utf-8").strip().split("\n\n")
    found = []
    for block in blocks:
        line, english, french = block.splitlines()
        found.append((line, english.removeprefix("en "), french.removeprefix("fr ")))
    return found


def check_in_words(tally: Tally, program: str) -> None:
    tally.begin("in_words, stored examples")
    for line, *told in cases():
        for language, sentences in zip(LANGUAGES, told):
            ended = run(TOOLS / "in_words", language, given=f"{line}\n".encode())
            tally.equal(f"{line} in {language}", (ended.status, ended.output.decode()), (0, f"{sentences}\n"))
    ended = run(TOOLS / "in_words", given=b"no such wish 99\n")
    tally.check("English where no language is named", ended.output.startswith(b"There is no wish 99"), ended)
    explained = (LYCEE / "explained.txt").read_bytes().splitlines(keepends=True)
    for language in LANGUAGES:
        told = b"".join(run(TOOLS / "in_words", language, given=line).output for line in explained)
        tally.equal(f"lycee told in {language}", told, (LYCEE / f"told.{language}.txt").read_bytes())
    check_explained(tally, program, explained)


def check_explained(tally: Tally, program: str, explained: list[bytes]) -> None:
    """The stored lines of `explain` are the program's, where it has that mode."""
    for wish, line in enumerate(explained, start=1):
        ended = run(program, "explain", "--wish", str(wish), "--days", "3", *DATED, folder=LYCEE / "slots")
        if ended.status == BAD_WORDS:
            print("  the program has no mode explain; its stored lines are taken as they are")
            return
        tally.equal(f"lycee: wish {wish} explained", ended.output, line)


def check_sample(tally: Tally, program: str) -> None:
    tally.begin("write_sample.sh, stored examples")
    with scratch() as folder:
        ended = run(TOOLS / "write_sample.sh", "5", "small", "2", folder=folder)
        tally.equal("five candidates: status", ended.status, 0)
        tally.equal("five candidates", contents(folder / "small"), contents(DATA / "sample-5"))
        (folder / "new").mkdir()
        ended = run(TOOLS / "write_sample.sh", "2400", "new", folder=folder)
        tally.check("an empty folder is taken", ended.status == 0 and len(contents(folder / "new")) == 9, ended)
        tally.equal("2400 candidates by the rule of samples", contents(folder / "new"), sample_slots(2400))
        check_same_summary(tally, program, folder / "new")


def check_same_summary(tally: Tally, program: str, slots: Path) -> None:
    """The program sums up a sample as it runs the slots of the same one."""
    summary = run(program, "sample", "--number", "2400").output.decode().split()
    text = run(program, "replay", folder=slots).output.decode()
    state = text.partition("\nfinal\n")[2].splitlines()[1:]
    live = sum(row.endswith((",offered", ",accepted")) for row in state)
    waiting = sum(row.endswith(",waiting") for row in state)
    expected = ["live", str(live), "waiting", str(waiting), "gone", str(len(state) - live - waiting)]
    tally.equal("the rows are those of the mode sample", summary[-6:], expected)


def check_encodings(tally: Tally) -> None:
    """One sheet in each encoding gives the same slot; two encodings that may both be meant are a fault."""
    tally.begin("prepare, encodings")
    text = "Vœu;Candidat;Formation;Internat;Préférence\r\nA1;102;10;;1\r\n"
    for codec, mark in (("utf-8", b""), ("utf-8", b"\xef\xbb\xbf"), ("utf-16-le", b"\xff\xfe"),
                        ("utf-16-be", b"\xfe\xff"), ("utf-16-be", b""), ("cp1252", b""), ("mac-roman", b"")):
        slots = prepared_wishes(mark + text.encode(codec))
        tally.equal(f"{codec}, mark {mark!r}", slots, b"wish,candidate,programme,school,preference\n1,102,10,,1\n")
    for name, data in (("bytes of no encoding", b"wish;candidate\x81\x8d;programme;school;preference\n"),
                       ("UTF-8 by its mark alone", b"\xef\xbb\xbfV\xe9u;Candidat\n"),
                       ("UTF-16 cut in two", text.encode("utf-16")[:-1])):
        tally.equal(name, prepared_wishes(data), None)


def prepared_wishes(data: bytes) -> bytes | None:
    """The slot of wishes that is prepared of this export, beside those of a small dossier."""
    with scratch() as folder:
        exports = folder / "exports"
        shutil.copytree(EXAMPLES / "two-days", exports, ignore=shutil.ignore_patterns("*.txt"))
        for name in ("answers", "state"):
            shutil.copy(EXAMPLES / f"blank/{name}.csv", exports)
        (exports / "wishes.csv").write_bytes(data)
        ended = run(TOOLS / "prepare", exports, folder / "slots")
        return (folder / "slots/wishes.csv").read_bytes() if ended.status == 0 else None


def check_ids(tally: Tally) -> None:
    """How ids are numbered, and which of them are a fault."""
    tally.begin("prepare, ids")
    for ids, expected in (
        ("A;B", {"A": "1", "B": "2"}), ("7;B", {"B": "8"}),
        ("12345678901;012345678902", {"12345678901": "1", "012345678902": "2"}),
        ("1-MPSI;12-BTS", {"1-MPSI": "1", "12-BTS": "2"}), ("1 000;12,0", None), ("Été;Ete", "may be one or two"),
        ("A – B;A - B", "may be one or two"), ("A\u2011B;A-B", "may be one or two"),
        ("7;07", "may be one or two"), ("a;A", "may be one or two"), ("1,5E+08;2", "lost digits"),
        ("3-mars;4", "became a date"),
        ("2026-06-02;4", "became a date"), ("#N/A;4", "error of the spreadsheet"), ("1.000;4", "two readings"),
        ("0;4", "0 is no id"), ("-3;4", "not a whole number"), ("2000000000;B", "no numbers are left"),
    ):
        table, complaint = numbered_groups(ids.split(";"))
        if isinstance(expected, str):
            tally.check(f"{ids}: {expected}", expected in complaint, complaint)
        else:
            tally.equal(ids, table, expected)


def numbered_groups(ids: list[str]) -> tuple[dict[str, str] | None, str]:
    """The table of ids of a dossier with these groups, where there is one, and what was complained of."""
    with scratch() as folder:
        shutil.copytree(EXAMPLES / "blank", folder / "exports")
        rows = "".join(f"{name};0;0\n" for name in ids)
        (folder / "exports/groups.csv").write_text(f"group;scholar_pct;resident_pct\n{rows}")
        ended = run(TOOLS / "prepare", folder / "exports", folder / "slots")
        table = folder / "slots/ids.csv"
        if not table.exists():
            return None, ended.complaint
        rows_of_ids = [line.split(",") for line in table.read_text().splitlines()[1:]]
        return {name: number for number, name, *_ in rows_of_ids}, ended.complaint
