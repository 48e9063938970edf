"""Checks of same_lemmas.py and laws_without_witness.py, and by them of the crates: a lemma is stated once, and each law
has a worked case. Of memory_answers.py: each line that answers that memory ran out is known. And of what `promises.py`
finds in a page. That no program can run twice by a call of `report`."""

import shutil
from pathlib import Path

from . import promises
from .harness import TOOLS, TOP, Tally, run, scratch

ONE = "-- A comment.\npub or_twice : (b : Bool) → (b || b) ≡ b -- here\nor_twice true = refl\nor_twice false = refl\n"
TWIN = "or_same : (test : Bool)\n    → (test || test) ≡ test\nor_same true = refl\nor_same false = refl\n"
OTHER = "or_none : (b c : Bool) → (b || c) ≡ b\nor_none b c = refl\n"


def look(folder: Path, **texts: str) -> tuple[int, list[str]]:
    """What same_lemmas.py says of a repository in which each of these crates has one file of proofs."""
    (folder / "tools").mkdir()
    shutil.copy(TOOLS / "same_lemmas.py", folder / "tools")
    for crate, text in texts.items():
        (folder / "crates" / crate / "proofs").mkdir(parents=True)
        (folder / "crates" / crate / "proofs/Facts.antt").write_text(text)
    ended = run(folder / "tools/same_lemmas.py")
    return ended.status, ended.output.decode().splitlines()


def check_same_lemmas(tally: Tally) -> None:
    tally.begin("same_lemmas.py")
    with scratch() as folder:
        tally.equal("none", look(folder, one=ONE, other=OTHER), (0, ["0 statements stand more than once"]))
    with scratch() as folder:
        said = ["($0 : Bool) → ($0 || $0) ≡ $0", "    crates/one/proofs/Facts.antt: or_twice",
                "    crates/twin/proofs/Facts.antt: or_same", "1 statement stands more than once"]
        tally.equal("under other names", look(folder, one=ONE, twin=TWIN), (1, said))
    ended = run(TOOLS / "same_lemmas.py")
    tally.equal("the crates", (ended.status, ended.output), (0, b"0 statements stand more than once\n"))


LAWS = """-- two laws, of which one speaks of what holds of all
abbrev pub Falls : Type 0
Falls =
    (lower upper : ℕ) -- two bars
    → lower ≤ upper
    → (w : Wish) → IsOpen w
    → (lower < w.rank) × (w.rank ≤ upper)

abbrev pub OfAll : (ℕ → Type 0) → Type 0
OfAll Holds = (n : ℕ) → IsSmall n → Holds n

abbrev pub IsLess : ℕ → Type 0
IsLess n = (m : ℕ) → m ≡ n → m < 9

abbrev pub Free : Type 0
Free = (n : ℕ) → n ≤ n
"""
CALL = """pub fn laws_of_bars()
    ensures falls { Falls }
    ensures less { OfAll IsLess }
    ensures free { Free }
{}
"""
FALLS = """abbrev pub FallsWitness : Type 0
FallsWitness =
    let lower : ℕ = 1 in
    let upper : ℕ = 2 in
    let w : Wish = record { rank = 2; } in
    (lower ≤ upper)
    × IsOpen w
    × (lower < w.rank) × (w.rank ≤ upper)
"""
LESS = """abbrev pub IsLessWitness : Type 0
IsLessWitness =
    let n : ℕ = 3 in
    let m : ℕ = 3 in
    IsSmall n × (m ≡ n) × (m < 9)
"""
CASES = """pub fn witnesses()
    ensures falls { FallsWitness }
    ensures less { IsLessWitness }
{}
"""
def check_memory_answers(tally: Tally) -> None:
    tally.begin("memory_answers.py")
    for fault, code, said in (("handed on", "read(alloc)?", "0 new, 1 gone"),
                              ("the one that is known", "Err(OutOfMemory)", "0 new, 0 gone"),
                              ("a new one", "Err(AllocError)", "1 new, 1 gone")):
        with scratch() as folder:
            (folder / "tools").mkdir()
            (folder / "crates/one/src").mkdir(parents=True)
            shutil.copy(TOOLS / "memory_answers.py", folder / "tools")
            (folder / "tools/memory_answers.txt").write_text("one/src/lib.rt: Err(OutOfMemory)\n")
            (folder / "crates/one/src/lib.rt").write_text(f"fn f() -> Result<(), OutOfMemory> {{\n    {code}\n}}\n")
            last = run(folder / "tools/memory_answers.py").output.decode().splitlines()[-1]
            tally.equal(fault, last.partition("; ")[2], said)
    ended = run(TOOLS / "memory_answers.py")
    tally.equal("the crates", (ended.status, len(ended.output.splitlines())), (0, 1))


def look_at_laws(folder: Path, cases: str, specs: str, *words: str) -> tuple[int, list[str]]:
    """What laws_without_witness.py says of two laws, of these clauses and these statements of cases."""
    (folder / "tools").mkdir()
    shutil.copy(TOOLS / "laws_without_witness.py", folder / "tools")
    for crate, source, text in (("bars", CALL, LAWS), ("cases", cases, specs)):
        for place, file, content in (("src", "lib.rt", source), ("specs", "Rows.antt", text)):
            (folder / "crates" / crate / place).mkdir(parents=True)
            (folder / "crates" / crate / place / file).write_text(content)
    ended = run(folder / "tools/laws_without_witness.py", *words)
    return ended.status, ended.output.decode().splitlines()


def check_witnesses(tally: Tally) -> None:
    tally.begin("laws_without_witness.py")
    with scratch() as folder:
        said = ["Falls (bars::laws_of_bars, falls): FallsWitness (cases::witnesses, falls)",
                "IsLess (bars::laws_of_bars, less): IsLessWitness (cases::witnesses, less)",
                "laws with a witness: 2, without one: 0; witnesses that are wrong: 0"]
        tally.equal("each has one", look_at_laws(folder, CASES, FALLS + LESS, "--list"), (0, said))
    with scratch() as folder:
        said = ["IsLess (bars::laws_of_bars, less): no witness",
                "laws with a witness: 1, without one: 1; witnesses that are wrong: 0"]
        tally.equal("one has none", look_at_laws(folder, CASES, FALLS), (1, said))
    with scratch() as folder:
        said = ["IsLess (bars::laws_of_bars, less): IsLessWitness (no clause names it)",
                "laws with a witness: 1, without one: 0; witnesses that are wrong: 1"]
        tally.equal("no clause", look_at_laws(folder, CASES.replace("    ensures less { IsLessWitness }\n", ""),
                                              FALLS + LESS), (1, said))
    for fault, old, new in (("a premise is left out", "    × IsOpen w\n", ""),
                            ("another premise", "IsOpen w", "IsShut w"),
                            ("a variable without a value", "    let upper : ℕ = 2 in\n", "")):
        with scratch() as folder:
            said = ["Falls (bars::laws_of_bars, falls): FallsWitness (not the law's text)",
                    "laws with a witness: 1, without one: 0; witnesses that are wrong: 1"]
            tally.equal(fault, look_at_laws(folder, CASES, FALLS.replace(old, new) + LESS), (1, said))
    ended = run(TOOLS / "laws_without_witness.py")
    tally.equal("the crates", (ended.status, ended.output.decode().splitlines()[:-1]), (0, []))


PROMISED = """| promise | contract |
|---|---|
| a clause | `round::pass`, `pass`, `laws` (`beds` of `KeepsPassLaws`) |
| one that is not there | `round::pass`, `pazz` |
| a row that names none | the same, `scholar_rate` |
| a word for a call | **day**, `done` (`is_day`: `fits` of `IsDay`); **run**, `answers.outcome` |
| a method and a type | `day_state::DayState::apply`, `result`; `bar_law::Falling`, `offers`; `Campaign::begins` |
| no function | `round::offer` |

| call | answers | when | then |
|---|---|---|---|
| `read_slot` | `TooLarge` | `reads` | `over`, `gifen` |
"""


def check_one_run(tally: Tally) -> None:
    """The value with which `main` ends is used up by its trait's `report` alone, and no source calls that."""
    tally.begin("main runs once")
    sources = {path.relative_to(TOP): path.read_text(encoding="utf-8") for path in TOP.glob("crates/*/src/**/*.rt")}
    ends = Path("crates/replay_cli/src/start.rt")
    tally.equal("who names the trait", [path for path, text in sources.items() if "Termination" in text], [ends])
    tally.check("no call of report", not any(".report(" in text for text in sources.values()), len(sources))


def check_promises(tally: Tally) -> None:
    """Of the names that a page cites, those are found that the crates do not have."""
    tally.begin("promises.py")
    missing = ["line 4: pazz", "line 5: scholar_rate", "line 7: Campaign::begins", "line 8: round::offer", "line 12: gifen"]
    tally.equal("what is not there", promises.unknown_names(PROMISED), missing)
