"""The nine slots of a dossier: their files, their columns, and what a cell of each column holds."""

from dataclasses import dataclass
from enum import Enum

GREATEST_NUMBER = 2_000_000_000
GREATEST_DAY = 366
MOST_ROWS = 16_000_000


class Thing(Enum):
    """What an id names."""

    GROUP = "group"
    PROGRAMME = "programme"
    SCHOOL = "school"
    CANDIDATE = "candidate"
    WISH = "wish"

    __hash__ = object.__hash__


class Content(Enum):
    """What the cells of a column hold. A target is a candidate's id where somebody quits, else a wish's; a day is a
    number or a date."""

    ID = "id"
    TARGET = "target"
    NUMBER = "number"
    PERCENTAGE = "percentage"
    FLAG = "flag"
    STATUS = "status"
    ANSWER = "answer"
    DATE = "date"
    DAY = "day"


@dataclass(frozen=True)
class Column:
    """A column: its name in the slot, what it holds, and the folded names that exports may give it. A doubtful name
    may mean something else, so that the user has to say which."""

    name: str
    content: Content
    french: tuple[str, ...] = ()
    english: tuple[str, ...] = ()
    thing: Thing | None = None
    least: int = 0
    greatest: int = GREATEST_NUMBER
    is_optional: bool = False
    may_be_empty: bool = False
    doubtful: tuple[str, ...] = ()

    @property
    def own_name(self) -> str:
        return self.name.replace("_", " ")


@dataclass(frozen=True)
class Slot:
    """A slot: its name, and its columns in the order of its file."""

    name: str
    columns: tuple[Column, ...]

    @property
    def file(self) -> str:
        return f"{self.name}.csv"

    def column(self, name: str) -> Column:
        return next(column for column in self.columns if column.name == name)


def _id(thing: Thing, names: "Names", may_be_empty: bool = False) -> Column:
    return Column(thing.value, Content.ID, *names, thing, least=1, may_be_empty=may_be_empty)


Names = tuple[tuple[str, ...], tuple[str, ...]]
GROUP_NAMES: Names = (("groupe", "groupe de classement"), ("ranking group",))
PROGRAMME_NAMES: Names = (("formation", "formation d'accueil", "voeu formation"), ("program",))
SCHOOL_NAMES: Names = (("internat", "internat demande", "etablissement internat"), ("boarding school", "boarding"))
CANDIDATE_NAMES: Names = (("candidat", "candidate e", "candidat e", "dossier", "dossier candidat", "eleve"),
                          ("applicant",))
WISH_NAMES: Names = (("voeu", "voeux"), ())
RANK = Column("rank", Content.NUMBER, ("rang", "classement", "rang de classement", "rang du candidat"), least=1)
BOARDING_RANK = Column("rank", Content.NUMBER,
                       (*RANK.french, "rang internat", "rang a l'internat", "classement internat"),
                       ("boarding rank",), least=1)
DAY = Column("day", Content.NUMBER, ("jour",), least=1, greatest=GREATEST_DAY)

GROUPS = Slot("groups", (
    _id(Thing.GROUP, GROUP_NAMES),
    Column("scholar_pct", Content.PERCENTAGE,
           ("taux boursiers", "taux de boursiers", "taux minimum de boursiers", "taux minimum boursiers", "% boursiers",
            "taux bourse", "taux min boursiers", "pourcentage boursiers"),
           ("scholar %", "scholars %", "% scholars", "scholar rate"), greatest=100),
    Column("resident_pct", Content.PERCENTAGE,
           ("taux residents", "taux secteur", "taux du secteur", "taux minimum du secteur", "taux minimum secteur",
            "% secteur", "taux min secteur", "pourcentage secteur", "taux candidats du secteur"),
           ("resident %", "residents %", "% residents", "resident rate"), greatest=100),
))
PROGRAMMES = Slot("programmes", (
    _id(Thing.PROGRAMME, PROGRAMME_NAMES),
    _id(Thing.GROUP, GROUP_NAMES),
    Column("seats", Content.NUMBER, ("places", "capacite", "capacite d'accueil"), ("capacity",)),
    # The rank of the last one called is what calls have come to, mostly a year ago, and no limit of them.
    Column("limit", Content.NUMBER, ("rang limite", "limite", "rang limite d'appel"), ("call limit",),
           is_optional=True, may_be_empty=True, doubtful=("rang du dernier appele",)),
))
SCHOOLS = Slot("schools", (
    _id(Thing.SCHOOL, SCHOOL_NAMES),
    Column("beds", Content.NUMBER, ("lits", "places", "capacite", "places internat", "lits internat")),
    Column("ceiling", Content.NUMBER, ("plafond", "rang plafond", "rang maximal", "plafond internat")),
))
RANKINGS = Slot("rankings", (
    _id(Thing.GROUP, GROUP_NAMES),
    _id(Thing.CANDIDATE, CANDIDATE_NAMES),
    RANK,
    Column("scholar", Content.FLAG, ("boursier", "boursiere", "boursier e", "est boursier", "bourse")),
    Column("resident", Content.FLAG, ("secteur", "du secteur", "candidat du secteur")),
))
BOARDING = Slot("boarding", (
    _id(Thing.SCHOOL, SCHOOL_NAMES),
    _id(Thing.CANDIDATE, CANDIDATE_NAMES),
    BOARDING_RANK,
))
WISHES = Slot("wishes", (
    _id(Thing.WISH, WISH_NAMES),
    _id(Thing.CANDIDATE, CANDIDATE_NAMES),
    _id(Thing.PROGRAMME, PROGRAMME_NAMES),
    _id(Thing.SCHOOL, SCHOOL_NAMES, may_be_empty=True),
    Column("preference", Content.NUMBER, ("preference", "ordre de preference", "rang de preference")),
))
STATE = Slot("state", (
    _id(Thing.WISH, WISH_NAMES),
    Column("status", Content.STATUS, ("statut", "etat")),
    Column("since", Content.DATE, ("depuis", "depuis le", "date", "date de proposition"), is_optional=True,
           may_be_empty=True),
))
CEILINGS = Slot("ceilings", (
    DAY,
    _id(Thing.SCHOOL, SCHOOL_NAMES),
    Column("ceiling", Content.NUMBER, ("plafond", "nouveau plafond", "rang plafond")),
))
ANSWERS = Slot("answers", (
    DAY,
    Column("kind", Content.ANSWER, ("type", "reponse", "decision"), ("answer",)),
    Column("target", Content.TARGET, ("cible", "voeu ou candidat"), ("wish or candidate",), least=1),
))

SLOTS = (GROUPS, PROGRAMMES, SCHOOLS, RANKINGS, BOARDING, WISHES, STATE, CEILINGS, ANSWERS)
# A sheet of answers as people keep them; it is no slot. It names wishes and candidates in one column, or in two.
ANSWER_SHEET = Slot("answers", (
    Column("day", Content.DAY, ("jour", "date", "date de reponse", "jour de reponse"), ("answered on",), least=1,
           greatest=GREATEST_DAY, is_optional=True, may_be_empty=True),
    Column("kind", Content.ANSWER, ("type", "reponse", "decision", "choix", "reponse du candidat"),
           ("answer", "choice")),
    Column("target", Content.TARGET, ANSWERS.column("target").french, ANSWERS.column("target").english, least=1,
           is_optional=True),
    Column("wish", Content.ID, *WISH_NAMES, Thing.WISH, least=1, is_optional=True, may_be_empty=True),
    Column("candidate", Content.ID, *CANDIDATE_NAMES, Thing.CANDIDATE, least=1, is_optional=True, may_be_empty=True),
))
