"""Explications en français, pour la personne candidate : où en est le vœu, pourquoi, et ce qu'on peut faire."""

from datetime import date

from .explanation import AcceptedWish, BarredWish, Gone, GoneWish, OfferedWish, SeatlessWish, UnknownWish
from .setting import Day, Moment, Setting

MONTHS = ("janvier", "février", "mars", "avril", "mai", "juin", "juillet", "août", "septembre", "octobre", "novembre",
          "décembre")
ENDED = {
    Gone.REFUSED: "Sa proposition a été refusée {when} : vous l'avez refusée, ou vous en avez accepté une autre.",
    Gone.WITHDRAWN: "Vous l'avez retiré {when}, alors qu'il était en attente.",
    Gone.QUIT: "Vous avez démissionné {when}.",
    Gone.AUTO_REFUSED: "Le répondeur automatique y a renoncé {when}, "
                       "car vous aviez une proposition que vous préférez.",
    Gone.AUTO_WITHDRAWN: "Le répondeur automatique l'a retiré {when}, "
                         "car vous aviez une proposition que vous préférez.",
    Gone.LAPSED: "Sa proposition est restée sans réponse à l'échéance : elle est devenue caduque {when}.",
}
OVER = "Il ne peut plus revenir : il n'y a plus rien à faire pour ce vœu. Cela ne dit rien de vos autres vœux."
OVER_WITH_ALL = "Une démission met fin à tous les vœux que l'on a encore, et celui-ci ne peut plus revenir."
WAIT_OR_WITHDRAW = "Vous pouvez le laisser en attente ou le retirer."
NOTHING_TO_DO = {  # selon que la personne candidate a le répondeur automatique, ou qu'on ne le sait pas
    True: "Il n'y a rien à faire : parmi les vœux que vous préférez, ceux qui attendent restent en attente, et une "
          "proposition pour l'un d'eux remplacerait ce vœu.",
    False: "Il n'y a rien à faire : vos vœux en attente le restent, et si vous acceptez une autre proposition, ce vœu "
           "est refusé.",
    None: "Il n'y a rien à faire : vos vœux en attente le restent. Si une autre proposition est acceptée, par vous ou "
          "par le répondeur automatique, ce vœu est refusé."}
STILL_REFUSE = "Vous pouvez encore refuser cette place, mais un vœu refusé ne revient jamais."
STILL_REFUSE_ALL = ("Vous pouvez encore refuser cette place, mais un vœu refusé ne revient jamais, ni ceux auxquels le "
                    "répondeur automatique a renoncé pour vous.")
ANEW = "Chaque passage réexamine votre vœu."
A_BED_AND_A_SEAT = ("un lit pour vous et une place restante pour vous dans la formation. Aucune place restante n'est "
                    "nécessaire si vous y avez déjà la vôtre, ou si votre position ne dépasse pas le rang limite")
SEAT_BY_ANOTHER = ("Aucune place restante n'est nécessaire si, d'ici là, un autre de vos vœux vous en donne une dans "
                   "la formation.")
A_BED_TOO = {  # selon que le vœu est avec internat, ou qu'on ne le sait pas
    True: ["Il faut aussi un lit pour vous à l'internat.", SEAT_BY_ANOTHER],
    False: [],
    None: ["Pour un vœu avec internat, il faut aussi un lit.", SEAT_BY_ANOTHER]}


def of_day(day: Day) -> str:
    if not isinstance(day, date):
        return f"le jour {day}"
    return f"le {'1er' if day.day == 1 else day.day} {MONTHS[day.month - 1]}"


def of_date(day: date) -> str:
    return f"{of_day(day)} {day.year}"


def when(moment: Moment) -> str:
    """Quand ; ce qui a changé avant les jours joués, le dossier seul le dit."""
    day = of_day(moment.day)
    return f"avant {day}, d'après le dossier" if moment.is_before else day


def evening(day: Day, number: int) -> str:
    """De quel soir il est question."""
    return f"Au soir du {of_date(day).removeprefix('le ')}, jour {number} de la campagne." if isinstance(day, date) \
        else f"Au soir du jour {number} de la campagne."


def heading(wish: str, candidate: str, programme: str, school: str | None) -> str:
    boarding = "sans internat" if school is None else f"avec l'internat {school}"
    return f"Vœu {wish} du candidat {candidate}, formation {programme}, {boarding} :"


def gone(found: GoneWish, setting: Setting) -> list[str]:
    return [f"Le vœu {setting.wish(found.wish)} est terminé.",
            ENDED[found.how].format(when=when(setting.moment(found.stamp))),
            OVER_WITH_ALL if found.how is Gone.QUIT else OVER]


def offered(found: OfferedWish, setting: Setting) -> list[str]:
    told = [f"Le vœu {setting.wish(found.wish)} a une proposition, faite {when(setting.moment(found.stamp))}."]
    limit = setting.deadline
    if limit is not None and limit.is_over:
        return [*told, f"Il fallait y répondre {of_day(limit.day)} au plus tard ; ce jour est passé, et elle va "
                       "devenir caduque."]
    by = "au plus tard à l'échéance, s'il y en a une" if limit is None else f"{of_day(limit.day)} au plus tard"
    lapse = f", {by} : ensuite, elle devient caduque, et elle est perdue" if setting.may_lapse else ""
    return [*told, f"Acceptez-la ou refusez-la{lapse}.",
            "Si vous l'acceptez, vos autres propositions sont refusées, de même qu'un vœu que vous auriez déjà accepté ; "
            "vos vœux en attente restent en attente."]


def accepted(found: AcceptedWish, setting: Setting) -> list[str]:
    moment = when(setting.moment(found.stamp))
    by_whom = f"Le répondeur automatique l'a accepté pour vous {moment}." if found.is_by_answerer else \
        f"Il a été accepté {moment}."
    has_answerer = True if found.is_by_answerer else setting.has_answerer
    return [f"Le vœu {setting.wish(found.wish)} est accepté : la place est à vous.", by_whom,
            NOTHING_TO_DO[has_answerer], STILL_REFUSE_ALL if has_answerer else STILL_REFUSE]


def barred(found: BarredWish, setting: Setting) -> list[str]:
    told = [f"Le vœu {setting.wish(found.wish)} est en attente : il n'a pas de proposition."]
    school = f"L'internat {setting.school(found.school)}"
    if found.beds is None:
        reach = "ne prend personne ce jour-là" if found.bar == 0 else \
            f"ne prend ce jour-là personne au-delà du rang {found.bar}"
        return [*told, f"{school} {reach} : c'est son plafond, et votre rang y est {found.rank}.",
                f"{ANEW} Pour une proposition, il faut un plafond qui aille jusqu'à votre rang, {A_BED_AND_A_SEAT}.",
                WAIT_OR_WITHDRAW]
    return [*told, f"{school} {fullness(found.beds)}. {reach_of(found)}, et votre rang y est {found.rank}.",
            f"{ANEW} Pour une proposition, il faut {A_BED_AND_A_SEAT}.", WAIT_OR_WITHDRAW]


def fullness(beds: int) -> str:
    if beds == 0:
        return "n'a pas de lit"
    return "est complet : son seul lit est pris" if beds == 1 else f"est complet : ses {beds} lits sont tous pris"


def reach_of(found: BarredWish) -> str:
    """Qui la barre arrêtait. Qui ne l'était pas a pu ne pas trouver de lit non plus ; à 0, aucun n'était libre."""
    if found.bar == 0 or found.beds == 0:
        return "Au dernier passage, aucun lit n'était libre"
    return f"Au dernier passage, personne au-delà du rang {found.bar} ne pouvait y avoir de lit"


def seatless(found: SeatlessWish, setting: Setting) -> list[str]:
    ahead = {0: "personne ne passait", 1: "1 personne passait"}.get(found.ahead, f"{found.ahead} personnes passaient")
    left = {0: "il ne restait aucune place", 1: "il restait 1 place"}.get(
        found.left, f"il restait {found.left} places")
    told = [f"Le vœu {setting.wish(found.wish)} est en attente : il n'a pas de proposition.",
            f"Au dernier passage, {left} dans la formation, et {ahead} avant vous pour en avoir une."]
    if found.call_limit is not None:
        limit = found.call_limit
        first = "La première personne de l'ordre d'appel n'a" if limit.limit == 1 else \
            f"Les {limit.limit} premières personnes de l'ordre d'appel n'ont"
        told.append(f"{first} pas besoin d'une place restante, et vous y êtes en position {limit.position}.")
    return [*told, "Pour une proposition, il faut qu'il reste plus de places qu'il n'y a de personnes avant vous : "
                   "des places se libèrent quand d'autres refusent ou démissionnent.",
            *A_BED_TOO[setting.has_boarding], WAIT_OR_WITHDRAW]


def unknown(found: UnknownWish, setting: Setting) -> list[str]:
    return [f"Il n'y a pas de vœu {setting.wish(found.wish)} dans le dossier.",
            "Vérifiez son numéro et posez la question de nouveau."]
