"""Why a tool stops, in English and French: what is not as it should be in a folder, and what to do about it."""

from .texts import Filled, Language, Text


class Stopped(Exception):
    """Why a tool does not go on, and the status to end with."""

    def __init__(self, status: int, why: Filled):
        super().__init__(why)
        self.status = status
        self.why = why

    def __str__(self) -> str:
        return self.said("en")

    def said(self, language: Language) -> str:
        return self.why.said(language)


MEANT = Text("{meaning} (status {status}): {line}", "{meaning} (code {status}) : {line}")
MEANT_ALONE = Text("{meaning} (status {status}); nothing is said.", "{meaning} (code {status}) ; rien n'est dit.")
NOT_MADE = Text("{meaning} (status {status}); nothing is changed.", "{meaning} (code {status}) ; rien n'est changé.")
ROW = Text("{file}, row {row}: {cells}", "{file}, ligne {row} : {cells}")
CORRECT_ROW = Text("What to do: correct this row (docs/FORMATS.md has the reasons), and call again.",
                   "Que faire : corrigez cette ligne (docs/fr/OUTILS.md donne les raisons), et relancez.")
NO_FINAL = Text("the program's text has no final state; nothing is changed.",
                "le texte du programme n'a pas d'état final ; rien n'est changé.")

NO_DOSSIER = Text("there is no folder {folder}; name the folder of the dossier.",
                  "il n'y a pas de dossier {folder} ; nommez celui des neuf fichiers.")
NO_CAMPAIGN = Text("there is no folder {folder}; name the folder of the campaign.",
                   "il n'y a pas de dossier {folder} ; nommez celui de la campagne.")
DEVICE = Text("{path} is no file, but a device or a named pipe; put a file in its place, and call again.",
              "{path} n'est pas un fichier, mais un périphérique ou un tube nommé ; mettez un fichier à sa place, et "
              "relancez.")
NO_ROOM = Text("a temporary file cannot be written: {error}; make room for it, and call again.",
               "un fichier temporaire ne peut pas être écrit : {error} ; faites-lui de la place, et relancez.")
NOT_READ = Text("{file}: {error}; see that it is there and may be read, and call again.",
                "{file} : {error} ; voyez s'il est là et s'il peut être lu, et relancez.")
NOT_TAKEN = Text("{path}, row {row} or one after it: the program does not take it as it is; correct it "
                 "(docs/FORMATS.md), and call again.",
                 "{path}, ligne {row} ou une suivante : le programme ne la prend pas telle quelle ; corrigez-la "
                 "(docs/FORMATS.md), et relancez.")
NOT_NUMBERS = Text("{path}, row {row}: {cells} is no row of numbers; correct it (docs/FORMATS.md), and call again.",
                   "{path}, ligne {row} : {cells} n'est pas une ligne de nombres ; corrigez-la (docs/FORMATS.md), et "
                   "relancez.")
NOT_ANSWERS = Text("{path}, row {row}: {cells} is no row of answers; correct it (docs/FORMATS.md), or take it out.",
                   "{path}, ligne {row} : {cells} n'est pas une ligne de réponses ; corrigez-la (docs/FORMATS.md), ou "
                   "retirez-la.")
NOT_IDS = Text("{path} is no table of ids as prepare writes it.",
               "{path} n'est pas une table d'identifiants comme prepare en écrit.")

ODD_CALENDAR = Text("{path} is not as next_day wrote it: {text}. Put the last one back, from the folder `after` of the "
                    "latest day.",
                    "{path} n'est pas tel que next_day l'a écrit : {text}. Remettez le dernier, qui est dans le "
                    "dossier `after` du dernier jour.")
ODD_RECORD = Text("{path} is not as next_day wrote it; put it back as it was.",
                  "{path} n'est pas tel que next_day l'a écrit ; remettez-le comme il était.")
ODD_DAY = Text("{folder} has a {file} that next_day did not write; take the folder out.",
               "{folder} a un {file} que next_day n'a pas écrit ; retirez ce dossier.")
BEGUN = Text("the campaign has begun, and {dated}; leave --start and --term out.",
             "la campagne a commencé, et {dated} ; ne donnez ni --start ni --term.")
COMING = Text("its coming day is {day} with a term of {term}", "son jour à venir est {day}, avec un délai de {term}")
NO_DEADLINES = Text("it has no deadlines", "elle n'a pas d'échéances")
BUSY = Text("another call runs a day in this folder; wait until it has ended.",
            "un autre appel joue un jour dans ce dossier ; attendez qu'il ait fini.")
TOO_LATE = Text("the coming day is {day}, and a run can only begin in the years {first} to {last}; no further day can "
                "be made here.",
                "le jour qui vient est {day}, et une exécution ne peut commencer que de {first} à {last} ; aucun autre "
                "jour ne peut être joué ici.")
DATES = Text("the dates", "les dates")
IS_THERE = Text("{kept} is there already, and since then {changed} changed; put back what {before} has, delete {kept}, "
                "and call again.",
                "{kept} est déjà là, et depuis, ceci a changé : {changed} ; remettez ce qu'a {before}, supprimez "
                "{kept}, et relancez.")
CHANGED_AFTER = Text("{changed}: changed since {kept} was made; put back what {before} has. Then call again, and make "
                     "the change for the day after; or delete {kept}, and make the change: the day is made anew.",
                     "{changed} : changé depuis que {kept} a été fait ; remettez ce qu'a {before}. Puis relancez, et "
                     "faites le changement pour le jour d'après ; ou supprimez {kept}, et faites le changement : le "
                     "jour est refait.")
CHANGED_MEANWHILE = Text("a file of the dossier changed while the day was run; the day is not made, call again.",
                         "un fichier du dossier a changé pendant que le jour était joué ; le jour n'est pas fait, "
                         "relancez.")
CHANGED_SINCE = Text("{changed} changed since day {day} was made, so what the program said of that day cannot be told; "
                     "put it back as it was, or make the next day.",
                     "ceci a changé depuis que le jour {day} est joué : {changed}. On ne peut donc plus rien dire de "
                     "ce jour ; remettez-le comme il était, ou jouez le jour suivant.")
TAKEN = Text("{folder} is there already; name a new folder.", "{folder} est déjà là ; nommez un nouveau dossier.")
NO_PARENT = Text("{folder} has no folder to be in; make it first.",
                 "le dossier qui doit contenir {folder} n'existe pas ; créez-le d'abord.")
UNWRITTEN = Text("{file}: {error}; nothing is written.", "{file} : {error} ; rien n'est écrit.")
STOPPED = Text("stopped; nothing is written.", "arrêté ; rien n'est écrit.")
AS_THEY_WERE = Text("{file}: {error}; the answers are as they were.",
                    "{file} : {error} ; les réponses sont comme avant.")
TAKING_STOPPED = Text("stopped; the answers are as they were, or all taken in.",
                      "arrêté ; les réponses sont comme avant, ou toutes prises en compte.")
NO_DAY_MADE = Text("no day has been made in {dossier}: make one with next_day, and call again.",
                   "aucun jour n'est encore joué dans {dossier} : jouez-en un avec next_day, et relancez.")
HALF_MADE = Text("day {day} was not made to its end, or its slots were put back; call next_day first.",
                 "le jour {day} n'a pas été fait jusqu'au bout, ou ses fichiers ont été remis ; lancez d'abord "
                 "next_day.")
