"""What is said of faults, and what to do about each, in English and French."""

from .texts import Text

SAVE_AGAIN = Text("save the sheet again as CSV in UTF-8.", "enregistrez de nouveau la feuille en CSV, en UTF-8.")
OLD_WORKBOOK = Text("it is a workbook of a kind that is not read.", "c'est un classeur d'un genre qui n'est pas lu.")
SAVE_WORKBOOK = Text("save it as .ods or .xlsx, or each of its sheets as CSV, and take it out of the folder.",
                     "enregistrez-le en .ods ou .xlsx, ou chacune de ses feuilles en CSV, et retirez-le du dossier.")
WORKBOOK_AS_EXPORT = Text("it is a workbook under the name of an export.", "c'est un classeur sous le nom d'un export.")
BROKEN_WORKBOOK = Text("it is no whole workbook ({why}).", "ce n'est pas un classeur entier ({why}).")
PROTECTED = Text("it is protected by a password, or of an older kind.",
                 "il est protégé par un mot de passe, ou d'un genre plus ancien.")
SAVE_OPEN = Text("save it as .ods or .xlsx without a password, or each of its sheets as CSV.",
                 "enregistrez-le sans mot de passe, en .ods ou .xlsx, ou chacune de ses feuilles en CSV.")
IN_FILE = Text("{file}: {what}", "{file} : {what}")
ZERO_BYTES = Text("it has zero bytes and is no text.", "il contient des octets nuls : ce n'est pas un texte.")
TWO_MARKS = Text("it begins with two byte order marks.", "il commence par deux marques d'ordre des octets.")
BROKEN_CODE = Text("it begins as {code} and is none from byte {byte} on.",
                   "il commence en {code} et n'en est plus à partir de l'octet {byte}.")
BROKEN_QUOTES = Text("its quotes are broken in row {row} or after it ({why}).",
                     "ses guillemets sont mal fermés à la ligne {row} ou plus loin ({why}).")
CLOSE_QUOTES = Text("close the quotes there, or export the sheet again.",
                    "fermez-y les guillemets, ou exportez de nouveau la feuille.")
TWO_READINGS = Text("it has more than one reading: {ways}.", "il se lit de plusieurs façons : {ways}.")
EMPTY_FILE = Text("it is empty.", "il est vide.")
EXPORT_WITH_NAMES = Text("export the sheet again, with its row of names.",
                         "exportez de nouveau la feuille, avec sa ligne de titres.")
NO_SLOT = Text("its first row names the columns of no slot: {names}",
               "sa première ligne n'a les titres d'aucun fichier du dossier : {names}")
BEGIN_WITH_NAMES = Text("begin the sheet with the row of names, as in examples/blank.",
                        "commencez la feuille par la ligne de titres, comme dans examples/blank.")
NEAREST = Text("its first row is nearest to {slot}, but {parts}.",
               "sa première ligne ressemble surtout à {slot}, mais {parts}.")
MISSING_COLUMN = Text("the column {column} is missing", "il manque la colonne {column}")
NAMED_TWICE = Text("{count} columns are named {column} ({names})",
                   "{count} colonnes portent le titre {column} ({names})")
MAY_BE = Text('the column "{title}" may be {column}', 'la colonne « {title} » est peut-être {column}')
NAME_OR_LEAVE = Text('say --column "{name}={column}" if it is, and --leave-out "{name}" if not.',
                     'dites --column "{name}={column}" si c\'est le cas, et sinon --leave-out "{name}".')
NAME_COLUMN = Text('name each column as in examples/blank, or say which one it is, as --column "{name}={column}".',
                   'donnez à chaque colonne un titre de examples/blank, ou dites laquelle c\'est, comme '
                   '--column "{name}={column}".')
SAY_TITLE = Text('name each column as in examples/blank, or say which title it has, as --column "TITLE={column}".',
                 'donnez à chaque colonne un titre de examples/blank, ou dites quel titre elle a, comme '
                 '--column "TITRE={column}".')
FOR_TAKE_IN = Text("it is a sheet of answers as take_in reads them.",
                   "c'est une feuille de réponses comme take_in les lit.")
TAKE_IN_LATER = Text("take it out of the folder, and give it to take_in once the dossier is made.",
                     "retirez-la du dossier, et donnez-la à take_in une fois le dossier fait.")
NAME_COLUMNS = Text("name the columns as in examples/blank, each once.",
                    "donnez aux colonnes les titres de examples/blank, chacun une fois.")
NO_NAMES = Text("{file} has no sheet with ids of candidates, programmes or schools beside their names.",
                "{file} n'a pas de feuille où des identifiants de candidats, de formations ou d'internats soient à "
                "côté de leurs noms.")
TWO_NAMES = Text("{file} has two names for {id}: {one} and {other}.",
                 "{file} a deux noms pour {id} : {one} et {other}.")
TWO_SLOTS = Text("it has the columns of {one} and of {other}.", "il a les colonnes de {one} et de {other}.")
RENAME_COLUMNS = Text("leave in it the columns of one of the two.", "n'y laissez que les colonnes de l'un des deux.")
SLOT_TWICE = Text("{other} has the columns of {slot} too.", "{other} a aussi les colonnes de {slot}.")
LEAVE_ONE = Text("leave one of the two in the folder.", "ne laissez que l'un des deux dans le dossier.")
SLOT_IN_SHEETS = Text("more than one sheet has the columns of {slot}: {sheets}.",
                      "plusieurs feuilles ont les colonnes de {slot} : {sheets}.")
HIDDEN_SHEET = Text(" (a hidden sheet)", " (une feuille masquée)")
TWO_SHEETS = Text("more than one of its sheets has the columns of {slot}: {sheets}.",
                  "plusieurs de ses feuilles ont les colonnes de {slot} : {sheets}.")
ONE_SHEET = Text("leave one of them in the workbook, or save each as CSV and give one after another.",
                 "n'en laissez qu'une dans le classeur, ou enregistrez chacune en CSV et donnez-les l'une après "
                 "l'autre.")
SLOTS_MISSING = Text("no export that can be read has the columns of {slots}.",
                     "aucun export lisible n'a les colonnes de {slots}.")
EXPORT_MISSING = Text("export those sheets too; for one without rows copy its file of examples/blank, as {file}.",
                      "exportez aussi ces feuilles ; s'il n'y a rien à y mettre, copiez son fichier de examples/blank, "
                      "comme {file}.")
TOO_MANY_ROWS = Text("it has more than {most} rows.", "il a plus de {most} lignes.")
FEWER_ROWS = Text("leave out what is not of this dossier.", "n'y laissez que ce qui est de ce dossier.")
FEW_CELLS = Text("it has {cells}, and the row of names has {width}.",
                 "elle a {cells}, et la ligne de titres en a {width}.")
CELL, CELLS = Text("cell", "cellule"), Text("cells", "cellules")
WRITE_CELLS = Text("write the cells that are missing, or export the sheet again.",
                   "écrivez les cellules qui manquent, ou exportez de nouveau la feuille.")
UNNAMED_CELL = Text("it has a cell in a column without a name.", "elle a une cellule dans une colonne sans titre.")
NAME_IT = Text("name the column, or empty the cell.", "donnez un titre à la colonne, ou videz la cellule.")

EMPTY = Text("the cell is empty.", "la cellule est vide.")
FILL_IN = Text("fill in the cell.", "remplissez la cellule.")
WRITE_ZERO = Text("write 0 where the candidate answers for themselves.",
                  "écrivez 0 si le candidat répond lui-même.")
MERGED_CELL = Text("the cell is merged with another.", "la cellule est fusionnée avec une autre.")
UNMERGE = Text("unmerge the cells, and fill in each of them.", "défusionnez les cellules, et remplissez chacune.")
HIDDEN_LETTER = Text("{text} has a letter that cannot be seen ({code}).",
                     "{text} contient un caractère invisible ({code}).")
ENTER_ANEW = Text("enter the cell anew.", "saisissez de nouveau la cellule.")
SHEET_ERROR = Text("{text} is an error of the spreadsheet.", "{text} est une erreur du tableur.")
MEND_FORMULA = Text("mend the formula, and export the sheet again.",
                    "corrigez la formule, et exportez de nouveau la feuille.")
NARROW = Text("{text} stands where a column was too narrow to show its value.",
              "{text} se trouve là où une colonne était trop étroite pour montrer sa valeur.")
WIDEN = Text("widen the column, and export the sheet again.",
             "élargissez la colonne, et exportez de nouveau la feuille.")
FORMULA = Text("{text} is a formula and no value.", "{text} est une formule, et non une valeur.")
EXPORT_VALUES = Text("export the sheet again with its values.", "exportez de nouveau la feuille, avec ses valeurs.")
DIGITS_LOST = Text("{text} has lost digits.", "{text} a perdu des chiffres.")
FORMAT_NUMBER = Text("format the column as a number without decimals, and export the sheet again.",
                     "donnez à la colonne le format nombre, sans décimales, et exportez de nouveau la feuille.")
FORMAT_TEXT_AGAIN = Text("format the column as text, enter the ids again, and export the sheet again.",
                         "donnez à la colonne le format texte, saisissez de nouveau les identifiants, et exportez.")
THOUSANDS = Text("{text} has two readings: with thousands, or with decimals.",
                 "{text} se lit de deux façons : avec des milliers, ou avec des décimales.")
WITHOUT_POINTS = Text("write the number without points and commas.", "écrivez le nombre sans point ni virgule.")
NOT_WHOLE = Text("{text} is not a whole number from 0 on.", "{text} n'est pas un nombre entier positif ou nul.")
DIGITS_ALONE = Text("write the number with digits alone.", "écrivez le nombre avec des chiffres seuls.")
RATE_READINGS = Text("{text} has two readings: per cent, or a share of the whole, where 1 is 100 %, as workbooks keep "
                     "rates.",
                     "{text} se lit de deux façons : en pour cent, ou en part du tout, où 1 vaut 100 %, comme dans un "
                     "classeur.")
SIGN_RATE = Text("write the rate with its sign, as 20 %, or say --rates percent or --rates fraction.",
                 "écrivez le taux avec son signe, comme 20 %, ou dites --rates percent ou --rates fraction.")
PART_OF_PERCENT = Text("{text} is not a whole number of per cent.", "{text} n'est pas un pourcentage entier.")
CORRECT_RATE = Text("correct the rate.", "corrigez le taux.")
OUT_OF_RANGE = Text("{value} is not from {least} to {greatest}.", "{value} n'est pas entre {least} et {greatest}.")
CORRECT_NUMBER = Text("correct the number.", "corrigez le nombre.")
BECAME_DATE = Text("{text} looks like an id that became a date.",
                   "{text} ressemble à un identifiant devenu une date.")
FORMAT_TEXT = Text("format the column as text, and enter the id again.",
                   "donnez à la colonne le format texte, et saisissez de nouveau l'identifiant.")
ZERO_ID = Text("0 is no id.", "0 n'est pas un identifiant.")
LEAVE_EMPTY = Text("write the id; where there is none, leave the cell empty.",
                   "écrivez l'identifiant ; s'il n'y en a pas, laissez la cellule vide.")
NOT_FLAG = Text("{text} is neither yes nor no.", "{text} n'est ni oui ni non.")
WRITE_FLAG = Text("write 1 or 0, TRUE or FALSE, VRAI or FAUX, OUI or NON.",
                  "écrivez 1 ou 0, VRAI ou FAUX, OUI ou NON.")
TWO_WORDS = Text("{text} has two readings: to refuse an offer, or to withdraw a wish that waits.",
                 "{text} se lit de deux façons : refuser une proposition, ou retirer un vœu en attente.")
UNKNOWN_WORD = Text("{text} is an unknown word.", "{text} est un mot inconnu.")
WRITE_WORD = Text("write one of {en}.", "écrivez l'un de ceux-ci : {fr}.")
DATE_READINGS = Text("{text} has two readings.", "{text} se lit de deux façons.")
SAY_ORDER = Text("write it as YYYY-MM-DD, or say --dates day-first or --dates month-first.",
                 "écrivez-la AAAA-MM-JJ, ou dites --dates day-first (le jour d'abord) ou --dates month-first.")
NOT_DATE = Text("{text} is not a date in one reading.", "{text} n'est pas une date qui se lise d'une seule façon.")
WRITE_DATE = Text("write it as YYYY-MM-DD.", "écrivez-la AAAA-MM-JJ.")
NOT_DAY = Text("{text} is neither the number of a day nor a date in one reading.",
               "{text} n'est ni le numéro d'un jour, ni une date qui se lise d'une seule façon.")
WRITE_DAY = Text("write the number of the day, 1 for the coming one, or a date as YYYY-MM-DD.",
                 "écrivez le numéro du jour, 1 pour celui qui vient, ou une date AAAA-MM-JJ.")
NO_DAY = Text("{text} is not a day of the calendar.", "{text} n'est pas un jour du calendrier.")
CORRECT_DATE = Text("correct the date.", "corrigez la date.")
FAR_YEAR = Text("{text} is not of a year from {least} to {greatest}.",
                "{text} n'est pas d'une année de {least} à {greatest}.")

TWICE = Text("{what} stands in an earlier row already.", "{what} se trouve déjà à une ligne précédente.")
CORRECT_ONE = Text("correct one of the two rows, or take it out.", "corrigez l'une des deux lignes, ou retirez-la.")
NO_ROW = Text("the {thing} {id} has no row of its own in the dossier.",
              "{thing} {id} n'a pas sa ligne dans le dossier.")
NO_ROWS = Text("{count} {things} have no row of their own in the dossier, as {ids}.",
               "{count} {things} n'ont pas leur ligne dans le dossier, comme {ids}.")
ADD_ROW = Text("correct it where it is named, or add its row to {file}.",
               "corrigez là où c'est nommé, ou ajoutez sa ligne à {file}.")
NUMBERS_OF_CAMPAIGN = Text("where these are the numbers of a campaign, say --ids and its folder.",
                           "si ce sont les numéros d'une campagne, dites --ids et son dossier.")
NO_WISH_OF = Text("no wish is of a candidate {id}.", "aucun vœu n'est d'un candidat {id}.")
QUIT_CANDIDATE = Text("to quit, name the candidate and not a wish; else correct the target.",
                      "pour une démission, nommez le candidat et non un vœu ; sinon, corrigez la cible.")
NO_WISH = Text("there is no wish {id}.", "il n'y a pas de vœu {id}.")
NAME_WISH = Text("name the wish and not the candidate, or correct the target.",
                 "nommez le vœu et non le candidat, ou corrigez la cible.")
UNRANKED = Text("the candidate {candidate} is not ranked in the programme's group {group}.",
                "le candidat {candidate} n'est pas classé dans le groupe {group} de la formation.")
ADD_RANK = Text("add the candidate to {file}, or take the wish out.",
                "ajoutez le candidat à {file}, ou retirez le vœu.")
NO_RANK = Text("the candidate {candidate} has no rank in the school {school}.",
               "le candidat {candidate} n'a pas de rang à l'internat {school}.")
ADD_BOARDER = Text("add the candidate to {file}, or empty the school of the wish.",
                   "ajoutez le candidat à {file}, ou videz l'internat du vœu.")
MIXED = Text("one of the candidate's preferences is 0 and another is not.",
             "une préférence du candidat est 0, et une autre ne l'est pas.")
ALL_OR_NONE = Text("write 0 for all of them, or different numbers from 1 on for all.",
                   "écrivez 0 pour toutes, ou pour toutes des nombres différents à partir de 1.")
PREFERENCE_TWICE = Text("the candidate has the preference {preference} twice.",
                        "le candidat a deux fois la préférence {preference}.")
WRITE_DIFFERENT = Text("write different numbers.", "écrivez des nombres différents.")
TWO_ACCEPTED = Text("the candidate {candidate} has accepted two wishes.",
                    "le candidat {candidate} a accepté deux vœux.")
CORRECT_EITHER = Text("correct one of the two.", "corrigez l'un des deux.")
DAY_FALLS = Text("day {day} stands after day {before}.", "le jour {day} vient après le jour {before}.")
SORT_DAYS = Text("sort the rows by day; those of one day keep their order.",
                 "triez les lignes par jour ; celles d'un même jour gardent leur ordre.")
ONE_OR_TWO = Text('the {things} "{one}" and "{other}" may be one or two.',
                  'les {things} « {one} » et « {other} » ne font peut-être qu\'un.')
WRITE_ALIKE = Text("write them alike where they are one, and otherwise make them differ in more.",
                   "écrivez-les de la même façon si c'est le même identifiant ; sinon, faites-les différer davantage.")
NO_NUMBERS = Text("no numbers are left for the {things} whose ids are no numbers.",
                  "il ne reste pas de numéros pour les {things} dont l'identifiant n'est pas un nombre.")
LESSER_NUMBERS = Text("give lesser numbers to the other {things}.", "donnez de plus petits numéros aux autres.")
NUMBER_TAKEN = Text("the {thing} {number} has the number that an earlier dossier gave to {id}.",
                    "{thing} {number} a le numéro qu'un dossier précédent a donné à {id}.")
GIVE_ANOTHER = Text("give it another number, or prepare without --ids.",
                    "donnez-lui un autre numéro, ou préparez sans --ids.")
UNTESTED = Text("What names rows {of_file} is tested when all of these can be read.",
                "Ce qui nomme des lignes {of_file} sera vérifié quand elles pourront toutes être lues.")

NO_TARGET = Text("neither a wish nor a candidate is named by a column.",
                 "aucune colonne ne nomme un vœu ou un candidat.")
NAME_TARGET = Text("name a column wish, candidate or target, as in examples/blank/answers.csv.",
                   "donnez à une colonne le titre vœu, candidat ou cible, comme dans examples/blank/answers.csv.")
NO_DATES = Text("the campaign has no dates, so {date} is none of its days.",
                "la campagne n'a pas de dates : {date} n'est pas un de ses jours.")
NUMBER_DAY = Text("write the number of the day, 1 for the coming one, or leave the cell empty for it.",
                  "écrivez le numéro du jour, 1 pour celui qui vient, ou laissez la cellule vide pour lui.")
PAST_DAY = Text("{date} is over: the coming day is {coming}.", "{date} est passé : le jour qui vient est {coming}.")
FAR_DAY = Text("{date} is more than a year from the coming day, {coming}.",
               "{date} est à plus d'un an du jour qui vient, {coming}.")
NO_WISH_NAMED = Text("the answer names no wish.", "la réponse ne nomme pas de vœu.")
NO_CANDIDATE_NAMED = Text("who quits is not named.", "la démission ne dit pas de qui.")
OTHER_CANDIDATE = Text("the wish {wish} is of candidate {candidate}, and not of {other}.",
                       "le vœu {wish} est du candidat {candidate}, et non du candidat {other}.")
CORRECT_WISH = Text("correct the wish or the candidate.", "corrigez le vœu ou le candidat.")
NAMES_TWO = Text("the answer names both {one} and {other}.", "la réponse nomme à la fois {one} et {other}.")
UNFIT = Text("the wish {wish} of candidate {candidate}, for {programme}, is then: {status}. It cannot be {done}.",
             "le vœu {wish} du candidat {candidate}, pour {programme}, en est alors là : {status}. "
             "On ne peut pas {done}.")
DONE = {"accept": Text("accepted", "l'accepter"), "refuse": Text("refused", "le refuser"),
        "withdraw": Text("withdrawn", "le retirer")}
REFUSE_IT = Text("write refuse: an offer is refused, and what waits is withdrawn.",
                 "écrivez refuser : on refuse une proposition, et on retire un vœu en attente.")
WITHDRAW_IT = Text("write withdraw: what waits is withdrawn, and an offer is refused.",
                   "écrivez retirer : on retire un vœu en attente, et on refuse une proposition.")
TAKE_OUT_WAITING = Text("take the answer out: there is no offer to accept.",
                        "retirez la réponse : il n'y a pas de proposition à accepter.")
TAKE_OUT = Text("take the answer out: the wish is over, or this was answered already.",
                "retirez la réponse : le vœu est terminé, ou la réponse a déjà été donnée.")

THINGS = {
    "group": Text("group", "le groupe"), "programme": Text("programme", "la formation"),
    "school": Text("school", "l'internat"), "candidate": Text("candidate", "le candidat"),
    "wish": Text("wish", "le vœu"),
}
PLURALS = {
    "group": Text("groups", "groupes"), "programme": Text("programmes", "formations"),
    "school": Text("schools", "internats"), "candidate": Text("candidates", "candidats"),
    "wish": Text("wishes", "vœux"),
}
KEYS = {
    ("group",): Text("the group {group}", "le groupe {group}"),
    ("programme",): Text("the programme {programme}", "la formation {programme}"),
    ("school",): Text("the school {school}", "l'internat {school}"),
    ("wish",): Text("the wish {wish}", "le vœu {wish}"),
    ("group", "candidate"): Text("the candidate {candidate} in group {group}",
                                 "le candidat {candidate} dans le groupe {group}"),
    ("school", "candidate"): Text("the candidate {candidate} in school {school}",
                                  "le candidat {candidate} à l'internat {school}"),
    ("group", "rank"): Text("the rank {rank} in group {group}", "le rang {rank} dans le groupe {group}"),
    ("school", "rank"): Text("the rank {rank} in school {school}", "le rang {rank} à l'internat {school}"),
    ("candidate", "programme", "school"): Text(
        "the wish of candidate {candidate} for programme {programme} and the same school",
        "le vœu du candidat {candidate} pour la formation {programme} et le même internat"),
    ("day", "school"): Text("the school {school} on day {day}", "l'internat {school} le jour {day}"),
}
