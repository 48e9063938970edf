"""How each tool starts. An older Python can read this file too, and gets a sentence in place of a traceback."""

import importlib
import sys

OLDEST = (3, 10)
TOO_OLD = 3


def start(tool, module):
    """Runs the tool, whose `main` is in this module, with the words of the command line."""
    if sys.version_info < OLDEST:
        sys.stderr.write("%s: it needs Python %d.%d or later, and this is %d.%d; install a later one.\n"
                         % ((tool,) + OLDEST + tuple(sys.version_info[:2])))
        sys.exit(TOO_OLD)
    try:
        main = importlib.import_module(module).main
        if sys.argv[1:] == ["--version"]:
            from dossier.program import version
            sys.stdout.write("%s, %s\n" % (tool, version()))
            sys.exit(0)
        sys.exit(main(sys.argv[1:]))
    except KeyboardInterrupt as stop:
        sys.stderr.write("%s: stopped.\n" % tool)
        sys.exit(getattr(stop, "status", 130))


if __name__ == "__main__":
    name, place = sys.argv[1:3]
    del sys.argv[1:3]
    start(name, place)
