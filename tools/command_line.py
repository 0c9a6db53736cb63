"""The words that a Python program of tools/ is given; how it is used is its doc string."""
import re
import sys


def refuse(doc):
    """Says how the program is used, and ends with status 2."""
    print(doc, file=sys.stderr)
    sys.exit(2)


def words(doc):
    """The program's words. With --help, or without a word if it takes some, it says how it is used and ends."""
    given = sys.argv[1:]
    if given == ["--help"]:
        print(doc)
        sys.exit(0)
    if not given and not re.match(r"[\w-]+:", doc):
        refuse(doc)
    return given
