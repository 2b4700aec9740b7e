"""Files of cases. Each case has a name, the lines of a script, and the lines that it is to print:

    == name of the case
    lines of the script
    --
    lines that it is to print
"""

import os

TESTS = os.path.dirname(os.path.dirname(os.path.abspath(__file__)))


class Case:
    """A script, and what it is to print."""

    def __init__(self, name, script, printed):
        self.name, self.script, self.printed = name, script, printed


def parts(path):
    """The cases of a file as they stand there: the name, and the lines below it."""
    with open(path, "rb") as file:
        text = file.read()
    for part in text.split(b"== ")[1:]:
        name, _, rest = part.partition(b"\n")
        yield name.decode(), rest


def cases(file):
    """The cases of a file of scripts. What is printed ends its lines with CR LF."""
    for name, rest in parts(os.path.join(TESTS, "scripts", file)):
        script, mark, printed = rest.partition(b"--\n")
        if not mark:
            raise ValueError(f"{file}: the case '{name}' has no line --")
        yield Case(name, script, printed.replace(b"\n", b"\r\n"))


def case_of(file, name):
    """The case of that name."""
    return next(it for it in cases(file) if it.name == name)
