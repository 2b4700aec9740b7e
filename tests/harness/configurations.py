"""The files of tests/configurations, and what is to be told of each configuration. They are of two kinds. `wholes` has the name of
a file in each row, and a line that is to be told of it. The others have cases, each of which changes the file `example`, text for
text, and says what is to be told then:

    == name of the case
    - text of the example
    + what stands there instead, which may be several such lines
    = line that is to be told

What is told of a configuration that is refused is its kind and its words; of one that is right `read`, and its values, one a
line."""

import os

from harness.scripts import TESTS, parts

FOLDER = os.path.join(TESTS, "configurations")
FILES = ("read", "keys", "types", "ranges", "names", "lists", "orders")


def contents(name):
    with open(os.path.join(FOLDER, name), "rb") as file:
        return file.read()


def marked(lines, mark):
    return [line[len(mark):] for line in lines if line.startswith(mark)]


def changed(name, example, case):
    """The example with each change of a case."""
    for change in (b"\n" + case).split(b"\n- ")[1:]:
        lines = change.split(b"\n")
        if lines[0] not in example:
            raise ValueError(f"{name}: the example has no text {lines[0]}")
        example = example.replace(lines[0], b"\n".join(marked(lines[1:], b"+ ")), 1)
    return example


def told():
    """Each line that is to be told of a configuration: the name of its test, the text, and the line."""
    example = contents("example")
    for row in contents("wholes").splitlines():
        file, _, line = row.partition(b" ")
        yield f"wholes: {file.decode()}", contents(file.decode()), line
    for file in FILES:
        for name, case in parts(os.path.join(FOLDER, file)):
            lines = marked(case.split(b"\n"), b"= ")
            if not lines:
                raise ValueError(f"{file}: nothing is to be told of '{name}'")
            for line in lines:
                yield f"{file}: {name}", changed(name, example, case), line
