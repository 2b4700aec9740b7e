"""What the program says that it is."""

import os
import re

from harness.scripts import TESTS

SOURCE = os.path.join(os.path.dirname(TESTS), "crates", "bnc", "src", "version.rt")


def constants():
    """The constants of the program's source by their names."""
    with open(SOURCE, encoding="utf-8") as source:
        return dict(re.findall(r'^pub\(crate\) const ([A-Z]+): &str = "(.*)";$', source.read(), re.M))
