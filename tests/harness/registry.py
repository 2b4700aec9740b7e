"""The list of all tests, in the order in which they are begun."""

_tests = []


class Test:
    """A test: its name, and a call that is given a fixture and raises where it fails."""

    def __init__(self, name, call):
        self.name, self.call = name, call


def add(name, call):
    """Adds a test of a table's row."""
    _tests.append(Test(name, call))


def test(call):
    """Adds a function as a test, by the name of its module and its own."""
    suite = call.__module__.rpartition(".")[2]
    add(f"{suite}: {call.__name__.replace('_', ' ')}", call)
    return call


def all_tests():
    return list(_tests)
