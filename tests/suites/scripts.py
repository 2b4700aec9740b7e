"""Scripts, each answered by a run of `bnc replay demo net al` of its own, so by a new cluster.

The tables pages, between, targets, refusals, lengths, orders, limits, extents and escapes are what a plain program
answers (scripts/tables.py); the others were written by hand from docs/PROTOCOL.md."""

from harness.registry import add
from harness.scripts import cases

FILES = (
    "examples", "markers", "pages", "between", "targets", "refusals", "sessions", "lengths", "nodes", "orders", "lines",
    "questions", "limits", "thousand", "tags", "floors", "extents", "escapes",
)


def answered(case):
    """A test that the script prints exactly what it is to print, and ends well."""
    return lambda fixture: fixture.replay(case.script).expect(0, case.printed)


for file in FILES:
    for case in cases(file):
        add(f"scripts/{file}: {case.name}", answered(case))


def ends_of_words(length):
    """Ids and sources of that length with a byte at one place that stands in no word (RFC 2812, section 2.3.1: NUL and CR, while LF ends
    the line and a space the word). Each is refused, and one without such a byte, of 255 bytes at most, is taken."""

    def answers(fixture):
        whole, script, refused = b"a" * length, [], 0
        for post in (b"C POST demo net #a %s 1000 P #a bob!b@h :x", b"C POST demo net #a m1 1000 P #a %s :x"):
            for place in range(length):
                script += [post % (whole[:place] + byte + whole[place + 1 :]) for byte in (b"\0", b"\r")]
                refused += 2
            script.append(post % whole)
            refused += length > 255
        fixture.replay(b"".join(line + b"\n" for line in script)).expect(0, b"% BadField\r\n" * refused)

    return answers


# (such as one look at 16 bytes, or two, see whole, one byte less and more, and the limit and one past it)
for length in (1, 2, 15, 16, 17, 31, 32, 33, 48, 255, 256):
    add(f"scripts: ids and sources of {length} bytes with a byte that stands in no word", ends_of_words(length))
