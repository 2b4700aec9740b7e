"""A plain and slow model of a history: it keeps every change that was taken, and says what they mean as the definitions of a
history word it. `tables.py` asks it for the answers of its rows."""

from collections import namedtuple

LAST_NUMBER = 18446744073709551615
LAST_MOMENT = 253402300799999
DAY = 86400000
PACKET = 256

# A buffer is (account, network, target), and an account its name. A moment is in milliseconds since 1970 began.
Post = namedtuple("Post", "buffer id at letter source target body tags", defaults=("",))
Redact = namedtuple("Redact", "buffer id at")
Mark = namedtuple("Mark", "buffer at")
Floor = namedtuple("Floor", "buffer at")
AccountFloor = namedtuple("AccountFloor", "account at")


def net(target):
    return ("demo", "net", target)


def message(target, id, at, body, letter="P", source="bob!b@h", to=None, tags=""):
    return Post(net(target), id, at, letter, source, target if to is None else to, body, tags)


def redact(target, id, at=None):
    return Redact(net(target), id, at)


def mark(target, at):
    return Mark(net(target), at)


def floor(target, at):
    return Floor(net(target), at)


def account_floor(at, account="demo"):
    return AccountFloor(account, at)


def line_of(change):
    """The line that spells a change."""
    if isinstance(change, AccountFloor):
        return f"C AFLOOR {change.account} {change.at}"
    account, network, target = change.buffer
    names = f"{account} {network} {target}"
    if isinstance(change, Post):
        c = change
        word, tags = ("TPOST", f"{c.tags} ") if c.tags else ("POST", "")
        return f"C {word} {names} {c.id} {c.at} {c.letter} {tags}{c.target} {c.source} :{c.body}"
    if isinstance(change, Redact):
        return f"C REDACT {names} {change.id} {'*' if change.at is None else change.at}"
    return f"C {'MARK' if isinstance(change, Mark) else 'FLOOR'} {names} {change.at}"


def key_of(change):
    """What a change speaks of: a floor, a marker, or a message. A floor is that of an account or of a buffer."""
    if isinstance(change, AccountFloor):
        return (change.account, "floor", "")
    if isinstance(change, Floor):
        return (change.buffer, "floor", "")
    if isinstance(change, Mark):
        return (change.buffer, "marker", "")
    return (change.buffer, "message", change.id)


def greatest(moments):
    return max(moments) if moments else None


# ---- what a set of changes means, a list of which only membership counts


def own_floor_of(changes, extent):
    """The greatest floor that was set for an account or for a buffer itself, or 0."""
    return max([c.at for c in changes if key_of(c) == (extent, "floor", "")], default=0)


def floor_of(changes, buffer):
    """The floor in force in a buffer: the greater of its account's and its own."""
    account = buffer[0]
    return max(own_floor_of(changes, account), own_floor_of(changes, buffer))


def marker_of(changes, buffer):
    return greatest([c.at for c in changes if isinstance(c, Mark) and c.buffer == buffer])


def is_gone(changes, buffer, id):
    return any(isinstance(c, Redact) and (c.buffer, c.id) == (buffer, id) for c in changes)


def position_of(changes, buffer, id):
    """The greatest moment at or above the floor that posts of a message have or redactions of it name."""
    least = floor_of(changes, buffer)
    named = [c.at for c in changes if key_of(c) == (buffer, "message", id)]
    return greatest([at for at in named if at is not None and at >= least])


def goes_before(one, other):
    """Whether a post is kept over another of its message: the later one, of one moment the one with the greater tags, and of
    the same tags the one with the smaller letter, source, target and body, compared byte by byte in this order."""
    if one.at != other.at:
        return one.at > other.at
    if one.tags != other.tags:
        return one.tags.encode() > other.tags.encode()
    parts = lambda post: [t.encode() for t in (post.letter, post.source, post.target, post.body)]
    return parts(one) < parts(other)


def kept_of(changes, buffer, id):
    """Of the posts of a message at or above the floor the one before which no other goes."""
    least = floor_of(changes, buffer)
    posts = [c for c in changes if isinstance(c, Post) and (c.buffer, c.id) == (buffer, id)]
    posts = [p for p in posts if p.at >= least]
    first = [p for p in posts if not any(goes_before(q, p) for q in posts)]
    return first[0] if first else None


def piece_of(changes, key):
    """The one change that stands for all those of a key, if any does."""
    buffer, kind, id = key
    if kind == "floor" and isinstance(buffer, str):
        at = own_floor_of(changes, buffer)
        return AccountFloor(buffer, at) if at > 0 else None
    if kind == "floor":
        at = own_floor_of(changes, buffer)
        return Floor(buffer, at) if at > own_floor_of(changes, buffer[0]) else None
    if kind == "marker":
        at = marker_of(changes, buffer)
        return None if at is None else Mark(buffer, at)
    if is_gone(changes, buffer, id):
        return Redact(buffer, id, position_of(changes, buffer, id))
    return kept_of(changes, buffer, id)


def form_of(changes, extent):
    """The normal form, as far as it is of one account or of one buffer: the piece of each key."""
    keys = {key for key in map(key_of, changes) if key[0] == extent}
    pieces = {key: piece_of(changes, key) for key in keys}
    return {key: piece for key, piece in pieces.items() if piece is not None}


class Model:
    """The changes that were taken, account by account, and the front and the numbers that came of them. A change says nothing
    of other accounts than its own. One of a buffer says nothing of other buffers either, so that only what was said of its
    buffer is looked through; a floor of an account speaks of all the account's buffers."""

    def __init__(self, start=0):
        self.front = start
        # of each account, and of each buffer: the changes that name it, and the pieces that stand for them
        self.taken = {}
        self.forms = {}
        self.numbers = {}

    def copy(self):
        other = Model(self.front)
        other.taken = {extent: list(changes) for extent, changes in self.taken.items()}
        other.forms = {extent: dict(form) for extent, form in self.forms.items()}
        other.numbers = dict(self.numbers)
        return other

    def changes(self, extent):
        """What was said of an account or of a buffer. The floors of its account speak of a buffer too."""
        said = self.taken.get(extent, [])
        return said if isinstance(extent, str) else self.taken.get(extent[0], []) + said

    def spoken_of(self, change):
        """The accounts and buffers of which a change speaks."""
        if not isinstance(change, AccountFloor):
            return [change.buffer]
        return [change.account] + [it for it in self.taken if not isinstance(it, str) and it[0] == change.account]

    def absorb(self, change):
        """`+` where the change changes the normal form, and the front is one more; else `-`; `!` where it would and no
        number is left."""
        named = change.account if isinstance(change, AccountFloor) else change.buffer
        self.taken.setdefault(named, []).append(change)
        forms = {extent: form_of(self.changes(extent), extent) for extent in self.spoken_of(change)}
        if all(form == self.forms.get(extent, {}) for extent, form in forms.items()):
            return "-"
        if self.front == LAST_NUMBER:
            self.taken[named].pop()
            return "!"
        self.front += 1
        self.forms.update(forms)
        self.numbers[key_of(change)] = self.front
        return "+"

    def take(self, changes):
        """What refuses them, if anything does."""
        for count, change in enumerate(changes):
            if self.absorb(change) == "!":
                return f"{count} changes were taken, and then: no number is left"
        return ""

    def merge(self, other):
        return self.take([change for _, change in other.pieces()])

    # ---- what is asked

    def visible(self, buffer):
        """The kept records of a buffer that weren't redacted, by (moment, id)."""
        posts = [p for p in self.forms.get(buffer, {}).values() if isinstance(p, Post)]
        return sorted(posts, key=lambda p: (p.at, p.id.encode()))

    def pieces(self):
        """The pieces by rising number: the number of a key is the front after its last change that counted."""
        held = [(self.numbers[key], piece) for form in self.forms.values() for key, piece in form.items()]
        return sorted(held, key=lambda entry: entry[0])

    def newer(self, start, limit):
        return [entry for entry in self.pieces() if entry[0] > start][:limit]

    def delta(self, start):
        above = self.newer(start, LAST_NUMBER)
        end = above[PACKET - 1][0] if len(above) > PACKET else max(start, self.front)
        return start, end, [change for _, change in above[:PACKET]]

    def buffers(self, is_wanted):
        """The buffers of which a record passes a test, in their order."""
        found = {p.buffer for buffer in self.forms for p in self.visible(buffer) if is_wanted(p)}
        return sorted(found, key=lambda buffer: [text.encode() for text in buffer])

    def latest(self, account, network):
        wanted = self.buffers(lambda post: post.buffer[:2] == (account, network))
        return [(buffer[2], self.visible(buffer)[-1].at) for buffer in wanted]

    def due(self, now, days):
        """A floor so many days ago for each buffer that holds an older record."""
        at = now - days * DAY
        if days == 0 or at < 0:
            return []
        return [Floor(buffer, at) for buffer in self.buffers(lambda post: post.at < at)]
