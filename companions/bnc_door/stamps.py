"""Ids and times of messages, for those that the network gives none."""

import re
import secrets
import time

from bnc_wire.journal import log, spelled_time
from bnc_wire.message import Message, spell_tags

# A time as IRCv3 server-time spells it.
TIME = re.compile(r"(19[7-9]\d|[2-9]\d\d\d)-(0[1-9]|1[0-2])-(0[1-9]|[12]\d|3[01])T([01]\d|2[0-3]):[0-5]\d:([0-5]\d|60)\.\d{3}Z",
                  re.ASCII)
# A clock that is set back by less than this keeps the order of what is said; one that is set back further is believed.
BACK = 10.0


class Stamps:
    """Makes ids that no other door and no other life of this one makes, in rising order, and times that go on."""

    def __init__(self, name: str) -> None:
        self.life = secrets.token_hex(6)
        self.name, self.serial, self.last = name, 0, 0.0

    def next_id(self) -> str:
        self.serial += 1
        return f"{self.name}-{self.life}-{self.serial:012}"

    def now(self) -> str:
        """The time of what comes now."""
        now = time.time()
        if self.last - BACK < now < self.last:
            now = self.last
        elif now <= self.last - BACK:
            log(f"clock set back by {self.last - now:.0f} seconds: messages of a network without times go by it")
        self.last = now
        return spelled_time(now)

    def tags_of(self, message: Message) -> str:
        """The tags with which a message goes to every node: an id, a time and its client-only tags. An id or a time that a
        node couldn't take is replaced here, since each node would make another in its place."""
        msgid, moment = message.tags.get("msgid", ""), message.tags.get("time", "")
        return spell_tags({
            "msgid": msgid if _is_id(msgid) else self.next_id(),
            "time": moment if TIME.fullmatch(moment) else self.now(),
            **message.client_only,
        })


def _is_id(spelled: str) -> bool:
    """Whether a node takes this for an id. One with an escape is left to the nodes, which read it alike."""
    return 0 < len(spelled.encode("utf-8", "surrogateescape")) <= 255 and not spelled.startswith(":") \
        and not any(it in spelled for it in ("\\s", "\\r", "\\n"))
