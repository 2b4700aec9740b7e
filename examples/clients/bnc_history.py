"""Script for WeeChat: asks a bnc for what was missed, and sets read markers. Written for WeeChat 3.8 with its Python plugin.

Put this file into the folder python/autoload of WeeChat's data (`/eval /print ${weechat_data_dir}`), or load it once by
`/script load /path/to/bnc_history.py`.

It acts on each server that announces CHATHISTORY. As it attaches, as it joins a channel again, and every minute, it asks which
conversations have messages since a moment, and then for the messages of each, and shows those that it hasn't shown. That moment
lies ten minutes before the last asking; as it attaches, and once an hour, a day before it. `/bnc_history 3d` asks for the last
three days (also m, h, w, a time such as 2026-01-31T12:00, or all).

A message that comes after later ones stands in its place. As you leave a buffer its read marker is set; where another of your
devices has read a conversation to its end, the buffer leaves the hotlist here.

One setting, own_nicks: the nicks that your nodes have on the networks, with spaces between them. What is said under one of these
highlights nothing. Where it is empty, they are the connection's own nick, its trailing digits and underscores replaced by any.
`/set plugins.var.python.bnc_history.own_nicks "al1 al2"`.

WeeChat sends a line every two seconds at most, and so does this script. `/set irc.server.bnc.anti_flood_prio_high 0` lifts that.

What was shown is kept in the file bnc_history.json of WeeChat's data.
"""

import calendar
import json
import os
import re
import time
from contextlib import suppress
from dataclasses import dataclass
from typing import Dict, List, Optional, Tuple, Union

import weechat

WANTED = "batch draft/chathistory draft/read-marker message-tags server-time"
END_OF_TIME = "9999-12-31T23:59:59.999Z"
# The length of a page, where the server doesn't say it (005, CHATHISTORY=100).
PAGE = 100
# Milliseconds.
MINUTE = 60_000
DAY = 24 * 60 * MINUTE
# How far before the last asking the next one begins.
OVERLAP = 10 * MINUTE
# How many ids of a conversation are kept at least, once that many messages were shown there, and of how many conversations.
MOST_IDS, MOST_CONVERSATIONS = 4_000, 1_000
# How many askings go by until a line without an id is no longer looked for among the answers, and how many such lines are kept.
NAMELESS_ASKINGS, MOST_NAMELESS = 10, 100

# -- moments: milliseconds after 1970 began


def moment_of(text: str) -> Optional[int]:
    """The moment that a time of IRCv3 (server-time) or a part of one, as 2026-01-31T12:00, stands for."""
    found = re.fullmatch(r"(\d{4})-(\d\d)-(\d\d)(?:T(\d\d):(\d\d)(?::(\d\d)(?:\.(\d{3}))?)?Z?)?", text)
    if not found:
        return None
    year, month, day, hour, minute, second, thousandths = (int(it or 0) for it in found.groups())
    if not (year >= 1970 and 1 <= month <= 12 and 1 <= day <= 31):
        return None
    return calendar.timegm((year, month, day, hour, minute, second)) * 1000 + thousandths


def time_of(moment: int) -> str:
    """The time as IRCv3 has it."""
    seconds, thousandths = divmod(max(moment, 0), 1000)
    return time.strftime("%Y-%m-%dT%H:%M:%S", time.gmtime(seconds)) + f".{thousandths:03}Z"


def moment_before(words: str, now: int) -> Optional[int]:
    """The moment that the words of a person name: 90m, 12h, 3d, 2w, a time, or all."""
    span = re.fullmatch(r"(\d{1,6})([mhdw])", words)
    if span:
        unit = {"m": MINUTE, "h": 60 * MINUTE, "d": DAY, "w": 7 * DAY}[span[2]]
        return max(now - int(span[1]) * unit, 0)
    return 0 if words == "all" else moment_of(words)


# -- what a line says


def folded(name: str) -> str:
    """A nick or a channel without regard to the case of A to Z (CASEMAPPING=ascii)."""
    return "".join(it.lower() if it.isascii() else it for it in name)


def is_channel(target: str) -> bool:
    """Whether it is a channel, or those in one who have a certain status, as @#a."""
    return re.match(r"[~&@%+!]*[#&]", target) is not None


def is_request(text: str) -> bool:
    """A request of CTCP, which isn't answered once it is past."""
    return text.startswith("\x01") and not text.startswith("\x01ACTION ")


@dataclass
class Message:
    """A PRIVMSG or a NOTICE."""

    nick: str
    target: str
    text: str
    id: str = ""
    moment: Optional[int] = None
    batch: str = ""

    def words(self) -> str:
        """What tells it from others where its id isn't known."""
        return f"{self.moment} {self.nick} {self.text}"


@dataclass
class Showing:
    """How a message is shown: in which conversation, whether it is one's own, and whether it came in a page."""

    conversation: str
    id: str
    is_own: bool
    is_past: bool


# -- what was shown


class Conversation:
    """Which messages of a conversation were shown."""

    def __init__(self, ids: Optional[Dict[str, int]] = None, forgotten: int = -1, latest: int = -1):
        # the moment of each id. All that were shown after the moment `forgotten` are here.
        self.ids: Dict[str, int] = ids or {}
        self.forgotten = forgotten
        # the greatest moment that was shown
        self.latest = latest
        # what was shown without an id and not yet found among the answers, and for how many askings it is looked for: words that
        # were typed here, and lines that came before the script held the tags of messages
        self.nameless: List[Tuple[str, int]] = []

    def show(self, name: str, moment: int) -> None:
        self.latest = max(self.latest, moment)
        if name:
            self.ids[name] = moment
        if len(self.ids) > MOST_IDS + MOST_IDS // 4:
            kept = sorted(self.ids.items(), key=lambda it: it[1])
            self.forgotten = max(self.forgotten, kept[-MOST_IDS - 1][1])
            self.ids = dict(kept[-MOST_IDS:])

    def show_nameless(self, words: str) -> None:
        self.nameless = self.nameless[-MOST_NAMELESS + 1:] + [(words, NAMELESS_ASKINGS)]

    def take_nameless(self, words: str) -> bool:
        """Whether such a line was shown, which is so once for each."""
        for number, (known, _) in enumerate(self.nameless):
            if known == words:
                del self.nameless[number]
                return True
        return False

    def held(self) -> dict:
        """What is kept of it from one run of the client to the next."""
        return {"ids": self.ids, "forgotten": self.forgotten, "latest": self.latest}

    def end_asking(self) -> None:
        self.nameless = [(words, left - 1) for words, left in self.nameless if left > 1]


class Window:
    """From which moment on is asked."""

    def __init__(self, last: Optional[int] = None):
        # the moment of the last asking that came to its end
        self.last = last
        # the latest time of a line that came over this connection
        self.heard: Optional[int] = None

    def hear(self, moment: int) -> None:
        self.heard = max(self.heard or 0, moment)

    def present(self, clock: int) -> Optional[int]:
        """The moment of an asking that begins now: by the lines that came, since the own clock may be ahead; and not after the
        own clock, since a line may have a time to come."""
        return None if self.heard is None else min(self.heard, clock)

    def last_asking(self, clock: int) -> int:
        return clock if self.last is None else min(self.last, clock)

    def begin(self, clock: int, is_wide: bool) -> int:
        """Where nothing is known of an asking, the window is as wide as it may be."""
        return max(self.last_asking(clock) - (DAY if is_wide or self.last is None else OVERLAP), 0)


# -- questions


class TargetPages:
    """Which conversations have messages after a moment: CHATHISTORY TARGETS, page by page."""

    def __init__(self, begin: int, limit: int):
        self.begin, self.limit = begin, limit
        self.found: Dict[str, int] = {}
        self.page: List[Tuple[str, int]] = []
        # whether more conversations end at one moment than a page has, so that some weren't listed
        self.is_crowded = False

    def question(self) -> str:
        return f"CHATHISTORY TARGETS timestamp={time_of(self.begin)} timestamp={END_OF_TIME} {self.limit}"

    def take(self, target: str, moment: int) -> None:
        self.page.append((target, moment))

    def end_page(self) -> bool:
        """Whether there is a further page."""
        page, self.page = self.page, []
        is_news = any(target not in self.found for target, _ in page)
        self.found.update(page)
        if len(page) < self.limit:
            return False
        last = page[-1][1]
        # (several conversations may end at the last moment of a page)
        self.is_crowded = self.is_crowded or not is_news
        self.begin = max(last - 1, self.begin) if is_news else last
        return True

    def refuse(self) -> bool:
        return False


class MessagePages:
    """The messages of a conversation after a moment: CHATHISTORY AFTER, page by page."""

    def __init__(self, target: str, begin: int, limit: int):
        self.target, self.limit = target, limit
        self.selector = f"timestamp={time_of(begin)}"
        self.count, self.last = 0, Message("", target, "", "", begin)

    def question(self) -> str:
        return f"CHATHISTORY AFTER {self.target} {self.selector} {self.limit}"

    def take(self, message: Message) -> None:
        self.count, self.last = self.count + 1, message

    def end_page(self) -> bool:
        """Whether there is a further page, which begins after the last id: more messages may have its moment."""
        is_full = self.count >= self.limit
        self.count = 0
        if is_full:
            self.selector = f"msgid={self.last.id}" if self.last.id else f"timestamp={time_of(self.last.moment or 0)}"
        return is_full

    def refuse(self) -> bool:
        """Where the last id was let go meanwhile, whatever has its moment was too."""
        if not self.selector.startswith("msgid="):
            return False
        self.selector = f"timestamp={time_of(self.last.moment or 0)}"
        return True


class Asking:
    """The questions of one asking, of which one is under way at a time: they wait for one another, and what a person types
    doesn't wait for them."""

    def __init__(self, begin: int, limit: int, present: Optional[int], is_wanted: bool):
        self.begin, self.limit, self.present = begin, limit, present
        # whether a person wants to see that far back
        self.is_wanted = is_wanted
        self.part: Union[TargetPages, MessagePages] = TargetPages(begin, limit)
        self.waiting: List[MessagePages] = []
        # the batch that answers the question under way, and whether anything came since the last minute
        self.batch = ""
        self.is_answered = True


class Client:
    """What a session needs of the client that it is in."""

    def send(self, line: str) -> None:
        """Sends a line to the node."""

    def clock(self) -> int:
        """The own clock."""
        return int(time.time() * 1000)

    def nick(self) -> str:
        """The connection's own nick."""
        raise NotImplementedError

    def own_nicks(self) -> str:
        """The setting."""
        raise NotImplementedError

    def open_conversations(self) -> List[str]:
        """The channels that the client is in, and its private conversations."""
        raise NotImplementedError


class Session:
    """A server: what was shown of it, and the asking that is under way there while the client is attached."""

    def __init__(self, client: Client, last: Optional[int] = None, conversations: Optional[Dict[str, Conversation]] = None):
        self.client = client
        self.window = Window(last)
        self.conversations: Dict[str, Conversation] = conversations or {}
        # whether the client is attached, and whether it hasn't been told the channels' members and topics since
        self.is_attached = self.is_new = False
        self.limit = PAGE
        self.asking: Optional[Asking] = None
        # the asking that is due once that one has ended: how far back, and for whom
        self.next: Optional[Tuple[int, bool]] = None
        # the channels that were joined, and not asked for since
        self.joined: List[str] = []
        # the targets of the pages that are being read
        self.batches: Dict[str, str] = {}
        self.minutes = 0

    # -- what happens

    def attach(self) -> None:
        """The client's session with the node has begun, and the node has acknowledged what is WANTED."""
        self.is_attached = self.is_new = True
        self.asking, self.next, self.minutes, self.window.heard = None, None, 0, None
        self.ask(self.window.begin(self.client.clock(), is_wide=True))

    def detach(self) -> None:
        self.is_attached, self.asking, self.next = False, None, None
        self.batches.clear()

    def join(self, channel: str) -> None:
        """The client is in a channel. What came while it wasn't is asked for."""
        if self.is_attached:
            self.joined.append(folded(channel))
            self.ask(self.window.begin(self.client.clock(), is_wide=False))

    def minute(self) -> None:
        """A minute is over."""
        if not self.is_attached:
            return
        self.minutes += 1
        lost = self.asking if self.asking and not self.asking.is_answered else None
        if lost:
            # (its answer is lost: its window is asked for once more)
            self.asking = None
            self.ask(lost.begin, lost.is_wanted)
        elif self.asking:
            self.asking.is_answered = False
        self.ask(self.window.begin(self.client.clock(), is_wide=self.minutes % 60 == 0))

    def want(self, words: str) -> bool:
        """A person wants to see what was said since then. Answers whether the words name a moment."""
        begin = moment_before(words, self.window.last_asking(self.client.clock()))
        if begin is not None and self.is_attached:
            self.ask(max(begin - 1, 0), is_wanted=True)
        return begin is not None

    # -- asking

    def ask(self, begin: int, is_wanted: bool = False) -> None:
        """Begins an asking, now or once the one that is under way has ended."""
        if self.next:
            begin, is_wanted = min(begin, self.next[0]), is_wanted or self.next[1]
        if self.asking:
            self.next = (begin, is_wanted)
            return
        self.next = None
        self.asking = Asking(begin, self.limit, self.window.present(self.client.clock()), is_wanted)
        self.client.send(self.asking.part.question())

    def end_part(self, is_further: bool) -> None:
        """A page is over, or refused: the next question, if there is one."""
        asking = self.asking
        if asking is None:
            return
        asking.batch, asking.is_answered = "", True
        if not is_further:
            if isinstance(asking.part, TargetPages):
                asking.waiting = self.parts_of(asking, asking.part)
            if not asking.waiting:
                self.end_asking(asking)
                return
            asking.part = asking.waiting.pop(0)
        self.client.send(asking.part.question())

    def parts_of(self, asking: Asking, listed: TargetPages) -> List[MessagePages]:
        """The conversations that are paged: those that were listed, but for channels that the client isn't in, where it could
        show nothing; channels that it joined; and all where some weren't listed."""
        is_open = {folded(it) for it in self.client.open_conversations()}
        begins = {it: asking.begin for it in listed.found}
        if listed.is_crowded:
            begins.update((it, asking.begin) for it in (*is_open, *self.conversations))
        for it in self.joined:
            begins[it] = min(asking.begin, self.latest(it, asking.begin))
        self.joined = []
        return [MessagePages(it, self.begin_of(it, begin, asking), asking.limit) for it, begin in begins.items()
                if not is_channel(it) or it.lstrip("~&@%+!") in is_open or it in is_open]

    def latest(self, target: str, otherwise: int) -> int:
        """The greatest moment that a conversation has shown."""
        known = self.conversations.get(target)
        return known.latest if known and known.latest >= 0 else otherwise

    def begin_of(self, target: str, begin: int, asking: Asking) -> int:
        """Of what was shown before, and is no longer known one by one, nothing is shown again, unless a person wants it."""
        known = self.conversations.get(target)
        return begin if asking.is_wanted or not known else max(begin, known.forgotten)

    def end_asking(self, asking: Asking) -> None:
        if asking.present is not None:
            self.window.last = asking.present
        for it in self.conversations.values():
            it.end_asking()
        self.asking = None
        self.tell_channels()
        if self.next:
            self.ask(*self.next)

    def tell_channels(self) -> None:
        """As the client attaches, the node tells it which channels it is in, and nothing else of them."""
        if self.is_new:
            self.is_new = False
            for channel in filter(is_channel, self.client.open_conversations()):
                self.client.send(f"NAMES {channel}")
                self.client.send(f"TOPIC {channel}")

    # -- what the node says

    def hear_batch(self, words: List[str]) -> None:
        """`BATCH +r1 chathistory #a`, `BATCH +r1 draft/chathistory-targets`, `BATCH -r1`."""
        reference = words[0][1:]
        if words[0].startswith("+"):
            self.batches[reference] = folded(words[2]) if len(words) > 2 else ""
            part = self.asking.part if self.asking else None
            if part and self.batches[reference] == (part.target if isinstance(part, MessagePages) else ""):
                self.asking.batch = reference
            return
        self.batches.pop(reference, None)
        if self.asking and self.asking.batch == reference:
            self.end_part(self.asking.part.end_page())

    def hear_target(self, words: List[str]) -> None:
        """`CHATHISTORY TARGETS #a 2026-01-02T03:04:05.678Z`."""
        moment = moment_of(words[2]) if len(words) > 2 else None
        if moment is not None and self.asking and isinstance(self.asking.part, TargetPages):
            self.asking.part.take(words[1], moment)

    def hear_refusal(self, words: List[str]) -> bool:
        """`FAIL CHATHISTORY MESSAGE_ERROR AFTER #a :No such message`. Answers whether it is of a question of this script."""
        if not self.asking or self.asking.batch or words[2:3] != [self.asking.part.question().split(" ")[1]]:
            return False
        self.end_part(self.asking.part.refuse())
        return True

    def hear(self, message: Message) -> Optional[Showing]:
        """How a message is shown, or None if it was shown before."""
        if message.moment is not None:
            self.window.hear(message.moment)
        asking = self.asking
        if asking and asking.batch == message.batch != "" and isinstance(asking.part, MessagePages):
            asking.part.take(message)
        target = self.batches.get(message.batch) or self.conversation_of(message)
        known = self.conversations.setdefault(target, Conversation())
        if message.id and message.id in known.ids:
            return None
        is_own, is_past = self.is_own(message, target), message.batch != ""
        is_known = is_own and known.take_nameless(message.text) or is_past and known.take_nameless(message.words())
        if message.moment is not None:
            known.show(message.id, message.moment)
        if not message.id:
            known.show_nameless(message.words())
        is_shown = is_past and (is_known or is_request(message.text))
        return None if is_shown else Showing(target, message.id, is_own, is_past)

    def conversation_of(self, message: Message) -> str:
        """That of a message which came as it was said."""
        is_mine = folded(message.nick) == folded(self.client.nick())
        return folded(message.target if is_channel(message.target) or is_mine else message.nick)

    def is_own(self, message: Message, conversation: str) -> bool:
        """In a private conversation, whatever isn't said by the other is one's own, whichever of one's nodes it was said at."""
        nick = folded(message.nick)
        is_private = not is_channel(conversation) and not conversation.startswith("$")
        return nick != conversation if is_private else self.is_own_nick(nick)

    def is_own_nick(self, nick: str) -> bool:
        nicks, mine = folded(self.client.own_nicks()).split(), folded(self.client.nick())
        if nicks:
            return nick == mine or nick in nicks
        stem = re.fullmatch(r"(.*?)[0-9_]*", mine)[1] or mine
        return nick == mine or re.fullmatch(re.escape(stem) + "[0-9_]*", nick) is not None

    # -- what is typed here

    def type(self, target: str, text: str) -> None:
        """The client shows what is typed in it by itself."""
        self.conversations.setdefault(folded(target), Conversation()).show_nameless(text)

    # -- read markers

    def leave(self, target: str) -> None:
        """What a conversation has shown has been read."""
        latest = self.latest(folded(target), -1)
        if self.is_attached and latest >= 0:
            self.client.send(f"MARKREAD {target} timestamp={time_of(latest)}")

    def is_read(self, target: str, words: List[str]) -> bool:
        """Whether the marker in `MARKREAD #a timestamp=2026-01-02T03:04:05.678Z` is behind all that was shown there."""
        moment = moment_of(words[1].partition("=")[2]) if len(words) > 1 else None
        return moment is not None and folded(target) == folded(words[0]) and moment >= self.latest(folded(target), -1)


# -- what is kept from one run of the client to the next


class Store:
    """A file with what was shown on each server, by its name."""

    def __init__(self, path: str):
        self.path, self.written = path, ""
        self.servers: Dict[str, dict] = {}
        # (there may be none, or one of an older version: then a day is asked for)
        with suppress(OSError, ValueError, KeyError, TypeError), open(path, encoding="utf-8") as file:
            self.servers = json.load(file)["servers"]

    def session(self, client: Client, name: str) -> Session:
        """The session with that server, as it was left."""
        held = self.servers.get(name, {})
        conversations = {target: Conversation(**it) for target, it in held.get("conversations", {}).items()}
        return Session(client, held.get("last"), conversations)

    def save(self, sessions: Dict[str, Session]) -> None:
        self.servers.update((name, self.held(it)) for name, it in sessions.items())
        text = json.dumps({"servers": self.servers}, separators=(",", ":"))
        if text == self.written:
            return
        with open(self.path + ".new", "w", encoding="utf-8") as file:
            file.write(text)
        os.replace(self.path + ".new", self.path)
        self.written = text

    def held(self, session: Session) -> dict:
        latest = sorted(session.conversations.items(), key=lambda it: it[1].latest)[-MOST_CONVERSATIONS:]
        kept = {target: it.held() for target, it in latest if it.latest >= 0}
        return {"last": session.window.last, "conversations": kept}


# -- WeeChat


class WeeChatClient(Client):
    """A server in WeeChat."""

    def __init__(self, server: str):
        self.server = server

    def send(self, line: str) -> None:
        weechat.command("", f"/quote -server {self.server} {line}")

    def nick(self) -> str:
        return weechat.info_get("irc_nick", self.server)

    def own_nicks(self) -> str:
        return weechat.config_get_plugin("own_nicks")

    def open_conversations(self) -> List[str]:
        return [target for target, _ in self.buffers()]

    def buffers(self) -> List[Tuple[str, str]]:
        """The channels and the private conversations, each with its buffer."""
        found, them = [], weechat.infolist_get("buffer", "", "irc.*")
        while weechat.infolist_next(them):
            buffer = weechat.infolist_pointer(them, "pointer")
            server, target = talk_of(buffer)
            if server == self.server:
                found.append((target, buffer))
        weechat.infolist_free(them)
        return found


def talk_of(buffer: str) -> Tuple[str, str]:
    """The server and the target of a buffer, both empty where it is no conversation."""
    if weechat.buffer_get_string(buffer, "localvar_type") not in ("channel", "private"):
        return "", ""
    return weechat.buffer_get_string(buffer, "localvar_server"), weechat.buffer_get_string(buffer, "localvar_channel")


def parsed(line: str) -> Dict[str, str]:
    return weechat.info_get_hashtable("irc_message_parse", {"message": line})


def words_of(line: str) -> List[str]:
    return parsed(line)["arguments"].replace(" :", " ").lstrip(":").split(" ")


class BufferLines:
    """The lines of a buffer of WeeChat, which adds a line at the end alone. What a line shows can be changed, though."""

    def __init__(self, buffer: str):
        self.line, self.data = weechat.hdata_get("line"), weechat.hdata_get("line_data")
        lines = weechat.hdata_pointer(weechat.hdata_get("buffer"), buffer, "own_lines")
        self.last = weechat.hdata_pointer(weechat.hdata_get("lines"), lines, "last_line")

    def data_of(self, line: str) -> str:
        return weechat.hdata_pointer(self.line, line, "data")

    def tags(self, line: str) -> List[str]:
        data = self.data_of(line)
        count = weechat.hdata_get_var_array_size(self.data, data, "tags_array")
        return [weechat.hdata_string(self.data, data, f"{number}|tags_array") for number in range(count)]

    def moment(self, line: str) -> int:
        """The message's own, to the millisecond where the line has it."""
        for tag in self.tags(line):
            if tag.startswith("irc_tag_time_"):
                return moment_of(tag[len("irc_tag_time_"):]) or 0
        return weechat.hdata_time(self.data, self.data_of(line), "date") * 1000

    def content(self, line: str) -> Dict[str, str]:
        data = self.data_of(line)
        times = {name: str(weechat.hdata_time(self.data, data, name)) for name in ("date", "date_printed")}
        texts = {name: weechat.hdata_string(self.data, data, name) for name in ("prefix", "message")}
        return {**times, **texts, "tags_array": ",".join(self.tags(line))}

    def place_last(self) -> None:
        """Moves what the last line shows up to where its moment belongs."""
        moment, moved, line = self.moment(self.last), [self.last], self.last
        while True:
            line = weechat.hdata_pointer(self.line, line, "prev_line")
            if not line or self.moment(line) <= moment:
                break
            moved.append(line)
        contents = [self.content(it) for it in moved]
        if len(moved) > 1:
            for it, content in zip(moved, contents[1:] + contents[:1]):
                weechat.hdata_update(self.data, self.data_of(it), content)


class WeeChatScript:
    """The script in WeeChat: each method on_.. is called by that name."""

    def __init__(self) -> None:
        self.store = Store(os.path.join(weechat.info_get("weechat_data_dir", ""), "bnc_history.json"))
        self.sessions: Dict[str, Session] = {}
        # the message that WeeChat is about to show
        self.showing: Optional[Showing] = None
        # the conversation that is looked at
        self.shown: Tuple[str, str] = ("", "")

    def begin(self) -> None:
        if not weechat.config_is_set_plugin("own_nicks"):
            weechat.config_set_plugin("own_nicks", "")
        weechat.config_set_desc_plugin("own_nicks", "the nicks of your nodes; empty: the connection's own, with other digits")
        for command in ("PRIVMSG", "NOTICE"):
            weechat.hook_modifier(f"irc_in2_{command}", "on_message", "")
            weechat.hook_signal(f"*,irc_out_{command}", "on_typed", "")
        for command in ("BATCH", "CHATHISTORY", "FAIL", "MARKREAD"):
            weechat.hook_modifier(f"irc_in2_{command}", f"on_{command.lower()}", "")
        weechat.hook_signal("*,irc_in2_005", "on_welcome", "")
        weechat.hook_signal("*,irc_raw_in2_cap", "on_cap", "")
        weechat.hook_signal("*,irc_in2_join", "on_join", "")
        weechat.hook_signal("irc_server_disconnected", "on_gone", "")
        weechat.hook_signal("buffer_switch", "on_switch", "")
        weechat.hook_line("formatted", "irc.*", "irc_privmsg,irc_notice", "on_line", "")
        weechat.hook_print("", "irc_privmsg,irc_notice", "", 0, "on_shown", "")
        weechat.hook_timer(MINUTE, 0, 0, "on_minute", "")
        weechat.hook_command("bnc_history", "shows what was said since then and wasn't shown",
                             "90m || 12h || 3d || 2w || time || all", "", "", "on_command", "")

    def attached(self, server: str) -> Optional[Session]:
        it = self.sessions.get(server)
        return it if it and it.is_attached else None

    # -- a session with a node begins and ends

    def on_welcome(self, _, signal: str, line: str) -> int:
        """005: the server announces CHATHISTORY."""
        found, server = re.search(r" CHATHISTORY=(\d+)", line), signal.split(",")[0]
        if found:
            if server not in self.sessions:
                self.sessions[server] = self.store.session(WeeChatClient(server), server)
            self.sessions[server].limit = int(found[1]) or PAGE
            weechat.command("", f"/quote -server {server} CAP REQ :{WANTED}")
        return weechat.WEECHAT_RC_OK

    def on_cap(self, _, signal: str, line: str) -> int:
        """CAP ACK of what was asked for."""
        session = self.sessions.get(signal.split(",")[0])
        if session and not session.is_attached and f" ACK :{WANTED}" in line:
            session.attach()
        return weechat.WEECHAT_RC_OK

    def on_join(self, _, signal: str, line: str) -> int:
        session, it = self.attached(signal.split(",")[0]), parsed(line)
        if session and it["nick"] == session.client.nick():
            session.join(words_of(line)[0])
        return weechat.WEECHAT_RC_OK

    def on_gone(self, _, signal: str, server: str) -> int:
        if server in self.sessions:
            self.sessions[server].detach()
        return weechat.WEECHAT_RC_OK

    def on_minute(self, _, left: int) -> int:
        for it in self.sessions.values():
            it.minute()
        return self.save()

    def save(self) -> int:
        self.store.save(self.sessions)
        return weechat.WEECHAT_RC_OK

    def on_command(self, _, buffer: str, words: str) -> int:
        session = self.attached(weechat.buffer_get_string(buffer, "localvar_server"))
        if not session or not session.want(words.strip()):
            usage = "in a buffer of a bnc, with 90m, 12h, 3d, 2w, a time, or all"
            weechat.prnt(buffer, f"{weechat.prefix('error')}bnc_history: {usage}")
        return weechat.WEECHAT_RC_OK

    # -- what the node says of the past: nothing of it is shown

    def on_batch(self, _, modifier: str, server: str, line: str) -> str:
        session = self.attached(server)
        if session:
            session.hear_batch(words_of(line))
        return "" if session else line

    def on_chathistory(self, _, modifier: str, server: str, line: str) -> str:
        session = self.attached(server)
        if session:
            session.hear_target(words_of(line))
        return "" if session else line

    def on_fail(self, _, modifier: str, server: str, line: str) -> str:
        session, words = self.attached(server), words_of(line)
        return "" if session and words[0] == "CHATHISTORY" and session.hear_refusal(words) else line

    def on_markread(self, _, modifier: str, server: str, line: str) -> str:
        """What another device has read to its end leaves the hotlist."""
        session = self.attached(server)
        if not session:
            return line
        for target, buffer in session.client.buffers():
            if session.is_read(target, words_of(line)):
                weechat.buffer_set(buffer, "unread", "")
                weechat.buffer_set(buffer, "hotlist", "-1")
        return ""

    # -- messages

    def on_message(self, _, modifier: str, server: str, line: str) -> str:
        """Any message, live or of a page."""
        # (also before the script holds its capabilities)
        session, it = self.sessions.get(server), parsed(line)
        self.showing = None
        if not session or not it["nick"]:
            return line
        message = Message(it["nick"], it["channel"], it["text"], it.get("tag_msgid", ""), moment_of(it.get("tag_time", "")),
                          it.get("tag_batch", ""))
        self.showing = session.hear(message)
        if not self.showing:
            return ""
        if self.showing.is_own and not is_channel(self.showing.conversation):
            # (WeeChat files what its own nick said under whom it was said to)
            return re.sub(r"^((?:@\S+ )?:)[^! ]+", lambda found: found[1] + session.client.nick(), line)
        return line

    def is_showing(self, tags: str) -> bool:
        """Whether a line with these tags is the message that the script heard last."""
        return self.showing is not None and f"irc_tag_msgid_{self.showing.id}" in tags.split(",")

    def on_line(self, _, line: Dict[str, str]) -> Dict[str, str]:
        """A message is about to be shown: one's own highlights nothing."""
        return {"highlight": "0"} if self.is_showing(line["tags"]) and self.showing.is_own else {}

    def on_shown(self, _, buffer: str, date: str, tags: str, *more: str) -> int:
        """A message is shown: one of a page gets its place."""
        if self.is_showing(tags) and self.showing.is_past:
            BufferLines(buffer).place_last()
        self.showing = None
        return weechat.WEECHAT_RC_OK

    def on_typed(self, _, signal: str, line: str) -> int:
        """A message was typed here. Where it waited to be sent, it comes with the end of its line."""
        session, it = self.sessions.get(signal.split(",")[0]), parsed(line.rstrip("\r\n"))
        if session:
            for target in it["channel"].split(","):
                session.type(target, it["text"])
        return weechat.WEECHAT_RC_OK

    def on_switch(self, _, signal: str, buffer: str) -> int:
        """Another buffer is shown: the one before has been read."""
        session = self.attached(self.shown[0])
        if session:
            session.leave(self.shown[1])
        self.shown = talk_of(buffer)
        return weechat.WEECHAT_RC_OK


ABOUT = "asks a bnc for what was missed, and sets read markers"
if weechat.register("bnc_history", "bnc", "2", "as the repository", ABOUT, "save", ""):
    script = WeeChatScript()
    # (WeeChat calls functions of this file by their names)
    globals().update((name, getattr(script, name)) for name in dir(script) if name.startswith("on_") or name == "save")
    script.begin()
