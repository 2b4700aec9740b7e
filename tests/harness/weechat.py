"""Stands in for WeeChat: runs one of its Python scripts over a connection to a node. It knows as much of the program's interface
as examples/clients/bnc_history.py uses."""

import importlib.util
import re
import sys
import threading
import time
import types

from harness.chatting import NOW, Chatting, Shown

# (a script imports the one module `weechat` of the process as it is loaded)
_loading = threading.Lock()


def parsed(line):
    """The parts of a line, by the names that WeeChat gives them."""
    tags, source, command, arguments = re.fullmatch(r"(?:@(\S+) )?(?::(\S+) )?(\S+) ?(.*)", line).groups()
    found = {f"tag_{key}": value for key, _, value in (it.partition("=") for it in (tags or "").split(";") if it)}
    channel, _, text = arguments.partition(" ")
    return {**found, "nick": (source or "").partition("!")[0], "command": command, "arguments": arguments,
            "channel": channel.lstrip(":"), "text": text[1:] if text.startswith(":") else text}


class Line:
    """A line of a buffer."""

    def __init__(self, above, content):
        self.above, self.content = above, content


class Buffer:
    """A channel or a private conversation."""

    def __init__(self, name):
        self.name, self.last = name, None

    def add(self, content):
        self.last = Line(self.last, content)

    def lines(self):
        found, line = [], self.last
        while line:
            found.insert(0, line)
            line = line.above
        return found


class WeeChat(Chatting):
    """A script over one server, called bnc."""

    CALLS = ("register", "hook_signal", "hook_modifier", "hook_line", "hook_print", "hook_timer", "hook_command", "info_get",
             "info_get_hashtable", "infolist_get", "infolist_next", "infolist_pointer", "infolist_free", "command",
             "buffer_get_string", "buffer_set", "config_is_set_plugin", "config_set_plugin", "config_set_desc_plugin",
             "config_get_plugin", "hdata_get", "hdata_pointer", "hdata_get_var_array_size", "hdata_string", "hdata_time",
             "hdata_update", "prefix", "prnt")

    def __init__(self, script, folder, client, clock=NOW):
        super().__init__(client, clock)
        self.folder, self.nick, self.settings = folder, "al", {}
        self.signals, self.modifiers, self.hooks, self.printed = {}, {}, {}, []
        # what can't be changed of a line, by its text
        self.fixed = {}
        module = types.ModuleType("weechat")
        for name in self.CALLS:
            setattr(module, name, getattr(self, name))
        module.WEECHAT_RC_OK = 0
        with _loading:
            sys.modules["weechat"] = module
            try:
                spec = importlib.util.spec_from_file_location("bnc_history", script)
                self.script = importlib.util.module_from_spec(spec)
                sys.modules["bnc_history"] = self.script
                spec.loader.exec_module(self.script)
            finally:
                del sys.modules["weechat"]
        self.script.time = types.SimpleNamespace(time=lambda: self.clock / 1000, strftime=time.strftime, gmtime=time.gmtime)

    # -- what the script calls

    def register(self, *_):
        return True

    def hook_signal(self, name, call, _):
        self.signals[(name.partition(",")[2] or name).lower()] = call

    def hook_modifier(self, name, call, _):
        self.modifiers[name] = call

    def hook_line(self, _kind, _buffers, _tags, call, _):
        self.hooks["line"] = call

    def hook_print(self, _buffer, _tags, _message, _strip, call, _):
        self.hooks["print"] = call

    def hook_timer(self, _interval, _align, _most, call, _):
        self.hooks["timer"] = call

    def hook_command(self, _name, _about, _arguments, _described, _completed, call, _):
        self.hooks["command"] = call

    def info_get(self, name, _):
        return {"weechat_data_dir": self.folder, "irc_nick": self.nick}[name]

    def info_get_hashtable(self, _, words):
        return parsed(words["message"])

    def infolist_get(self, *_):
        return [None, *self.windows.values()]

    def infolist_next(self, them):
        them.pop(0)
        return bool(them)

    def infolist_pointer(self, them, _):
        return them[0]

    def infolist_free(self, _):
        pass

    def buffer_get_string(self, buffer, name):
        kind = "channel" if buffer.name.startswith("#") else "private"
        return {"localvar_type": kind, "localvar_server": "bnc", "localvar_channel": buffer.name}[name]

    def buffer_set(self, buffer, name, value):
        if (name, value) == ("hotlist", "-1"):
            self.read.append(buffer.name)

    def config_is_set_plugin(self, name):
        return name in self.settings

    def config_set_plugin(self, name, value):
        self.settings[name] = value

    def config_set_desc_plugin(self, *_):
        pass

    def config_get_plugin(self, name):
        return self.settings[name]

    def hdata_get(self, name):
        return name

    def hdata_pointer(self, _, it, name):
        named = {"last_line": "last", "prev_line": "above"}
        return getattr(it, named[name]) if name in named else it

    def hdata_get_var_array_size(self, _, line, _name):
        return len(line.content["tags_array"].split(","))

    def hdata_string(self, _, line, name):
        number, _, array = name.rpartition("|")
        return line.content[array].split(",")[int(number)] if number else line.content[array]

    def hdata_time(self, _, line, name):
        return int(line.content[name])

    def hdata_update(self, _, line, content):
        line.content.update(content)

    def prefix(self, _):
        return ""

    def prnt(self, _, text):
        self.printed.append(text)

    def command(self, *words):
        """The script calls it with a buffer and a command; a person types /bnc_history."""
        if len(words) == 2:
            self.say(words[1].replace("/quote -server bnc ", "", 1))
        else:
            self.call(self.hooks["command"], self.window("#a"), words[0])
            self.settle()

    # -- what the program does

    def call(self, name, *words):
        return getattr(self.script, name)("", *words)

    def signal(self, name, data):
        if name in self.signals:
            self.call(self.signals[name], f"bnc,{name}", data)

    def window(self, name):
        return self.windows.setdefault(name.lower(), Buffer(name))

    def hear(self, line):
        it = parsed(line)
        command = it["command"]
        modifier = self.modifiers.get(f"irc_in2_{command}")
        line = self.call(modifier, f"irc_in2_{command}", "bnc", line) if modifier else line
        if not line:
            return
        if command in ("BATCH", "CHATHISTORY", "MARKREAD"):
            self.raw.append(line)
        if command == "001":
            self.nick = it["channel"]
        if command == "JOIN" and it["nick"] == self.nick:
            self.window(it["channel"])
        for name in (f"irc_in2_{command.lower()}", f"irc_raw_in2_{command.lower()}"):
            self.signal(name, line)
        if command in ("PRIVMSG", "NOTICE"):
            self.show(parsed(line))

    def show(self, it):
        """Shows a message, as WeeChat does: what the own nick says to another under that one's name."""
        is_own = it["nick"] == self.nick
        buffer = self.window(it["channel"] if it["channel"].startswith("#") or is_own else it["nick"])
        is_named = not is_own and (buffer.name == it["nick"] or self.nick in it["text"])
        tags = ["irc_privmsg", *(f"irc_tag_{key[4:]}_{value}" for key, value in it.items() if key.startswith("tag_"))]
        changed = self.call(self.hooks["line"], {"highlight": str(int(is_named)), "tags": ",".join(tags)})
        is_highlight = changed.get("highlight", str(int(is_named))) == "1"
        self.fixed[it["text"]] = Shown(it.get("tag_time", ""), it["nick"], it["text"], is_own, is_highlight)
        buffer.add({"date": str(self.clock // 1000), "date_printed": str(self.clock // 1000), "tags_array": ",".join(tags),
                    "prefix": it["nick"], "message": it["text"]})
        self.call(self.hooks["print"], buffer, "", ",".join(tags), 1, 0, it["nick"], it["text"])

    def lines(self, window):
        """As they stand."""
        return [self.fixed[it.content["message"]] for it in self.window(window).lines()]

    def minute(self):
        self.call(self.hooks["timer"], 0)

    def type(self, target, text):
        line = f"PRIVMSG {target} :{text}"
        self.client.say(line)
        # (this is how WeeChat says it of a line that had to wait for its turn)
        self.signal("irc_out_privmsg", f"{line}\r\n")
        self.show({"nick": self.nick, "channel": target, "text": text})
        return self.settle()

    def set_own_nicks(self, nicks):
        self.settings["own_nicks"] = nicks

    def leave(self, window):
        for name in (window, "elsewhere"):
            self.call(self.signals["buffer_switch"], "buffer_switch", self.window(name))
        self.settle()

    def disconnected(self):
        self.call(self.signals["irc_server_disconnected"], "irc_server_disconnected", "bnc")
        self.script.save()
