"""A node's status as a page for a browser."""

from collections.abc import Iterable, Iterator
from datetime import datetime
from html import escape

from bnc_tools.commands import counted
from bnc_tools.node_status import NodeStatus
from bnc_tools.processes import Process

HEAD = """<!DOCTYPE html>
<html lang="en">
<meta charset="utf-8">
<meta http-equiv="refresh" content="60">
<meta name="viewport" content="width=device-width">
<title>bnc: {title}</title>
<style>
:root {{ color-scheme: light dark; }}
body {{ font: 16px/1.5 system-ui, sans-serif; margin: 2em auto; max-width: 52em; padding: 0 1em; }}
h1 {{ font-size: 1.4em; }}
h2 {{ font-size: 1.1em; margin: 1.6em 0 .3em; }}
table {{ border-collapse: collapse; width: 100%; }}
td, th {{ border-bottom: 1px solid #8886; padding: .25em .8em .25em 0; text-align: left; vertical-align: top; }}
.good {{ color: #1a7f37; }}
.bad {{ color: #cf222e; font-weight: 600; }}
footer {{ color: #888; font-size: .85em; margin-top: 2em; }}
</style>
"""
MEGABYTE = 1024 * 1024

Row = Iterable[str]


def page(status: NodeStatus, process: Process | None, title: str, now: datetime) -> str:
    """The page."""
    parts = [
        HEAD.format(title=escape(title)),
        f"<h1>bnc: {escape(title)} {mark(process is not None, 'runs', 'does not run')}</h1>\n",
        *section("Networks", ("network", "state", "since", "what was told"), network_rows(status)),
        *section("Peers", ("peer", "connection", "level since"), peer_rows(status)),
        *section("Clients", ("what", "how many"), client_rows(status)),
        *section("Program", ("what", "how much"), program_rows(status, process)),
        f"<footer>As the journal had it at {moment(now)}.</footer>\n</html>\n",
    ]
    return "".join(parts)


def section(title: str, heads: Row, rows: Iterable[Row]) -> Iterator[str]:
    """A table under a title. The cells are HTML."""
    yield f"<h2>{title}</h2>\n<table>\n<tr>{''.join(f'<th>{head}</th>' for head in heads)}</tr>\n"
    for row in rows:
        yield f"<tr>{''.join(f'<td>{cell}</td>' for cell in row)}</tr>\n"
    yield "</table>\n"


def mark(is_good: bool, good: str, bad: str) -> str:
    return f'<span class="{"good" if is_good else "bad"}">{good if is_good else bad}</span>'


def moment(at: datetime) -> str:
    return at.strftime("%Y-%m-%d %H:%M:%S UTC")


def network_rows(status: NodeStatus) -> Iterator[Row]:
    for name, it in sorted(status.networks.items()):
        yield escape(name), mark(it.is_up, "up", "down"), moment(it.since), escape(it.words)


def peer_rows(status: NodeStatus) -> Iterator[Row]:
    peers = status.peers
    for name in sorted(peers.peers()):
        connection = mark(name in peers.connected, "connected", "down")
        level = moment(peers.level[name]) if name in peers.level else mark(False, "", "not yet")
        yield escape(name), connection, mark(False, "", "a clock is behind") if name in peers.behind else level


def client_rows(status: NodeStatus) -> Iterator[Row]:
    yield "registered clients", str(status.clients)
    for reason, count in sorted(status.clients_refused.items()):
        yield f"clients refused: {escape(reason)}", str(count)
    for reason, count in sorted(status.peers_refused.items()):
        yield f"peers refused: {escape(reason)}", str(count)


def program_rows(status: NodeStatus, process: Process | None) -> Iterator[Row]:
    if status.started:
        yield "started", f"{moment(status.started)}; the journal has {counted(status.starts, 'start')}"
    yield "addresses", escape(status.listening)
    yield "connections closed for want of memory", str(status.closed_for_memory)
    yield "leaps of the clock", str(status.leaps)
    yield "lines of the log that were lost", str(status.lines_lost)
    if process:
        yield "memory", f"{process.resident // MEGABYTE} MB"
        yield "address space", bounded(process.addresses // MEGABYTE, limit_in(process.addresses_limit, MEGABYTE), " MB")
        yield "descriptors", bounded(process.descriptors, process.descriptors_limit, "")
        yield "processor time", f"{process.seconds:.1f} seconds"


def limit_in(limit: int | None, unit: int) -> int | None:
    return None if limit is None else limit // unit


def bounded(value: int, limit: int | None, unit: str) -> str:
    return f"{value}{unit}" + ("" if limit is None else f" of {limit}{unit}")
