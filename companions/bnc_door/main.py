"""Begins a door."""

from functools import partial

from bnc_door.door import Door
from bnc_door.node import serve_node
from bnc_door.reserve import Watch
from bnc_door.settings import Settings, read_settings
from bnc_wire.journal import log
from bnc_wire.listener import Bounds, Listener, listening_socket
from bnc_wire.service import run
from bnc_wire.tasks import first_ended

ABOUT = """\
Keeps one session with an IRC network for all nodes of a bnc cluster, which dial it as the network's server. It gives
them message-tags, server-time, echo-message and one id for each message; TLS, SASL, channel keys and a nick that is
regained are between it and the network. A second door can stand in reserve."""
# The most connections of nodes and doors.
PLACES = 64


async def serve(settings: Settings) -> None:
    """Serves until it is cancelled."""
    door, nodes = Door(settings), settings.nodes
    listener = Listener(listening_socket(nodes.listen), Bounds(PLACES, PLACES, nodes.allow), partial(serve_node, door),
                        "node", nodes.tls)
    log(f"listening: nodes on {nodes.listen}{' by TLS' if nodes.tls else ''}")
    calls = [listener.run(), door.keep()]
    if settings.reserve:
        calls.append(Watch(door, settings.reserve).run())
    else:
        door.go_in()
    try:
        await first_ended(*calls)
    finally:
        await door.go_out()


def main() -> None:
    run(ABOUT, read_settings, serve)
