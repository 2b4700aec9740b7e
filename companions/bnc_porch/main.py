"""Begins a porch."""

import asyncio

from bnc_porch.client import StreamClient
from bnc_porch.porch import Porch
from bnc_porch.settings import WEBSOCKET, Entrance, Settings, read_settings
from bnc_porch.websocket import WebSocketClient, library
from bnc_wire.journal import log
from bnc_wire.listener import Bounds, Listener, listening_socket, source_of
from bnc_wire.service import run
from bnc_wire.tasks import first_ended

ABOUT = """\
Stands in front of a bnc node for clients that can't say `PASS secret` and `USER account/network`: it takes SASL PLAIN,
ZNC's `PASS account/network:secret`, soju's `account/network@client`, TLS and WebSocket. Once a client is let in, it only
carries bytes."""


def listener_at(porch: Porch, entrance: Entrance) -> Listener:
    """What takes clients in at an entrance."""
    kind: type[StreamClient] | type[WebSocketClient] = WebSocketClient if entrance.kind == WEBSOCKET else StreamClient

    async def serve(reader: asyncio.StreamReader, writer: asyncio.StreamWriter, name: str) -> None:
        source = name if is_proxied else source_of(writer.get_extra_info("peername")[0])
        await porch.serve(kind(reader, writer, name), source)

    # (behind a proxy all have its address, which says nothing of them)
    is_proxied, settings = entrance.tls is None, porch.settings
    bounds = Bounds(settings.places, settings.places if is_proxied else settings.each)
    return Listener(listening_socket(entrance.listen), bounds, serve, "client", entrance.tls)


async def serve(settings: Settings) -> None:
    """Serves until it is cancelled."""
    porch = Porch(settings)
    if any(it.kind == WEBSOCKET for it in settings.entrances):
        library()
    listeners = [listener_at(porch, it) for it in settings.entrances]
    for it in settings.entrances:
        how = ["TLS" if it.tls else "no TLS", *(["WebSocket"] if it.kind == WEBSOCKET else [])]
        log(f"listening: clients on {it.listen} by {' and '.join(how)}")
    await first_ended(*(it.run() for it in listeners))


def main() -> None:
    run(ABOUT, read_settings, serve)
