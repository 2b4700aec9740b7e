"""A node's status as a text file of Prometheus (its exposition format, version 0.0.4)."""

from collections.abc import Iterable, Iterator
from datetime import datetime

from bnc_tools.node_status import NodeStatus
from bnc_tools.processes import Process

Sample = tuple[dict[str, str], float]


def metric(name: str, kind: str, about: str, samples: Iterable[Sample]) -> Iterator[str]:
    """The lines of a metric; none where it has no sample."""
    lines = [f"{name}{labelled(labels)} {value:.15g}" for labels, value in samples]
    if lines:
        yield from (f"# HELP {name} {about}", f"# TYPE {name} {kind}", *lines)


def labelled(labels: dict[str, str]) -> str:
    return "{" + ",".join(f'{name}="{escaped(value)}"' for name, value in labels.items()) + "}" if labels else ""


def escaped(value: str) -> str:
    return value.replace("\\", "\\\\").replace('"', '\\"').replace("\n", "\\n")


def plain(value: float | None) -> list[Sample]:
    return [] if value is None else [({}, value)]


def seconds(at: datetime | None) -> float | None:
    return at.timestamp() if at else None


def network_labels(name: str) -> dict[str, str]:
    account, _, network = name.partition("/")
    return {"account": account, "network": network}


def network_metrics(status: NodeStatus) -> Iterator[str]:
    them = [(network_labels(name), it) for name, it in sorted(status.networks.items())]
    yield from metric("bnc_network_up", "gauge", "Whether the session with the network's server is up.",
                      ((labels, it.is_up) for labels, it in them))
    yield from metric("bnc_network_changed_timestamp_seconds", "gauge", "Since when it is up, or down.",
                      ((labels, it.since.timestamp()) for labels, it in them))
    yield from metric("bnc_network_downs_total", "counter", "How often it ended or could not begin since the node started.",
                      ((labels, it.downs) for labels, it in them))


def peer_metrics(status: NodeStatus) -> Iterator[str]:
    peers = status.peers
    names = sorted(peers.peers())
    yield from metric("bnc_peer_connected", "gauge", "Whether there is a connection with the peer, which was greeted.",
                      (({"peer": it}, it in peers.connected) for it in names))
    yield from metric("bnc_peer_level", "gauge", "Whether each of the two has had what the other had, since the node started.",
                      (({"peer": it}, it in peers.level) for it in names))
    yield from metric("bnc_peer_level_timestamp_seconds", "gauge", "When that was so for the first time.",
                      (({"peer": it}, at.timestamp()) for it, at in sorted(peers.level.items())))
    yield from metric("bnc_peer_behind", "gauge", "Whether one of the two has a clock that is behind an earlier start.",
                      (({"peer": it}, it in peers.behind) for it in names))


def refusals(status: NodeStatus) -> Iterator[str]:
    for who, them in (("clients", status.clients_refused), ("peers", status.peers_refused)):
        about = f"Connections of {who} that were refused since the node started."
        yield from metric(f"bnc_{who}_refused_total", "counter", about,
                          (({"reason": reason}, count) for reason, count in sorted(them.items())))


def process_metrics(process: Process) -> Iterator[str]:
    yield from metric("bnc_memory_resident_bytes", "gauge", "Memory that the program has.", plain(process.resident))
    yield from metric("bnc_memory_addresses_bytes", "gauge", "Its address space, which LimitAS= bounds.",
                      plain(process.addresses))
    yield from metric("bnc_memory_addresses_limit_bytes", "gauge", "That bound.", plain(process.addresses_limit))
    yield from metric("bnc_descriptors", "gauge", "Its descriptors.", plain(process.descriptors))
    yield from metric("bnc_descriptors_limit", "gauge", "Their bound.", plain(process.descriptors_limit))
    yield from metric("bnc_threads", "gauge", "Its threads.", plain(process.threads))
    yield from metric("bnc_processor_seconds_total", "counter", "Processor time that it took.", plain(process.seconds))


def lines_of(status: NodeStatus, process: Process | None) -> Iterator[str]:
    """All lines of the file."""
    yield from metric("bnc_up", "gauge", "Whether the program runs.", plain(process is not None))
    yield from metric("bnc_start_time_seconds", "gauge", "When the node's present life began.", plain(seconds(status.started)))
    yield from metric("bnc_starts", "gauge", "How many starts the journal has.", plain(status.starts))
    yield from network_metrics(status)
    yield from peer_metrics(status)
    yield from metric("bnc_clients", "gauge", "Registered clients.", plain(status.clients))
    yield from refusals(status)
    yield from metric("bnc_closed_for_memory_total", "counter", "Connections that were closed for want of memory.",
                      plain(status.closed_for_memory))
    yield from metric("bnc_clock_leaps_total", "counter", "How often the clock leapt.", plain(status.leaps))
    yield from metric("bnc_log_lines_lost_total", "counter", "Lines of the log that were lost, so that all this may be wrong.",
                      plain(status.lines_lost))
    if process:
        yield from process_metrics(process)


def text_of(status: NodeStatus, process: Process | None) -> str:
    return "".join(f"{line}\n" for line in lines_of(status, process))
