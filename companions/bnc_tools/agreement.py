"""What the configurations of one cluster have to agree on, and what no node can see by its own."""

from collections.abc import Callable, Iterator
from dataclasses import dataclass

from bnc_tools.addresses import numbers_of, read_address
from bnc_tools.channels import is_channel
from bnc_tools.configuration import Configuration, Network

# What the examples and the package have as secrets, which anybody can read.
EXAMPLE_SECRETS = ("s3cret", "green")


@dataclass(frozen=True)
class Finding:
    """What was found in a file. It is a fault, or only to be known."""
    file: str
    words: str
    is_fault: bool = True

    def __str__(self) -> str:
        return f"{self.file}: {self.words}"


Nodes = list[Configuration]


def names_twice(nodes: Nodes) -> Iterator[Finding]:
    """A cluster has one node of each name."""
    seen: dict[str, str] = {}
    for node in nodes:
        if not node.node:
            yield Finding(node.file, "`node`, the node's name, is missing")
        elif node.node in seen:
            yield Finding(node.file, f"the node's name {node.node} is also that of {seen[node.node]}")
        seen.setdefault(node.node, node.file)


def one_sided_peers(nodes: Nodes) -> Iterator[Finding]:
    """A peer has to name the node too; else it refuses its connections."""
    by_name = {it.node: it for it in nodes}
    for node in nodes:
        for peer in sorted(node.peer_names()):
            other = by_name.get(peer)
            if other is None:
                yield Finding(node.file, f"its peer {peer} is in none of these files, and wasn't looked at", False)
            elif node.node not in other.peer_names():
                yield Finding(other.file, f"{node.node} has {peer} as a peer, and {peer} hasn't {node.node}")
        if len(nodes) > 1 and not node.peers:
            yield Finding(node.file, f"{node.node} has no peers, so nothing fills it when it starts again")


def differing(what: str, value: Callable[[Configuration], object], why: str) -> Callable[[Nodes], Iterator[Finding]]:
    """A check that all nodes have one value. The value isn't told, since it may be a secret."""

    def check(nodes: Nodes) -> Iterator[Finding]:
        for node in nodes[1:]:
            if value(node) != value(nodes[0]):
                yield Finding(node.file, f"{what} is another than in {nodes[0].file}: {why}")

    return check


def differing_accounts(nodes: Nodes) -> Iterator[Finding]:
    """A user can move from node to node only where each has the account, with one secret and the same networks."""
    for account in sorted({it.name for node in nodes for it in node.accounts}):
        first = next(node for node in nodes if node.account(account))
        for node in nodes:
            here, there = node.account(account), first.account(account)
            if here is None:
                yield Finding(node.file, f"there is no account {account}, which {first.file} has")
            elif there and here.secret != there.secret:
                yield Finding(node.file, f"the account {account} has another secret than in {first.file}")


def differing_networks(nodes: Nodes) -> Iterator[Finding]:
    for account, name in sorted({(it.account, it.name) for node in nodes for it in node.networks}):
        first = next(node for node in nodes if node.network(account, name))
        for node in nodes:
            here, there = node.network(account, name), first.network(account, name)
            if here is None and node.account(account):
                yield Finding(node.file, f"the account {account} has no network {name}, which it has in {first.file}")
            elif here and there and set(here.channels) != set(there.channels):
                yield Finding(node.file, f"the channels of {account}/{name} are others than in {first.file}")


def open_secrets(nodes: Nodes) -> Iterator[Finding]:
    for node in nodes:
        if node.peer_word in EXAMPLE_SECRETS or not node.peer_word:
            yield Finding(node.file, f"`peer_word` is {kind_of_secret(node.peer_word)}")
        for account in node.accounts:
            if account.secret in EXAMPLE_SECRETS or not account.secret:
                yield Finding(node.file, f"the secret of the account {account.name} is {kind_of_secret(account.secret)}")


def kind_of_secret(secret: str) -> str:
    return "that of the examples" if secret else "empty"


def plain_channels(nodes: Nodes) -> Iterator[Finding]:
    for node in nodes:
        for network in node.networks:
            for channel in network.channels:
                if not is_channel(channel):
                    yield Finding(node.file, f"the channel {channel!r} of {named(network)} has no prefix: maybe '#{channel}'")


def named(network: Network) -> str:
    return f"{network.account}/{network.name}"


def addresses(node: Configuration) -> Iterator[tuple[str, str]]:
    """Each address of a configuration, with what it is of."""
    yield "`listen`", node.listen
    yield "`peer_listen`", node.peer_listen
    for peer in node.peers:
        yield f"the address of the peer {peer.name}", peer.address
    for network in node.networks:
        yield f"the address of {named(network)}", network.address


def host_names(nodes: Nodes) -> Iterator[Finding]:
    for node in nodes:
        for what, spelled in addresses(node):
            words = fault_of_address(spelled)
            if words:
                yield Finding(node.file, f"{what} {words}")


def fault_of_address(spelled: str) -> str | None:
    """What is wrong with an address, or nothing."""
    address = read_address(spelled)
    if address is None:
        return "is no IP address with a port, as 192.0.2.1:7000 or [2001:db8::1]:7000"
    if address.is_number():
        return None
    numbers = numbers_of(address)
    hint = f"it stands for {' and '.join(numbers)} now" if numbers else "nobody knows that name now"
    return f"has the host name {address.host}, and the program looks up no names: {hint}"


CHECKS: tuple[Callable[[Nodes], Iterator[Finding]], ...] = (
    names_twice,
    one_sided_peers,
    differing("`peer_word`", lambda it: it.peer_word, "such nodes refuse each other"),
    differing("`name`, the cluster's,", lambda it: it.cluster, "clients are told that they are on another server"),
    differing("`retain_days`", lambda it: it.retain_days, "the least number above 0 counts for all nodes"),
    differing_accounts,
    differing_networks,
    open_secrets,
    plain_channels,
    host_names,
)


def findings(nodes: Nodes) -> list[Finding]:
    """All that is found in these configurations, by what was looked for and then in their order."""
    return [finding for check in CHECKS for finding in check(nodes)]
