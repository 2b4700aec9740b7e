"""Who the accounts, the networks and the clusters of the tests are. No two accounts have one secret, no two networks one nick, user
or channel, and no two clusters one word. So a program that takes one of them for another fails."""

# The accounts, with their secrets, which have one length.
SECRETS = {"demo": "s3cret", "eve": "hunter"}
# The word of the cluster, and that of another cluster. They have one length too.
WORD, OTHER_WORD = "green", "olive"
# The bytes that a user name has at most, as a nick.
LONGEST = 200


class Identity:
    """What a node's configuration says of a network: the nick, the user, and the channels that it joins."""

    def __init__(self, nick, channels=(), user=None):
        self.nick, self.channels = nick, tuple(channels)
        self.user = user or user_of(nick)


def user_of(nick):
    """The name of the user with that nick, which is another one."""
    return f"u-{nick}"[:LONGEST]


# That of the configurations of examples/ and of the package, as their servers hear it.
EXAMPLE = Identity("al", user="al")


# Each network of each account. (A test names the channels of the first one, where it is to have some.)
NETWORKS = {
    ("demo", "net"): Identity("al"),
    ("demo", "two"): Identity("bea", ["#two"]),
    ("eve", "net"): Identity("cleo", ["#eve"]),
}


def identity_of(account, network):
    """The identity that an account has on a network. That of names which stand in one test alone is the first one's."""
    return NETWORKS.get((account, network), NETWORKS["demo", "net"])
