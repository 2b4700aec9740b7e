"""The words of the program, and its status for wrong ones (docs/OPERATING.md, the table of statuses)."""

from harness.registry import add, test

USAGE = b"usage: bnc replay <account> <network> <nick> | bnc serve <config>\n"

# Commands that are none, or have too few or too many words; and names that no change may have (docs/PROTOCOL.md, "Changes").
REFUSED = (
    "", "replay", "replay demo", "replay demo net", "replay demo net al more", "Replay demo net al", "serve", "serve a b",
    "Serve bnc.toml", "help", "--help", "replay Demo net al", "replay demo n.t al", "replay demo net a,l", "replay demo net *",
    "replay demo net :al", f"replay {'a' * 33} net al", f"replay demo {'a' * 33} al", f"replay demo net {'a' * 201}",
)


def refused(row):
    return lambda fixture: fixture.run(*row.split()).expect(2, b"", USAGE)


for row in REFUSED:
    add(f"words: refused: {row[:40] or '(none)'}", refused(row))


@test
def an_empty_word_is_refused(fixture):
    """An account has 1 to 32 bytes."""
    fixture.run("replay", "", "net", "al").expect(2, b"", USAGE)


@test
def a_word_that_is_not_text_is_refused(fixture):
    """Status 2 is that of a word that isn't text, too."""
    fixture.run("replay", "demo", "net", b"al\xff").expect(2, b"", USAGE)
    fixture.run("serve", b"\xc3\x28.toml").expect(2, b"", USAGE)


@test
def the_longest_names_are_accepted(fixture):
    """An account and a network have up to 32 bytes, a nick up to 200."""
    account, network, nick = "a" * 32, "-_09" * 8, "n" * 200
    ran = fixture.run("replay", account, network, nick, given=b"x\n")
    ran.expect(0, f":bnc.example NOTICE {nick} :Not connected to {network}\r\n".encode())


@test
def names_are_those_of_the_session(fixture):
    """`./bnc replay demo net al` answers for that account, on that network, with that nick (docs/PROTOCOL.md, "A script")."""
    script = b"C MARK demo net #a 5000\nC MARK eve net #a 7000\nC MARK demo two #a 8000\nMARKREAD #a\nCAP LIST\n"
    ran = fixture.run("replay", "eve", "net", "bob", given=script)
    ran.expect(0, (
        b":bnc.example MARKREAD #a timestamp=1970-01-01T00:00:07.000Z\r\n"
        b":bnc.example CAP bob LIST :batch draft/chathistory draft/message-redaction draft/read-marker echo-message "
        b"message-tags server-time\r\n"
    ))
