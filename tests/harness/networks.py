"""IRC servers of a test that speak TLS, and log in by SASL."""

import base64
import ssl

from harness.service import certificate
from harness.connection import Connection
from harness.failure import Failed, expect
from harness.server import Server


class TlsConnection(Connection):
    """A connection over TLS, whose end is one however it came."""

    def receive(self, most=65536):
        try:
            return super().receive(most)
        except ssl.SSLError:
            return b""


def server_context(name="server", authority=None):
    """For who takes connections in. Where an authority is named, certificates of others are asked for."""
    context = ssl.SSLContext(ssl.PROTOCOL_TLS_SERVER)
    context.load_cert_chain(certificate(name))
    if authority:
        context.verify_mode = ssl.CERT_REQUIRED
        context.load_verify_locations(certificate(authority))
    return context


def client_context(name=None):
    """For who connects to `localhost`, maybe with a certificate."""
    context = ssl.create_default_context(cafile=certificate("authority"))
    if name:
        context.load_cert_chain(certificate(name))
    return context


class TlsServer(Server):
    """A network that speaks TLS."""

    def __init__(self, fixture, **how):
        super().__init__(fixture)
        self.context = server_context(**how)

    def accept(self, name):
        plain = super().accept(name)
        plain.socket.settimeout(self.fixture.patience())
        try:
            it = self.context.wrap_socket(plain.socket, server_side=True)
        except OSError as error:
            # (of TLS, or of the system where the other end is gone already)
            raise Failed(f"{name}: no TLS: {error}") from None
        return TlsConnection(self.fixture, it, name)

    def logged_in(self, mechanism, answer, offers=""):
        """Takes in a session that logs in, and hears exactly this answer of SASL."""
        session = self.greeted()
        names = f"{offers} sasl={mechanism}".strip()
        session.say(f":irc.example CAP * LS :{names}")
        if offers:
            session.hear(f"CAP REQ :{offers}")
        session.hear("CAP REQ :sasl")
        if offers:
            session.say(f":irc.example CAP * ACK :{offers}")
        session.say(":irc.example CAP * ACK :sasl")
        session.hear(f"AUTHENTICATE {mechanism}")
        session.say("AUTHENTICATE +")
        expect("the answer of SASL", answer, self.sasl_answer(session))
        return session

    @staticmethod
    def sasl_answer(session):
        """The answer in its parts of 400 bytes (IRCv3 sasl-3.1)."""
        whole = ""
        while True:
            command, _, part = session.line("AUTHENTICATE ..").partition(" ")
            expect("a part of the answer of SASL", "AUTHENTICATE", command)
            whole += "" if part == "+" else part
            if len(part) < 400:
                return base64.b64decode(whole)
