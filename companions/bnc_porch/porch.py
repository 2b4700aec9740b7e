"""The porch: it hears a client until it knows who it is, opens its session at a node, and then only carries bytes."""

import asyncio

from bnc_porch.client import PIECE, Client
from bnc_porch.guard import Guard
from bnc_porch.identity import Identity, Unknown
from bnc_porch.login import NAME, Login
from bnc_porch.node import NotLetIn, Session, WrongSecret, open_session
from bnc_porch.settings import Settings
from bnc_wire.journal import Often, log
from bnc_wire.message import read_message
from bnc_wire.settings import reason_of
from bnc_wire.tasks import first_ended

# How long a client has to say who it is, and how many wrong secrets one connection has.
HELLO, TRIES = 60, 3


class Left(Exception):
    """The client ended before it was let in."""


class Porch:
    """Lets clients in."""

    def __init__(self, settings: Settings) -> None:
        self.settings, self.guard, self.refused = settings, Guard(), Often("client refused")

    async def serve(self, client: Client, source: str) -> None:
        """Serves a client to its end."""
        try:
            async with asyncio.timeout(HELLO):
                session = await self._let_in(client, source)
        except TimeoutError:
            await self._refuse(client, "you did not say in time who you are")
        except (NotLetIn, Unknown) as why:
            await self._refuse(client, str(why))
        except (OSError, Left) as why:
            self.refused.log(f"{client.name}: {reason_of(why)}")
        else:
            await self._carry(client, session)

    async def _refuse(self, client: Client, why: str) -> None:
        self.refused.log(f"{client.name}: {why}")
        try:
            async with asyncio.timeout(HELLO):
                await client.say(f":{NAME} 464 * :Password incorrect: {why}", f"ERROR :{why}")
        except (OSError, TimeoutError):
            pass

    # -- until it is let in

    async def _let_in(self, client: Client, source: str) -> Session:
        """Hears a client until it is complete, and answers its session at a node."""
        login, session, tries = Login(), None, 0
        try:
            while not login.is_complete:
                line = await client.line()
                if line is None:
                    raise Left("it left before it said who it is")
                message = read_message(line)
                if message is None:
                    continue
                if message.command == "QUIT":
                    raise Left("it left before it said who it is")
                await client.say(*login.hear(message))
                if login.check:
                    session, tries = await self._check(client, source, login, login.check, session), tries + 1
                    if tries == TRIES and not login.logged_in:
                        raise WrongSecret("the account, the network or the secret is wrong")
            capabilities = tuple(login.capabilities)
            if session and session.capabilities == capabilities:
                return session
            # (it asked for more capabilities since, or hasn't logged in by SASL)
            opened = await self._open(login.identity, source, login.nick, capabilities)
            if session:
                await session.close()
            return opened
        except BaseException:
            if session:
                await session.close()
            raise

    async def _check(self, client: Client, source: str, login: Login, identity: Identity,
                     before: Session | None) -> Session | None:
        """Has a node check who logs in by SASL. The session that it opens is the client's, once it is complete."""
        if before:
            await before.close()
        try:
            session = await self._open(identity, source, login.nick or "client", tuple(login.capabilities))
        except WrongSecret as why:
            await client.say(*login.failed("904", f"SASL authentication failed: {why}"))
            return None
        await client.say(*login.succeeded())
        return session

    async def _open(self, identity: Identity, source: str, nick: str, capabilities: tuple[str, ...]) -> Session:
        if not self.guard.may_try(source):
            raise NotLetIn("too many wrong secrets came from your address: wait a minute")
        try:
            return await open_session(self.settings.nodes, identity, nick, capabilities)
        except WrongSecret:
            self.guard.was_wrong(source)
            raise

    # -- from then on

    async def _carry(self, client: Client, session: Session) -> None:
        """Carries bytes both ways until one side ends."""
        log(f"client in: {session.identity} from {client.name}")
        why = "the porch ends"
        try:
            why = await first_ended(self._to_node(client, session), self._to_client(client, session))
        except OSError as error:
            why = reason_of(error)
        finally:
            log(f"client out: {session.identity} from {client.name}: {why}")
            await session.close()

    @staticmethod
    async def _to_node(client: Client, session: Session) -> str:
        await client.give(session.writer)
        return "the client closed it"

    @staticmethod
    async def _to_client(client: Client, session: Session) -> str:
        await client.take(session.held)
        while data := await session.reader.read(PIECE):
            await client.take(data)
        return "the node closed it"
