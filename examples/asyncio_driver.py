#!/usr/bin/env python3
"""A small driver over asyncio: one connection, any number of calls at once.

    asyncio_driver.py HOST PORT [CALLS]    makes CALLS pings at once on one connection, 1000 unless told, and tells how many came back

The client's end is lughemra's `Client`, which matches each reply with its call; asyncio's streams move the bytes. Each ping bears a
number of its own. The status is 0 if each got its reply, 1 if one failed, 2 if the words are others, and 3 if there is no
connection, as behind a port that there can't be.
"""

from __future__ import annotations

import asyncio
import sys
from typing import Any, Optional

import lughemra

PIECE = 1 << 16


class Connection:
    """Makes calls over one connection, as many at once as the client's window allows. The others wait for their turn."""

    def __init__(
        self,
        client: lughemra.Client,
        window: int,
        reader: asyncio.StreamReader,
        writer: asyncio.StreamWriter,
    ) -> None:
        self.client = client
        self.reader = reader
        self.writer = writer
        self.room = asyncio.Semaphore(window)
        self.waiting: dict[int, asyncio.Future[lughemra.Message]] = {}
        self.failure: Optional[BaseException] = None
        self.receiver = asyncio.create_task(self.receive())

    @classmethod
    async def open(cls, host: str, port: int, window: int = 1024) -> Connection:
        """Connects to a server."""
        # Made before there is a socket, since it refuses a window out of range.
        client = lughemra.Client(window=window)
        return cls(client, window, *await asyncio.open_connection(host, port))

    async def __aenter__(self) -> Connection:
        return self

    async def __aexit__(self, *_: Any) -> None:
        await self.close()

    async def call(
        self, body: lughemra.AnyDocument, sequences: lughemra.Sequences = ()
    ) -> lughemra.Document:
        """Makes a call, and returns the body of its reply. Raises what ended the connection, if that comes first."""
        await self.room.acquire()
        try:
            if self.failure:
                raise self.failure.with_traceback(None)
            made = self.client.call(body, sequences)
        except BaseException:
            self.room.release()
            raise
        # The room is given back where the reply comes, also for a caller that was cancelled meanwhile.
        reply: asyncio.Future[lughemra.Message] = asyncio.get_running_loop().create_future()
        # What fails it is told by `drain`, too, or to no one where the caller was cancelled.
        reply.add_done_callback(lambda ended: ended.cancelled() or ended.exception())
        self.waiting[made.number] = reply
        self.send()
        await self.writer.drain()
        return (await reply).body

    async def command(self, database: str, body: dict[str, Any]) -> lughemra.Document:
        """Makes a call of a command, and raises RuntimeError where the server answers that it failed."""
        answer = await self.call({**body, "$db": database})
        if answer.get("ok") != 1:
            raise RuntimeError(answer.json(relaxed=True))
        return answer

    def send(self) -> None:
        """Hands all that waits to the stream, which keeps it until the socket takes it."""
        while piece := self.client.output(PIECE):
            self.writer.write(piece)
            self.client.sent(len(piece))

    async def receive(self) -> None:
        """Feeds what comes, and gives each reply to the call that it belongs to, until the connection ends."""
        try:
            while piece := await self.reader.read(PIECE):
                self.client.feed(piece)
                for reply in self.client:
                    self.settle(reply)
            self.client.end()
            self.fail(self.client.closed or ConnectionError("the connection ended"))
        # Whatever it is, no reply comes behind it, and no caller is to wait for one.
        except Exception as failure:
            self.fail(failure)

    def settle(self, reply: lughemra.Reply) -> None:
        """Gives a reply to its caller, unless that was cancelled."""
        caller = self.waiting.pop(reply.call)
        self.room.release()
        if not caller.done():
            caller.set_result(reply.message)

    def fail(self, failure: BaseException) -> None:
        """Ends the connection, and the calls that await a reply, none of which comes any more."""
        self.failure = failure
        # So no call waits in `drain` for a peer that doesn't read.
        self.writer.transport.abort()
        for caller in self.waiting.values():
            self.room.release()
            if not caller.done():
                caller.set_exception(failure)
        self.waiting.clear()

    async def close(self) -> None:
        """Closes the connection. Calls that still await a reply fail."""
        self.receiver.cancel()
        self.fail(ConnectionAbortedError("the connection was closed"))
        self.client.close()
        try:
            await self.writer.wait_closed()
        except OSError:
            pass


async def ping(connection: Connection, number: int) -> None:
    """Sends a ping with a number of its own, and sees that it is answered."""
    await connection.command("admin", {"ping": 1, "comment": number})


async def run(host: str, port: int, calls: int) -> int:
    """Makes the pings, all at once, and tells how many came back."""
    try:
        connection = await Connection.open(host, port)
    except (OSError, OverflowError, UnicodeError) as failure:
        print(f"asyncio_driver: {failure}", file=sys.stderr)
        return 3
    async with connection:
        ended = await asyncio.gather(*(ping(connection, n) for n in range(calls)), return_exceptions=True)
    failures = [it for it in ended if it is not None]
    print(f"{calls - len(failures)} of {calls} pings came back, over one connection")
    if failures:
        print(f"asyncio_driver: {failures[0]!r}", file=sys.stderr)
    return 1 if failures else 0


def main(words: list[str]) -> int:
    """Runs the driver by its words."""
    if len(words) not in (3, 4) or not all(it.isdecimal() for it in words[2:]):
        print(__doc__, file=sys.stderr)
        return 2
    return asyncio.run(run(words[1], int(words[2]), int(words[3]) if len(words) == 4 else 1000))


if __name__ == "__main__":
    sys.exit(main(sys.argv))
