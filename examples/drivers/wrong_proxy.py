"""A proxy that does one thing wrong now and then, by which run_numbered is tried: wrong_proxy.py HOW LISTEN UPSTREAM

HOW is `cut`, of half a reply, behind which the connection ends; `swap`, of a reply in whose place another connection's last one is
given, with the right number; `stall`, of a connection that gets no reply any more; `silent`, of a write without an
answer that isn't passed on; or `pass`, which does nothing wrong.
"""
import asyncio
import sys

MORE_TO_COME = 2
OP_MSG = (2013).to_bytes(4, "little")
# One of so many replies is cut or swapped, and behind so many of a connection none comes any more.
EVERY, STALLED = 97, 40


class Proxy:
    def __init__(self, how, upstream):
        self.how, self.upstream = how, upstream
        self.replies = 0
        self.last = {}

    async def message(self, reader):
        """Returns the next message, or nothing at the end."""
        try:
            size = await reader.readexactly(4)
            return size + await reader.readexactly(int.from_bytes(size, "little") - 4)
        except (asyncio.IncompleteReadError, ConnectionError):
            return b""

    async def there(self, reader, writer):
        while message := await self.message(reader):
            if self.how == "silent" and message[16] & MORE_TO_COME:
                continue
            writer.write(message)
            await writer.drain()
        writer.close()

    async def back(self, reader, writer):
        own, count = id(reader), 0
        while message := await self.message(reader):
            self.replies, count = self.replies + 1, count + 1
            due = self.replies % EVERY == 0 and count > 5
            if self.how == "cut" and due:
                writer.write(message[: len(message) // 2])
                break
            if self.how == "stall" and count > STALLED and len(self.last) % 5 == 0:
                await asyncio.sleep(1000)
            others = [each for key, each in self.last.items() if key != own]
            if message[12:16] != OP_MSG:
                due = False
            else:
                self.last[own] = message
            if self.how == "swap" and due and others:
                body = others[-1][16:]
                message = (16 + len(body)).to_bytes(4, "little") + message[4:16] + body
            writer.write(message)
            await writer.drain()
        self.last.pop(own, None)
        writer.close()

    async def serve(self, near_reader, near_writer):
        far_reader, far_writer = await asyncio.open_connection(*self.upstream)
        ways = [self.there(near_reader, far_writer), self.back(far_reader, near_writer)]
        await asyncio.gather(*ways, return_exceptions=True)


def address(word):
    host, port = word.rsplit(":", 1)
    return host, int(port)


async def main(how, listen, upstream):
    proxy = Proxy(how, address(upstream))
    server = await asyncio.start_server(proxy.serve, *address(listen))
    host, port = server.sockets[0].getsockname()[:2]
    print(f"listening {host}:{port}", flush=True)
    await server.serve_forever()


asyncio.run(main(*sys.argv[1:]))
