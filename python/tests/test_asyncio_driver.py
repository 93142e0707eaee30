"""The driver of examples/asyncio_driver.py, beside a server over the module's reader."""

import asyncio
import importlib.util
import pathlib
import random
import socket
import traceback

import pytest

import lughemra

FILE = pathlib.Path(__file__).resolve().parents[2] / "examples/asyncio_driver.py"
SPEC = importlib.util.spec_from_file_location("asyncio_driver", FILE)
driver = importlib.util.module_from_spec(SPEC)
SPEC.loader.exec_module(driver)


async def serve(reader, writer, answered):
    """Answers calls in any order, and cuts the connection after so many of them."""
    messages, held = lughemra.Reader(), []
    while piece := await reader.read(1 << 16):
        messages.feed(piece)
        held += messages
        random.Random(len(held)).shuffle(held)
        while held and answered[0] < answered[1]:
            asked = held.pop()
            answer = {"ok": 1, "comment": asked.body["comment"]}
            writer.write(lughemra.encode_message(answer, response_to=asked.header.request_id))
            answered[0] += 1
        if answered[0] == answered[1]:
            break
        await writer.drain()
    writer.close()


def run(calls, most):
    """Runs the driver with a server that answers at most so many calls. Returns its status and how many were answered."""

    async def both():
        answered = [0, most]
        server = await asyncio.start_server(lambda *streams: serve(*streams, answered), "127.0.0.1", 0)
        async with server:
            port = server.sockets[0].getsockname()[1]
            return await driver.run("127.0.0.1", port, calls), answered[0]

    return asyncio.run(asyncio.wait_for(both(), 300))


def test_a_thousand_pings_come_back_over_one_connection(capsys):
    assert run(1000, 1 << 30) == (0, 1000)
    assert capsys.readouterr().out == "1000 of 1000 pings came back, over one connection\n"


def test_more_calls_than_the_window_wait_for_their_turn():
    assert run(3000, 1 << 30) == (0, 3000)


def test_a_connection_that_is_cut_fails_its_calls(capsys):
    assert run(100, 10) == (1, 10)
    told = capsys.readouterr()
    assert told.out == "10 of 100 pings came back, over one connection\n"
    assert told.err.startswith("asyncio_driver: ")


def test_a_call_that_is_cancelled_leaves_the_others():
    async def both():
        server = await asyncio.start_server(lambda *streams: serve(*streams, [0, 1 << 30]), "127.0.0.1", 0)
        async with server:
            port = server.sockets[0].getsockname()[1]
            async with await driver.Connection.open("127.0.0.1", port, window=2) as connection:
                first = asyncio.create_task(driver.ping(connection, 0))
                await asyncio.sleep(0)
                first.cancel()
                await asyncio.gather(*(driver.ping(connection, n) for n in range(1, 50)))
                return connection.client.outstanding, connection.waiting

    assert asyncio.run(asyncio.wait_for(both(), 300)) == (0, {})


# What is done to a connection whose peer never reads, and what its calls raise then.
ENDS = [
    (lambda connection, peer: peer.shutdown(socket.SHUT_WR), "Ended"),
    (lambda connection, peer: peer.send(bytes(16)), "Message: Length at 0"),
    (lambda connection, peer: asyncio.create_task(connection.close()), "the connection was closed"),
]


@pytest.mark.parametrize("end, words", ENDS)
def test_calls_to_a_peer_that_never_reads_fail_where_the_connection_ends(end, words):
    async def both():
        with socket.create_server(("127.0.0.1", 0)) as listener:
            connection = await driver.Connection.open(*listener.getsockname())
            with listener.accept()[0] as peer:
                body = {"n": bytes(1 << 20)}
                calls = [asyncio.create_task(connection.call(body)) for _ in range(32)]
                await asyncio.sleep(0.1)
                assert connection.writer.transport.get_write_buffer_size() > 1 << 20
                end(connection, peer)
                ended = await asyncio.gather(*calls, return_exceptions=True)
                await connection.close()
                return {(isinstance(it, ConnectionError), str(it)) for it in ended}

    assert asyncio.run(asyncio.wait_for(both(), 300)) == {(True, words)}


def test_whatever_ends_the_receiver_fails_the_calls():
    async def both():
        def answers(*streams):
            return serve(*streams, [0, 1 << 30])

        async with await asyncio.start_server(answers, "127.0.0.1", 0) as server:
            port = server.sockets[0].getsockname()[1]
            async with await driver.Connection.open("127.0.0.1", port, window=2) as connection:
                connection.settle = lambda reply: {}["missing"]
                calls = [driver.ping(connection, n) for n in range(5)]
                return {repr(it) for it in await asyncio.gather(*calls, return_exceptions=True)}

    assert asyncio.run(asyncio.wait_for(both(), 300)) == {"KeyError('missing')"}


def test_what_ended_a_connection_is_told_again_without_the_frames_of_before():
    async def both():
        with socket.create_server(("127.0.0.1", 0)) as listener:
            connection = await driver.Connection.open(*listener.getsockname())
            await connection.close()
            lengths = set()
            for _ in range(3):
                with pytest.raises(ConnectionAbortedError) as told:
                    await connection.call({"ping": 1})
                lengths.add(len(list(traceback.walk_tb(told.value.__traceback__))))
            return lengths

    assert len(asyncio.run(asyncio.wait_for(both(), 300))) == 1


@pytest.mark.parametrize("window", [0, 2000])
def test_a_window_out_of_range_makes_no_connection(window):
    with socket.create_server(("127.0.0.1", 0)) as listener:
        listener.setblocking(False)
        with pytest.raises(ValueError):
            asyncio.run(driver.Connection.open(*listener.getsockname(), window=window))
        with pytest.raises(BlockingIOError):
            listener.accept()


@pytest.mark.parametrize(
    "words, status",
    [
        (["127.0.0.1", "70000"], 3),
        (["127.0.0.1", "9" * 30], 3),
        (["a..b", "1"], 3),
        (["127.0.0.1", "²"], 2),
        (["127.0.0.1", "-1"], 2),
        (["127.0.0.1", "1", "²"], 2),
        (["127.0.0.1"], 2),
    ],
)
def test_words_that_make_no_connection(words, status, capsys):
    assert driver.main(["asyncio_driver.py", *words]) == status
    assert capsys.readouterr().out == ""
