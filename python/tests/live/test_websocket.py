"""The server's end of a WebSocket over asyncio's streams, with a client that sends bytes of its own."""

from __future__ import annotations

import asyncio
import base64

import pytest
from looking import require_page

from cogmaula.live.page import websocket
from cogmaula.live.page.websocket import NoHandshake, WebSocket

REQUEST = (
    "GET /live HTTP/1.1\r\nHost: a\r\nUpgrade: websocket\r\nConnection: Upgrade\r\nSec-WebSocket-Version: 13\r\n"
    f"Sec-WebSocket-Key: {base64.b64encode(b'k' * 16).decode()}\r\nTwice: 1\r\nTwice: 2\r\n\r\n"
).encode()
TEXT, CONTINUATION, CLOSE, PING, PONG, LAST = 1, 0, 8, 9, 10, 0x80


@pytest.fixture(autouse=True)
def needs():
    require_page()


def frame(kind, data=b"", last=LAST):
    """A frame of a client, masked by zeros."""
    size = bytes([0x80 | len(data)]) if len(data) < 126 else b"\xfe" + len(data).to_bytes(2, "big")
    return bytes([last | kind]) + size + bytes(4) + data


async def talk(work, *pieces, longest=1_000, ends=False):
    """What a client is sent that says these pieces and may then end its side, and what the server's work gives."""
    done = asyncio.get_running_loop().create_future()

    async def serve(reader, writer):
        one = WebSocket(reader, writer, longest)
        try:
            done.set_result(await work(one))
        except Exception as error:
            done.set_exception(error)
        await one.close(1)

    server = await asyncio.start_server(serve, "127.0.0.1", 0)
    reader, writer = await asyncio.open_connection(*server.sockets[0].getsockname())
    for piece in pieces:
        writer.write(piece)
        await asyncio.sleep(0.005)
    if ends:
        writer.write_eof()
    try:
        return await asyncio.wait_for(done, 20), await asyncio.wait_for(reader.read(), 20)
    finally:
        writer.close()
        server.close()


async def all_messages(one):
    path, headers = await one.request()
    assert (path, headers["host"], "twice" in headers) == ("/live", "a", False)
    await one.accept()
    found = []
    while (message := await one.receive()) is not None:
        found.append(message)
    return found


def run(*pieces, work=all_messages, **more):
    return asyncio.run(talk(work, *pieces, **more))


def test_messages_also_in_parts():
    whole = frame(TEXT, b"one") + frame(TEXT, b"t", last=0) + frame(PING, b"p") + frame(CONTINUATION, b"wo") + frame(TEXT, b"x" * 300)
    for cut in (1, 3, 50):
        pieces = [whole[at : at + cut] for at in range(0, len(whole), cut)]
        told, sent = run(REQUEST, *pieces, frame(CLOSE, b"\x03\xe8"))
        assert told == [b"one", b"two", b"x" * 300]
        assert sent.startswith(b"HTTP/1.1 101 ") and sent.endswith(bytes([LAST | PONG, 1]) + b"p" + bytes([LAST | CLOSE, 2]) + b"\x03\xe8")


CODES = {
    "a long message": (frame(TEXT, b"x" * 1_001), 1009),
    "a long message in parts": (frame(TEXT, b"x" * 600, last=0) + frame(CONTINUATION, b"x" * 600), 1009),
    "many pings": (frame(PING) * 65, 1008),
    "many empty parts": (frame(TEXT, b"", last=0) + frame(CONTINUATION, b"", last=0) * 100, 1008),
    "no kind of frame": (frame(3), 1002),
}


@pytest.mark.parametrize(("data", "code"), CODES.values(), ids=CODES)
def test_what_ends_a_connection_by_its_code(data, code):
    told, sent = run(REQUEST, data)
    assert told == []
    assert code.to_bytes(2, "big") in sent[-60:]


NO_REQUESTS = {
    "a handshake of TLS": b"\x16\x03\x01",
    "another method": b"POST / HTTP/1.1\r\n\r\n",
    "too long": b"GET / HTTP/1.1\r\n" + b"a: b\r\n" * 5_000,
    "a header without a name": b"GET / HTTP/1.1\r\n: \r\n\r\n",
    "empty lines": b"\r\n" * 9_000,
    "no end": b"GET / HTTP/1.1\r\nHost: a",
}


@pytest.mark.parametrize("data", NO_REQUESTS.values(), ids=NO_REQUESTS)
def test_what_is_no_request_is_none(data):
    async def work(one):
        with pytest.raises(NoHandshake):
            await one.request()

    run(data, work=work, ends=True)


def test_a_silent_client_is_asked_and_one_that_does_not_answer_has_ended(monkeypatch):
    monkeypatch.setattr(websocket, "SILENCE", 0.2)
    monkeypatch.setattr(websocket, "ANSWER", 0.2)
    told, sent = run(REQUEST)
    assert told == []
    assert bytes([LAST | PING, 0]) in sent
