"""A transfer over aioquic with a qlog.

transfer.py server PORT QLOG CERT KEY CONTROLLER
transfer.py client PORT QLOG down|up BYTES PARTS CONTROLLER
"""

import asyncio
import json
import os
import ssl
import sys
from pathlib import Path

from aioquic.asyncio import QuicConnectionProtocol, connect, serve
from aioquic.quic.configuration import QuicConfiguration
from aioquic.quic.events import ConnectionTerminated, QuicEvent, StreamDataReceived
from aioquic.quic.logger import QuicLogger

HEADER = 9
SECONDS_OF_SERVER = 35
# How many words each side is told, its name among them.
WORDS = {"server": 6, "client": 7}


class Server(QuicConnectionProtocol):
    """Answers each stream: `d` and a size by so many bytes, all else by `ok`."""

    closed: asyncio.Event

    def __init__(self, *args, **options) -> None:
        super().__init__(*args, **options)
        self.beginnings: dict[int, bytes] = {}

    def quic_event_received(self, event: QuicEvent) -> None:
        """Takes data, and answers where a stream has ended."""
        if isinstance(event, ConnectionTerminated):
            self.closed.set()
        if not isinstance(event, StreamDataReceived):
            return
        beginning = (self.beginnings.get(event.stream_id, b"") + event.data)[:HEADER]
        self.beginnings[event.stream_id] = beginning
        if event.end_stream:
            size = int.from_bytes(beginning[1:], "big")
            answer = bytes(size) if beginning[:1] == b"d" else b"ok"
            self._quic.send_stream_data(event.stream_id, answer, True)
            self.transmit()


async def serve_one(port: int, cert: str, key: str, configuration: QuicConfiguration) -> None:
    """Serves until a connection has ended."""
    Server.closed = asyncio.Event()
    configuration.load_cert_chain(cert, key)
    await serve("127.0.0.1", port, configuration=configuration, create_protocol=Server)
    try:
        await asyncio.wait_for(Server.closed.wait(), SECONDS_OF_SERVER)
    except asyncio.TimeoutError:
        print("no connection has ended")


async def ask(port: int, way: str, size: int, parts: int, configuration: QuicConfiguration) -> None:
    """Moves so many bytes, in so many streams one after another."""
    part = size // parts
    async with connect("127.0.0.1", port, configuration=configuration) as connection:
        for _ in range(parts):
            reader, writer = await connection.create_stream()
            data = bytes(part) if way == "up" else b""
            writer.write(way[0].encode() + part.to_bytes(HEADER - 1, "big") + data)
            writer.write_eof()
            await reader.read()
            if parts > 1:
                await asyncio.sleep(0.03)


async def main() -> None:
    """Runs a side of the transfer, and writes its log."""
    words = sys.argv[1:]
    if len(words) != WORDS.get("".join(words[:1])):
        print((__doc__ or "").strip(), file=sys.stderr)
        sys.exit(os.EX_USAGE)
    side, port, path, *rest, controller = words
    logger = QuicLogger()
    configuration = QuicConfiguration(
        is_client=side == "client",
        alpn_protocols=["x"],
        quic_logger=logger,
        congestion_control_algorithm=controller,
        verify_mode=ssl.CERT_NONE,
    )
    if side == "server":
        await serve_one(int(port), rest[0], rest[1], configuration)
    else:
        await ask(int(port), rest[0], int(rest[1]), int(rest[2]), configuration)
    Path(path).write_text(json.dumps(logger.to_dict()))


asyncio.run(main())
