"""Hands on datagrams between a client and a server on this machine, each a while later.

delay.py FROM TO MILLISECONDS [--stop AT SECONDS]: a client sends to the UDP port FROM, and the
server has the port TO. With --stop all datagrams that come in are lost for so many seconds,
beginning AT seconds after the first one.
"""

import argparse
import asyncio
from dataclasses import dataclass
from typing import Any

HOST = "127.0.0.1"


@dataclass
class Stop:
    """A span of time, counted from the first datagram, in which all datagrams are lost."""

    at: float
    seconds: float
    first: float | None = None

    def holds(self, now: float) -> bool:
        """Whether a datagram that comes in now is lost."""
        if self.first is None:
            self.first = now
        return 0 <= now - self.first - self.at < self.seconds


class Side(asyncio.DatagramProtocol):
    """A socket: what comes in goes out at the other side."""

    transport: asyncio.DatagramTransport
    other: "Side"

    def __init__(self, seconds: float, stop: Stop) -> None:
        self._seconds = seconds
        self._stop = stop
        # Of the last datagram that came in.
        self._address: tuple[str, int] | None = None

    def connection_made(self, transport: Any) -> None:
        """The socket is open."""
        self.transport = transport

    def datagram_received(self, data: bytes, address: Any) -> None:
        """Has the other side send it, unless it is lost."""
        self._address = address
        loop = asyncio.get_running_loop()
        if not self._stop.holds(loop.time()):
            loop.call_later(self._seconds, self.other.send, data)

    def send(self, data: bytes) -> None:
        """Sends to whom this side is connected, or to who sent last."""
        self.transport.sendto(data, self._address)


async def hand_on(listen: int, to: int, seconds: float, stop: Stop) -> None:
    """Hands on datagrams until it is ended."""
    loop = asyncio.get_running_loop()
    client, server = Side(seconds, stop), Side(seconds, stop)
    client.other, server.other = server, client
    await loop.create_datagram_endpoint(lambda: client, local_addr=(HOST, listen))
    await loop.create_datagram_endpoint(lambda: server, remote_addr=(HOST, to))
    await asyncio.Event().wait()


def main() -> None:
    """Reads the arguments, and hands on datagrams."""
    parser = argparse.ArgumentParser(
        description=__doc__, formatter_class=argparse.RawDescriptionHelpFormatter
    )
    parser.add_argument("listen", metavar="FROM", type=int)
    parser.add_argument("to", metavar="TO", type=int)
    parser.add_argument("milliseconds", metavar="MILLISECONDS", type=float)
    parser.add_argument(
        "--stop", type=float, nargs=2, metavar=("AT", "SECONDS"), default=(0, 0), help="see above"
    )
    given = parser.parse_args()
    asyncio.run(hand_on(given.listen, given.to, given.milliseconds / 1000, Stop(*given.stop)))


if __name__ == "__main__":
    main()
