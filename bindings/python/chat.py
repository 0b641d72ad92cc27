"""A chat of two clients: python3 chat.py PORT, beside a new

    ./kaltewi emulate PORT

Each has a connection of its own. Ann says a line, bob answers once he hears it, and each goes once it has heard both. Needs Debian's package
python3-websockets, and so Debian's own Python, /usr/bin/python3.
"""
import asyncio
import sys
from typing import Any, Mapping

import websockets

import kaltewi


class Chatter:
    """Who says a line, and hears all of them, over a connection that stands."""

    def __init__(self, name: str, client: kaltewi.Client, socket: Any):
        self.name, self.client, self.socket = name, client, socket
        self.seat = client.seat()
        client.connected()
        self.seat.listen("/chat", kinds=["added"])
        self.heard = 0
        self.unsettled: set[int] = set()

    def say(self, line: str) -> None:
        """Says a line, under a new push id."""
        _, request = self.seat.push("/chat", f"{self.name}: {line}")
        self.unsettled.add(request)

    def hear(self, item: Mapping[str, Any]) -> None:
        """Prints a line that came, and notes a write that is settled."""
        if item["k"] in ("ok", "no"):
            self.unsettled.discard(item["id"])
        for change in item.get("changes", ()):
            if change["k"] == "added":
                self.heard += 1
                print(f"{self.name} hears: {change['value']}", flush=True)

    async def wait(self, lines: int) -> None:
        """Takes messages until so many lines were heard, and what was said is settled."""
        while True:
            for text in self.client.outgoing():
                await self.socket.send(text)
            for item in self.seat:
                self.hear(item)
            if self.heard >= lines and not self.unsettled:
                return
            self.client.receive(await self.socket.recv())


async def ann(port: int) -> None:
    with kaltewi.Client() as client:
        async with websockets.connect(f"ws://127.0.0.1:{port}/") as socket:
            chatter = Chatter("ann", client, socket)
            chatter.say("hi")
            await chatter.wait(2)


async def bob(port: int) -> None:
    with kaltewi.Client() as client:
        async with websockets.connect(f"ws://127.0.0.1:{port}/") as socket:
            chatter = Chatter("bob", client, socket)
            await chatter.wait(1)
            chatter.say("hello")
            await chatter.wait(2)


async def chat(port: int) -> None:
    await asyncio.wait_for(asyncio.gather(ann(port), bob(port)), 30)


if __name__ == "__main__":
    if len(sys.argv) != 2 or not sys.argv[1].isdigit():
        sys.exit("usage: chat.py PORT")
    asyncio.run(chat(int(sys.argv[1])))
