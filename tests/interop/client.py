"""A client by Debian's python3-websockets, which tests/interop/live.py starts with a port. It sends each line that it reads, prints each text that
comes, and last the code of the close."""
import asyncio
import sys

import websockets


async def say_all(socket):
    loop = asyncio.get_running_loop()
    while line := await loop.run_in_executor(None, sys.stdin.readline):
        await socket.send(line.rstrip("\n"))


async def main():
    async with websockets.connect(f"ws://127.0.0.1:{sys.argv[1]}/", max_size=None) as socket:
        saying = asyncio.create_task(say_all(socket))
        try:
            async for text in socket:
                print(text, flush=True)
        except websockets.ConnectionClosed:
            pass
        print(f"closed {socket.close_code}", flush=True)
        await saying


asyncio.run(main())
