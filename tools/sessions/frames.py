"""Both ends of a WebSocket over a raw socket, by RFC 6455: a client of `serve`, a server for `connect`."""
import base64
import hashlib
import itertools
import json
import os
import socket
import struct

PORTS = itertools.count(os.getpid())
SECONDS = 60  # the longest that either end waits
# the first bytes of frames: whole messages, and the parts of a text
TEXT, BINARY, CLOSE, PING, PONG = 0x81, 0x82, 0x88, 0x89, 0x8A
FIRST_PART, PART, LAST_PART = 0x01, 0x00, 0x80
CLOSED = b"\x88\x00"  # what a server answers to a close without a code


def free_port():
    """A port where nobody listens, at each call another, of those that the system gives to no client."""
    while True:
        port = 10_000 + next(PORTS) % 20_000
        with socket.socket() as it:
            try:
                it.bind(("127.0.0.1", port))
                return port
            except OSError:
                pass  # somebody is there


def accept_of(key):
    """What a server answers to a client's key."""
    return base64.b64encode(hashlib.sha1(key + b"258EAFA5-E914-47DA-95CA-C5AB0DC85B11").digest())


def compact(message):
    """A message as it is written: no spaces, and the members by their names."""
    return json.dumps(message, separators=(",", ":"), sort_keys=True, ensure_ascii=False)


def masked(data, mask):
    return bytes(byte ^ mask[i % 4] for i, byte in enumerate(data))


class Client:
    """A client over a raw socket: a handshake, masked texts out, texts in. Somebody has to listen. It asks for the target, and its head may have more
    fields."""

    def __init__(self, port, key=b"dGhlIHNhbXBsZSBub25jZQ==", target=b"/", fields=b""):
        self.socket = socket.create_connection(("127.0.0.1", port), timeout=SECONDS)
        self.stream = self.socket.makefile("rb")
        head = b"GET " + target + b" HTTP/1.1\r\nHost: 127.0.0.1\r\nUpgrade: websocket\r\nConnection: Upgrade\r\n" + fields
        self.socket.sendall(head + b"Sec-WebSocket-Version: 13\r\nSec-WebSocket-Key: " + key + b"\r\n\r\n")
        said = b"".join(iter(self.stream.readline, b"\r\n")).lower()
        accept = b"sec-websocket-accept: " + accept_of(key).lower()
        if not said.startswith(b"http/1.1 101 ") or accept not in said:
            raise OSError(f"no handshake: {said[:160]}")

    def frame(self, first, data):
        mask = os.urandom(4)
        self.socket.sendall(bytes([first, 0x80 | len(data)]) + mask + masked(data, mask))

    def frames(self, count, first, data):
        """Sends a frame so many times, masked by zeros, in one write."""
        self.socket.sendall(count * (bytes([first, 0x80 | len(data), 0, 0, 0, 0]) + data))

    def send_all(self, texts):
        """Sends texts in one write, each masked by zeros."""
        frames = [bytes([TEXT, 0x80 | len(it), 0, 0, 0, 0]) + it.encode() for it in texts]
        self.socket.sendall(b"".join(frames))

    def ask(self, message, count):
        """Sends a message, and answers so many texts that are sent for it."""
        self.frame(TEXT, compact(message).encode())
        return [self.text() for _ in range(count)]

    def text(self):
        first, length = struct.unpack("!BB", self.stream.read(2))
        length = struct.unpack("!H", self.stream.read(2))[0] if length == 126 else length
        length = struct.unpack("!Q", self.stream.read(8))[0] if length == 127 else length
        return (first, json.loads(self.stream.read(length)))

    def close(self):
        """Closes as the protocol has it, and answers the frame that answers this, and what is behind it."""
        self.frame(CLOSE, b"")
        said = self.stream.read()
        self.socket.close()
        return said


class Server:
    """A server over a raw socket, to which one client comes: masked frames in, unmasked frames out."""

    def __init__(self):
        self.listener = socket.create_server(("127.0.0.1", 0))
        self.listener.settimeout(SECONDS)
        self.port = self.listener.getsockname()[1]
        self.socket, self.masks, self.is_greeted = None, [], False

    def close(self):
        self.listener.close()
        if self.socket:
            self.stream.close()
            self.socket.close()

    def meet(self):
        """Lets the client come, and reads the head of its request."""
        self.socket = self.listener.accept()[0]
        self.socket.settimeout(SECONDS)
        self.stream = self.socket.makefile("rb")
        self.head = self.stream.readline().rstrip()
        fields = [line.partition(b":") for line in itertools.takewhile(bytes.strip, self.stream)]
        self.fields = {name.lower(): value.strip() for name, _, value in fields}
        self.key = self.fields.get(b"sec-websocket-key", b"")
        if self.fields.get(b"host") != b"127.0.0.1:%d" % self.port:
            raise OSError(f"the request names another host: {self.fields}")

    def answer(self, **changed):
        """The head that answers the request, with some of its fields changed or left out."""
        fields = {"Upgrade": b"websocket", "Connection": b"Upgrade"}
        fields |= {"Sec-WebSocket-Accept": accept_of(self.key), **changed}
        lines = [name.encode() + b": " + value for name, value in fields.items() if value is not None]
        return b"\r\n".join([b"HTTP/1.1 101 Switching Protocols", *lines, b"", b""])

    def welcome(self, behind=b""):
        """Lets the client come, and answers its request, with more bytes in the same write."""
        self.meet()
        self.socket.sendall(self.answer() + behind)

    def send(self, *frames):
        self.socket.sendall(b"".join(frames))

    def hear(self):
        """The next frame of the client, its mask taken off; none where the connection has ended."""
        try:
            head = self.stream.read(2)
        except ConnectionResetError:
            return None
        if len(head) < 2:
            return None
        first, length = head
        if not length & 0x80:
            return first, "a frame that isn't masked"
        length &= 0x7F
        length = struct.unpack("!H", self.stream.read(2))[0] if length == 126 else length
        length = struct.unpack("!Q", self.stream.read(8))[0] if length == 127 else length
        mask = self.stream.read(4)
        self.masks.append(mask)
        return first, masked(self.stream.read(length), mask)

    def hear_all(self, count):
        return [self.hear() for _ in range(count)]

    def vanish(self):
        """Goes without a close: the connection is reset."""
        self.socket.setsockopt(socket.SOL_SOCKET, socket.SO_LINGER, struct.pack("ii", 1, 0))
        self.stream.close()
        self.socket.close()
        self.socket = None


def frame(first, data):
    """A frame of a server, with no mask."""
    data = data.encode() if isinstance(data, str) else data
    if len(data) < 126:
        return bytes([first, len(data)]) + data
    if len(data) < 65536:
        return struct.pack("!BBH", first, 126, len(data)) + data
    return struct.pack("!BBQ", first, 127, len(data)) + data


def text(message):
    """The frame of a message, which is a value or a text."""
    return frame(TEXT, message if isinstance(message, str) else compact(message))
