"""Kaltewi from Python, by ctypes: a client of the Firebase Realtime Database that talks to no network itself.

    import kaltewi

    with kaltewi.Client(rings=[64]) as client:
        ann = client.seat(1)
        client.connected()
        listener = ann.listen("/chat")
        for text in client.outgoing():                # to the server, each as one message: {"k":"hello","version":2} and then
            print(text)                               # {"k":"listen","path":"/chat","tag":1}
        client.receive('{"k":"data","path":"/chat","tag":1,"value":{"m1":"hi"}}')
        for item in ann.items():                      # {"k": "listened", "listener": 1} and then
            print(item)                               # {"k": "batch", "listener": 1, "changes": [..]}

Values are what json makes of them, and a float that is whole, as 10/2 gives one, is the whole number that it is: there are no fractions. A core
that lines of a script drive is there too:

    with kaltewi.Core() as core:
        core.line('["connected"]')                    # 'done\\n'
        for text in core.lines(['["listen",1,"/",[]]', '["set",1,"/c","x"]']):
            print(text, end="")

The shared library is the one that the variable KALTEWI_LIBRARY names, else libkaltewi.so beside this file, where pip puts it, else the one that
./kaltewi lib has made in the checkout. A client and a core belong to one thread at a time. docs/FORMATS.md says what messages, items, queries and
lines are.
"""
from __future__ import annotations

import ctypes
import json
import os
import secrets
import time
from typing import Any, Iterable, Iterator, Mapping, Optional, Sequence, Type

__version__ = "0.1.0"
__all__ = [
    "KINDS",
    "BadLine",
    "BadText",
    "Client",
    "Closed",
    "Core",
    "Error",
    "Failed",
    "NoMemory",
    "Refused",
    "Seat",
    "TooManySeats",
    "WrongSeat",
]

DONE, NONE, STALE, TOO_SMALL, CLOSED, NO_MEMORY, FAILED, BAD_TEXT, WRONG_SEAT, _, TOO_MANY_SEATS, REFUSED = range(12)


class Error(Exception):
    """Why a call is refused."""


class Closed(Error):
    """What is called is closed."""


class NoMemory(Error):
    """Memory lacked: a core or a client may answer nothing else from then on."""


class Failed(Error):
    """The client has lacked memory before, and answers nothing else."""


class BadText(Error):
    """A text is no JSON, or of another form than the call has."""


class WrongSeat(Error):
    """The client has no such seat."""


class TooManySeats(Error):
    """More than 64."""


class Refused(Error):
    """A layer refuses: `layer`, `name` and `code` say which, and why."""

    def __init__(self, layer: str, name: str, code: int):
        super().__init__(f"{layer} {code} {name}")
        self.layer, self.name, self.code = layer, name, code


class BadLine(Error):
    """A line has none of the forms. What it prints is kept in `text`."""

    def __init__(self, text: str):
        super().__init__(text.rstrip("\n"))
        self.text = text


class _Handle(ctypes.Structure):
    _fields_ = [("is_open", ctypes.c_bool), ("at", ctypes.c_void_p)]


_HANDLE, _SIZE, _NUMBER, _BYTES = ctypes.POINTER(_Handle), ctypes.c_size_t, ctypes.c_uint64, ctypes.c_char_p
_TEXT = (_BYTES, _SIZE)
_ROOM = (_BYTES, _SIZE, ctypes.POINTER(_SIZE))
_GIVEN = (ctypes.POINTER(_NUMBER),)

# Kinds of changes, each with its bit in kw_client_want.
KINDS: Mapping[str, int] = {"removed": 1, "added": 2, "moved": 4, "changed": 8, "value": 16}

# What each call takes behind the handle.
_CALLS: Mapping[str, tuple] = {
    "kw_core_open": (),
    "kw_core_line": _TEXT,
    "kw_core_text": _ROOM,
    "kw_core_close": (),
    "kw_client_open": (ctypes.POINTER(_SIZE), _SIZE),
    "kw_client_close": (),
    "kw_client_error": (ctypes.POINTER(ctypes.c_uint32), *_ROOM),
    "kw_client_listen": (_NUMBER, *_TEXT, *_TEXT, *_GIVEN),
    "kw_client_unlisten": (_NUMBER, _NUMBER),
    "kw_client_want": (_NUMBER, _NUMBER, ctypes.c_uint32),
    "kw_client_set": (_NUMBER, *_TEXT, *_TEXT, *_GIVEN),
    "kw_client_update": (_NUMBER, *_TEXT, *_GIVEN),
    "kw_client_remove": (_NUMBER, *_TEXT, *_GIVEN),
    "kw_client_on_disconnect": (_NUMBER, *_TEXT, *_TEXT, *_GIVEN),
    "kw_client_on_disconnect_update": (_NUMBER, *_TEXT, *_GIVEN),
    "kw_client_cancel_disconnect": (_NUMBER, *_TEXT, *_GIVEN),
    "kw_client_connected": (),
    "kw_client_disconnected": (),
    "kw_client_server_message": _TEXT,
    "kw_client_take_outgoing": _ROOM,
    "kw_client_settle": (_NUMBER,),
    "kw_client_next": (_NUMBER, *_ROOM),
    "kw_client_cover": _ROOM,
    "kw_client_push_key": (_NUMBER, _BYTES, *_ROOM),
}


def library_file() -> str:
    """The file of the shared library. Raises FileNotFoundError where there is none."""
    named, here = os.environ.get("KALTEWI_LIBRARY"), os.path.dirname(os.path.abspath(__file__))
    places = [named] if named else [os.path.join(here, "libkaltewi.so"), os.path.join(here, "../../crates/rt_ffi/out/libkaltewi.so")]
    for place in places:
        if os.path.isfile(place):
            return os.path.normpath(place)
    raise FileNotFoundError(f"there is no {places[-1]}: make it by ./kaltewi lib, or name it by the variable KALTEWI_LIBRARY")


def _library() -> ctypes.CDLL:
    library = ctypes.CDLL(library_file())
    for name, arguments in _CALLS.items():
        call = getattr(library, name)
        call.restype = None if name.endswith("_close") else ctypes.c_uint32
        call.argtypes = (_HANDLE, *arguments)
    return library


_LIBRARY: Optional[ctypes.CDLL] = None

_ERRORS: Mapping[int, tuple] = {
    CLOSED: (Closed, "it is closed"),
    NO_MEMORY: (NoMemory, "memory lacked"),
    FAILED: (Failed, "the client has lacked memory before"),
    BAD_TEXT: (BadText, "a text is no JSON, or of another form"),
    WRONG_SEAT: (WrongSeat, "the client has no such seat"),
    TOO_MANY_SEATS: (TooManySeats, "more than 64 seats"),
}


def _raise(status: int) -> None:
    if status != DONE:
        kind, why = _ERRORS.get(status, (Error, f"the call ended with {status}"))
        raise kind(why)


def _bytes(text: str | bytes) -> bytes:
    return text.encode() if isinstance(text, str) else bytes(text)


def _whole(value: Any) -> Any:
    """The value with each float that is whole as that number."""
    if isinstance(value, float) and value.is_integer():
        return int(value)
    if isinstance(value, Mapping):
        return {key: _whole(it) for key, it in value.items()}
    return [_whole(it) for it in value] if isinstance(value, (list, tuple)) else value


def _json(value: Any) -> bytes:
    return json.dumps(_whole(value), ensure_ascii=False, separators=(",", ":"), allow_nan=False).encode()


class _Open:
    """A handle that is open until it is closed, and a room for texts."""

    _kind: str

    def __init__(self, room: int, *given: Any):
        global _LIBRARY
        if _LIBRARY is None:
            _LIBRARY = _library()
        self._calls = _LIBRARY
        self._handle = _Handle()
        self._room = ctypes.create_string_buffer(max(room, 1))
        _raise(self._status("open", *given))

    def _status(self, name: str, *given: Any) -> int:
        """Makes the call of that name, and gives how it ends."""
        return getattr(self._calls, f"kw_{self._kind}_{name}")(ctypes.byref(self._handle), *given)

    def _text(self, name: str, *given: Any) -> tuple[int, str]:
        """How a call ends that gives a text, which may be longer than the room; and the text."""
        size, room = _SIZE(), self._room
        status = self._status(name, *given, room, len(room), ctypes.byref(size))
        if status == TOO_SMALL:
            room = ctypes.create_string_buffer(size.value)
            status = self._status(name, *given, room, len(room), ctypes.byref(size))
        return status, room.raw[: size.value].decode() if status == DONE else ""

    def close(self) -> None:
        """Closes it; what is closed stays so."""
        self._status("close")

    def __enter__(self):
        return self

    def __exit__(self, kind: Optional[Type[BaseException]], error: object, trace: object) -> None:
        self.close()

    def __del__(self) -> None:
        if getattr(self, "_handle", None) is not None and self._handle.is_open:
            self.close()


class Core(_Open):
    """A core that lines of a script drive, with its source of push ids."""

    _kind = "core"

    def __init__(self, room: int = 4096):
        """Opens a core. `room` is how many bytes a text is first given; a longer one gets its own."""
        super().__init__(room)

    def line(self, line: str | bytes) -> str:
        """Does what a line asks for, without the line feed at its end, and gives what it prints.

        Raises BadLine where the line has none of the forms, and Closed, and NoMemory."""
        data = _bytes(line)
        status = self._status("line", data, len(data))
        if status == BAD_TEXT:
            raise BadLine(self._printed())
        _raise(status)
        return self._printed()

    def lines(self, lines: Iterable[str | bytes]) -> Iterator[str]:
        """What each line prints, one after another; of a bad line what it prints too."""
        for line in lines:
            try:
                yield self.line(line)
            except BadLine as bad:
                yield bad.text

    def _printed(self) -> str:
        status, text = self._text("text")
        _raise(status)
        return text


class Client(_Open):
    """A client with its seats, which are numbered from 1. Its texts go to the server and come from it by the program's own connection."""

    _kind = "client"

    def __init__(self, rings: Sequence[int] = (64,), room: int = 4096):
        """Opens a client with a seat for each of `rings`, which says for how many items the seat has room at first: for more it grows.
        `room` is how many bytes a text is first given; a longer one gets its own.

        Raises TooManySeats, and NoMemory."""
        super().__init__(room, (_SIZE * max(len(rings), 1))(*rings), len(rings))

    def seat(self, number: int = 1) -> Seat:
        """The seat of that number. Its calls raise WrongSeat where the client has none."""
        return Seat(self, number)

    def connected(self) -> None:
        """A connection to the server stands."""
        self._done("connected")

    def disconnected(self) -> None:
        """The connection has ended."""
        self._done("disconnected")

    def receive(self, message: str | bytes) -> bool:
        """Takes a message of the server, and says whether it came in time."""
        data = _bytes(message)
        status = self._status("server_message", data, len(data))
        return status != STALE and self._checked(status)

    def outgoing(self) -> Iterator[str]:
        """Takes out the messages that are to be sent, one after another, until there is none."""
        while True:
            status, text = self._text("take_outgoing")
            if status == NONE:
                return
            self._checked(status)
            yield text

    def cover(self) -> list[str]:
        """The listens that are kept at the server, as the console prints them."""
        status, text = self._text("cover")
        self._checked(status)
        return text.splitlines()

    def push_key(self, now_ms: Optional[int] = None, digits: Optional[bytes] = None) -> str:
        """The next push id, for a moment in milliseconds since 1970 and twelve numbers below 64: the moment now, and drawn at random."""
        moment = time.time_ns() // 1_000_000 if now_ms is None else now_ms
        drawn = bytes(it & 63 for it in secrets.token_bytes(12)) if digits is None else bytes(digits)
        if len(drawn) != 12:
            raise ValueError("an id has twelve random digits")
        status, text = self._text("push_key", moment, drawn)
        self._checked(status)
        return text

    def _done(self, name: str, *given: Any) -> None:
        self._checked(self._status(name, *given))

    def _checked(self, status: int) -> bool:
        if status == REFUSED:
            code = ctypes.c_uint32()
            _, words = self._text("error", ctypes.byref(code))
            layer, _, name = words.partition(" ")
            raise Refused(layer, name, code.value)
        _raise(status)
        return True


class Seat:
    """A seat of a client, which is told of its own listeners and requests.

    Its calls raise Refused, WrongSeat, BadText, Failed, NoMemory, and Closed."""

    def __init__(self, client: Client, number: int):
        self._client, self.number = client, number

    def listen(self, path: str, query: Optional[Mapping[str, Any]] = None, kinds: Optional[Iterable[str]] = None) -> int:
        """Registers a listener, and gives its number. The query is the member `q` of the message that listens, or an order alone, as
        {"order": "/score"}; none is all of the path. It is told these kinds of changes, or all where none are given: see `want`."""
        where, q = _bytes(path), b"" if query is None else _json(query)
        listener = self._numbered("listen", where, len(where), q, len(q))
        if kinds is not None:
            self.want(listener, kinds)
        return listener

    def want(self, listener: int, kinds: Iterable[str]) -> None:
        """From now on a listener of the seat is told changes of these kinds alone: of KINDS. Without "value" a batch costs by what has changed, and not by
        what the listener shows."""
        self._client._done("want", self.number, listener, sum(KINDS[it] for it in set(kinds)))

    def unlisten(self, listener: int) -> None:
        """Ends a listener of the seat."""
        self._client._done("unlisten", self.number, listener)

    def set(self, path: str, value: Any) -> int:
        """Writes a value at a path, and gives the number of the request; None removes. Numbers are whole: 5.0 is 5, and 0.5 raises Refused."""
        return self._at("set", path, value)

    def update(self, entries: Mapping[str, Any]) -> int:
        """Writes several values, each at its path, as one write."""
        return self._entries("update", entries)

    def remove(self, path: str) -> int:
        """Removes what is at a path."""
        where = _bytes(path)
        return self._numbered("remove", where, len(where))

    def on_disconnect(self, path: str, value: Any) -> int:
        """Asks the server to write a value when the connection ends."""
        return self._at("on_disconnect", path, value)

    def on_disconnect_update(self, entries: Mapping[str, Any]) -> int:
        """Asks the server to write several values when the connection ends."""
        return self._entries("on_disconnect_update", entries)

    def cancel_disconnect(self, path: str) -> int:
        """Drops what was to be written at and below a path when the connection ends."""
        where = _bytes(path)
        return self._numbered("cancel_disconnect", where, len(where))

    def push(self, path: str, value: Any) -> tuple[str, int]:
        """Writes a value under a new push id, and gives the id and the number of the request."""
        key = self._client.push_key()
        return key, self.set(f"{path}/{key}", value)

    def items(self) -> Iterator[dict]:
        """What the seat is told, in order, until nothing waits for it."""
        while True:
            self._client._done("settle", self.number)
            status, text = self._client._text("next", self.number)
            if status == NONE:
                return
            self._client._checked(status)
            yield json.loads(text)

    __iter__ = items

    def _at(self, name: str, path: str, value: Any) -> int:
        where, tree = _bytes(path), _json(value)
        return self._numbered(name, where, len(where), tree, len(tree))

    def _entries(self, name: str, entries: Mapping[str, Any]) -> int:
        data = _json(dict(entries))
        return self._numbered(name, data, len(data))

    def _numbered(self, name: str, *given: Any) -> int:
        number = _NUMBER()
        self._client._done(name, self.number, *given, ctypes.byref(number))
        return number.value
