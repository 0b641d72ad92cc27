"""Sessions of `connect` that show each kind of line, and of message."""
import base64

from frames import BINARY, frame, text
from session import data, hears, leaves, listen, no, ok, push, put, sent, session, unlisten

NO_SEAT = "refused client 2 WrongSeat\n"

# a listen and a write: each line, what is sent to it, and what it prints
ROW_STEPS = [
    ('["listen",1,"/a",[]]\n', [], "done 1\n"),
    ('["read",1]\n', [data("/a", 1, None)], "done\nL1 value null\n"),
    ('["set",1,"/a/x",5]\n', [], 'done 1\nL1 added "x" 5 after none\nL1 value {"x":5}\n'),
    ('["read",2]\n', [data("/a/x", 1, 5), ok(1)], "done\ndone\nR1 ok\n"),
]
ROW, ROW_OUT = ("".join(step[part] for step in ROW_STEPS) for part in (0, 2))


@session(ROW, ROW_OUT)
def a_write(server):
    """A listen and a write."""
    server.welcome()
    yield "the request", server.head, b"GET / HTTP/1.1"
    yield "its host", server.fields.get(b"host", b"").partition(b":")[0], b"127.0.0.1"
    fields = {b"upgrade": b"websocket", b"connection": b"Upgrade", b"sec-websocket-version": b"13"}
    yield "its fields", server.fields, {**server.fields, **fields}
    yield "the bytes of its key", len(base64.b64decode(server.key, validate=True)), 16
    yield hears(server, listen("/a", 1))
    server.send(data("/a", 1, None))
    yield hears(server, put(1, "/a/x", 5))
    server.send(data("/a/x", 1, 5), ok(1))
    yield from leaves(server)
    yield "how many masks differ", len(set(server.masks)), 4


EACH_LINE = r"""["listen",1,"/a",[]]
["listen",2,"a//",[["limitToLast",2]]]
["cover"]
["read",1]
["set",1,"/a/y","é"]
["update",2,{"/b/z":null,"/b/y":2}]
["remove",2,"/a/x"]
["onDisconnect",1,"set","/p",true]
["onDisconnect",1,"update",{"/p":1}]
["onDisconnect",1,"remove","/q"]
["onDisconnect",1,"cancel","/p"]

["unlisten",1,1]
["cover"]
["close",2]
["cover"]
["read",7]
"""
EACH_LINE_OUT = """done 1
done 2
T1 /a by L1
done
L1 added "x" 1 after none
L1 value {"x":1}
L2 added "x" 1 after none
L2 value {"x":1}
done 1
L1 added "y" "é" after "x"
L1 value {"x":1,"y":"é"}
L2 added "y" "é" after "x"
L2 value {"x":1,"y":"é"}
done 2
done 3
L1 removed "x" 1
L1 value {"y":"é"}
L2 removed "x" 1
L2 value {"y":"é"}
done 4
done 5
done 6
done 7
done
T2 /a {"limit":["last",2],"order":"key"} by L2
done
T none
done
R1 ok
done
done
done
R4 ok
done
R5 refused "no \\"room\\""
done
R6 ok
done
R7 ok
"""


@session(EACH_LINE, EACH_LINE_OUT)
def each_line(server):
    """Each kind of line, and what is sent for it."""
    last = {"limit": ["last", 2], "order": "key"}
    server.welcome()
    yield hears(server, listen("/a", 1))
    server.send(data("/a", 1, {"x": 1}))
    yield hears(server, put(1, "/a/y", "é"))
    yield hears(server, sent({"entries": {"/b/y": 2, "/b/z": None}, "id": 2, "k": "merge"}))
    yield hears(server, put(3, "/a/x", None))
    yield hears(server, put(4, "/p", True, "od-put"))
    yield hears(server, sent({"entries": {"/p": 1}, "id": 5, "k": "od-merge"}))
    yield hears(server, put(6, "/q", None, "od-put"))
    yield hears(server, sent({"id": 7, "k": "od-cancel", "path": "/p"}))
    yield hears(server, listen("/a", 2, q=last), unlisten(1), unlisten(2))
    server.send(*[no(it, 'no "room"') if it == 5 else ok(it) for it in range(1, 8)])
    yield from leaves(server)


SEVERAL_LINES = """["listen",1,"/a",[]]
["listen",2,"/a",[]]
["read",1]
["set",2,"/a/x",5]
["read",3]
"""
SEVERAL_OUT = """done 1
done 2
done
L1 value null
L2 value null
done 1
L1 added "x" 5 after none
L1 value {"x":5}
L2 added "x" 5 after none
L2 value {"x":5}
done
L1 removed "x" 5
L1 value null
R1 refused "denied"
L2 removed "x" 5
L2 value null
done
L1 added "y" 1 after none
L1 added "z" 2 after "y"
L1 value {"y":1,"z":2}
L2 added "y" 1 after none
L2 added "z" 2 after "y"
L2 value {"y":1,"z":2}
done
L1 cancelled "gone"
L2 cancelled "gone"
"""


@session(SEVERAL_LINES, SEVERAL_OUT)
def several_seats(server):
    """Two seats are told one after the other."""
    server.welcome()
    yield hears(server, listen("/a", 1))
    server.send(data("/a", 1, None))
    yield hears(server, put(1, "/a/x", 5))
    server.send(no(1, "denied"), text({"entries": {"/a/y": 1, "/a/z": 2}, "k": "data-merge", "tag": 1}))
    server.send(text({"k": "revoke", "tag": 1, "why": "gone"}))
    yield from leaves(server)


BOTH_LINES = """["listen",1,"/a",[]]
["listen",2,"/b",[]]
["read",2]
["read",3]
"""
BOTH_OUT = """done 1
done 2
done
L1 value null
done
L2 value null
done
L1 added "x" 1 after none
L1 value {"x":1}
L2 value 2
stale
refused core 8 BadPush
"""


@session(BOTH_LINES, BOTH_OUT)
def push_on_two_listens(server):
    """A push on two listens is one step; one on no kept listen comes too late, and one outside its listen is refused."""
    server.welcome()
    yield hears(server, listen("/a", 1), listen("/b", 2))
    server.send(data("/a", 1, None), data("/b", 2, None), push((1, {"/a/x": 1}), (2, {"/b": 2})))
    server.send(push((7, {"/a/x": 3})), push((1, {"/a/x": 3}), (2, {"/c": 4})))
    yield from leaves(server)


NINE = "18446744073709551615"
SEATS = "".join(f'["listen",{seat},"/s",[]]\n' for seat in [*range(1, 10), NINE])
SEATS += f"""["set",9,"/s",1]
["remove",9,"/s"]
["update",9,{{"/s":1}}]
["onDisconnect",9,"set","/s",1]
["onDisconnect",9,"cancel","/s"]
["unlisten",9,1]
["close",9]
["close",{NINE}]
["read",1]
["unlisten",2,1]
["cover"]
"""
SEATS_OUT = "".join(f"done {number}\n" for number in range(1, 9)) + 9 * NO_SEAT + NO_SEAT + "done\n"
SEATS_OUT += "".join(f"L{number} value 1\n" for number in range(1, 9))
SEATS_OUT += "refused core 2 UnknownListener\nT1 /s by L1\n"


@session(SEATS, SEATS_OUT)
def eight_seats(server):
    """Seats 1 to 8 are there, and 9 is not."""
    server.welcome()
    yield hears(server, listen("/s", 1))
    server.send(data("/s", 1, 1))
    yield from leaves(server)


CLOSED_SEAT = """["listen",1,"/a",[]]
["set",1,"/a",1]
["close",1]
["set",1,"/a",2]
["remove",1,"/a"]
["update",1,{"/a":2}]
["listen",1,"/a",[]]
["unlisten",1,1]
["onDisconnect",1,"set","/p",1]
["onDisconnect",1,"cancel","/p"]
["close",1]
["read",1]
["cover"]
["listen",2,"/a",[]]
["read",1]
"""


CLOSED_OUT = f"done 1\ndone 1\nL1 value 1\ndone\n{8 * NO_SEAT}done\nT none\ndone 2\ndone\nL2 value 3\n"


@session(CLOSED_SEAT, CLOSED_OUT)
def closed_seat(server):
    """A seat that is closed is told nothing, and asks for nothing."""
    server.welcome()
    yield hears(server, listen("/a", 1), put(1, "/a", 1), unlisten(1))
    server.send(ok(1))
    yield hears(server, listen("/a", 2))
    server.send(data("/a", 2, 3))
    yield from leaves(server)


BAD_LINES = [
    '["connected"]',
    '["disconnected"]',
    '["data",1,"/a",1]',
    '["merge",1,{"/a":1}]',
    '["parts",[[1,{"/a":1}]]]',
    '["ok",1]',
    '["no",1,"denied"]',
    '["revoke",1,"denied"]',
    r'["server","{\"id\":1,\"k\":\"ok\"}"]',
    '["view",1]',
    '["out"]',
    '["push",0,[0,0,0,0,0,0,0,0,0,0,0,0]]',
    '["read"]',
    '["read",0]',
    '["read",1001]',
    '["read",-1]',
    '["read",1.0]',
    '["read","1"]',
    '["read",1,1]',
    '["read",[1]]',
    '["read",18446744073709551617]',
    '["Read",1]',
    '["cover",1]',
    '["set",0,"/a",1]',
    '["set",1,"/a"]',
    '["close"]',
    '["listen",1,"/a"]',
    '["onDisconnect",1,"put","/a",1]',
    '{"read":1}',
    "read 1",
    '["set",1,"/a","\udcff"]',
    '["read",1',
]
BAD_OUT = "".join(f"bad line {number}\n" for number in range(1, len(BAD_LINES) + 1))


GOOD_LINE, GOOD_OUT = '\n\n["listen",1,"/a",[]]\nnothing', f"done 1\nbad line {len(BAD_LINES) + 3}\n"


@session("\n".join(BAD_LINES) + GOOD_LINE, BAD_OUT + GOOD_OUT, 1)
def bad_lines(server):
    """Lines that are none of its own."""
    server.welcome()
    yield hears(server, listen("/a", 1))
    yield from leaves(server)


DEEP = "/k" * 32
REFUSED_LINES = f"""["listen",1,"/a.b",[]]
["set",1,"/a",1.5]
["update",1,{{"/a.b":1}}]
["onDisconnect",1,"cancel","/a#"]
["listen",1,"/a",[["limitToFirst",0]]]
["listen",1,"/a",[["startAt",1]]]
["unlisten",1,7]
["update",1,{{}}]
["update",1,{{"/a":1,"a/b":2}}]
["onDisconnect",1,"update",{{}}]
["set",1,"{DEEP}",{{"k":1}}]
["listen",1,"/a",[]]
["read",9]
"""
REFUSED_OUT = """refused tree 1 BadKey
refused tree 4 NotWhole
refused tree 1 BadKey
refused tree 1 BadKey
refused query 5 LimitZero
refused query 8 NoOrder
refused core 2 UnknownListener
refused core 6 EmptyUpdate
refused core 5 Overlap
refused core 6 EmptyUpdate
refused core 7 TooDeep
done 1
refused wire 2 UnknownKind
refused wire 2 UnknownKind
refused wire 1 NotJson
refused wire 3 BadField
refused wire 4 BadTree
refused core 8 BadPush
stale
refused wire 1 NotJson
done
L1 value 1
"""


@session(REFUSED_LINES, REFUSED_OUT)
def refusals(server):
    """Refusals of each layer, of lines and of messages."""
    server.welcome()
    yield hears(server, listen("/a", 1))
    server.send(text('{"k":"hello"}'), text('{"id":1,"k":"put","path":"/a","value":5}'))
    server.send(text('{"id":1,"k":"ok"'), ok(0), data("/a", 1, 1.5), data("/b", 1, 1), ok(9))
    server.send(frame(BINARY, '{"k":"data","path":"/a","tag":1,"value":2}'), data("/a", 1, 1))
    yield from leaves(server)


@session('["read",1000]\n["read",1]\n', 1001 * "stale\n")
def a_thousand(server):
    """A thousand messages in one line, and one more."""
    server.welcome()
    server.send(*1001 * [ok(1)])
    yield from leaves(server)
