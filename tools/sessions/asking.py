"""What ./check asks of `emulate` by plain HTTP: each method and each word, what is refused, streams in pieces, and clients that stand still."""
import http.client
import json
import os
import socket
import struct
import tempfile
import threading
import time

from cutting import Wrong, library_of, must
from emulating import LISTEN, Emulator, answered, asked, data, drop, ok, put, say, tree_in
from frames import SECONDS, Client

JSON = "application/json; charset=utf-8"
HOST = b"Host: localhost\r\n"


def ask(port, method, target, body=None, **fields):
    """The status and the body of the answer to one request, by Python's own client."""
    it = http.client.HTTPConnection("127.0.0.1", port, timeout=SECONDS)
    it.request(method, target, body, {name.replace("_", "-"): value for name, value in fields.items()})
    answer = it.getresponse()
    text = answer.read()
    must(f"the kind of the answer to {method} {target}", answer.headers["Content-Type"], JSON)
    it.close()
    return answer.status, text


def value(port, target):
    """What a GET shows there."""
    status, text = ask(port, "GET", target)
    must(f"the status of {target}", status, 200)
    return json.loads(text)


def error(why):
    return json.dumps({"error": why}, separators=(",", ":")).encode()


def connected(port):
    return socket.create_connection(("127.0.0.1", port), timeout=SECONDS)


def answer_of(stream):
    """The next answer of a stream that is read as a file: its status, its fields and its body."""
    status = int(stream.readline().split()[1])
    lines = iter(stream.readline, b"\r\n")
    fields = {name.lower(): text.strip() for name, text in (line.decode().split(":", 1) for line in lines)}
    return status, fields, stream.read(int(fields.get("content-length", 0)))


def raw(port, sent, count=1):
    """The answers to bytes, and whether the stream has ended behind them."""
    with connected(port) as stream, stream.makefile("rb") as it:
        stream.sendall(sent)
        answers = [answer_of(it) for _ in range(count)]
        stream.settimeout(0.3)
        try:
            return answers, it.read(1) == b""
        except TimeoutError:
            return answers, False


def fields(port, method, target, **sent):
    """The fields of the answer to one request."""
    it = http.client.HTTPConnection("127.0.0.1", port, timeout=SECONDS)
    it.request(method, target, None, sent)
    answer = it.getresponse()
    answer.read()
    it.close()
    return answer.headers


def pages_read(port, allowed, foreign):
    """A script of an allowed page may read each answer, and its browser is told that it may write; one of a foreign page may not."""
    lets = "Access-Control-Allow-Origin"
    for method, target in (("GET", "/a.json"), ("GET", "/none"), ("OPTIONS", "/a.json"), ("OPTIONS", "/healthz")):
        must(f"whom a {method} of {target} lets read", fields(port, method, target, Origin=allowed)[lets], allowed)
        must(f"whom a foreign {method} lets read", fields(port, method, target, Origin=foreign)[lets], None)
        must(f"whom a {method} of no page lets read", fields(port, method, target)[lets], None)
    found = fields(port, "OPTIONS", "/a.json", Origin=allowed)
    must("what a page may ask", (found["Access-Control-Allow-Methods"], found["Access-Control-Allow-Headers"]), ("GET, HEAD, PUT, PATCH, POST, DELETE", "Content-Type"))


# ---- each session


def methods_do_what_they_say(program, _room):
    """Each method does to the tree what Firebase's has, and answers as it does; who listens is sent it."""
    with Emulator(program, "--tree", '{"a":{"x":1}}') as it:
        hears = Client(it.port)
        must("a listen", asked(hears, LISTEN), data("/a", {"x": 1}))
        must("a GET", ask(it.port, "GET", "/a.json"), (200, b'{"x":1}'))
        must("a GET of nothing", ask(it.port, "GET", "/b.json"), (200, b"null"))
        must("a HEAD", ask(it.port, "HEAD", "/a.json"), (200, b""))
        must("a PUT", ask(it.port, "PUT", "/a/y.json", b' {"z": 2} '), (200, b' {"z": 2} '))
        must("what is heard of a PUT", hears.text(), data("/a/y", {"z": 2}))
        must("a PATCH", ask(it.port, "PATCH", "/a.json", b'{"x":5,"y/z":6}'), (200, b'{"x":5,"y/z":6}'))
        heard = hears.text()[1]
        must("what is heard of a PATCH", (heard["k"], heard["entries"]), ("data-merge", {"/a/x": 5, "/a/y/z": 6}))
        status, text = ask(it.port, "POST", "/a/list.json", b'"first"')
        name = json.loads(text)["name"]
        must("a POST", (status, len(name), name[0]), (200, 20, "-"))
        must("what is heard of a POST", hears.text(), data(f"/a/list/{name}", "first"))
        second = json.loads(ask(it.port, "POST", "/a/list.json", b'"second"')[1])["name"]
        must("whether keys rise", name < second, True)
        must("what is heard of another", hears.text(), data(f"/a/list/{second}", "second"))
        must("a DELETE", ask(it.port, "DELETE", "/a/list.json"), (200, b"null"))
        must("what is heard of a DELETE", hears.text(), data("/a/list", None))
        must("what is there", value(it.port, "/.json"), {"a": {"x": 5, "y": {"z": 6}}})
        must("whether it is there", ask(it.port, "GET", "/healthz"), (200, b'{"status":"ok"}'))
        say(hears, put(1, "/a", 7))
        must("a write by a WebSocket", [hears.text(), hears.text()], [data("/a", 7), ok(1)])
        must("a GET then", value(it.port, "/a.json"), 7)
        must("how it ends", it.end(), (0, b""))


def words_select_and_lay_out(program, _room):
    """Each word of a query selects as a listen's does; two say how the answer is written."""
    tree = {"ann": {"n": 3}, "bob": {"n": 1}, "cat": {"n": 2}, "dan": 5}
    with Emulator(program, "--tree", json.dumps({"s": tree})) as it:
        selected = {
            'orderBy="$key"&limitToFirst=2': ["ann", "bob"],
            'orderBy="$key"&limitToLast=1': ["dan"],
            'orderBy="$key"&startAt="bob"&endAt="cat"': ["bob", "cat"],
            'orderBy="$key"&equalTo="cat"': ["cat"],
            'orderBy="n"&startAt=2': ["ann", "cat"],
            'orderBy="n"&equalTo=1': ["bob"],
            'orderBy="$value"&equalTo=5': ["dan"],
        }
        for query, keys in selected.items():
            must(query, sorted(value(it.port, f"/s.json?{query.replace(chr(34), '%22')}")), keys)
        must("a shallow GET", value(it.port, "/s.json?shallow=true"), {"ann": True, "bob": True, "cat": True, "dan": True})
        pretty = ask(it.port, "GET", "/s/ann.json?print=pretty")[1]
        must("a laid out GET", (json.loads(pretty), b"\n" in pretty), ({"n": 3}, True))
        faults = {
            "limitToFirst=2": "orderBy must be defined when other query parameters are defined",
            "shallow=true&orderBy=%22n%22": "Mixing 'shallow=true' with querying parameters is not supported",
            "print=loud": "a word of the query has a value that it can't have",
            "ns=demo": "this server doesn't know a word of the query",
        }
        for query, why in faults.items():
            must(query, ask(it.port, "GET", f"/s.json?{query}"), (400, error(why)))
        must("how it ends", it.end(), (0, b""))


def faults_say_what_is_wrong(program, _room):
    """What can't be done is answered with its status, and with what is wrong; it changes nothing, and the connection goes on."""
    with Emulator(program, "--deny", "/secret") as it:
        nodes = b"[" + b",".join([b"0"] * 70_000) + b"]"
        faults = [
            ("GET", "/secret/x.json", None, 401, "Permission denied"),
            ("PUT", "/secret.json", b"1", 401, "Permission denied"),
            ("GET", "/a", None, 404, "nothing is here: a place of the tree ends with .json"),
            ("GET", "/", None, 404, "nothing is here: a place of the tree ends with .json"),
            ("TRACE", "/a.json", None, 405, "this method can't be used here"),
            ("DELETE", "/healthz", None, 405, "this method can't be used here"),
            ("PUT", "/a.json", b"{", 400, "Invalid data; couldn't parse JSON object, array, or value."),
            ("PUT", "/a.json", b"\xff", 400, "Invalid data; the body is no UTF-8"),
            ("PUT", "/a.json", b"1.5", 400, "a number must be whole, from -9007199254740991 to 9007199254740991"),
            ("PUT", "/a.json", nodes, 400, "a tree that is read must have at most 65536 values"),
            ("PUT", "/a.b.json", b"1", 400, "a key must have at least one byte, and no control character and none of . $ # [ ] /"),
            ("PATCH", "/a.json", b"[1]", 400, "Invalid data; couldn't parse JSON object. Are you sending a JSON object with valid key names?"),
            ("PATCH", "/a.json", b"{}", 400, "Invalid data; couldn't parse JSON object. Are you sending a JSON object with valid key names?"),
            ("PATCH", "/a.json", b'{"x":1,"x/y":2}', 400, "two values of an update overlap, or one would stand too deep"),
            ("GET", "/a.json?auth=x", None, 501, "this server has no login: leave out Authorization, auth and access_token"),
        ]
        one = http.client.HTTPConnection("127.0.0.1", it.port, timeout=SECONDS)
        for method, target, body, status, why in faults:
            one.request(method, target, body)
            answer = one.getresponse()
            must(f"{method} {target}", (answer.status, answer.read()), (status, error(why)))
        lacks = {"Accept": "text/event-stream", "X_Firebase_ETag": "true", "Authorization": "Bearer x"}
        for name, text in lacks.items():
            must(f"one with {name}", ask(it.port, "GET", "/a.json", **{name: text})[0], 501)
        must("a GET of all, which is denied in part", ask(it.port, "GET", "/.json"), (401, error("Permission denied")))
        must("what is there", value(it.port, "/a.json"), None)
        must("which methods there are", raw(it.port, b"TRACE /a.json HTTP/1.1\r\n" + HOST + b"\r\n")[0][0][1]["allow"], "GET, HEAD, PUT, PATCH, POST, DELETE")
        must("how it ends", it.end(), (0, b""))
        one.close()
        must("what is told of one that was answered", [line for line in it.told() if "is no WebSocket" in line], [])


def heads_are_refused(program, _room):
    """What is no request of HTTP/1.1, and what is no handshake that a WebSocket takes, is answered, and the stream ends."""
    upgrade = b"GET / HTTP/1.1\r\n" + HOST + b"Connection: Upgrade\r\nUpgrade: websocket\r\n"
    key = b"Sec-WebSocket-Key: dGhlIHNhbXBsZSBub25jZQ==\r\n"
    wrong = {
        b"hello\r\n\r\n": 400,
        b"GET /a.json HTTP/1.1\r\n\r\n": 400,  # without a host
        b"GET /a.json HTTP/2.0\r\n\r\n": 505,
        b"GET /a.json HTTP/1.1\r\n" + HOST + b"A: " + b"x" * 20_000: 431,
        b"GET /a.json HTTP/1.1\r\n" + HOST + b"A: x\r\n" * 80 + b"\r\n": 431,
        b"PUT /a.json HTTP/1.1\r\n" + HOST + b"Content-Length: 16777217\r\n\r\n": 413,
        b"PUT /a.json HTTP/1.1\r\n" + HOST + b"Content-Length: 1\r\nTransfer-Encoding: chunked\r\n\r\n": 400,
        b"PUT /a.json HTTP/1.1\r\n" + HOST + b"Transfer-Encoding: gzip\r\n\r\n": 501,
        b"PUT /a.json HTTP/1.1\r\n" + HOST + b"Transfer-Encoding: chunked\r\n\r\nno\r\n": 400,
        b"PUT /a.json HTTP/1.1\r\n" + HOST + b"Expect: a miracle\r\nContent-Length: 1\r\n\r\n": 417,
        upgrade + key + b"Sec-WebSocket-Version: 8\r\n\r\n": 426,
        upgrade + b"Sec-WebSocket-Version: 13\r\n\r\n": 400,
        upgrade + b"Sec-WebSocket-Version: 13\r\nSec-WebSocket-Key: short\r\n\r\n": 400,
    }
    with Emulator(program) as it:
        for sent, status in wrong.items():
            [(found, fields, text)], is_over = raw(it.port, sent)
            must(f"what {sent[:90]} is answered", (found, is_over, list(json.loads(text))), (status, True, ["error"]))
            must("the version that is named", fields.get("sec-websocket-version"), "13" if status == 426 else None)
        must("a write then", ask(it.port, "PUT", "/a.json", b"1"), (200, b"1"))
        must("how it ends", it.end(), (0, b""))


def bytes_come_in_any_pieces(program, _room):
    """Two requests in one packet, a head byte by byte, bodies in chunks, and ones that wait to be sent."""
    two = b"PUT /a.json HTTP/1.1\r\n" + HOST + b"Content-Length: 2\r\n\r\n12GET /a.json HTTP/1.1\r\n" + HOST + b"\r\n"
    with Emulator(program) as it:
        answers, is_over = raw(it.port, two, 2)
        must("two requests in one packet", [(status, text) for status, _, text in answers], [(200, b"12"), (200, b"12")])
        must("whether it goes on behind them", (is_over, answers[1][1]["connection"]), (False, "keep-alive"))
        with connected(it.port) as stream, stream.makefile("rb") as read:
            for byte in two:
                stream.sendall(bytes([byte]))
            must("two requests byte by byte", [answer_of(read)[2] for _ in range(2)], [b"12", b"12"])
            stream.sendall(b"PUT /b.json HTTP/1.1\r\n" + HOST + b"Transfer-Encoding: chunked\r\n\r\n")
            for chunk in (b"1\r\n[\r\n", b"2;x=y\r\n1,\r\n", b"2\r\n2]\r\n", b"0\r\nA: b\r\n\r\n"):
                time.sleep(0.01)
                stream.sendall(chunk)
            must("a body in chunks", answer_of(read)[2], b"[1,2]")
            stream.sendall(b"PUT /c.json HTTP/1.1\r\n" + HOST + b"Expect: 100-continue\r\nContent-Length: 1\r\n\r\n")
            must("one that waits is told", read.readline() + read.readline(), b"HTTP/1.1 100 Continue\r\n\r\n")
            stream.sendall(b"7")
            must("what it is answered then", answer_of(read)[2], b"7")
            stream.sendall(b"GET /c.json HTTP/1.1\r\n" + HOST + b"Connection: close\r\n\r\n")
            must("the last answer", answer_of(read)[1]["connection"], "close")
            must("what comes behind it", read.read(), b"")
        [(status, fields, text)], is_over = raw(it.port, b"GET /c.json HTTP/1.0\r\n\r\n")
        must("a request of HTTP/1.0", (status, fields["connection"], text, is_over), (200, "close", b"7", True))
        for half in "ab":
            parts = json.dumps({f"k{number}": 1 for number in range(40_000)}).encode()
            must("a write of many values", ask(it.port, "PUT", f"/wide/{half}.json", parts)[0], 200)
        must("a tree of too many values", ask(it.port, "GET", "/wide.json")[0], 400)
        must("a part of it", len(value(it.port, "/wide/a.json")), 40_000)
        large = json.dumps("x" * 60_000).encode()
        many = b"{" + b",".join(b'"k%d":%s' % (n, large) for n in range(200)) + b"}"
        must("a body of 12 MB", ask(it.port, "PUT", "/large.json", many)[0], 200)
        must("what is there of it", len(value(it.port, "/large.json")), 200)
        must("how it ends", it.end(), (0, b""))


def streams_become_sockets(program, _room):
    """A handshake behind a request, in one packet with it and with a frame behind it, is one; so is one in small pieces."""
    hands = b"GET / HTTP/1.1\r\n" + HOST + b"Connection: Upgrade\r\nUpgrade: websocket\r\nSec-WebSocket-Version: 13\r\n"
    hands += b"Sec-WebSocket-Key: dGhlIHNhbXBsZSBub25jZQ==\r\n\r\n"
    listens = b'{"k":"listen","path":"/a","tag":1}'
    frame = bytes([0x81, 0x80 | len(listens), 0, 0, 0, 0]) + listens
    wanted = b'{"k":"data","path":"/a","tag":1,"value":5}'
    with Emulator(program, "--tree", '{"a":5}') as it:
        with connected(it.port) as stream, stream.makefile("rb") as read:
            stream.sendall(b"GET /a.json HTTP/1.1\r\n" + HOST + b"\r\n" + hands + frame)
            must("the answer before", answer_of(read)[2], b"5")
            must("the handshake", answer_of(read)[0], 101)
            must("what is sent then", read.read(2 + len(wanted)), bytes([0x81, len(wanted)]) + wanted)
        with connected(it.port) as stream, stream.makefile("rb") as read:
            for byte in hands + frame:
                stream.sendall(bytes([byte]))
            must("a handshake byte by byte", answer_of(read)[0], 101)
            must("what is sent then", read.read(2 + len(wanted)), bytes([0x81, len(wanted)]) + wanted)
        must("how it ends", it.end(), (0, b""))


def strangers_are_refused(program, _room):
    """A foreign page, and a host that isn't this machine's, can neither read nor write; what --origin allows can."""
    with Emulator(program, "--origin", "https://app.example:8443", "--tree", '{"a":5}') as it:
        refused = ["evil.example", "localhost.evil.example", "127.0.0.10", "localhost:x", "app.example", ""]
        for host in refused:
            must(f"one to {host!r}", ask(it.port, "GET", "/a.json", Host=host), (403, error("this server isn't reached by this host name")))
        for host in ("localhost", f"127.0.0.1:{it.port}", "[::1]:80", "app.example:8443"):
            must(f"one to {host}", ask(it.port, "GET", "/a.json", Host=host), (200, b"5"))
        for origin in ("http://evil.example", "null", "https://app.example"):
            for method, body in (("GET", None), ("PUT", b"6"), ("POST", b"6"), ("DELETE", None)):
                must(f"a {method} of {origin}", ask(it.port, method, "/a.json", body, Origin=origin), (403, error("a page of this origin may not ask")))
        pages_read(it.port, "https://app.example:8443", "http://evil.example")
        must("one of an allowed page", ask(it.port, "PUT", "/a.json", b"7", Origin="https://app.example:8443"), (200, b"7"))
        must("one of a page of this machine", ask(it.port, "GET", "/a.json", Origin="http://localhost:3000"), (200, b"7"))
        with connected(it.port) as stream:
            must("a handshake of a foreign page", answered(stream, "http://evil.example"), b"HTTP/1.1 403")
        must("how it ends", it.end(), (0, b""))
    with Emulator(program, "--host", "127.0.0.2", at="127.0.0.2") as it, socket.create_connection(("127.0.0.2", it.port), timeout=SECONDS) as stream:
        stream.sendall(b"GET /healthz HTTP/1.1\r\nHost: 127.0.0.2:%d\r\nConnection: close\r\n\r\n" % it.port)
        must("one to the address that is served", stream.recv(12), b"HTTP/1.1 200")


def answered_writes_are_kept(program, room):
    """What is answered outlives a kill."""
    file = f"{room}/tree.json"
    with Emulator(program, "--file", file) as it:
        for number in range(50):
            must("a write", ask(it.port, "PUT", f"/k{number}.json", b"%d" % number)[0], 200)
        it.ran.kill()
        it.ran.wait(SECONDS)
    with Emulator(program, "--file", file) as it:
        must("what is there after a kill", value(it.port, "/.json"), {f"k{number}": number for number in range(50)})
        must("how it ends", it.end(), (0, b""))
    must("what the file has", len(tree_in(file)), 50)


def slow_ones_hold_nobody_up(program, _room):
    """One that doesn't read its answers, and one whose body doesn't come, hold nobody up; one that sends on behind a refusal reads it."""
    with Emulator(program) as it:
        must("a large write", ask(it.port, "PUT", "/a.json", json.dumps(["x" * 60_000] * 100).encode())[0], 200)
        greedy, stalled = connected(it.port), connected(it.port)
        greedy.setsockopt(socket.SOL_SOCKET, socket.SO_RCVBUF, 4096)
        asks = b"GET /a.json HTTP/1.1\r\n" + HOST + b"\r\n"
        asking = threading.Thread(target=lambda: sends(greedy, asks * 2_000), daemon=True)
        asking.start()
        stalled.sendall(b"PUT /b.json HTTP/1.1\r\n" + HOST + b"Content-Length: 10\r\n\r\n1")
        worst = 0
        for number in range(200):
            began = time.monotonic()
            must("a write beside them", ask(it.port, "PUT", "/c.json", b"%d" % number)[0], 200)
            worst = max(worst, time.monotonic() - began)
        if worst > 2:
            raise Wrong(f"slow ones held another up for {worst:.1f} s")
        with open(f"/proc/{it.ran.pid}/statm", encoding="utf-8") as pages:
            held = int(pages.read().split()[1]) * os.sysconf("SC_PAGE_SIZE")
        must("whether it holds less than 200 MB", held < 200_000_000, True)
        for one in (greedy, stalled):
            one.close()
        asking.join(SECONDS)
        with connected(it.port) as stream, stream.makefile("rb") as read:
            stream.sendall(b"PUT /b.json HTTP/1.1\r\n" + HOST + b"Content-Length: 99999999\r\n\r\n" + b"x" * 500_000)
            must("one that sends on", answer_of(read)[0], 413)
            must("what comes behind", read.read(), b"")
        must("how it ends", it.end(), (0, b""))


def exchange(port, sent):
    """What is sent back to bytes behind which nothing comes, until the stream ends."""
    out = b""
    with connected(port) as stream:
        sends(stream, sent)
        try:
            stream.shutdown(socket.SHUT_WR)
            while some := stream.recv(65536):
                out += some
        except OSError:
            pass  # it has ended before
    return out


def calls_fail_anywhere(program, room):
    """A read of a request, or a write of its answer, fails behind each of the bytes: a write is taken whole or not at all, and others are served."""
    library, why = library_of(room)
    must("how tools/sessions/cut.c is compiled", why, "")
    sent = b"PUT /a.json HTTP/1.1\r\n" + HOST + b"Content-Length: 1\r\n\r\n5"
    with Emulator(program) as it:
        whole = exchange(it.port, sent)
        must("how it ends", it.end(), (0, b""))
    for kind, size in (("CUT_READ_BEHIND", len(sent)), ("CUT_WRITE_BEHIND", len(whole))):
        for count in range(size + 1):
            with Emulator(program, env={"LD_PRELOAD": library, kind: str(count)}) as it:
                is_taken = kind == "CUT_WRITE_BEHIND" or count == size
                answer = b"" if not is_taken else whole if kind == "CUT_READ_BEHIND" else whole[:count]
                must(f"what is answered, {kind} {count}", exchange(it.port, sent), answer)
                must(f"what is there, {kind} {count}", value(it.port, "/a.json"), 5 if is_taken else None)
                must("how it ends", it.end(), (0, b""))


def sends(stream, sent):
    """Sends it, as far as that goes."""
    try:
        stream.sendall(sent)
    except OSError:
        pass


def hanging_ones_are_ended(program, _room):
    """A head or a body that doesn't come on is ended after 10 seconds; one that was answered is waited for longer."""
    with Emulator(program) as it:
        began = time.monotonic()
        asks = b"GET /b.json HTTP/1.1\r\n" + HOST + b"\r\n"
        hangs = [b"PUT /b.json HTTP/1.1\r\n", b"PUT /b.json HTTP/1.1\r\n" + HOST + b"Content-Length: 10\r\n\r\n1"]
        streams = [connected(it.port) for _ in [*hangs, asks]]
        for stream, sent in zip(streams, [*hangs, asks]):
            stream.sendall(sent)
        for stream in streams[:-1]:
            must("what comes of one that hangs", stream.recv(1), b"")
            if not 9 < time.monotonic() - began < 21:
                raise Wrong(f"one that hangs was ended after {time.monotonic() - began:.1f} s")
        stays = streams[-1]
        must("the answer of another", stays.recv(12), b"HTTP/1.1 200")
        stays.recv(4096)
        stays.sendall(asks)
        must("what it is answered later", stays.recv(12), b"HTTP/1.1 200")
        for stream in streams:
            stream.close()
        must("how it ends", it.end(), (0, b""))


SESSIONS = [
    methods_do_what_they_say,
    words_select_and_lay_out,
    faults_say_what_is_wrong,
    heads_are_refused,
    bytes_come_in_any_pieces,
    streams_become_sockets,
    strangers_are_refused,
    answered_writes_are_kept,
    slow_ones_hold_nobody_up,
    hanging_ones_are_ended,
    calls_fail_anywhere,
]


def wrong_in(session, program, room):
    """What is wrong in a session with this build, in a room of its own."""
    try:
        with tempfile.TemporaryDirectory(dir=room) as own:
            session(program, own)
        return ""
    except (Wrong, OSError, ValueError, TypeError, KeyError, IndexError, struct.error, http.client.HTTPException) as why:
        return f"{session.__name__}: {why!r} ({os.path.basename(program)})"


def wrong_of(programs, room):
    """What is wrong with these builds of the program, and how many sessions there were."""
    wrong = [wrong_in(session, program, room) for program in programs for session in SESSIONS]
    return [it for it in wrong if it], len(SESSIONS) * len(programs)
