"""What ./check asks of the files that `emulate` serves: their types, links and pipes, paths that lead out, bounds, methods, slow readers, files that
change meanwhile, and folders that are none."""
import http.client
import os
import socket
import struct
import subprocess
import tempfile
import threading
import time

from asking import HOST, ask, connected, error, raw, value
from cutting import Wrong, must
from emulating import Emulator
from frames import SECONDS, free_port

NOTHING = "nothing is here: a place of the tree ends with .json"
MOST = 67_108_864  # bytes of a file
TREE = "examples/tree/index.html"


def put_in(folder, **more):
    """A folder with a page, a script and a folder within it, and with more files, each by its name."""
    files = {"index.html": b"<p>of the application", "main.js": b"export const a = 1;\n", "sub/index.html": b"<p>within", **more}
    for name, text in files.items():
        place = f"{folder}/{name}"
        os.makedirs(os.path.dirname(place), exist_ok=True)
        with open(place, "wb") as it:
            it.write(text)
    return folder


def got(port, target, method="GET", body=None, **sent):
    """The answer to one request: its status, its fields and its body."""
    it = http.client.HTTPConnection("127.0.0.1", port, timeout=SECONDS)
    it.request(method, target, body, {name.replace("_", "-"): text for name, text in sent.items()})
    answer = it.getresponse()
    text = answer.read()
    it.close()
    return answer.status, answer.headers, text


def file_at(port, target):
    """The body of the file there."""
    status, _, text = got(port, target)
    return text if status == 200 else status


def none_at(port, target, what=""):
    """No file is there, and the answer is that of the tree."""
    must(f"{target} {what}", got(port, target)[::2], (404, error(NOTHING)))


def sized(place, size):
    """A file has so many bytes, which take no room on the disk. One that is there grows or shrinks in one step."""
    with open(place, "ab") as it:
        it.truncate(size)


def head_of(stream):
    """The head of the next answer of a stream that is read as a file: its status and its length."""
    status = int(stream.readline().split()[1])
    fields = dict(line.decode().lower().split(": ", 1) for line in iter(stream.readline, b"\r\n"))
    return status, int(fields["content-length"])


def slow(port, target, count=1):
    """A connection that asks for a file, and has room for little of it."""
    it = socket.socket()
    it.setsockopt(socket.SOL_SOCKET, socket.SO_RCVBUF, 4096)
    it.settimeout(SECONDS)
    it.connect(("127.0.0.1", port))
    it.sendall((b"GET " + target.encode() + b" HTTP/1.1\r\n" + HOST + b"\r\n") * count)
    return it


def writes(port, count=100):
    """So many writes are done one after another, none of which waits for long."""
    worst = 0
    for number in range(count):
        began = time.monotonic()
        must("a write beside it", ask(port, "PUT", "/c.json", b"%d" % number)[0], 200)
        worst = max(worst, time.monotonic() - began)
    if worst > 2:
        raise Wrong(f"a write was held up for {worst:.1f} s")


# ---- each session


def files_have_types(program, room):
    """A path names a file, whose type is that of its name's end; the tree's own paths stay the tree's."""
    types = {"a.css": "text/css; charset=utf-8", "b.wasm": "application/wasm", "c.svg": "image/svg+xml", "d.x": "application/octet-stream",
             "e": "application/octet-stream", "main.js": "text/javascript; charset=utf-8", "index.html": "text/html; charset=utf-8"}
    texts = {name: name.encode() for name in types if name not in ("main.js", "index.html")}
    folder = put_in(f"{room}/app", **texts, **{"data.json": b"[1]", "healthz": b"no", "é b.txt": b"escaped", "empty.txt": b""})
    with Emulator(program, "--public", folder, "--tree", '{"a":1}') as it:
        for name, kind in types.items():
            status, fields, text = got(it.port, f"/{name}")
            with open(f"{folder}/{name}", "rb") as file:
                must(f"/{name}", (status, text), (200, file.read()))
            found = [fields[field] for field in ("Content-Type", "X-Content-Type-Options", "Cache-Control", "Connection")]
            must(f"the fields of /{name}", found, [kind, "nosniff", "no-cache", "keep-alive"])
            must(f"what lets pages read /{name}", [field for field in fields if field.lower().startswith("access-control")], [])
        must("/", file_at(it.port, "/"), b"<p>of the application")
        must("a folder within", file_at(it.port, "/sub/"), b"<p>within")
        must("a file behind escapes", file_at(it.port, "/%C3%A9%20b.txt"), b"escaped")
        must("a slash behind an escape", file_at(it.port, "/sub%2Findex.html"), b"<p>within")
        must("a file behind a query", file_at(it.port, "/main.js?v=2&auth=x"), b"export const a = 1;\n")
        must("an empty file", file_at(it.port, "/empty.txt"), b"")
        status, fields, text = got(it.port, "/main.js", "HEAD")
        must("a HEAD", (status, fields["Content-Length"], text), (200, "20", b""))
        for target in ("/sub", "/none.js", "/sub/none/", "/main.js/", "/main.js/x"):
            none_at(it.port, target)
        must("a path of the tree beside such a file", value(it.port, "/data.json"), None)
        must("whether it is there", got(it.port, "/healthz")[2], b'{"status":"ok"}')
        must("the tree", value(it.port, "/.json"), {"a": 1})
        must("how it ends", it.end(), (0, b""))


def folders_stand_behind_each_other(program, room):
    """The application's files come before those of the page of the tree, which is at / where no application has a page."""
    page = put_in(f"{room}/page", **{TREE: b"<p>the tree", "kaltewi.js": b"1"})
    os.remove(f"{page}/index.html")
    app, bare = put_in(f"{room}/app", **{"kaltewi.js": b"2"}), put_in(f"{room}/bare")
    os.remove(f"{bare}/index.html")
    cases = (
        (("--page", page), b"<p>the tree", b"1"),
        (("--public", app, "--page", page), b"<p>of the application", b"2"),
        (("--page", page, "--public", bare), b"<p>the tree", b"1"),
        (("--public", bare), 404, 404),
        ((), 404, 404),
    )
    for words, first, script in cases:
        with Emulator(program, *words) as it:
            found = [file_at(it.port, target) for target in ("/", "/kaltewi.js", "/examples/tree/")]
            must(f"the files of {words}", found, [first, script, b"<p>the tree" if "--page" in words else 404])
            must("how it ends", it.end(), (0, b""))
    os.symlink(app, f"{room}/link")
    with Emulator(program, f"--public={room}/link/") as it:
        must("a folder behind a link, with a slash", file_at(it.port, "/"), b"<p>of the application")
        must("how it ends", it.end(), (0, b""))


def nothing_leads_out(program, room):
    """No path and no link leads out of the folder; hidden files, pipes and devices are not served."""
    folder = put_in(f"{room}/app", **{".git/config": b"hidden", ".env": b"hidden", "sub/.x": b"hidden", "ends.": b"named"})
    put_in(f"{room}/app2")
    with open(f"{room}/secret", "wb") as it:
        it.write(b"secret")
    links = {"out": f"{room}/secret", "beside": f"{room}/app2/main.js", "up": "..", "within": "sub/index.html", "again": "sub", "loop": "loop", "zero": "/dev/zero"}
    for name, to in links.items():
        os.symlink(to, f"{folder}/{name}")
    os.mkfifo(f"{folder}/pipe")
    outside = ["/../secret", "/%2e%2e/secret", "/..%2Fsecret", "/sub/../../secret", "/sub/..%2f..%2fsecret", "/./main.js", "//main.js", "/sub//index.html",
               "/.git/config", "/.env", "/sub/.x", "/%2Egit/config", "/main.js%00", "/%00", "/%ff", "main.js", "http://localhost/main.js", "/" + "x" * 300, "/" + "x/" * 3000]
    with Emulator(program, "--public", folder) as it:
        for target in outside:
            none_at(it.port, target)
        for name in ("out", "beside", "up", "up/secret", "up/app2/main.js", "loop", "zero", "pipe", "pipe/x"):
            none_at(it.port, f"/{name}", "by a link, or a pipe")
        must("a link within", file_at(it.port, "/within"), b"<p>within")
        must("a file of the folder, by a link out and a name in again", file_at(it.port, "/up/app/main.js"), b"export const a = 1;\n")
        must("a file in a folder behind a link within", file_at(it.port, "/again/"), b"<p>within")
        must("a name with a dot behind it", file_at(it.port, "/ends."), b"named")
        if os.geteuid():
            os.chmod(f"{folder}/main.js", 0)
            none_at(it.port, "/main.js", "without leave to read")
        must("how it ends", it.end(), (0, b""))


def sizes_are_bounded(program, room):
    """A file of the most bytes is served whole, and one of a byte more is not; the answer says so."""
    folder = put_in(f"{room}/app")
    sized(f"{folder}/most.bin", MOST)
    sized(f"{folder}/more.bin", MOST + 1)
    with Emulator(program, "--public", folder) as it:
        for method, count in (("HEAD", 0), ("GET", MOST)):
            status, fields, text = got(it.port, "/most.bin", method)
            must(f"a {method} of the longest", (status, fields["Content-Length"], len(text)), (200, str(MOST), count))
            must(f"a {method} of a longer one", got(it.port, "/more.bin", method)[0], 404)
        must("why", got(it.port, "/more.bin")[2], error("the file here has more than 67108864 bytes"))
        must("how it ends", it.end(), (0, b""))


def files_are_read_alone(program, room):
    """A method that writes is answered 405 where files are served, and changes nothing; the connection goes on."""
    folder = put_in(f"{room}/app")
    why = error("what is here can only be read, by GET and HEAD")
    with Emulator(program, "--public", folder) as it:
        for method in ("PUT", "POST", "PATCH", "DELETE", "OPTIONS", "TRACE"):
            for target in ("/main.js", "/none.js"):
                status, fields, text = got(it.port, target, method, b"1" if method in ("PUT", "POST", "PATCH") else None)
                must(f"a {method} of {target}", (status, fields["Allow"], fields["Connection"], text), (405, "GET, HEAD", "keep-alive", why))
        must("which methods there are of the tree", got(it.port, "/a.json", "TRACE")[1]["Allow"], "GET, HEAD, PUT, PATCH, POST, DELETE")
        must("the file then", file_at(it.port, "/main.js"), b"export const a = 1;\n")
        two = b"PUT /main.js HTTP/1.1\r\n" + HOST + b"Content-Length: 1\r\n\r\n5GET /main.js HTTP/1.1\r\n" + HOST + b"\r\n"
        answers, is_over = raw(it.port, two, 2)
        must("one behind the other", ([status for status, _, _ in answers], is_over), ([405, 200], False))
        must("how it ends", it.end(), (0, b""))
    with Emulator(program) as it:
        must("a PUT where no files are served", got(it.port, "/main.js", "PUT", b"1")[::2], (404, error(NOTHING)))
        must("how it ends", it.end(), (0, b""))


def strangers_are_refused(program, room):
    """A foreign page, and a host that isn't this machine's, get no file; no page of another origin may read one by its scripts."""
    folder, lets = put_in(f"{room}/app"), "Access-Control-Allow-Origin"
    with Emulator(program, "--public", folder, "--origin", "https://app.example") as it:
        for target in ("/main.js", "/none.js"):
            must(f"{target} of another host", got(it.port, target, Host="evil.example")[::2], (403, error("this server isn't reached by this host name")))
            status, fields, text = got(it.port, target, Origin="http://evil.example")
            must(f"{target} of a foreign page", (status, fields[lets], text), (403, None, error("a page of this origin may not ask")))
        status, fields, text = got(it.port, "/main.js", Origin="https://app.example")
        must("a file of an allowed page", (status, fields[lets], text), (200, None, b"export const a = 1;\n"))
        must("the tree of an allowed page", got(it.port, "/a.json", Origin="https://app.example")[1][lets], "https://app.example")
        must("a file of a page of this machine", got(it.port, "/main.js", Origin="http://localhost:3000")[0], 200)
        must("how it ends", it.end(), (0, b""))


def slow_readers_hold_nobody_up(program, room):
    """Fifty that read slowly or not at all hold nobody up, and little memory; what one reads in small pieces is the file."""
    folder = put_in(f"{room}/app")
    text = os.urandom(1 << 20) * 24
    put_in(folder, **{"large.bin": text})
    with Emulator(program, "--public", folder) as it:
        still = [slow(it.port, "/large.bin", 3) for _ in range(50)]
        with slow(it.port, "/large.bin") as stream, stream.makefile("rb") as read:
            must("its head", head_of(read), (200, len(text)))
            begun = b"".join(read.read(100_000) for _ in range(10))
            writes(it.port)
            must("a file beside it", file_at(it.port, "/main.js"), b"export const a = 1;\n")
            with open(f"/proc/{it.ran.pid}/statm", encoding="utf-8") as pages:
                held = int(pages.read().split()[1]) * os.sysconf("SC_PAGE_SIZE")
            must("whether it holds less than 100 MB", held < 100_000_000, True)
            must("whether it is the file", begun + read.read(len(text) - len(begun)) == text, True)
        for one in still:
            one.close()
        must("how it ends", it.end(), (0, b""))


def who_stops_reading_is_ended(program, room):
    """One that takes nothing of a file for 60 seconds is ended, and said."""
    folder = put_in(f"{room}/app")
    sized(f"{folder}/large.bin", MOST)
    with Emulator(program, "--public", folder) as it:
        began = time.monotonic()
        with slow(it.port, "/large.bin"):
            it.tells("is no WebSocket", "its request or its answer stands still", seconds=90)
            if not 59 < time.monotonic() - began < 82:
                raise Wrong(f"it was ended after {time.monotonic() - began:.1f} s")
        must("how it ends", it.end(), (0, b""))


def files_may_change(program, room):
    """A file that grows shorter while it is sent ends its connection; one that grows longer is sent as long as it was, and the connection goes on."""
    folder, size = put_in(f"{room}/app"), 48 << 20
    sized(f"{folder}/shorter.bin", size)
    sized(f"{folder}/longer.bin", size)
    with Emulator(program, "--public", folder) as it:
        with slow(it.port, "/shorter.bin") as stream, stream.makefile("rb") as read:
            must("the head of the one", head_of(read), (200, size))
            sized(f"{folder}/shorter.bin", 1)
            try:
                came = len(read.read(size + 1))
            except ConnectionResetError:
                came = 0
            must("whether it ends too early", came < size, True)
        with slow(it.port, "/longer.bin", 2) as stream, stream.makefile("rb") as read:
            must("the head of the other", head_of(read), (200, size))
            sized(f"{folder}/longer.bin", size + 5)
            must("what comes behind it", len(read.read(size)), size)
            must("the head of the next", head_of(read), (200, size + 5))
            os.remove(f"{folder}/longer.bin")
            must("the rest of one that is taken away", len(read.read(size + 5)), size + 5)
        none_at(it.port, "/longer.bin")
        must("how it ends", it.end(), (0, b""))


def requests_leave_nothing(program, room):
    """Five thousand requests of one connection leave no file open; one that goes in the middle of a file leaves none either."""
    folder = put_in(f"{room}/app")
    sized(f"{folder}/large.bin", MOST)
    with Emulator(program, "--public", folder) as it:
        def files():
            """How many files of the folder are open."""
            here = f"/proc/{it.ran.pid}/fd"
            return sum(os.readlink(f"{here}/{fd}").startswith(folder) for fd in os.listdir(here))

        asks, count = b"GET /main.js HTTP/1.1\r\n" + HOST + b"\r\n", 5_000
        with connected(it.port) as stream, stream.makefile("rb") as read:
            sending = threading.Thread(target=stream.sendall, args=(asks * count,))
            sending.start()
            for _ in range(count):
                must("one of them", (head_of(read), len(read.read(20))), ((200, 20), 20))
            sending.join(SECONDS)
        for _ in range(20):
            with slow(it.port, "/large.bin") as stream, stream.makefile("rb") as read:
                must("the head of a long one", head_of(read), (200, MOST))
        until = time.monotonic() + SECONDS
        while files() and time.monotonic() < until:
            time.sleep(0.05)
        must("how many files are open", files(), 0)
        must("how it ends", it.end(), (0, b""))


def descriptors_may_lack(program, room):
    """Where the system opens no more files, a file is answered 503, and served once others have gone; the tree is served all along."""
    folder = put_in(f"{room}/app")
    with Emulator(program, "--public", folder, files=24) as it:
        one = http.client.HTTPConnection("127.0.0.1", it.port, timeout=SECONDS)

        def asks(target):
            one.request("GET", target)
            answer = one.getresponse()
            return answer.status, answer.read()

        must("a file", asks("/main.js")[0], 200)
        others = [connected(it.port) for _ in range(24)]
        it.tells("no connection can be accepted for now")
        must("a file then", asks("/main.js"), (503, error("there was no answer")))
        must("the tree then", asks("/a.json"), (200, b"null"))
        for other in others:
            other.close()
        until = time.monotonic() + SECONDS
        while asks("/main.js")[0] != 200 and time.monotonic() < until:
            time.sleep(0.05)
        must("a file in the end", asks("/main.js")[0], 200)
        one.close()
        must("how it ends", it.end(), (0, b""))


def folders_may_be_none(program, room):
    """A folder that isn't there, or is none, is a fault at the start, said in one line."""
    folder = put_in(f"{room}/app")
    for word in ("--public", "--page"):
        for name in (f"{room}/none", f"{folder}/main.js", ""):
            words = [program, "emulate", str(free_port()), f"{word}={name}"]
            ran = subprocess.run(words, stdin=subprocess.DEVNULL, capture_output=True, timeout=SECONDS)
            said = ran.stderr.decode()
            is_said = said.count("\n") == 1 and said.startswith(f"kaltewi: the folder {name} can't be served: ")
            must(f"{word}={name!r}: {said!r}", (ran.returncode, ran.stdout, is_said), (1, b"", True))


SESSIONS = [
    files_have_types,
    folders_stand_behind_each_other,
    nothing_leads_out,
    sizes_are_bounded,
    files_are_read_alone,
    strangers_are_refused,
    slow_readers_hold_nobody_up,
    who_stops_reading_is_ended,
    files_may_change,
    requests_leave_nothing,
    descriptors_may_lack,
    folders_may_be_none,
]


def wrong_in(session, program, room):
    """What is wrong in a session with this build, in a room of its own."""
    try:
        with tempfile.TemporaryDirectory(dir=room) as own:
            session(program, own)
        return ""
    except (Wrong, OSError, ValueError, TypeError, KeyError, IndexError, struct.error, http.client.HTTPException, subprocess.TimeoutExpired) as why:
        return f"{session.__name__}: {why!r} ({os.path.basename(program)})"


def wrong_of(programs, room):
    """What is wrong with these builds of the program, and how many sessions there were."""
    wrong = [wrong_in(session, program, room) for program in programs for session in SESSIONS]
    return [it for it in wrong if it], len(SESSIONS) * len(programs)
