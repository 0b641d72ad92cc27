"""What the cases of tests/interop/run share: what they compare, the texts of messages, and long texts."""
KIB, MIB = 1024, 1024 * 1024
MOST = 134_217_728  # how many bytes are read for one message
SECONDS = 300  # the longest that a case may take


class Wrong(Exception):
    """What a case saw, and what it had to see."""


def shown(it):
    """A text or a number, the middle of a long text left out."""
    it = repr(it)
    return it if len(it) <= 400 else f"{it[:200]} .. {it[-160:]} ({len(it)} characters)"


def must(what, got, wanted):
    if got != wanted:
        raise Wrong(f"{what} is {shown(got)}, not {shown(wanted)}")


def hello(version):
    return f'{{"k":"hello","version":{version}}}'


HELLO = hello(2)  # what kaltewi begins a connection with


def listen(path, tag, query=""):
    return f'{{"k":"listen","path":"{path}",{query}"tag":{tag}}}'


def put(number, path, value, kind="put"):
    return f'{{"id":{number},"k":"{kind}","path":"{path}","value":{value}}}'


def merge(number, entries, kind="merge"):
    return f'{{"entries":{entries},"id":{number},"k":"{kind}"}}'


def data(path, tag, value):
    return f'{{"k":"data","path":"{path}","tag":{tag},"value":{value}}}'


def push(*parts):
    """A push of parts, each a tag and its entries."""
    texts = (f'{{"entries":{entries},"tag":{tag}}}' for tag, entries in parts)
    return f'{{"k":"push","parts":[{",".join(texts)}]}}'


def ok(number):
    return f'{{"id":{number},"k":"ok"}}'


def no(number, why):
    return f'{{"id":{number},"k":"no","why":"{why}"}}'


def revoke(tag):
    return f'{{"k":"revoke","tag":{tag},"why":"denied"}}'


def padded(message, size):
    """The message with spaces before its last brace, so many bytes in all."""
    return message[:-1] + " " * (size - len(message.encode())) + message[-1]


def parts(text, size):
    return [text[i : i + size] for i in range(0, len(text), size)]


def texts_of(size):
    """An object of texts of at most 65,536 bytes, of so many bytes in all."""
    long = lambda number, count: f'"{number:02}":"{"t" * count}"'
    count = (size - 2) // (64 * KIB + 8)
    whole = ",".join(long(number, 64 * KIB) for number in range(count))
    return f"{{{whole},{long(count, size - len(whole) - 10)}}}"
