"""What a link does where its connection ends, by the program example_game over a server of raw sockets: what was asked and not answered is asked
again on the next connection, and what was answered is not."""
import os
import struct
import subprocess

from cutting import Wrong, must
from frames import Server
from rows import builds_of
from session import HELLO, data, listen, ok, sent, stop
from talking import Talker

EMPTY, PLAYED, ANSWERED = "... ... ...  x plays", "... .x. ...  o plays", "o.. .x. ...  x plays"
AT_END = "ox. .x. ...  o plays"


def move(number, square):
    """The write that a move is."""
    return sent({"entries": {f"/{part}/{square}": "x" for part in ("game", "moves")}, "id": number, "k": "merge"})


def come(server, game):
    """The client comes, says its version, asks for the game, and is told it."""
    server.welcome()
    must("what the client begins with", server.hear_all(2), [HELLO, listen("/game", 1)])
    server.send(data("/game", 1, game))


def go(server, player):
    """The server goes without a word, and the player says so."""
    server.vanish()
    if player.next("!") is None:
        raise Wrong("an end of the connection is not said")


def it_asks_again(program):
    server = Server()
    player = Talker([program, str(server.port), "x"])
    try:
        come(server, None)
        must("the empty game", player.next(">"), EMPTY)
        player.type("5")
        must("a move, which shows at once", player.next(">"), PLAYED)
        must("a write", server.hear(), move(1, 5))
        go(server, player)
        come(server, None)
        must("a write that was not answered", server.hear(), move(1, 5))
        server.send(data("/game", 1, {"5": "x", "1": "o"}), ok(1))
        must("the other's move", player.next(">"), ANSWERED)
        go(server, player)
        come(server, {"5": "x", "1": "o"})
        player.type("2")
        must("what comes behind a write that was answered", server.hear(), move(2, 2))
        must("a second move", player.next(">"), AT_END)
        server.send(data("/game", 1, {"5": "x", "1": "o", "2": "x"}), ok(2))
        must("how it ends", player.end(), (0, None, None))
    finally:
        stop(player.ran)
        server.close()


def wrong_of(copy):
    """What is wrong with the link of each build of the program, and how many sessions there were."""
    wrong, programs = [], builds_of(copy, "example_game")
    for program in programs:
        try:
            it_asks_again(program)
        except (Wrong, OSError, ValueError, struct.error, subprocess.TimeoutExpired) as why:
            wrong.append(f"a link: {why!r} ({os.path.basename(program)})")
    return wrong, len(programs)
