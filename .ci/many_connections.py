"""Serves 64 connections by two workers, and checks all replies against one history: many_connections.py PROGRAM [SEED].

All connections but the last are open from the beginning. Each sends random lines, cut into random pieces, and waits for no
reply. Some shut their writing side inside a line, and some reset the connection while replies come. The first one of each
worker is held open until those behind it have sent all their lines, so that both workers have much to do at the same time;
later ones send half of their lines only when they are served, in smaller pieces. The last one asks for the journal, once all
others have ended.

In the history each worker's lines stand one after another, and no line stands before a commit that some connection had been
told when the line's end was sent. Every commit is that of one line."""

import contextlib
import itertools
import random
import re
import socket
import struct
import subprocess
import sys
import threading
import time

from history import History, commit_told, request_of
from ports import connect, free_port
from random_lines import LINES, Script

CONNECTIONS = 64
AT_ONCE = 42
RESETS = 4
CUTS = 4


class Told:
    """The most commits that any connection was told of so far. Where two set it at once the lesser may stay, which asks less."""

    commits = 0


class Connection:
    # The first two may end.
    may_end = threading.Event()

    def __init__(self, number, port, fate, lines, chance):
        self.number, self.fate, self.lines, self.chance = number, fate, lines, chance
        self.requests = [request_of(line.removesuffix(b"\n")) for line in lines]
        # After so many replies it is reset. Where it is not to be, so many never come.
        self.most = LINES + 1
        if fate == "reset":
            self.most = chance.choice([chance.randrange(1, len(lines) - 1), len(lines) - 1])
        # What was told when the end of each line was sent.
        self.floors = []
        self.replies = []
        self.rest = b""
        self.is_served = threading.Event()
        self.socket = connect(port)

    def pieces(self):
        left = b"".join(self.lines)
        while left:
            length = self.chance.randrange(1, 2 ** self.chance.randrange(1, 12 if self.number < AT_ONCE else 6))
            yield left[:length]
            left = left[length:]

    def send(self, piece):
        """Sends a piece of the lines. In the last connections the second half of them waits for a reply."""
        if self.number >= AT_ONCE and len(self.floors) > LINES // 2:
            self.is_served.wait(60)
        self.floors += [Told.commits] * piece.count(b"\n")
        self.socket.sendall(piece)

    def end(self):
        """Sends no more."""
        self.floors.append(Told.commits)
        if self.number < 2:
            self.may_end.wait(60)
        if self.fate != "reset":
            self.socket.shutdown(socket.SHUT_WR)

    def read(self):
        """Reads the replies to their end, or some of them where the connection is to be reset, and resets it then."""
        try:
            while len(self.replies) < self.most and (piece := self.socket.recv(65536)):
                *replies, self.rest = (self.rest + piece).split(b"\n")
                for reply in replies:
                    self.take(reply.decode())
        except OSError as fault:
            self.rest = str(fault).encode()
        if self.fate == "reset":
            if self.most == len(self.lines) - 1:
                # Time for the last line's beginning, which is never to be answered, to come too.
                time.sleep(0.01)
            self.socket.setsockopt(socket.SOL_SOCKET, socket.SO_LINGER, struct.pack("ii", 1, 0))
        self.socket.close()

    def take(self, reply):
        self.replies.append(reply)
        if match := re.fullmatch("(?:added|replaced|deleted|place) ([0-9]+)", reply):
            Told.commits = max(Told.commits, int(match[1]))
        self.is_served.set()


def send_in_turn(connections, chance):
    """Sends the lines of one connection of each worker, a piece of one and then of the other."""
    for pieces in itertools.zip_longest(*(connection.pieces() for connection in connections)):
        for connection, piece in zip(connections, pieces):
            # A fault, as after a reset, shows in what is read.
            with contextlib.suppress(OSError):
                if piece:
                    connection.send(piece)
        if chance.random() < 0.2:
            time.sleep(0.0005)
    for connection in connections:
        with contextlib.suppress(OSError):
            connection.end()


def talk(program, seed):
    """Serves the connections, and returns them in their order. The workers take turns."""
    chance = random.Random(seed)
    port = free_port()
    words = [program, "serve", "--port", str(port), "--workers", "2", "--connections", str(CONNECTIONS // 2)]
    served = subprocess.Popen(words, stdin=subprocess.DEVNULL)
    try:
        fates = ["reset"] * RESETS + ["cut"] * CUTS + ["whole"] * (CONNECTIONS - 3 - RESETS - CUTS)
        fates = ["whole", "whole", *chance.sample(fates, len(fates))]
        resets = [number for number, fate in enumerate(fates) if fate == "reset"]
        connections = []
        for number, fate in enumerate(fates):
            # A long line would come in very many of the small pieces of the last ones.
            lines = Script(chance, number, fate, resets, number < AT_ONCE).lines
            connections.append(Connection(number, port + number % 2, fate, lines, random.Random(f"{seed} {number}")))
        readers = start(Connection.read, [(connection,) for connection in connections])
        pairs = [connections[number : number + 2] for number in range(0, CONNECTIONS, 2)]
        senders = start(send_in_turn, [(pair, random.Random(f"{seed} {pair[0].number} in turn")) for pair in pairs])
        join(senders[1 : AT_ONCE // 2])
        Connection.may_end.set()
        join([*senders, *readers])
        last = Connection(CONNECTIONS - 1, port + 1, "whole", [b"journal 0\n"], chance)
        send_in_turn([last], chance)
        last.read()
        if served.wait(60):
            raise ValueError(f"the program ended with status {served.returncode}")
        return [*connections, last]
    finally:
        served.kill()


def start(work, cases):
    """Starts a thread for each case."""
    threads = [threading.Thread(target=work, args=case, daemon=True) for case in cases]
    for thread in threads:
        thread.start()
    return threads


def join(threads):
    for thread in threads:
        thread.join(120)
        if thread.is_alive():
            raise ValueError("a connection doesn't end")


def line_of_each_commit(connections, commits):
    """The connection and the line that made each commit, by its place."""
    makers = {}
    for connection in connections:
        for line, (request, reply) in enumerate(zip(connection.requests, connection.replies)):
            if told := commit_told(request, reply):
                place, commit = told
                if place in makers or commits[place - 1 : place] != [commit]:
                    raise ValueError(f"{reply!r} to {connection.lines[line]!r} is not in the journal, or was told before")
                makers[place] = (connection, line)
    unread = {}
    for connection in connections:
        if connection.fate == "reset":
            for line in range(len(connection.replies), len(connection.lines)):
                request = connection.requests[line]
                if request[0] in ("add", "put", "del") and connection.lines[line].endswith(b"\n"):
                    unread["+-"[request[0] == "del"] + str(request[1])] = (connection, line)
    for place, commit in enumerate(commits, 1):
        if place not in makers:
            if commit not in unread:
                raise ValueError(f"no line made commit {place}, {commit}")
            makers[place] = unread.pop(commit)
    return makers


def complete(connections, makers):
    """Gives the lines of a reset connection, up to its last commit, the replies that were lost, where a commit tells them: what it
    puts was never live before."""
    for place, (connection, line) in makers.items():
        if line >= len(connection.replies):
            connection.replies += [None] * (line + 1 - len(connection.replies))
        if connection.replies[line] is None:
            connection.replies[line] = f"{'deleted' if connection.requests[line][0] == 'del' else 'added'} {place}"


def check(connections):
    """Raises where no history gives the replies."""
    for connection in connections:
        got, sent = len(connection.replies), len(connection.lines)
        if connection.fate != "reset" and (got != sent or connection.rest):
            raise ValueError(f"connection {connection.number} has {got} replies to {sent} lines, and {connection.rest!r}")
    commits = connections[-1].replies[0].split()[2:]
    makers = line_of_each_commit(connections, commits)
    complete(connections, makers)
    adds = {place: maker for place, maker in makers.items() if commits[place - 1][0] == "+"}
    history = History(commits, {place: connection.requests[line][2] for place, (connection, line) in adds.items()})
    for worker in (0, 1):
        follow(history, connections[worker::2])


def follow(history, connections):
    """Goes through the history with one worker, and raises where it doesn't give a reply."""
    least = 0
    for connection in connections:
        for line, (request, reply) in enumerate(zip(connection.requests, connection.replies)):
            least = max(least, connection.floors[line])
            count = history.count_after(request, reply, least)
            if count is None:
                told = f"line {line} of connection {connection.number}, {connection.lines[line][:99]!r}, was answered {reply!r}"
                raise ValueError(f"{told}, which it isn't after {least} commits or more")
            least = count


seed = int(sys.argv[2]) if len(sys.argv) > 2 else 1
try:
    check(talk(sys.argv[1], seed))
except (ValueError, subprocess.TimeoutExpired) as fault:
    sys.exit(f"seed {seed}: {fault}")
print(f"{CONNECTIONS} connections ok")
