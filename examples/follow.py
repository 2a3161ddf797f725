#!/usr/bin/env python3
"""Follows a Bitcoin node and speaks its lines to the server, over the server's port for the node.

usage: follow.py --blocks DIR --network NET --port N [--rpc URL --cookie FILE [--relay DIR]] [--once]

It reads the node's block files (also masked ones) and writes nothing there. Of all blocks that it has found it takes the one
with the most work behind it as the tip, or with --rpc the node's own best block, and asks the server to go there. With --rpc
it also tells the unconfirmed transactions that the node has, and those that it no longer has. With --relay, which is the
folder of the server's --relay, it gives the node the transactions of wallets that wait there. With --once it ends when the
server has come as far as the block files; else it goes on until it is stopped, which is safe at any moment.

Where the node, its block files or the server aren't as they have to be, it waits: a line on standard error tells when it
begins to, and one when it goes on. It ends, with status 1 and a line that says what to do, only where the server refuses
what it can't be led past. The server ends when its node leaves, so it ends with this program.

It is no part of what is proved. Of blocks the server believes nothing but the place: it reads them itself. Which of them is
the tip, and which transactions are unconfirmed, it takes from these lines. So the server's port for the node is to be kept
to oneself: whoever reaches it first leads the server to any block of the block files, whatever its work, tells it
unconfirmed transactions that nobody signed, and ends the server when it leaves.
"""

import argparse
import os
import re
import select
import socket
import sys
import threading
import time

# It writes nothing where it stands, also not what Python makes of the modules beside it.
sys.dont_write_bytecode = True
from block_files import MAGICS, BlockFiles, Headers, double_sha256, inner, is_whole, shown
from node_rpc import NODE, Away, Node
from relay import Relay
from unconfirmed import Unconfirmed

# Lines that are sent before their answers are read, and about how many bytes of them.
MANY, MUCH = 500, 1_000_000
# Seconds after which it is told that something is waited for that should be quick.
SLOW = 5
AT = re.compile(r"at ([0-9a-f]{64}) (\d+)")
URL = re.compile(r"http://([^/:@]+):(\d{1,5})/?")
REFUSED = re.compile(r"refused (\w+)(?: ([0-9a-f]{64}))?.*")
SERVER, FILES = "the server", "the block files"

# What to do where the server can't be led past its refusal, by the word behind `refused`.
REMEDIES = {
    "deep": "an index goes back 100 blocks at most: stop the server, empty the folder of its index, and start both again",
    "bad": "the block is whole in the block files and can't stand on the chain: start the server and this program again; "
           "where it comes again, let the node check its blocks first (bitcoind's -reindex)",
    "changed": "the node has written its block files anew: start the server and this program again, and the server looks at "
               "all of them",
    "unknown": "the server doesn't find blocks that are in the block files: it has to have the same --blocks and --network, "
               "and to be started after the node has made its files; start both again",
}
REMEDIES["unconnected"] = REMEDIES["unknown"]


class Refused(Exception):
    """The server refuses what it can't be led past."""


def say(text):
    """One line on standard error."""
    print("follow: " + text, file=sys.stderr, flush=True)


class Waits:
    """What is waited for: one line when that begins, and one when it ends."""

    def __init__(self):
        self.since = {}

    def begin(self, what, why):
        if what not in self.since:
            self.since[what] = time.monotonic()
            say(f"waiting for {what}: {why}")

    def end(self, what):
        if what in self.since:
            say(f"going on with {what}, after {time.monotonic() - self.since.pop(what):.0f} s")


class Server:
    """The server's port for the node. Where its connection ends, each call says so by `Away`."""

    def __init__(self, port, waits):
        self.port, self.waits, self.socket, self.held = port, waits, None, b""

    def connect(self):
        """Connects once the server is there, and waits until it answers."""
        while self.socket is None:
            try:
                self.socket = socket.create_connection(("127.0.0.1", self.port))
            except OSError as error:
                self.waits.begin(SERVER, f"port {self.port} of 127.0.0.1: {error.strerror or error}")
                time.sleep(0.5)
        self.socket.setsockopt(socket.IPPROTO_TCP, socket.TCP_NODELAY, 1)
        self.held = b""
        self.send("?")
        if not select.select([self.socket], [], [], SLOW)[0]:
            self.waits.begin(SERVER, "it doesn't answer yet, as where it still opens its index or looks at the block files")
        answer = self.answer("at its start, as where another program speaks to it already")
        if answer != "refused line":
            raise Refused(f"port {self.port} isn't the server's port for the node: it answers {answer[:60]!r}")
        self.waits.end(SERVER)

    def close(self):
        if self.socket is not None:
            self.socket.close()
        self.socket = None

    def send(self, *lines):
        try:
            self.socket.sendall("".join(line + "\n" for line in lines).encode())
        except OSError as error:
            raise Away(SERVER, f"its connection ends: {error.strerror or error}") from error

    def receive(self, when=""):
        """Takes what came, and waits for it where nothing did."""
        try:
            more = self.socket.recv(1 << 16)
        except OSError as error:
            raise Away(SERVER, f"its connection ends: {error.strerror or error}") from error
        if not more:
            raise Away(SERVER, f"it has closed the connection {when}".rstrip())
        self.held += more

    def answer(self, when=""):
        """The next line that it sends."""
        while b"\n" not in self.held:
            self.receive(when)
        line, self.held = self.held.split(b"\n", 1)
        return line.decode(errors="replace")

    def ask(self, line):
        self.send(line)
        return self.answer()

    def ask_all(self, lines):
        """Each of these lines with its answer. Some are sent ahead of the answers."""
        some, size = [], 0
        for line in lines:
            some.append(line)
            size += len(line)
            if len(some) == MANY or size > MUCH:
                yield from self.ask_some(some)
                some, size = [], 0
        if some:
            yield from self.ask_some(some)

    def ask_some(self, lines):
        self.send(*lines)
        for line in lines:
            yield line, self.answer()

    def watch(self, others, seconds):
        """Waits for one of these sockets so long, and notices where the server's connection ends meanwhile."""
        ready = select.select([self.socket, *others], [], [], seconds)[0]
        if self.socket in ready:
            self.receive()
            raise Refused(f"the server sends what nobody asked for: {self.held[:60]!r}")
        return ready

    def beside(self, what, work, *words):
        """What this gives with these words, done in a thread while the server's connection is watched. It may be slow."""
        mine, others = os.pipe()
        found = []

        def run():
            try:
                found.append((work(*words), None))
            except Exception as error:
                found.append((None, error))
            os.close(others)

        threading.Thread(target=run, daemon=True).start()
        try:
            while not self.watch([mine], SLOW):
                self.waits.begin(what, f"it hasn't answered for {SLOW} seconds")
        finally:
            os.close(mine)
        result, error = found[0]
        if error is not None:
            raise error
        return result


class Progress:
    """How far a long way is: a line every few seconds, with the time that is left by the bytes of the blocks that are."""

    def __init__(self, headers, name, every):
        self.headers, self.name, self.every = headers, name, every
        self.started, self.told, self.first, self.sizes = time.monotonic(), time.monotonic(), None, []

    def bytes_up_to(self):
        """By height, how many bytes the blocks up to there have."""
        sizes, total = [block.size for _, block in self.headers.path_back(self.name)][::-1], 0
        for height, size in enumerate(sizes):
            total += size
            sizes[height] = total
        return sizes

    def show(self, height):
        """The server has come to this height."""
        now = time.monotonic()
        if self.first is None:
            self.first, self.started = height, now
        if now - self.told < self.every or height == self.first:
            return
        self.told, self.sizes = now, self.sizes or self.bytes_up_to()
        goal, took = len(self.sizes) - 1, now - self.started
        if self.first < height <= goal:
            done = self.sizes[height] - self.sizes[self.first]
            left = int((self.sizes[goal] - self.sizes[height]) * took / done)
            say(f"height {height} of {goal}, {(height - self.first) / max(took, 1e-3):.0f} blocks a second, "
                f"{left // 3600}:{left // 60 % 60:02}:{left % 60:02} left")


class Follower:
    """What the server was told, and what it is to be told next."""

    def __init__(self, files, server, node, relay, every):
        self.files, self.server, self.node, self.relay, self.every = files, server, node, relay, every
        self.headers, self.waits = Headers(), server.waits
        self.at, self.fresh = None, []
        self.unconfirmed = Unconfirmed(server, node, say)

    def begin(self):
        """The server is a new one, which was told nothing."""
        self.at, self.fresh = None, []
        self.unconfirmed.begin()

    def look(self):
        """Reads what came to the block files."""
        try:
            for record in self.files.new_records():
                if self.headers.add(record) and self.at is not None:
                    self.fresh.append(f"block {record.number} {record.place}")
        except OSError as error:
            raise Away(FILES, str(error)) from error

    def goal(self):
        """The block to lead the server to: the node's, or the one with the most work; None where there is no block."""
        if self.node is None:
            self.look()
            return self.headers.best
        name = self.server.beside(NODE, self.node.best)
        self.look()
        if self.headers.height(name) is None:
            raise Away(FILES, f"the node's best block {shown(name)} isn't in {self.files.folder}")
        return name

    def tell_blocks(self, lines):
        """Tells places of the block files. The server looks there itself."""
        answers = list(self.server.ask_all(lines))
        for line, answer in answers:
            if answer == "refused place":
                self.files.look_anew(int(line.split()[1]))
        if any(answer == "refused archive" for _, answer in answers):
            raise Away(FILES, "the server can't read them")

    def places_back(self, name, most):
        """The lines of the last blocks up to this one, the earliest first."""
        lines = []
        for _, block in self.headers.path_back(name):
            if len(lines) == most:
                break
            lines.append(f"block {block.number} {block.place}")
        return lines[::-1]

    def lead(self, name):
        """Leads the server to that block, and shows how far it is."""
        goal, progress = self.headers.height(name), Progress(self.headers, name, self.every)
        missing = iter((100, 10_000, goal + 1))
        answer = self.server.ask("tip " + shown(name))
        while answer != f"at {shown(name)} {goal}":
            at = AT.fullmatch(answer)
            if at:
                self.arrive(inner(at.group(1)))
                progress.show(int(at.group(2)))
                answer = self.server.answer()
                continue
            most = next(missing, None) if answer.startswith(("refused unknown", "refused unconnected")) else None
            if most is None:
                self.refuse(answer)
            self.tell_blocks(self.places_back(name, most))
            answer = self.server.ask("tip " + shown(name))
        self.arrive(name)
        say(f"at block {shown(name)}, height {goal}")

    def arrive(self, name):
        """The server's chain ends in this block."""
        if name != self.at:
            self.unconfirmed.moved(self.at is not None and not self.headers.is_before(self.at, name))
            self.at = name

    def refuse(self, answer):
        """Waits or ends for what a `tip` line was answered."""
        refused = REFUSED.fullmatch(answer)
        kind, name = refused.groups() if refused else (None, None)
        if kind == "archive":
            raise Away(FILES, "the server can't read them")
        if kind in ("bad", "changed") and name and not self.is_there(inner(name)):
            raise Away(FILES, f"block {name} isn't whole in them")
        raise Refused(f"the server answers {answer[:100]!r}: {REMEDIES.get(kind, 'it is another program')}")

    def is_there(self, name):
        """Whether that block stands whole where it was found. Where it doesn't stand there its file is looked at anew."""
        block = self.headers.blocks.get(name)
        if block is None:
            return True
        try:
            found = self.files.block(block.number, block.place)
        except OSError as error:
            raise Away(FILES, str(error)) from error
        if found is None or double_sha256(found[:80]) != name:
            self.files.look_anew(block.number)
            return False
        return is_whole(found)

    def turn(self):
        """One look at the node; whether the server is where the block files are."""
        if self.relay is not None:
            self.relay.send()
        name = self.goal()
        if self.fresh and self.at is not None:
            self.tell_blocks(self.fresh)
        self.fresh = []
        if name is not None and name != self.at:
            self.waits.end(NODE)
            self.lead(name)
        self.waits.end(FILES)
        if self.node is not None and self.at is not None:
            self.unconfirmed.tell(self.at)
        self.waits.end(NODE)
        return name is not None


def words():
    """The words of the command line."""
    reader = argparse.ArgumentParser(description=__doc__.split("\n", maxsplit=1)[0])
    reader.add_argument("--blocks", required=True, help="the folder of the node's block files")
    reader.add_argument("--network", required=True, choices=sorted(MAGICS))
    reader.add_argument("--port", required=True, type=int, help="the server's port for the node")
    reader.add_argument("--rpc", help="the node's JSON-RPC, as http://127.0.0.1:8332")
    reader.add_argument("--cookie", help="the node's file .cookie")
    reader.add_argument("--relay", help="the folder of the server's --relay, whose transactions are given to the node")
    reader.add_argument("--once", action="store_true", help="end when the server has come as far")
    reader.add_argument("--pause", type=float, default=2.0, help="seconds between two looks at the node (2)")
    reader.add_argument("--every", type=float, default=5.0, help="seconds between two lines of a long way (5)")
    given = reader.parse_args()
    if bool(given.rpc) != bool(given.cookie):
        reader.error("--rpc and --cookie go together")
    if given.relay and not given.rpc:
        reader.error("--relay goes with --rpc and --cookie")
    url = URL.fullmatch(given.rpc or "")
    if given.rpc and not (url and 0 < int(url.group(2)) < 65536):
        reader.error("--rpc is a URL as http://127.0.0.1:8332")
    if not 0 < given.port < 65536 or not 0 <= given.pause <= 3600:
        reader.error("--port is from 1 to 65535, --pause from 0 to 3600")
    if not os.path.isdir(given.blocks):
        reader.error(f"{given.blocks} is no folder")
    if given.relay and not os.path.isdir(given.relay):
        reader.error(f"{given.relay} is no folder")
    return given


def follow(follower, server, given):
    """Goes on until it is stopped, or with --once until the server has come as far."""
    is_pause = False
    while True:
        try:
            if server.socket is None:
                server.connect()
                follower.begin()
            elif is_pause:
                server.watch([], given.pause)
            is_pause = True
            if follower.turn() and given.once:
                return 0
        except Away as away:
            server.waits.begin(away.what, away.why)
            if away.what == SERVER:
                server.close()
                time.sleep(min(given.pause, 0.5))
        except Refused as refused:
            say(str(refused))
            say("this ends, and the server with it")
            return 1


def main():
    given = words()
    waits = Waits()
    files = BlockFiles(given.blocks, bytes.fromhex(MAGICS[given.network]))
    server = Server(given.port, waits)
    node = Node(*URL.fullmatch(given.rpc).groups(), given.cookie) if given.rpc else None
    relay = Relay(given.relay, server, node, say) if given.relay else None
    follower = Follower(files, server, node, relay, given.every)
    try:
        follower.look()
        say(f"{len(follower.headers.blocks)} blocks in {given.blocks}")
    except Away as away:
        waits.begin(away.what, away.why)
    return follow(follower, server, given)


if __name__ == "__main__":
    try:
        sys.exit(main())
    except KeyboardInterrupt:
        sys.exit(0)
