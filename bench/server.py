"""Starts the built program, leads it along, and reads what it takes: processor, memory, disk."""

import os
import socket
import subprocess
import sys
import time
from typing import NamedTuple

from chain import TOP, Chain, shown
from follow import Away, Waits
from follow import Server as NodePort

# Seconds in which the program has to end once its node has left, or after its connection ended.
PATIENCE, SHORT_PATIENCE = 20, 3
# What to do where the program ended, by its exit status.
REMEDIES = {
    -9: "it was killed, as where memory is short: take a smaller --size or fewer --blocks",
    5: "give the folder of --work more room, and run it again",
    6: "another program has the port: run it again",
    7: "take a smaller --size or fewer --blocks, or free memory",
}
SERVING = b"electrum_serve: serving "
FOLLOW = os.path.join(TOP, "examples", "follow.py")
TICK = os.sysconf("SC_CLK_TCK")


class Problem(Exception):
    """Why there are no figures, and what to do, in one line."""


class Load(NamedTuple):
    """What a first load took: seconds by the clock and of the processor, bytes of memory and of the index."""

    clock: float
    processor: float
    resident: int
    peak: int
    index: int


class Start(NamedTuple):
    """What a start took until it serves: seconds by the clock and of the processor, bytes of memory."""

    clock: float
    processor: float
    resident: int
    peak: int


def processor_seconds(pid: int) -> float:
    """Seconds of a processor that a process took: the sum over its threads, which is exact to the nanosecond,
    or where it is more, as after a thread's end, what the system counts in ticks for all of them."""
    with open(f"/proc/{pid}/stat", encoding="ascii") as it:
        ticks = sum(map(int, it.read().rsplit(")", 1)[1].split()[11:13]))
    return max(ticks / TICK, sum(thread_seconds(pid, thread) for thread in os.listdir(f"/proc/{pid}/task")))


def thread_seconds(pid: int, thread: str) -> float:
    """Those of one thread; none where it has ended, or the system keeps no such account."""
    try:
        with open(f"/proc/{pid}/task/{thread}/schedstat", encoding="ascii") as it:
            return int(it.read().split()[0]) / 1e9
    except OSError:
        return 0.0


def memory(pid: int) -> tuple[int, int]:
    """Resident bytes of a process, and the most that it ever had."""
    with open(f"/proc/{pid}/status", encoding="ascii") as it:
        fields = dict(line.split(":", 1) for line in it)
    return tuple(int(fields[name].split()[0]) * 1024 for name in ("VmRSS", "VmHWM"))


def free_ports(count: int) -> list[int]:
    """Numbers of ports of this machine that nobody has."""
    held = [socket.create_server(("127.0.0.1", 0)) for _ in range(count)]
    ports = [it.getsockname()[1] for it in held]
    for it in held:
        it.close()
    return ports


class Process:
    """A started program, whose lines on standard error are read. At the end of a `with` it is gone."""

    def __init__(self, words: list[str]):
        self.name = os.path.basename(words[1] if words[0] == sys.executable else words[0])
        self.started = time.monotonic()
        self.process = subprocess.Popen(
            words, stdin=subprocess.DEVNULL, stdout=subprocess.DEVNULL, stderr=subprocess.PIPE)

    def __enter__(self):
        return self

    def __exit__(self, _kind, error, _trace):
        """Where its connection ended since it did, that is told."""
        is_away = isinstance(error, (Away, OSError)) and self.has_ended(SHORT_PATIENCE)
        said = self.process.stderr.read().decode(errors="replace").splitlines() if is_away else []
        self.stop()
        if is_away:
            raise self.ending(said) from error

    @property
    def pid(self) -> int:
        return self.process.pid

    def clock(self) -> float:
        """Seconds since it was started."""
        return time.monotonic() - self.started

    def wait_for(self, begin: bytes) -> bytes:
        """The line that begins so, once it comes."""
        said = []
        for line in self.process.stderr:
            if line.startswith(begin):
                return line
            said.append(line.decode(errors="replace").strip())
        self.process.wait()
        raise self.ending(said)

    def has_ended(self, seconds: float) -> bool:
        """Whether it has ended by itself, at the latest after so many seconds."""
        try:
            self.process.wait(seconds)
        except subprocess.TimeoutExpired:
            return False
        return True

    def ending(self, said: list[str]) -> Problem:
        """Tells that it has ended, with its last lines."""
        status = self.process.returncode
        remedy = REMEDIES.get(status, "see docs/OPERATING.md")
        return Problem(": ".join([f"{self.name} ended with status {status}", *said[-2:], remedy]))

    def wait_until_it_ends(self) -> None:
        """It has to end by itself."""
        if not self.has_ended(PATIENCE):
            raise Problem(f"{self.name} hasn't ended {PATIENCE} seconds after its node left")

    def stop(self) -> None:
        """Ends it, where it still runs."""
        self.process.kill()
        self.process.wait()
        self.process.stderr.close()


class Server(Process):
    """The built program over a folder of block files and one of an index, once it serves."""

    def __init__(self, program: str, blocks: str, index: str):
        self.index = index
        self.client_port, self.node_port = free_ports(2)
        os.makedirs(index, exist_ok=True)
        super().__init__([
            program, "serve", "--blocks", blocks, "--index", index, "--network", "regtest",
            "--client-port", str(self.client_port), "--node-port", str(self.node_port)])

    def serves(self) -> Start:
        """What it took until it serves."""
        self.wait_for(SERVING)
        clock = self.clock()
        return Start(clock, processor_seconds(self.pid), *memory(self.pid))

    def loaded(self) -> Load:
        """What it took from its start until it stands at the tip, which is now."""
        clock = self.clock()
        sizes = [entry.stat().st_size for entry in os.scandir(self.index)]
        return Load(clock, processor_seconds(self.pid), *memory(self.pid), sum(sizes))

    def node(self) -> NodePort:
        """A connection to its port for the node."""
        port = NodePort(self.node_port, Waits())
        port.connect()
        return port


def say_blocks(node: NodePort, places: list[tuple[int, int]]) -> None:
    """Says where blocks stand in the block files."""
    for line, answer in node.ask_all(f"block {number} {place}" for number, place in places):
        if not answer.startswith("block "):
            raise Problem(f"the server answers {answer!r} to {line!r}")


def say_tip(node: NodePort, chain: Chain) -> None:
    """Says that the chain's last block is the tip, and waits until the server is there."""
    line, wanted = f"tip {shown(chain.tip)}", f"at {shown(chain.tip)} {chain.height}"
    node.send(line)
    answer = node.answer()
    while answer != wanted:
        if not answer.startswith("at "):
            raise Problem(f"the server answers {answer!r} to {line!r}")
        answer = node.answer()


def load_by_lines(program: str, chain: Chain, blocks: str, index: str) -> Load:
    """A first load that a sender of its own leads: the program starts over an empty folder, into which the
    block files then come; a line `block` says where each stands, and one line `tip` leads to the last."""
    os.makedirs(blocks)
    with Server(program, blocks, index) as server:
        server.serves()
        chain.files.move_to(blocks)
        node = server.node()
        say_blocks(node, chain.places)
        say_tip(node, chain)
        load = server.loaded()
        node.close()
        server.wait_until_it_ends()
    return load


def wait_for_feeder(feeder: Process, server: Server, chain: Chain) -> None:
    """Waits until the feeder has led the server to the tip. Where that ends, the feeder waits for another."""
    wanted = f"follow: at block {shown(chain.tip)}, height {chain.height}\n".encode()
    line = feeder.wait_for(b"follow: ")
    while line != wanted:
        if line.startswith(b"follow: waiting for the server") and server.has_ended(SHORT_PATIENCE):
            raise ConnectionError("the server left the feeder")
        line = feeder.wait_for(b"follow: ")


def load_by_feeder(program: str, chain: Chain, index: str) -> Load:
    """A first load over a node's folder that is all there, led by examples/follow.py."""
    folder = chain.files.folder
    with Server(program, folder, index) as server:
        server.serves()
        words = ["--blocks", folder, "--network", "regtest", "--port", str(server.node_port)]
        with Process([sys.executable, FOLLOW, *words]) as feeder:
            wait_for_feeder(feeder, server, chain)
            load = server.loaded()
        server.wait_until_it_ends()
    return load
