"""Asks the server as its clients do, and measures replies and notifications."""

import contextlib
import json
import selectors
import socket
import sys
import time
from typing import NamedTuple

from chain import TOP, Chain, FullChain, script_hash, shown
from server import NodePort, Process, Problem, Server, processor_seconds, say_blocks

# A kind of request is asked so many times at most, or for about so many seconds, but each of its lines once.
MOST_REQUESTS, MOST_SECONDS = 2_000, 1.0
# How many different script hashes and transactions are asked for.
SAMPLES = 500
# Seconds in which a reply or a notification has to come.
PATIENCE = 120
# Clients that are told of a new block, and how many rare script hashes each subscribes to.
CLIENTS, SUBSCRIPTIONS = 50, 10
ECHO = f"{TOP}/bench/echo.py"
ECHO_SIZES = [100, 1_000_000]


class Round(NamedTuple):
    """Requests of one kind: how many, the entries and the bytes of a reply on average, and the microseconds
    of each, by the clock and of the server's processor."""

    count: int
    entries: float
    size: float
    clock: float
    processor: float


class Told(NamedTuple):
    """One new block: how many lines each client is told, and milliseconds from the node's line to the first
    client that has all of its lines, to the last one, and of the server's processor."""

    lines: int
    first: float
    last: float
    processor: float


class Client:
    """A connection that sends a line and waits for the one that comes back."""

    def __init__(self, port: int):
        self.socket = socket.create_connection(("127.0.0.1", port), timeout=PATIENCE)
        self.socket.setsockopt(socket.IPPROTO_TCP, socket.TCP_NODELAY, 1)
        self.lines = self.socket.makefile("rb")

    def __enter__(self):
        return self

    def __exit__(self, *_):
        self.lines.close()
        self.socket.close()

    def ask(self, line: bytes) -> bytes:
        """The line that comes back."""
        self.socket.sendall(line)
        reply = self.lines.readline()
        if not reply.endswith(b"\n"):
            raise Problem(f"the connection was closed at the request {line[:100]!r}")
        return reply

    def result(self, line: bytes):
        """What the reply to a request answers."""
        return result_of(line, self.ask(line))


def result_of(line: bytes, reply: bytes):
    """What a reply answers to a request, which mustn't be an error."""
    found = json.loads(reply)
    if "result" not in found:
        raise Problem(f"the server answers {reply[:200]!r} to {line[:100]!r}")
    return found["result"]


def request(method: str, *params) -> bytes:
    """The line of a request."""
    return json.dumps({"jsonrpc": "2.0", "id": 1, "method": method, "params": params}).encode() + b"\n"


def entries_of(result) -> int:
    """How many members the list in a result has: entries of a history, coins, hashes of a proof."""
    if isinstance(result, dict):
        result = next((value for value in result.values() if isinstance(value, list)), None)
    return len(result) if isinstance(result, list) else 0


def ask_round(client: Client, pid: int, lines: list[bytes], reads_json: bool = True) -> Round:
    """Asks all of these lines some times over, each after the reply to the one before. The replies are read
    afterwards."""
    count, replies = 0, []
    began, before = time.perf_counter(), processor_seconds(pid)
    while not count or count + len(lines) <= MOST_REQUESTS and time.perf_counter() - began < MOST_SECONDS:
        replies = [client.ask(line) for line in lines]
        count += len(lines)
    clock, processor = time.perf_counter() - began, processor_seconds(pid) - before
    entries = [entries_of(result_of(*pair)) for pair in zip(lines, replies)] if reads_json else [0]
    size = sum(map(len, replies)) / len(replies)
    return Round(count, sum(entries) / len(entries), size, clock / count * 1e6, processor / count * 1e6)


def proofs(chain: Chain) -> list[bytes]:
    """Requests for headers with a proof up to the tip."""
    heights = [chain.height * part // 19 for part in range(20)]
    return [request("blockchain.block.header", height, chain.height) for height in heights]


def some_of(all_of_them: list) -> list:
    """As many of these as are asked for, from all along the list."""
    return all_of_them[::-(-len(all_of_them) // SAMPLES)]


def kinds_of(chain: FullChain) -> dict[str, list[bytes]]:
    """The requests of a round, by kind."""
    scripts = {"rare": some_of(chain.rare), "popular": chain.popular}
    kinds = {"server.ping": [request("server.ping")]}
    for method in ("get_balance", "get_history", "listunspent", "subscribe"):
        for kind, some in scripts.items():
            lines = [request(f"blockchain.scripthash.{method}", script_hash(it)) for it in some]
            kinds[f"scripthash.{method}, {kind}"] = lines
    samples = some_of(chain.samples)
    kinds["transaction.get"] = [request("blockchain.transaction.get", shown(it.txid)) for it in samples]
    kinds["transaction.get_merkle"] = [
        request("blockchain.transaction.get_merkle", shown(it.txid), it.height) for it in samples]
    kinds["block.header with a proof"] = proofs(chain)
    return kinds


def ask_all(server: Server, kinds: dict[str, list[bytes]]) -> dict[str, Round]:
    """One client asks all of these."""
    with Client(server.client_port) as client:
        return {name: ask_round(client, server.pid, lines) for name, lines in kinds.items()}


def ask_echo() -> dict[str, Round]:
    """The same client at a process that does nothing but send as many bytes as it is asked for."""
    rounds = {}
    for size in ECHO_SIZES:
        with Process([sys.executable, ECHO]) as echo:
            with Client(int(echo.wait_for(b"port ").split()[1])) as client:
                rounds[f"echo of {size:,} bytes"] = ask_round(client, echo.pid, [b"%d\n" % size], False)
    return rounds


def hear(clients: list[Client], lines: int) -> list[float]:
    """When each client has got so many lines, by the clock."""
    times, left = [], {it.socket: lines for it in clients}
    with selectors.DefaultSelector() as ready:
        for it in clients:
            ready.register(it.socket, selectors.EVENT_READ)
        while left:
            came = ready.select(PATIENCE)
            if not came:
                raise Problem(f"{len(left)} clients weren't told of a new block in {PATIENCE} seconds")
            for key, _ in came:
                data = key.fileobj.recv(1 << 20)
                if not data:
                    raise Problem("a client was closed before it was told of a new block")
                left[key.fileobj] -= data.count(b"\n")
                if left[key.fileobj] <= 0:
                    del left[key.fileobj]
                    ready.unregister(key.fileobj)
                    times.append(time.perf_counter())
    return times


def subscribe(client: Client, scripts: list[bytes]) -> None:
    """Subscribes to headers and to these scripts."""
    client.result(request("blockchain.headers.subscribe"))
    for script in scripts:
        client.result(request("blockchain.scripthash.subscribe", script_hash(script)))


def tell(server: Server, node: NodePort, chain: FullChain, wanted: list[list[bytes]]) -> Told:
    """Clients subscribe to headers and each to as many of these scripts; one new block pays to all."""
    with contextlib.ExitStack() as held:
        clients = [held.enter_context(Client(server.client_port)) for _ in wanted]
        for client, scripts in zip(clients, wanted):
            subscribe(client, scripts)
        chain.append_full(list(dict.fromkeys(script for scripts in wanted for script in scripts)))
        chain.files.parts()
        say_blocks(node, chain.places[-1:])
        before, began = processor_seconds(server.pid), time.perf_counter()
        node.send("tip " + shown(chain.tip))
        times = hear(clients, 1 + len(wanted[0]))
        processor = processor_seconds(server.pid) - before
        if node.answer() != f"at {shown(chain.tip)} {chain.height}":
            raise Problem("the server didn't come to the new block")
    first, last = ((it - began) * 1e3 for it in (times[0], times[-1]))
    return Told(1 + len(wanted[0]), first, last, processor * 1e3)


def tell_all(server: Server, chain: FullChain) -> dict[str, Told]:
    """Clients with rare script hashes of their own, while there are enough; then all with a popular one."""
    node, rare = server.node(), chain.rare
    own = [[rare[(i * SUBSCRIPTIONS + k) % len(rare)] for k in range(SUBSCRIPTIONS)] for i in range(CLIENTS)]
    told = {
        f"headers and {SUBSCRIPTIONS} rare script hashes": tell(server, node, chain, own),
        "headers and one popular script hash": tell(server, node, chain, [chain.popular[:1]] * CLIENTS)}
    node.close()
    server.wait_until_it_ends()
    return told
