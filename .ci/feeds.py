#!/usr/bin/env python3
"""Runs the feeder of examples/ against the built program, over sockets and block files made ahead.

usage: .ci/feeds.py [PASSED FAILED]

The blocks are those that examples/regtest.py makes, which takes room for the files ahead, in zeros, as a node does, and
writes over them; a node's JSON-RPC is stood in for. A client asks for balances after each step, whose values are worked out
from what the blocks were made to pay. The last line is 'N passed, M failed', with the given counts added; where the program
isn't built no case passes.
"""

import base64
import hashlib
import http.server
import json
import os
import re
import shutil
import signal
import socket
import subprocess
import sys
import tempfile
import threading
import time

TOP = os.path.dirname(os.path.dirname(os.path.abspath(__file__)))
PROGRAM = os.path.join(TOP, "crates", "electrum_serve", "out", "electrum_serve")
EXAMPLES = os.path.join(TOP, "examples")

sys.dont_write_bytecode = True
sys.path.insert(0, EXAMPLES)
from regtest import MAGIC, Chain, double_sha256, transaction  # noqa: E402

# How many seconds a case may take.
BOUND = 300

COIN = 5_000_000_000
OPEN_SCRIPT, OWN_SCRIPT = "51", "52"


def script_hash(script):
    """A locking script's hash, as the Electrum Protocol shows it."""
    return hashlib.sha256(bytes.fromhex(script)).digest()[::-1].hex()


def free_port():
    """A port of this machine that nobody has."""
    with socket.socket() as it:
        it.bind(("127.0.0.1", 0))
        return it.getsockname()[1]


class Room:
    """A folder with block files and an index, and the server and the feeder over them."""

    def __init__(self, folder):
        self.blocks, self.index = os.path.join(folder, "blocks"), os.path.join(folder, "index")
        self.cookie, self.told = os.path.join(folder, "cookie"), os.path.join(folder, "told")
        self.relay = os.path.join(folder, "relay")
        os.mkdir(self.index)
        os.mkdir(self.relay)
        self.clients, self.node = free_port(), free_port()
        self.server, self.feeder = None, None

    def make(self, *words, blocks=None):
        """What examples/regtest.py prints."""
        made = subprocess.run(
            [sys.executable, os.path.join(EXAMPLES, "regtest.py"), "--blocks", blocks or self.blocks, *map(str, words)],
            stdout=subprocess.PIPE, check=True, timeout=60)
        return made.stdout.decode().split()

    def start(self, *words):
        """Starts the server, and waits until it answers."""
        words = [
            "serve", "--blocks", self.blocks, "--index", self.index, "--network", "regtest",
            "--client-port", str(self.clients), "--node-port", str(self.node), *words]
        self.server = subprocess.Popen([PROGRAM, *words], stdout=subprocess.DEVNULL, stderr=subprocess.DEVNULL)
        self.height()

    def kill(self):
        """Kills the server."""
        self.server.kill()
        self.server.wait(10)
        self.server = None

    def follow(self, *words, port=None):
        """Starts the feeder."""
        words = ["--blocks", self.blocks, "--network", "regtest", "--port", str(port or self.node), "--pause", "0.2", *words]
        with open(self.told, "wb") as it:
            self.feeder = subprocess.Popen([sys.executable, os.path.join(EXAMPLES, "follow.py"), *words], stderr=it)

    def says(self, *words):
        """The lines of the feeder that have one of these words."""
        with open(self.told, encoding="utf-8") as it:
            return [line for line in it.read().splitlines() if any(word in line for word in words)]

    def comes_to_say(self, *words):
        """How many lines of the feeder have one of these words, once there is one."""
        wanted_in_time(lambda: bool(self.says(*words)), True)
        return len(self.says(*words))

    def counts(self, word, wanted):
        """How many lines of the feeder have the word, once there are as many as are wanted."""
        return wanted_in_time(lambda: len(self.says(word)), wanted)

    def runs(self):
        """Whether both still run, and the feeder has told of no fault of its own."""
        return [self.server.poll(), self.feeder.poll(), self.says("Traceback", "Error:")]

    def leave(self):
        """Stops the feeder, and says how the server then ends."""
        self.feeder.kill()
        self.feeder.wait(10)
        self.feeder = None
        return self.ended()

    def ended(self):
        """How the server ends, once its node has left."""
        status = self.server.wait(20)
        self.server = None
        return status

    def close(self):
        """Stops what still runs."""
        running = [it for it in (self.feeder, self.server) if it is not None]
        for it in running:
            it.kill()
        for it in running:
            it.wait(10)

    def ask(self, method, *params):
        """What the server answers a client, who comes again where another one is still there."""
        line = json.dumps({"id": 1, "method": method, "params": list(params)}).encode() + b"\n"
        for _ in range(300):
            held = self.answer(line)
            if held.endswith(b"\n"):
                reply = json.loads(held)
                return reply.get("result", reply.get("error"))
            time.sleep(0.1)
        return None

    def answer(self, line):
        """What comes for a line until its end, or until the server closes; nothing where it isn't there."""
        held = b""
        try:
            with socket.create_connection(("127.0.0.1", self.clients), timeout=20) as it:
                it.sendall(line)
                while not held.endswith(b"\n"):
                    more = it.recv(65536)
                    if not more:
                        break
                    held += more
        except OSError:
            pass
        return held

    def broadcast(self, text):
        """What the server answers a wallet that sends a transaction: the txid, or why not."""
        found = self.ask("blockchain.transaction.broadcast", text)
        return found["message"] if isinstance(found, dict) else found

    def wallet(self):
        """A wallet that stays."""
        return socket.create_connection(("127.0.0.1", self.clients), timeout=20)

    def relayed(self):
        """By name, what the files of the relay's folder have."""
        found = {}
        for name in sorted(os.listdir(self.relay)):
            with open(os.path.join(self.relay, name), encoding="utf-8") as it:
                found[name] = it.read()
        return found

    def balance(self, script):
        """Confirmed and unconfirmed satoshi of a script."""
        found = self.ask("blockchain.scripthash.get_balance", script_hash(script))
        return found["confirmed"], found["unconfirmed"]

    def height(self):
        """The height of the chain that is answered from; None where it has no block."""
        return self.ask("blockchain.headers.subscribe").get("height")

    def comes_to(self, height):
        """The height to which the chain comes in time."""
        return wanted_in_time(self.height, height)

    def comes_to_hold(self, wanted):
        """The balance to which the own script comes in time."""
        return wanted_in_time(lambda: self.balance(OWN_SCRIPT), wanted)


class NodeRpc:
    """A stand-in for a node's JSON-RPC: a best block, and unconfirmed transactions by txid. It can stop and start again,
    with another cookie, and reply as a node does that isn't well."""

    def __init__(self, cookie):
        self.best, self.pool, self.fault = None, {}, None
        # What it answers to transactions that it is given, by txid: a code and a reason. It takes the others.
        self.refusals, self.given = {}, []
        self.cookie, self.secret, self.starts, self.port, self.http = cookie, b"", 0, 0, None
        self.lock, self.most = threading.Lock(), 0

    @property
    def url(self):
        return f"http://127.0.0.1:{self.port}"

    def start(self):
        """Starts it, where it was before."""
        self.starts += 1
        self.secret = f"__cookie__:{self.starts:064x}".encode()
        self.http = http.server.ThreadingHTTPServer(("127.0.0.1", self.port), answers_of(self))
        self.http.daemon_threads = True
        self.port = self.http.server_address[1]
        threading.Thread(target=self.http.serve_forever, args=[0.05], daemon=True).start()
        with open(self.cookie, "wb") as it:
            it.write(self.secret)

    def stop(self):
        """Stops it; its cookie goes with it."""
        self.http.shutdown()
        self.http.server_close()
        os.remove(self.cookie)

    def become(self, best, *texts):
        """At one moment the best block is this one, and the unconfirmed transactions are these, in that order."""
        pool = {txid_of(text): text for text in texts}
        with self.lock:
            self.best, self.pool = best, pool

    def result(self, method, params):
        """What a call gives."""
        if method == "getbestblockhash":
            return self.best
        if method == "getrawmempool":
            return list(self.pool)
        if method == "sendrawtransaction":
            return self.take(params[0])
        return self.pool.get(params[0])

    def take(self, text):
        """The txid of a transaction that it takes; None of one that it refuses."""
        txid = txid_of(text)
        self.given.append(txid)
        if txid in self.refusals:
            return None
        self.pool[txid] = text
        return txid

    def error(self, method, params):
        """What a call is refused for."""
        code, reason = self.refusals.get(txid_of(params[0]), (0, "")) if method == "sendrawtransaction" else (0, "")
        return {"code": code, "message": reason} if code else None

    def reply(self, calls):
        """The reply to a list of calls."""
        self.most = max(self.most, len(calls))
        if self.fault == "warms up":
            error = {"code": -28, "message": "Loading block index"}
            return [{"id": c["id"], "result": None, "error": error} for c in calls]
        if self.fault == "odd":
            return {"result": "none of what was asked for"}
        with self.lock:
            return [self.answer(c["id"], c["method"], c["params"]) for c in calls]

    def answer(self, number, method, params):
        """The reply to a call."""
        return {"id": number, "result": self.result(method, params), "error": self.error(method, params)}


def answers_of(node):
    """What answers for a stand-in."""

    class Answers(http.server.BaseHTTPRequestHandler):
        """One POST, of a list of calls."""

        def do_POST(self):
            """Answers them, or not quite."""
            calls = json.loads(self.rfile.read(int(self.headers["Content-Length"])))
            text = json.dumps(node.reply(calls)).encode()
            if self.headers["Authorization"] != "Basic " + base64.b64encode(node.secret).decode():
                return self.send_error(401)
            if node.fault == "busy":
                return self.send_error(503, "Work queue depth exceeded")
            if node.fault == "slow":
                wanted_in_time(lambda: node.fault, None)
            self.send_response(200)
            self.send_header("Content-Length", str(len(text)))
            self.end_headers()
            self.wfile.write(text[:len(text) // 2] if node.fault == "cut" else text)
            return None

        def log_message(self, *_):
            """Says nothing."""

    return Answers


def txid_of(text):
    """The txid of a transaction without witnesses, as it is shown."""
    once = hashlib.sha256(bytes.fromhex(text)).digest()
    return hashlib.sha256(once).digest()[::-1].hex()


def wanted_in_time(look, wanted):
    """What a look gives, at the latest after thirty seconds."""
    for _ in range(300):
        found = look()
        if found == wanted:
            break
        time.sleep(0.1)
    return found


def follows_files_made_ahead(room, *mask):
    """Blocks are written into files that are made ahead, while server and feeder run; when the feeder leaves, the server
    ends."""
    room.make("grow", 40, *mask)
    room.start()
    room.follow()
    seen = [os.path.getsize(os.path.join(room.blocks, "blk00000.dat")), room.comes_to(40), room.balance(OPEN_SCRIPT)]
    for height in (41, 42):
        room.make("grow", 1, "--pay", OWN_SCRIPT)
        seen += [room.comes_to(height)]
    seen += [room.balance(OWN_SCRIPT), room.leave()]
    return seen, [16 << 20, 40, (40 * COIN, 0), 41, 42, (2 * COIN, 0), 0]


def follows_masked_files_made_ahead(room):
    """The blocks are masked, and the zeros made ahead are not."""
    return follows_files_made_ahead(room, "--mask")


def to_come(room, count):
    """The place where the next block of the first file will stand, and the bytes of so many records to come."""
    shutil.copytree(room.blocks, room.blocks + ".more")
    chain, records = Chain(room.blocks + ".more", False), []
    end = chain.end
    for _ in range(count):
        place = chain.end
        chain.grow(1, bytes.fromhex(OPEN_SCRIPT), 0, [])
        chain.look()
        made = chain.files.block(0, place)
        records.append(MAGIC + len(made).to_bytes(4, "little") + made)
    return end, records


def follows_the_next_file(room):
    """A node cuts off what it made ahead of a file, and goes on in the next one; then it writes into the first one again."""
    room.make("grow", 3)
    room.start()
    room.follow()
    seen = [room.comes_to(3)]
    first, second = (os.path.join(room.blocks, name) for name in ("blk00000.dat", "blk00001.dat"))
    end, (fourth, fifth) = to_come(room, 2)
    os.truncate(first, end)
    with open(second, "wb") as it:
        os.posix_fallocate(it.fileno(), 0, 16 << 20)
        it.write(fifth)
    time.sleep(1)
    seen += [room.height()]
    with open(first, "r+b") as it:
        os.posix_fallocate(it.fileno(), end, 16 << 20)
        os.pwrite(it.fileno(), fourth, end)
    return seen + [room.comes_to(5), room.runs()], [3, 3, 5, [None, None, []]]


def follows_a_block_behind_a_gap(room):
    """Zeros stand before the next block, in the same step of the room made ahead and behind it; then the one after it comes
    before them, and then the node writes over what stands there."""
    room.make("grow", 3)
    room.start()
    room.follow()
    seen = [room.comes_to(3)]
    end, records = to_come(room, 4)
    with open(os.path.join(room.blocks, "blk00000.dat"), "r+b") as it:
        os.posix_fallocate(it.fileno(), 0, 32 << 20)
        for record, place in zip(records, (end + (3 << 20) + 5, 17 << 20, end, end)):
            os.pwrite(it.fileno(), record, place)
            seen += [room.comes_to(seen[-1] + 1)]
    return seen + [room.runs()], [3, 4, 5, 6, 7, [None, None, []]]


def waits_for_a_block_that_is_cut(room, *mask):
    """A node is stopped in the writing of a block, while the feeder runs and before it starts; then it writes another one,
    or that one, in its place."""
    room.make("grow", 3, *mask)
    room.start()
    room.follow()
    seen = [room.comes_to(3)]
    room.make("grow", 1, "--part", 150)
    time.sleep(1)
    seen += [room.height(), room.runs()]
    room.make("grow", 1, "--pay", OWN_SCRIPT)
    seen += [room.comes_to(4), room.balance(OWN_SCRIPT)]
    room.make("grow", 1, "--part", 120)
    room.leave()
    room.start()
    room.follow()
    seen += [room.comes_to_say("at block"), room.height()]
    room.make("grow", 1)
    return seen + [room.comes_to(5), room.runs()], [3, 3, [None, None, []], 4, (COIN, 0), 1, 4, 5, [None, None, []]]


def waits_for_a_masked_block_that_is_cut(room):
    """The files are masked."""
    return waits_for_a_block_that_is_cut(room, "--mask")


def follows_a_reorganisation(room):
    """A branch overtakes the last two blocks."""
    room.make("grow", 5)
    room.make("grow", 2, "--pay", OWN_SCRIPT)
    room.start()
    room.follow()
    seen = [room.comes_to(7), room.balance(OWN_SCRIPT)]
    room.make("grow", 3, "--back", 2)
    seen += [room.comes_to(8), room.balance(OWN_SCRIPT), room.balance(OPEN_SCRIPT)]
    return seen, [7, (2 * COIN, 0), 8, (0, 0), (8 * COIN, 0)]


def goes_on_after_each_side_stopped(room):
    """The server is killed, and started again over its index; then the feeder, with which the server ends."""
    room.make("grow", 20)
    room.start()
    room.follow()
    seen = [room.comes_to(20)]
    room.kill()
    room.make("grow", 3)
    room.start()
    seen += [room.comes_to(23), room.leave()]
    room.start()
    seen += [wanted_in_time(room.height, 23)]
    room.make("grow", 1)
    room.follow()
    seen += [room.comes_to(24), room.balance(OPEN_SCRIPT)]
    return seen, [20, 23, 0, 23, 24, (24 * COIN, 0)]


def notices_at_once_that_the_server_stopped(room):
    """The server is killed and started again while no block comes. It is told what is unconfirmed once more."""
    rpc = at_a_node(room, 3)
    text, = room.make("spend", 2, "--pay", OWN_SCRIPT)
    rpc.become(rpc.best, text)
    seen = [room.comes_to_hold((0, COIN))]
    room.kill()
    began = time.monotonic()
    seen += [room.comes_to_say("waiting for the server"), time.monotonic() - began < 5, len(room.says("going on"))]
    room.start()
    seen += [room.comes_to_hold((0, COIN)), room.comes_to_say("going on with the server")]
    return seen + [len(room.says("waiting")), room.runs()], [(0, COIN), 1, True, 0, (0, COIN), 1, 1, [None, None, []]]


def waits_where_another_feeder_is(room):
    """A second feeder comes while one is there, and takes its place when the server is there again, which that one ended."""
    room.make("grow", 2)
    room.start()
    room.follow()
    seen, first = [room.comes_to(2)], room.feeder
    room.follow()
    seen += [room.comes_to_say("waiting for the server"), len(room.says("going on"))]
    first.kill()
    first.wait(10)
    seen += [room.ended()]
    room.start()
    room.make("grow", 1)
    return seen + [room.comes_to(3), len(room.says("waiting")), room.runs()], [2, 1, 0, 0, 3, 1, [None, None, []]]


def at_a_node(room, count, *words, serve=()):
    """The stand-in of a node with so many blocks, and server and feeder at the last of them."""
    best, height = room.make("grow", count)
    rpc = NodeRpc(room.cookie)
    rpc.start()
    rpc.best = best
    room.start(*serve)
    room.follow("--rpc", rpc.url, "--cookie", room.cookie, *words)
    room.comes_to(int(height))
    return rpc


def follows_a_node_over_files_made_ahead(room, before=0):
    """The node's JSON-RPC names the best block, which isn't the one with the most work, as where the node finds fault."""
    rpc = at_a_node(room, 4)
    rpc.best, _ = room.make("grow", 1, "--pay", OWN_SCRIPT)
    seen = [room.comes_to(before + 5), room.balance(OWN_SCRIPT)]
    room.make("grow", 2)
    time.sleep(1)
    return seen + [room.height(), room.runs()], [before + 5, (COIN, 0), before + 5, [None, None, []]]


def follows_a_node_over_masked_files(room):
    """They are masked."""
    room.make("grow", 2, "--mask")
    return follows_a_node_over_files_made_ahead(room, 2)


def tells_unconfirmed_transactions(room):
    """A node's JSON-RPC names the best block and the unconfirmed transactions."""
    rpc = at_a_node(room, 4)
    text, = room.make("spend", 2, "--pay", OWN_SCRIPT)
    seen = [room.balance(OWN_SCRIPT)]
    rpc.become(rpc.best, text)
    seen += [room.comes_to_hold((0, COIN)), room.balance(OPEN_SCRIPT)]
    rpc.become(rpc.best)
    seen += [room.comes_to_hold((0, 0))]
    rpc.become(rpc.best, text)
    seen += [room.comes_to_hold((0, COIN))]
    second, _ = room.make("grow", 1, "--confirm", text)
    rpc.become(second)
    seen += [room.comes_to_hold((COIN, 0)), room.balance(OPEN_SCRIPT)]
    return seen, [(0, 0), (0, COIN), (4 * COIN, -COIN), (0, 0), (0, COIN), (COIN, 0), (4 * COIN, 0)]


def spend_of(text, output, value, script):
    """A transaction that spends an output of that one, in hex."""
    outpoint = double_sha256(bytes.fromhex(text)) + output.to_bytes(4, "little")
    return transaction([(outpoint, b"")], [(value, bytes.fromhex(script))]).hex()


def tells_children_after_their_parents(room):
    """A node names a chain of unconfirmed transactions from its end to its start, as the feeder comes. A block has the first
    two; then another branch, without them, overtakes it, and the node has them again."""
    room.make("grow", 4)
    texts = room.make("spend", 2, "--pay", OPEN_SCRIPT)
    for i in range(1, 5):
        texts += [spend_of(texts[-1], 0, COIN - i, OWN_SCRIPT if i == 4 else OPEN_SCRIPT)]
    rpc = NodeRpc(room.cookie)
    rpc.start()
    rpc.become(room.make("grow", 1)[0], *texts[::-1])
    room.start()
    room.follow("--rpc", rpc.url, "--cookie", room.cookie)
    seen = [room.comes_to_hold((0, COIN - 4))]
    best, _ = room.make("grow", 1, "--confirm", texts[0], "--confirm", texts[1])
    rpc.become(best, *texts[:1:-1])
    seen += [room.comes_to(6), room.comes_to_hold((0, COIN - 4)), room.balance(OPEN_SCRIPT)]
    best, _ = room.make("grow", 2, "--back", 1)
    rpc.become(best, *texts[::-1])
    seen += [room.comes_to(7), room.comes_to_hold((0, COIN - 4)), room.balance(OPEN_SCRIPT)]
    rpc.become(best, *texts[:4])
    seen += [room.comes_to_hold((0, 0)), room.balance(OPEN_SCRIPT), room.runs()]
    return seen, [
        (0, COIN - 4), 6, (0, COIN - 4), (6 * COIN - 1, 1 - COIN), 7, (0, COIN - 4), (7 * COIN, -COIN),
        (0, 0), (7 * COIN, -3), [None, None, []]]


def drops_what_is_replaced(room):
    """The node has another transaction in the place of one, with what spent that one gone. A block has the first one; then
    another branch, without it, overtakes it, and the node has the other one again, and not two that it had all the time."""
    rpc = at_a_node(room, 4)
    text, = room.make("spend", 2, "--pay", OPEN_SCRIPT)
    other, = room.make("spend", 2, "--pay", OWN_SCRIPT)
    both = room.make("spend", 3, "--pay", OPEN_SCRIPT)
    both += [spend_of(both[0], 0, COIN - 7, OWN_SCRIPT)]
    rpc.become(rpc.best, spend_of(text, 0, COIN - 1, OWN_SCRIPT), text, *both)
    seen = [room.comes_to_hold((0, 2 * COIN - 8))]
    rpc.become(rpc.best, other, *both)
    seen += [room.comes_to_hold((0, 2 * COIN - 7)), room.balance(OPEN_SCRIPT)]
    rpc.become(room.make("grow", 1, "--confirm", text)[0], *both)
    seen += [room.comes_to(5), room.comes_to_hold((0, COIN - 7)), room.balance(OPEN_SCRIPT)]
    rpc.become(room.make("grow", 2, "--back", 1)[0], other)
    seen += [room.comes_to(6), room.comes_to_hold((0, COIN)), room.runs()]
    return seen, [
        (0, 2 * COIN - 8), (0, 2 * COIN - 7), (4 * COIN, -2 * COIN), 5, (0, COIN - 7), (5 * COIN, -COIN),
        6, (0, COIN), [None, None, []]]


def processor_time(room):
    """Seconds of a processor that server, feeder and this program took, which is more than what it takes on a free machine."""
    took = time.process_time()
    for it in (room.server, room.feeder):
        with open(f"/proc/{it.pid}/stat", encoding="ascii") as stat:
            took += sum(map(int, stat.read().rsplit(")", 1)[1].split()[11:13])) / os.sysconf("SC_CLK_TCK")
    return took


def tells_50000_in_a_minute(room):
    """They are chains of 25, and the node names each from its end to its start."""
    count, length, value = 2_000, 25, 100_000
    rpc = at_a_node(room, 4)
    paid, = room.make("spend", 1)
    fan = transaction([(double_sha256(bytes.fromhex(paid)) + bytes(4), b"")], [(value, b"\x51")] * count).hex()
    rows = [[spend_of(fan, i, value, OPEN_SCRIPT) for i in range(count)]]
    for i in range(1, length):
        rows.append([spend_of(text, 0, value, OWN_SCRIPT if i == length - 1 else OPEN_SCRIPT) for text in rows[-1]])
    texts = [text for row in rows[::-1] for text in row]
    with open(os.path.join(os.path.dirname(room.blocks), "fan"), "w", encoding="ascii") as it:
        it.write(fan)
    rpc.become(room.make("grow", 1, "--confirm", paid, "--confirm", "@" + it.name)[0], *texts)
    began, before = time.monotonic(), processor_time(room)
    seen = [room.comes_to(5)]
    while processor_time(room) - before < 60 and time.monotonic() - began < 150 and (
            room.balance(OWN_SCRIPT)[1] < count * value):
        time.sleep(0.5)
    print(f"feeds: {room.balance(OWN_SCRIPT)[1] * length // value} unconfirmed transactions told in "
          f"{time.monotonic() - began:.0f} s, {processor_time(room) - before:.0f} s of a processor")
    seen += [room.balance(OWN_SCRIPT), rpc.most]
    rpc.become(rpc.best, *texts[100:])
    return seen + [room.comes_to_hold((0, (count - 100) * value)), room.runs()], [
        5, (0, count * value), 100, (0, (count - 100) * value), [None, None, []]]


def waits_for_a_node_that_stopped(room):
    """The node stops, with its cookie, and comes again with another one. The server stays, with what it was told; one line
    tells that it is waited for, and one that it is there again."""
    rpc = at_a_node(room, 3)
    text, = room.make("spend", 2, "--pay", OWN_SCRIPT)
    rpc.become(rpc.best, text)
    seen = [room.comes_to_hold((0, COIN))]
    rpc.stop()
    seen += [room.comes_to_say("waiting for the node"), len(room.says("going on"))]
    best, _ = room.make("grow", 1)
    time.sleep(1)
    seen += [room.height(), room.balance(OWN_SCRIPT), room.runs()]
    rpc.start()
    rpc.best = best
    seen += [room.comes_to(4), room.balance(OWN_SCRIPT), room.comes_to_say("going on with the node")]
    return seen + [len(room.says("waiting")), room.runs()], [
        (0, COIN), 1, 0, 3, (0, COIN), [None, None, []], 4, (0, COIN), 1, 1, [None, None, []]]


def waits_for_a_node_that_is_not_there_yet(room):
    """The node starts after the feeder, and so does the server."""
    best, _ = room.make("grow", 3)
    rpc = NodeRpc(room.cookie)
    rpc.start()
    rpc.best = best
    rpc.stop()
    room.follow("--rpc", rpc.url, "--cookie", room.cookie)
    seen = [room.comes_to_say("waiting for the server")]
    room.start()
    seen += [room.comes_to_say("waiting for the node")]
    rpc.start()
    return seen + [room.comes_to(3), room.counts("going on", 2), room.runs()], [1, 1, 3, 2, [None, None, []]]


def waits_for_a_node_that_is_not_well(room):
    """Its replies are cut, none that was asked for, refused, late, or tell that it warms up."""
    rpc = at_a_node(room, 3)
    text, = room.make("spend", 2, "--pay", OWN_SCRIPT)
    seen = []
    for number, fault in enumerate(("cut", "odd", "busy", "warms up", "slow"), 1):
        rpc.fault = fault
        seen += [room.counts("waiting", number), len(room.says("going on")) + 1]
        rpc.become(rpc.best, *[] if rpc.pool else [text])
        rpc.fault = None
        seen += [room.comes_to_hold((0, COIN if rpc.pool else 0))]
        seen += [room.counts("going on", number)]
    wanted = [it for i in range(1, 6) for it in (i, i, (0, COIN * (i % 2)), i)]
    return seen + [room.runs()], wanted + [[None, None, []]]


def waits_for_the_node_s_cookie(room):
    """The cookie isn't the node's; then it is."""
    rpc = at_a_node(room, 2)
    secret, rpc.secret = rpc.secret, b"another"
    seen = [room.comes_to_say("waiting for the node")]
    rpc.best, _ = room.make("grow", 1)
    rpc.secret = secret
    return seen + [room.comes_to(3), room.counts("going on", 1), room.runs()], [1, 3, 1, [None, None, []]]


def waits_for_block_files_that_are_away(room):
    """The folder goes, as where its disk isn't there, and comes again."""
    room.make("grow", 2)
    room.start()
    room.follow()
    seen = [room.comes_to(2)]
    os.rename(room.blocks, room.blocks + ".away")
    seen += [room.comes_to_say("waiting for the block files")]
    os.rename(room.blocks + ".away", room.blocks)
    room.make("grow", 1)
    return seen + [room.comes_to(3), room.counts("going on", 1), room.runs()], [2, 1, 3, 1, [None, None, []]]


def next_line(wallet):
    """The next line that a wallet gets, as what it says."""
    held = b""
    while not held.endswith(b"\n"):
        more = wallet.recv(1)
        if not more:
            break
        held += more
    return json.loads(held)


def sends_the_transactions_of_wallets(room):
    """A wallet sends a transaction that the node takes, one that it refuses and one that it knew, before the feeder comes:
    they wait in the relay's folder. The feeder gives them to the node, and the wallet sees its payment, and then its block."""
    best, _ = room.make("grow", 6)
    good, = room.make("spend", 2, "--pay", OWN_SCRIPT)
    bad, = room.make("spend", 3, "--pay", OWN_SCRIPT)
    known, = room.make("spend", 4, "--pay", OWN_SCRIPT)
    rpc = NodeRpc(room.cookie)
    rpc.start()
    rpc.best = best
    rpc.refusals = {txid_of(bad): (-26, "min relay fee not met,\n 0 < 110"), txid_of(known): (-27, "Already in block chain")}
    room.start("--relay", room.relay)
    seen = [[room.broadcast(text) for text in (good, bad, known, good, "00")]]
    seen += [room.relayed() == {txid_of(text) + ".tx": text for text in (good, bad, known)}]
    with room.wallet() as wallet:
        ask = {"id": 1, "method": "blockchain.scripthash.subscribe", "params": [script_hash(OWN_SCRIPT)]}
        wallet.sendall(json.dumps(ask).encode() + b"\n")
        seen += [next_line(wallet)["result"]]
        room.follow("--rpc", rpc.url, "--cookie", room.cookie, "--relay", room.relay)
        told = next_line(wallet)
        seen += [told["method"], told["params"][0] == script_hash(OWN_SCRIPT), room.comes_to_hold((0, COIN))]
        seen += [wanted_in_time(lambda: sorted(room.relayed()), [txid_of(bad) + ".refused"])]
        seen += [room.relayed()[txid_of(bad) + ".refused"], len(room.says("refuses it: min relay fee not met"))]
        rpc.become(room.make("grow", 1, "--confirm", good)[0])
        told = next_line(wallet)
        seen += [told["params"][0] == script_hash(OWN_SCRIPT), room.comes_to_hold((COIN, 0)), sorted(rpc.given)]
    return seen + [room.runs()], [
        [txid_of(good), txid_of(bad), txid_of(known), txid_of(good), "not a transaction"], True, None,
        "blockchain.scripthash.subscribe", True, (0, COIN), [txid_of(bad) + ".refused"],
        bad + "\nmin relay fee not met, 0 < 110 (-26)\n", 1, True, (COIN, 0),
        sorted(map(txid_of, (good, bad, known))), [None, None, []]]


def keeps_what_was_taken_when_the_server_stops(room):
    """The server is killed as soon as the file of a wallet's transaction is there, before the wallet reads a reply. The wallet
    asks again, and the feeder that comes then sends the transaction once."""
    best, _ = room.make("grow", 4)
    text, = room.make("spend", 2, "--pay", OWN_SCRIPT)
    room.start("--relay", room.relay)
    with room.wallet() as wallet:
        ask = {"id": 1, "method": "blockchain.transaction.broadcast", "params": [text]}
        wallet.sendall(json.dumps(ask).encode() + b"\n")
        seen = [wanted_in_time(lambda: txid_of(text) + ".tx" in os.listdir(room.relay), True)]
        room.kill()
    seen += [room.relayed()]
    room.start("--relay", room.relay)
    seen += [room.broadcast(text), room.relayed()]
    rpc = NodeRpc(room.cookie)
    rpc.start()
    rpc.best = best
    room.follow("--rpc", rpc.url, "--cookie", room.cookie, "--relay", room.relay)
    file = {txid_of(text) + ".tx": text}
    return seen + [room.comes_to_hold((0, COIN)), room.relayed(), rpc.given, room.runs()], [
        True, file, txid_of(text), file, (0, COIN), {}, [txid_of(text)], [None, None, []]]


def waits_with_transactions_for_the_node(room):
    """The node isn't there when a wallet sends a transaction, and the relay's folder goes for a while: a broadcast fails then.
    What was taken waits until the node is there."""
    rpc = at_a_node(room, 4, "--relay", room.relay, serve=("--relay", room.relay))
    text, = room.make("spend", 2, "--pay", OWN_SCRIPT)
    rpc.stop()
    seen = [room.comes_to_say("waiting for the node"), room.broadcast(text), room.relayed()]
    os.rename(room.relay, room.relay + ".away")
    other, = room.make("spend", 3, "--pay", OWN_SCRIPT)
    seen += [room.broadcast(other)]
    os.rename(room.relay + ".away", room.relay)
    rpc.start()
    seen += [room.comes_to_hold((0, COIN)), room.relayed(), room.broadcast(other), room.comes_to_hold((0, 2 * COIN))]
    return seen + [room.runs()], [
        1, txid_of(text), {txid_of(text) + ".tx": text}, "relay failed", (0, COIN), {}, txid_of(other), (0, 2 * COIN),
        [None, None, []]]


def sends_nothing_without_a_relay(room):
    """The server has no relay."""
    room.make("grow", 4)
    text, = room.make("spend", 2, "--pay", OWN_SCRIPT)
    room.start()
    room.follow()
    return [room.comes_to(4), room.broadcast(text), room.relayed()], [4, "no relay", {}]


def tells_how_far_it_is(room):
    """A line, whenever so many seconds went by, has the height, how many blocks come a second, and the time that is left."""
    room.make("grow", 200)
    room.start()
    room.follow("--once", "--every", "0")
    seen = [room.feeder.wait(30), room.ended()]
    line = re.compile(r"follow: height (\d+) of 200, \d+ blocks a second, \d+:\d\d:\d\d left")
    heights = [int(it.group(1)) for it in map(line.fullmatch, room.says("blocks a second")) if it]
    return seen + [heights[:2], heights[-1]], [0, 0, [31, 47], 191]


def gives_up_where_it_is_refused(room):
    """A branch takes back more than a hundred blocks. The feeder says what is to be done, and the server ends."""
    room.make("grow", 101)
    room.start()
    room.follow()
    seen = [room.comes_to(101)]
    room.make("grow", 102, "--back", 101)
    seen += [room.feeder.wait(30), room.ended(), len(room.says("refused deep 101", "the server with it"))]
    return seen + [len(room.says("empty the folder of its index")), room.says("Traceback")], [101, 1, 0, 2, 1, []]


def gives_up_at_another_port(room):
    """The port is the one for clients."""
    room.make("grow", 1)
    room.start()
    wanted_in_time(lambda: room.ask("server.ping"), None)
    room.follow(port=room.clients)
    return [room.feeder.wait(30), len(room.says("isn't the server's port for the node")), room.says("Traceback")], [1, 1, []]


CASES = [
    follows_files_made_ahead,
    follows_masked_files_made_ahead,
    follows_the_next_file,
    follows_a_block_behind_a_gap,
    waits_for_a_block_that_is_cut,
    waits_for_a_masked_block_that_is_cut,
    follows_a_reorganisation,
    goes_on_after_each_side_stopped,
    notices_at_once_that_the_server_stopped,
    waits_where_another_feeder_is,
    follows_a_node_over_files_made_ahead,
    follows_a_node_over_masked_files,
    tells_unconfirmed_transactions,
    tells_children_after_their_parents,
    drops_what_is_replaced,
    tells_50000_in_a_minute,
    waits_for_a_node_that_stopped,
    waits_for_a_node_that_is_not_there_yet,
    waits_for_a_node_that_is_not_well,
    waits_for_the_node_s_cookie,
    waits_for_block_files_that_are_away,
    sends_the_transactions_of_wallets,
    keeps_what_was_taken_when_the_server_stops,
    waits_with_transactions_for_the_node,
    sends_nothing_without_a_relay,
    tells_how_far_it_is,
    gives_up_where_it_is_refused,
    gives_up_at_another_port,
]


class TooLong(Exception):
    """A case took more time than it may."""


def is_late(*_):
    """Ends the case that runs."""
    raise TooLong(f"it had not ended after {BOUND} seconds")


def in_time(case, room):
    """What a case that ends in time sees, and what it wants. Server and feeder are stopped, in whatever way it ends."""
    signal.signal(signal.SIGALRM, is_late)
    signal.setitimer(signal.ITIMER_REAL, BOUND, 60)
    try:
        return case(room)
    finally:
        signal.setitimer(signal.ITIMER_REAL, 0)
        room.close()


def try_case(case):
    """Whether the case sees what it wants; says what it saw otherwise."""
    try:
        with tempfile.TemporaryDirectory(prefix="feeds-") as folder:
            seen, wanted = in_time(case, Room(folder))
    except Exception as error:
        print(f"feeds: {case.__name__} FAILED: {error!r}")
        return False
    if seen == wanted:
        return True
    print(f"feeds: {case.__name__} FAILED: it saw {seen}, and not {wanted}")
    return False


def main(given):
    passed, failed = (int(given[0]), int(given[1])) if len(given) == 2 else (0, 0)
    if os.access(PROGRAM, os.X_OK):
        for case in CASES:
            if try_case(case):
                passed += 1
            else:
                failed += 1
        print(f"feeds: {len(CASES)} cases of the feeder and the built program")
    else:
        failed += len(CASES)
        print(f"feeds: FAILED: the program was not built: there is no {PROGRAM}")
    print(f"{passed} passed, {failed} failed")
    return 1 if failed else 0


if __name__ == "__main__":
    sys.exit(main(sys.argv[1:]))
