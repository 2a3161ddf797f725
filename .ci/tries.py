#!/usr/bin/env python3
"""Runs the built program on small cases: on real folders, files, streams and sockets, of which no contract speaks.

usage: .ci/tries.py [PASSED FAILED]

Each case has a folder of its own, in which the program runs. What it writes to standard output or sends over its
sockets, what it says on standard error and its exit status are compared with values that stand here; replies are read
by Python's JSON reader. The blocks are the first two of Bitcoin's main network, or are made here for a network of one's
own. A case that this machine can't try is named with the cause, and counted neither as passed nor as failed. The last
line is 'N passed, M failed', with the given counts added.
"""

import fcntl
import hashlib
import itertools
import json
import os
import random
import re
import resource
import shlex
import shutil
import signal
import socket
import struct
import subprocess
import sys
import tempfile
import threading
import time

TOP = os.path.dirname(os.path.dirname(os.path.abspath(__file__)))
BUILT = os.path.join(TOP, "crates", "electrum_serve", "out")

# The two blocks, each a header, the number of its transactions and its coinbase.
GENESIS = bytes.fromhex(
    "01000000" + "00" * 32 + "3ba3edfd7a7b12b27ac72c3e67768f617fc81bc3888a51323a9fb8aa4b1e5e4a"
    "29ab5f49" "ffff001d" "1dac2b7c" "01"
    "01000000" "01" + "00" * 32 + "ffffffff" "4d"
    "04ffff001d0104455468652054696d65732030332f4a616e2f32303039204368616e63656c6c6f72206f6e206272696e"
    "6b206f66207365636f6e64206261696c6f757420666f722062616e6b73"
    "ffffffff" "01" "00f2052a01000000" "43"
    "4104678afdb0fe5548271967f1a67130b7105cd6a828e03909a67962e0ea1f61deb649f6bc3f4cef38c4f35504e51ec1"
    "12de5c384df7ba0b8d578a4c702b6bf11d5fac" "00000000"
)
BLOCK1 = bytes.fromhex(
    "01000000" "6fe28c0ab6f1b372c1a6a246ae63f74f931e8365e15a089c68d6190000000000"
    "982051fd1e4ba744bbbe680e1fee14677ba1a3c3540bf7b1cdb606e857233e0e"
    "61bc6649" "ffff001d" "01e36299" "01"
    "01000000" "01" + "00" * 32 + "ffffffff" "07" "04ffff001d0104"
    "ffffffff" "01" "00f2052a01000000" "43"
    "410496b538e853519c726a2c91e61ec11600ae1390813a627c66fb8be7947be63c52da7589379515d4e0a604f8141781"
    "e62294721166bf621e73a82cbf2342c858eeac" "00000000"
)

MASK = bytes.fromhex("a5c30f69125ae178")

MAIN = bytes.fromhex("f9beb4d9")
REGTEST = bytes.fromhex("fabfb5da")

# The script hashes of what the two coinbases pay to, and their txids.
GENESIS_SCRIPT = "740485f380ff6379d11ef6fe7d7cdd68aea7f8bd0d953d9fdf3531fb7d531833"
BLOCK1_SCRIPT = "cc0d7111befe9f24f1824c797e837c5cff2f8773901ccb9aca0372a2a6c48d34"
GENESIS_TXID = "4a5e1e4baab89f3a32518a88c31bc87f618f76673e2cc77ab2127b7afdeda33b"
BLOCK1_TXID = "0e3e2357e806b6cdb1f70b54c3a3a17b6714ee1f0e68bebb44a74b1efd512098"

HEX0 = GENESIS[:80].hex()
HEX1 = BLOCK1[:80].hex()
GENESIS_HASH = "000000000019d6689c085ae165831e934ff763ae46a2a6c172b3f1b60a8ce26f"
BLOCK1_HASH = "00000000839a8e6886ab5951d76f411475428afc90947ee320161bbf18eb6048"
# The shown sha256d of the two block hashes, in inner order, one behind the other.
HEADERS_ROOT = hashlib.sha256(hashlib.sha256(
    bytes.fromhex(GENESIS_HASH)[::-1] + bytes.fromhex(BLOCK1_HASH)[::-1]).digest()).digest()[::-1].hex()

INVALID = b'{"error":{"code":-32600,"message":"invalid request"},"id":null,"jsonrpc":"2.0"}\n'

# A user who may do little.
NOBODY = 65534

# How the program ends: its exit status, and its words on standard error, before which lines may tell the cause.
COMMANDS = b"""\
electrum_serve once --blocks DIR --network NET
electrum_serve serve --blocks DIR --index DIR --network NET --client-port N --node-port N [--pool-count N] \
[--pool-bytes N] [--head-bits N] [--relay DIR]
electrum_serve check-chain N
electrum_serve audit --blocks DIR --index DIR --network NET
electrum_serve prove-check HEADER TXID POS BRANCH
NET: main, testnet3 or regtest
"""
ENDED = (0, "ended")
USAGE = (2, "usage", COMMANDS)
BAD_INDEX = (3, "bad index")
FILES_FAILED = (4, "block files failed")
DISK_FAILED = (5, "index device failed")
LINK_FAILED = (6, "link failed")
OTHER_CHAIN = (9, "other chain")
BAD_CHAIN = (10, "bad chain")
AUDIT_DIFFERS = (11, "audit differs")

# How many seconds a case may take.
BOUND = 300

# What the system says.
NOT_THERE = "No such file or directory (os error 2)"
NO_RIGHTS = "Permission denied (os error 13)"
NO_FOLDER = "Not a directory (os error 20)"
A_FOLDER = "Is a directory (os error 21)"
TAKEN = "Address already in use (os error 98)"


def because(end, *cause):
    """An end, with the line that tells its cause: a folder, file, port or stream, and what was said of it."""
    return (*end, b"electrum_serve: %s\n" % ": ".join(cause).encode())


def record(block, magic=MAIN):
    """A record of a block file: magic, size and block."""
    return magic + len(block).to_bytes(4, "little") + block


GOOD = record(GENESIS) + record(BLOCK1)


def asks(script, number=1, method="get_history"):
    """The line that asks for a history, or by another method."""
    words = (number, method.encode(), script.encode())
    return b'{"id":%d,"method":"blockchain.scripthash.%s","params":["%s"]}\n' % words


def replies(entries, number=1):
    """The reply with these entries, each a height and a txid."""
    shown = ",".join('{"height":%d,"tx_hash":"%s"}' % entry for entry in entries)
    return b'{"id":%d,"jsonrpc":"2.0","result":[%s]}\n' % (number, shown.encode())


def request(method, params=(), number=1):
    """The line that asks for a method with these parameters, by place or by name."""
    params = dict(params) if isinstance(params, dict) else list(params)
    return json.dumps({"id": number, "method": method, "params": params}).encode() + b"\n"


def requests(calls):
    """The lines that ask for these calls, each a method with its parameters, by the ids from 1."""
    return b"".join(request(call[0], call[1:], number) for number, call in enumerate(calls, 1))


def answered(wrote):
    """What replies answer, in order, each a result or a code with its message. Their ids are those from 1."""
    answers = []
    for number, line in enumerate(wrote.splitlines(), 1):
        reply = json.loads(line)
        if reply.pop("jsonrpc") != "2.0" or reply.pop("id") != number:
            raise ValueError(f"a reply of another form: {line}")
        (kind, answer), = reply.items()
        answers.append(answer if kind == "result" else (answer["code"], answer["message"]))
    return answers


ONE = asks(GENESIS_SCRIPT)
FOUND = replies([(0, GENESIS_TXID)])
NONE_FOUND = replies([])


def put(path, data):
    """Writes a file, and the folders above it."""
    os.makedirs(os.path.dirname(path) or ".", exist_ok=True)
    with open(path, "wb") as it:
        it.write(data)


def held(folder):
    """The files of a folder, by name."""
    files = {}
    for name in os.listdir(folder):
        with open(os.path.join(folder, name), "rb") as it:
            files[name] = it.read()
    return files


def number(value, size=4):
    """A number in that many bytes, the lowest first."""
    return value.to_bytes(size, "little")


def bucket(hash_bytes):
    """The bucket of a txid or a script hash, by its first two bytes."""
    return int.from_bytes(hash_bytes[:2], "little")


# How many bytes the number of a row has in the rows of an index, and its first file, by its format.
OLD_WIDTH, OLD_FIRST = 4, 0
WIDTH, FIRST = 8, 20


def heads(hashes, width):
    """The rows of a table of heads, for hashes of which no two share a bucket."""
    rows = [number(0, width)] * 65536
    for place, hash_bytes in enumerate(hashes):
        rows[bucket(hash_bytes)] = number(place + 1, width)
    return rows


def tables_of(blocks, width=WIDTH):
    """The rows of an index of blocks that each have a coinbase with one output alone, in one block file."""
    txids, scripts, tables, offset, supply = [], [], {t: [] for t in range(1, 9)}, 0, 0
    for height, block in enumerate(blocks):
        coinbase = block[81:]
        script_start = 4 + 1 + 36 + 1 + coinbase[41] + 4 + 1 + 8 + 1
        value = coinbase[script_start - 9:script_start - 1]
        script = hashlib.sha256(coinbase[script_start:-4]).digest()
        txids.append(hashlib.sha256(hashlib.sha256(coinbase).digest()).digest())
        scripts.append(script)
        supply += int.from_bytes(value, "little")
        tables[1].append(
            block[:80] + number(0) + number(offset, 8) + number(len(block)) + number(height, width) + number(1)
            + number(supply, 8))
        tables[2].append(
            txids[-1] + number(height) + number(81) + number(len(coinbase)) + number(height, width) + number(1)
            + number(0, width) + number(0) + number(0, width) * 2)
        tables[4].append(number(height, width) + value + number(height, width) + number(0, 1) + number(0, width))
        tables[6].append(script + number(0, width) + number(height + 1, width) + number(1, width) + value)
        tables[8].append(number(height, width) * 2 + number(0, width))
        offset += 8 + len(block)
    tables[3], tables[7] = heads(txids, width), heads(scripts, width)
    return tables


def meta_row(tables, magic, width=WIDTH):
    """The row of the meta file: letters, format, network, in format 2 the bits of a bucket's number, and how many rows
    each table has."""
    head = number(1) + magic if width == OLD_WIDTH else number(2) + magic + number(16)
    return b"ELIX" + head + b"".join(number(len(tables[t]), 8) for t in range(1, 9))


def commit(before, after, magic, width=WIDTH):
    """The body of the redo record that makes tables of others: the meta row, and the rows that changed or came."""
    changes = b"".join(
        number(t, 1) + number(place, 8) + row
        for t in range(1, 9) for place, row in enumerate(after[t])
        if place >= len(before[t]) or row != before[t][place])
    return meta_row(after, magic, width) + changes


def waiting(body):
    """A redo file whose gate is open, with a record that waits to be made."""
    return b"\x01" + number(len(body), 8) + body


def put_index(blocks, magic=MAIN, redo=b"\x00", width=WIDTH):
    """The files of an index of blocks, and this redo file. They are made here by the form of the index's rows, and not by
    the program. In format 2 there is the root besides."""
    tables = tables_of(blocks, width)
    files = [meta_row(tables, magic, width), *(b"".join(tables[t]) for t in range(1, 9)), redo]
    if width == WIDTH:
        files.append(b"\x02")
    for place, data in enumerate(files, OLD_FIRST if width == OLD_WIDTH else FIRST):
        put(f"index/{place:02}.idx", data)


def written():
    """The files of the index that have bytes."""
    return {name: data for name, data in held("index").items() if data}


def record_of_the_formats():
    """The redo file with the second block's commit, as docs/FORMATS.md has it in hex."""
    with open(os.path.join(TOP, "docs", "FORMATS.md"), encoding="utf-8") as it:
        example = it.read().split("```")[1]
    return b"".join(bytes.fromhex(line.strip().split("  ")[0]) for line in example.splitlines())


def once(folder, network="main"):
    return ["once", "--blocks", folder, "--network", network]


def serve(folder, network="main", client_port="50001", node_port="8331"):
    return [
        "serve", "--blocks", folder, "--index", "index", "--network", network,
        "--client-port", client_port, "--node-port", node_port,
    ]


def double(data):
    """The sha256d of bytes."""
    return hashlib.sha256(hashlib.sha256(data).digest()).digest()


def shown(hash_bytes):
    """A hash as it is shown: its bytes from the last to the first, in hex."""
    return hash_bytes[::-1].hex()


# Transactions and blocks for a network of one's own. An output is a value and the number of its script.


def script(k):
    """The script with that number, which pushes it."""
    return b"\x04" + number(k)


def script_hash(k):
    """Its hash, as clients name it."""
    return shown(hashlib.sha256(script(k)).digest())


def compact(count):
    """A count below 65,536, as transactions have it."""
    return number(count, 1) if count < 253 else b"\xfd" + number(count, 2)


def outputs(to):
    """Outputs with their count."""
    return compact(len(to)) + b"".join(number(value, 8) + b"\x05" + script(k) for value, k in to)


def coinbase(height, branch, k, more=()):
    """The coinbase of a block at that height of that branch, which pays 50 bitcoins to a script, and perhaps more."""
    return (
        number(1) + b"\x01" + bytes(32) + b"\xff" * 4 + b"\x06\x05" + number(height) + number(branch, 1) + b"\xff" * 4
        + outputs([(5_000_000_000, k), *more]) + bytes(4)
    )


def spend(coins, to):
    """A transaction that spends these coins, each a txid in inner order and a place."""
    return (
        number(1) + number(len(coins), 1)
        + b"".join(txid + number(place) + b"\x00" + b"\xff" * 4 for txid, place in coins)
        + outputs(to) + bytes(4)
    )


def root(hashes):
    """The Merkle root of hashes."""
    while len(hashes) > 1:
        hashes = hashes + hashes[-1:] if len(hashes) % 2 else hashes
        hashes = [double(hashes[i] + hashes[i + 1]) for i in range(0, len(hashes), 2)]
    return hashes[0]


def proof(hashes, place):
    """The Merkle branch of one of the hashes, and their root."""
    branch = []
    while len(hashes) > 1:
        hashes = hashes + hashes[-1:] if len(hashes) % 2 else hashes
        branch.append(hashes[place ^ 1])
        hashes, place = [double(hashes[i] + hashes[i + 1]) for i in range(0, len(hashes), 2)], place // 2
    return branch, hashes[0]


def block(previous, height, branch, txs):
    """A block of these transactions upon another one, or upon none."""
    return (
        number(1) + (double(previous[:80]) if previous else bytes(32)) + root([double(tx) for tx in txs])
        + number(1_231_006_505 + 600 * height) + number(0x207fffff) + number(branch)
        + compact(len(txs)) + b"".join(txs)
    )


def block_id(data):
    """A block's hash, as it is shown."""
    return shown(double(data[:80]))


BASE = coinbase(0, 0, 101)
ZERO = block(None, 0, 0, [BASE])
# A branch of two blocks upon it, and one of three, both with the transaction MOVED at some height.
MOVED = spend([(double(BASE), 0)], [(2_500_000_000, 1), (2_500_000_000, 100)])
A1 = block(ZERO, 1, 0, [coinbase(1, 0, 101), MOVED])
A2 = block(A1, 2, 0, [coinbase(2, 0, 101)])
B1 = block(ZERO, 1, 1, [coinbase(1, 1, 101)])
B2 = block(B1, 2, 1, [coinbase(2, 1, 101), MOVED])
B3 = block(B2, 3, 1, [coinbase(3, 1, 101)])
# Unconfirmed transactions: one of ZERO's coin, and one of its output.
PARENT = spend([(double(BASE), 0)], [(5_000_000_000, 1)])
CHILD = spend([(double(PARENT), 0)], [(5_000_000_000, 2)])


def status_of(lines):
    """The status of a history, which is these lines' SHA-256."""
    return hashlib.sha256("".join(lines).encode()).hexdigest()


def read_tx(data, at):
    """Of a transaction that begins there: where it ends, the coins that it spends, and the scripts that it pays to."""
    count, at, coins, scripts = data[at + 4], at + 5, [], []
    for _ in range(count):
        coins.append(data[at:at + 36])
        at += 41 + data[at + 36]
    count, at = data[at], at + 1
    for _ in range(count):
        scripts.append(data[at + 9:at + 9 + data[at + 8]])
        at += 9 + data[at + 8]
    return at + 4, coins, scripts


def statuses(chain, kept=()):
    """The status of each script that these blocks, and then unconfirmed transactions, pay to, by a scan of them. No
    unconfirmed one spends another."""
    owners, lines = {}, {}

    def scan(data, at, height):
        end, coins, scripts = read_tx(data, at)
        hash_bytes = double(data[at:end])
        owners.update((hash_bytes + number(place), script) for place, script in enumerate(scripts))
        for owner in {*scripts, *(owners[coin] for coin in coins if coin in owners)}:
            lines.setdefault(owner, []).append(f"{shown(hash_bytes)}:{height}:")
        return end

    for height, data in enumerate(chain):
        at = 81
        for _ in range(data[80]):
            at = scan(data, at, height)
    for tx in kept:
        scan(tx, 0, 0)
    return {owner: status_of(entries) for owner, entries in lines.items()}


# What a case started.
STARTED = []


def start(program, words, **streams):
    # Without a buffer, so that what is left behind a line that was read is still there at the end. In a group of its own,
    # in which it is stopped with what it starts itself.
    started = subprocess.Popen([program, *words], stderr=subprocess.PIPE, bufsize=0, start_new_session=True, **streams)
    STARTED.append(started)
    return started


def stop(started):
    """Kills what was started and hasn't ended, with what it started itself."""
    if started.poll() is None:
        os.killpg(started.pid, signal.SIGKILL)
        started.wait()


def stop_all():
    """Kills all that a case started and left behind."""
    while STARTED:
        stop(STARTED.pop())


def ends(started, given):
    """What a program that was started writes, says and ends with, once it was given its input."""
    try:
        wrote, said = started.communicate(given, timeout=60)
    except subprocess.TimeoutExpired:
        stop(started)
        wrote, said = started.communicate()
        return wrote, said, "it had not ended after 60 seconds"
    return wrote, said.removeprefix(serving_line(said)), started.returncode


def serving_line(said):
    """The line that tells what is served, if it is the first."""
    first = said[:said.find(b"\n") + 1]
    return first if first.startswith(b"electrum_serve: serving ") else b""


def tells_how_far(line):
    """Whether the line tells how far the move of an index to format 2 is."""
    return line.startswith(b"electrum_serve: ") and b" moved to format 2: " in line


def run(program, words, given=b""):
    return ends(start(program, words, stdin=subprocess.PIPE, stdout=subprocess.PIPE), given)


def free_ports(count=2):
    """Numbers of ports that nobody has."""
    held_open = [socket.create_server(("127.0.0.1", 0)) for _ in range(count)]
    ports = [it.getsockname()[1] for it in held_open]
    for it in held_open:
        it.close()
    return ports


class Peer:
    """A connection to the program."""

    def __init__(self, port, address="127.0.0.1"):
        self.socket = socket.create_connection((address, port), timeout=60)
        self.socket.setsockopt(socket.IPPROTO_TCP, socket.TCP_NODELAY, 1)
        self.lines = self.socket.makefile("rb")

    def says(self, given, size=None):
        """Sends bytes, in pieces of that size."""
        for at in range(0, len(given), size or len(given) or 1):
            self.socket.sendall(given[at:at + size] if size else given)

    def hears(self, count=1):
        """So many lines that the program sends; fewer where it ends the connection."""
        return b"".join(self.lines.readline() for _ in range(count))

    def has_come(self):
        """What came and was not heard yet, of the first 65,536 bytes."""
        try:
            return self.socket.recv(65_536, socket.MSG_PEEK | socket.MSG_DONTWAIT)
        except BlockingIOError:
            return b""

    def asks(self, given, size=None):
        """The lines that answer these lines, one each."""
        self.says(given, size)
        return self.hears(given.count(b"\n"))

    def rest(self):
        """All that is sent until the program ends the connection."""
        try:
            return self.lines.read()
        except ConnectionResetError:
            return b""

    def says_all(self, given):
        """Sends bytes and that no more come, and hears what answers them until the program ends the connection."""
        self.says(given)
        self.socket.shutdown(socket.SHUT_WR)
        return self.rest()

    def resets(self):
        """Breaks the connection off."""
        self.socket.setsockopt(socket.SOL_SOCKET, socket.SO_LINGER, struct.pack("ii", 1, 0))
        self.leaves()

    def leaves(self):
        self.lines.close()
        self.socket.close()


class Served:
    """The program, which serves on two ports."""

    def __init__(self, program, folder="a", network="main", ports=None, more=(), waits=True, **how):
        self.client_port, self.node_port = ports or free_ports()
        words = serve(folder, network, str(self.client_port), str(self.node_port))
        self.started = start(program, [*words, *more], stdin=subprocess.DEVNULL, stdout=subprocess.PIPE, **how)
        self.moved = []
        self.serves = self.comes() if waits else b""

    def comes(self):
        """What it says first but how far its index is moved: once its ports are open, the line that tells what is served."""
        self.serves = self.started.stderr.readline()
        while tells_how_far(self.serves):
            self.moved.append(self.serves)
            self.serves = self.started.stderr.readline()
        return self.serves

    def client(self):
        return Peer(self.client_port)

    def node(self):
        return Peer(self.node_port)

    def next_client_says(self, given):
        """What answers the next client, once the program has noticed that the one before left."""
        for _ in range(100):
            try:
                told = self.client().says_all(given)
            except OSError:
                told = b""
            if told:
                break
            time.sleep(0.1)
        return told

    def ends(self, wrote, node=None):
        """What peers were told, and what the program says and ends with once its node left."""
        try:
            (node or self.node()).leaves()
        except OSError:
            pass
        printed, said, status = ends(self.started, None)
        said = said if serving_line(self.serves) else self.serves + said
        return (wrote, said, status) if printed == b"" else (printed, said, status)

    def killed(self):
        stop(self.started)
        self.started.communicate()


def served_with_file_limit(program, limit, **how):
    """The program, whose files may have so many bytes: a write is cut there, and one beyond fails, without a signal."""
    before = resource.getrlimit(resource.RLIMIT_FSIZE)
    resource.setrlimit(resource.RLIMIT_FSIZE, (limit, resource.RLIM_INFINITY))
    try:
        return Served(program, restore_signals=False, **how)
    finally:
        resource.setrlimit(resource.RLIMIT_FSIZE, before)


def ask_served(program, folder, given, network="main"):
    """What one client is told, and how the program then ends, where the node leaves or before."""
    return ask_started(Served(program, folder, network), given)


def ask_started(it, given):
    """The same of a program that was started."""
    try:
        wrote = it.client().says_all(given)
    except OSError:
        wrote = b""
    return it.ends(wrote)


# The cases. Each runs in an empty folder, and gives what the program did and what it was to do.


def no_words(program):
    return run(program, [], ONE), (b"", USAGE)


# A lawful line of words, and what is mistyped in it: a part of the line, and what stands there instead. Words are cut at
# each blank, so that two blanks have an empty word between them.
SERVE_LINE = (
    "serve --blocks a --index index --network main --client-port 50001 --node-port 8331"
    " --pool-count 1000 --pool-bytes 2000000 --head-bits 20 --relay relay"
)
MISTYPED_SERVE = [
    ("serve", "server"), ("serve", "Serve"), ("serve", "once"), ("serve", "serve serve"), ("serve", "serve --"),
    ("serve", "-- serve"), ("serve", "--help serve"), ("serve ", ""),
    ("--blocks a", "--block a"), ("--blocks a", "--blocks=a"), ("--blocks a", "--Blocks a"), ("--blocks a", "-blocks a"),
    ("--blocks a", "blocks a"), ("--blocks a", "--blocks"), ("--blocks a", "--blocks "), ("--blocks a", "--blocks -a"),
    ("--blocks a", "--blocks -"), ("--blocks a", "--blocks --"), ("--blocks a", "--blocks a b"),
    ("--blocks a", "--blocks a --blocks a"), ("--blocks a ", ""),
    ("--index index", "--index"), ("--index index", "--index -i"), ("--index index", "--index=index"),
    ("--index index", "--indexes index"), ("--index index", "--index index --index other"), ("--index index ", ""),
    ("main", "Main"), ("main", "mainnet"), ("main", "signet"), ("main", "testnet"), ("main", ""),
    ("--network", "--net"), ("--network", "--main-net"), ("--network main", "--network main --network regtest"),
    ("--network main ", ""),
    ("50001", "0"), ("50001", "65536"), ("50001", "+1"), ("50001", "-1"), ("50001", ""), ("50001", "00000050001"),
    ("50001", "0x10"), ("50001", "5 0001"), ("50001", "8331"), ("50001", "0000008331"), ("50001", "4294967297"),
    ("50001", "50001.0"), ("--client-port", "--port"), ("--client-port 50001 ", ""),
    ("8331", "0"), ("8331", "65536"), ("8331", "x"), ("8331", "50001"), ("8331", "8331 --node-port 8332"),
    ("--node-port 8331 ", ""),
    ("1000 ", "0 "), ("1000 ", "1000001 "), ("1000 ", ""), ("1000 ", "1000 --pool-count 1000 "),
    ("--pool-count 1000", "--pool-count=1000"),
    ("2000000", "0"), ("2000000", "300000001"), (" 2000000", ""), ("--pool-bytes", "--pool-byte"),
    ("2000000", "2000000 --help"), ("2000000", "2000000 -h"), ("2000000", "2000000 --version"),
    ("2000000", "2000000 --"), ("2000000", "2000000 more"),
    ("bits 20", "bits 15"), ("bits 20", "bits 25"), ("bits 20", "bits"), ("bits 20", "bits 0x14"),
    ("bits 20", "bits 20 --head-bits 20"), ("--head-bits 20", "--head-bits=20"), ("--head-bits", "--bits"),
    ("--relay relay", "--relay"), ("--relay relay", "--relay "), ("--relay relay", "--relay -r"),
    ("--relay relay", "--relay=relay"), ("--relay relay", "--relay relay --relay other"), ("--relay", "--relays"),
    ("--relay relay", "relay"),
]
ONCE_LINE = "once --blocks a --network main"
MISTYPED_ONCE = [
    ("once", "one"), ("once ", ""), ("--blocks a ", ""), ("--blocks a", "--blocks=a"), ("a", "-a"), ("a ", " "),
    ("--blocks a", "--blocks a --blocks a"), ("--blocks a", "--blocks a --index b"),
    ("--blocks a", "--blocks a --pool-count 1000"), ("main", "signet"), ("main", "main more"), (" --network main", ""),
]


def all_end_so(program, lines, wanted):
    """What the first line of words did that didn't end as it was to end, or else the last."""
    for words in lines:
        did = run(program, words, ONE)
        if did != as_wanted(wanted):
            print(f"tries: {words}")
            break
    return did, wanted


def mistyped_words(program):
    put("a/blk00000.dat", GOOD)
    lines = [SERVE_LINE.replace(right, wrong, 1).split(" ") for right, wrong in MISTYPED_SERVE]
    lines += [ONCE_LINE.replace(right, wrong, 1).split(" ") for right, wrong in MISTYPED_ONCE]
    return all_end_so(program, lines, (b"", USAGE))


def options_of(line):
    """The options of a line of words, each with its value."""
    words = line.split(" ")[1:]
    return list(zip(words[::2], words[1::2]))


def options_in_any_order(program):
    # Lawful words are told from others by a device that is asked for: the folder of the index is not there. Those options
    # that may be left out are tried, two and two, at each place among the others in one order.
    put("a/blk00000.dat", GOOD)
    options = options_of(SERVE_LINE)
    orders = list(itertools.permutations(options[:5]))
    for pair, places in itertools.product((options[5:7], options[7:]), itertools.permutations(range(7), 2)):
        order = options[:5]
        for place, option in sorted(zip(places, pair)):
            order.insert(place, option)
        orders.append(order)
    lines = [["serve", *itertools.chain(*order)] for order in orders]
    return all_end_so(program, lines, (b"", because(DISK_FAILED, "index folder index", NOT_THERE)))


def options_of_once_in_any_order(program):
    put("a/blk00000.dat", GOOD)
    lines = [["once", *itertools.chain(*order)] for order in itertools.permutations(options_of(ONCE_LINE))]
    return all_end_so(program, lines, (FOUND, ENDED))


def numbers_at_their_bounds(program):
    put("a/blk00000.dat", GOOD)
    lines = [SERVE_LINE.replace(old, new, 1).split(" ") for old, new in (
        ("50001", "1"), ("50001", "65535"), ("50001", "0000000001"), ("8331", "1"), ("8331", "65535"),
        ("1000 ", "1 "), ("1000 ", "1000000 "), ("1000 ", "0001000000 "), ("2000000", "1"), ("2000000", "300000000"),
        (" --pool-count 1000", ""), (" --pool-bytes 2000000", ""), (" --pool-count 1000 --pool-bytes 2000000", ""),
        ("bits 20", "bits 16"), ("bits 20", "bits 24"), ("bits 20", "bits 0000000024"), (" --head-bits 20", ""),
        (" --relay relay", ""), (" --head-bits 20 --relay relay", ""),
    )]
    return all_end_so(program, lines, (b"", because(DISK_FAILED, "index folder index", NOT_THERE)))


# Summaries of checks, by the number of blocks, worked out by hand from the rules by which the file is made.
CHECKS = [
    ("1", 0, 1, 1, 3, 0, 399),
    ("0000000002", 1, 3, 4, 3, 2_500_000_000, 877),
    ("17", 16, 33, 49, 4, 40_000_000_000, 5_418),
    ("1000", 999, 1999, 2998, 65, 2_497_500_000_000, 240_355),
]


def checks_chains(program):
    for count, *wanted in CHECKS:
        line = b"height %d transactions %d outputs %d moves %d balance %d bytes %d\n" % tuple(wanted)
        did = run(program, ["check-chain", count], ONE)
        if did != as_wanted((line, ENDED)):
            break
    return did, (line, ENDED)


def mistyped_checks(program):
    numbers = ([], ["0"], ["20001"], ["-1"], ["+1"], ["1 "], [""], ["00000000001"], ["1", "1"], ["--count", "1"])
    return all_end_so(program, [["check-chain", *number] for number in numbers], (b"", USAGE))


def audit(folder="a", network="main"):
    return ["audit", "--blocks", folder, "--index", "index", "--network", network]


def reading(end, blocks):
    """An end before which it was told that blocks are read."""
    return (*end, b"electrum_serve: blocks read: 0 of %d\n" % blocks)


def audits_an_index_made_elsewhere(program):
    put("a/blk00000.dat", GOOD)
    put_index([GENESIS, BLOCK1])
    before = held("index")
    did = run(program, audit())
    if {name: data for name, data in held("index").items() if name != "lock"} != before:
        return held("index").keys(), (b"the index as it was", ENDED)
    return did, (b"same height 1 transactions 2 scripts 2\n", reading(ENDED, 2))


def audits_an_empty_folder(program):
    put("a/blk00000.dat", GOOD)
    os.mkdir("index")
    return run(program, audit()), (b"same empty\n", ENDED)


def changed_row(table, place, width, change):
    """Changes bytes of a file of the index, as a disk might."""
    name = f"index/{FIRST + table:02}.idx"
    with open(name, "r+b") as it:
        it.seek(place)
        value = int.from_bytes(it.read(width), "little")
        it.seek(place)
        it.write((value + change).to_bytes(width, "little"))


def script_row(block):
    """The script hash of a coinbase's output, as it is shown."""
    coinbase = block[81:]
    return shown(hashlib.sha256(coinbase[4 + 1 + 36 + 1 + coinbase[41] + 4 + 1 + 8 + 1:-4]).digest())


def audits_an_index_whose_balance_changed(program):
    put("a/blk00000.dat", GOOD)
    put_index([GENESIS, BLOCK1])
    changed_row(6, (32 + WIDTH * 3 + 8) * 2 - 8, 8, 1)
    line = b"differs balance %s 5000000000 5000000001\n" % script_row(BLOCK1).encode()
    return run(program, audit()), (line, reading(AUDIT_DIFFERS, 2))


def audits_an_index_whose_history_changed(program):
    # the entry of the second script names the first transaction
    put("a/blk00000.dat", GOOD)
    put_index([GENESIS, BLOCK1])
    changed_row(8, WIDTH * 3, WIDTH, -1)
    words = (script_row(BLOCK1), BLOCK1_TXID, GENESIS_TXID)
    return run(program, audit()), (b"differs history %s 0 1:%s 0:%s\n" % tuple(
        word.encode() for word in words), reading(AUDIT_DIFFERS, 2))


def audits_an_index_whose_coins_changed(program):
    # the second block's output holds a satoshi more, or is spent
    put("a/blk00000.dat", GOOD)
    coin = f"{BLOCK1_TXID}:0:5000000000:1"
    row = WIDTH + 8 + WIDTH + 1 + WIDTH
    for place, width, found in (
            (row + WIDTH, 8, f"{BLOCK1_TXID}:0:5000000001:1"), (row + WIDTH + 8 + WIDTH, 1, "-")):
        put_index([GENESIS, BLOCK1])
        changed_row(4, place, width, 1)
        line = f"differs unspent {BLOCK1_SCRIPT} 0 {coin} {found}\n".encode()
        did = run(program, audit())
        if did != as_wanted((line, reading(AUDIT_DIFFERS, 2))):
            break
    return did, (line, reading(AUDIT_DIFFERS, 2))


# Bytes in the place of the second block, behind its header, and the word for what is wrong with them.
SPOILED_BLOCKS = [
    (BLOCK1[:-1] + b"\x01", "merkle"), (BLOCK1 + b"\x00", "trailing"), (BLOCK1[:-1], "tx"),
    (BLOCK1[:80] + b"\x00", "empty"), (BLOCK1[:80] + b"\xfd\x01", "count"),
    (BLOCK1[:80] + b"\x02" + BLOCK1[81:] + GENESIS[81:], "coinbase"),
    (BLOCK1[:80] + b"\x03" + BLOCK1[81:] + 2 * spend([(bytes(31) + b"\x01", 0)], [(1, 1)]), "repeated"),
]


def audits_block_files_that_changed(program):
    # their headers lead to the index's last block; of two blocks that changed the first is told
    put_index([GENESIS, BLOCK1])
    files = [([GENESIS, spoiled], f"differs block {BLOCK1_HASH} {word}\n") for spoiled, word in SPOILED_BLOCKS]
    files.append(([GENESIS[:-1] + b"\x01", BLOCK1 + b"\x00"], f"differs block {GENESIS_HASH} merkle\n"))
    for blocks, line in files:
        put("a/blk00000.dat", b"".join(map(record, blocks)))
        wanted = (line.encode(), reading(AUDIT_DIFFERS, 2))
        did = run(program, audit())
        if did != as_wanted(wanted):
            break
    return did, wanted


def audits_an_index_without_its_last_block(program):
    put("a/blk00000.dat", record(GENESIS))
    put_index([GENESIS, BLOCK1])
    return run(program, audit()), (b"differs tip %s\n" % BLOCK1_HASH.encode(), AUDIT_DIFFERS)


def audits_an_index_that_another_program_holds(program):
    put("a/blk00000.dat", GOOD)
    os.mkdir("index")
    it = Served(program)
    did = run(program, audit())
    it.killed()
    return did, (b"", HELD)


def mistyped_audits(program):
    line = "audit --blocks a --index index --network main"
    wrong = [
        ("audit", "audits"), ("--index index ", ""), ("--blocks a ", ""), (" --network main", ""), ("main", "signet"),
        ("main", "main --head-bits 20"), ("--index index", "--index index --index b"), ("--blocks a", "--blocks=a"),
    ]
    return all_end_so(program, [line.replace(old, new, 1).split(" ") for old, new in wrong], (b"", USAGE))


def proved(header, txid, pos, branch):
    return ["prove-check", header, txid, pos, branch]


def checks_proofs(program):
    # a block of five transactions, of which the last stands alone on two levels; hashes are joined here
    leaves = [double(number(n)) for n in range(5)]
    pairs = [double(leaves[0] + leaves[1]), double(leaves[2] + leaves[3]), double(leaves[4] * 2)]
    fours = [double(pairs[0] + pairs[1]), double(pairs[2] * 2)]
    header = (GENESIS[:36] + double(fours[0] + fours[1]) + GENESIS[68:80]).hex()
    last = ",".join(map(shown, (leaves[4], pairs[2], fours[0])))
    third = ",".join(map(shown, (leaves[3], pairs[0], fours[1])))
    tried = [
        (proved(HEX0, GENESIS_TXID, "0", "-"), b"yes\n"),
        (proved(HEX0, GENESIS_TXID, "1", "-"), b"no\n"),
        (proved(HEX1, GENESIS_TXID, "0", "-"), b"no\n"),
        (proved(HEX1.upper(), BLOCK1_TXID.upper(), "0000000000", "-"), b"yes\n"),
        (proved(header, shown(leaves[4]), "4", last), b"yes\n"),
        (proved(header, shown(leaves[2]), "2", third), b"yes\n"),
        (proved(header, shown(leaves[2]), "3", third), b"no\n"),
        # the tree has eight places, and from the twelfth the branch leads to the root as from the fourth
        (proved(header, shown(leaves[4]), "12", last), b"no\n"),
        (proved(header, shown(leaves[4]), "4", third), b"no\n"),
        (proved(header, shown(leaves[4]), "4", ",".join([shown(leaves[4])] * 32)), b"no\n"),
    ]
    for words, line in tried:
        did = run(program, words)
        if did != as_wanted((line, ENDED)):
            print(f"tries: {words}")
            break
    return did, (line, ENDED)


def mistyped_proofs(program):
    hashes = GENESIS_TXID
    lines = [
        proved(HEX0[2:], hashes, "0", "-"), proved(HEX0[:-1] + "g", hashes, "0", "-"),
        proved(HEX0, hashes[2:], "0", "-"),
        proved(HEX0, hashes, "", "-"), proved(HEX0, hashes, "-1", "-"), proved(HEX0, hashes, "10000000000", "-"),
        proved(HEX0, hashes, "0", ""), proved(HEX0, hashes, "0", "--"), proved(HEX0, hashes, "0", hashes + ","),
        proved(HEX0, hashes, "0", ",".join([hashes] * 33)), proved(HEX0, hashes, "0", hashes + ";" + hashes),
        proved(HEX0, hashes, "0", "-") + ["more"], proved(HEX0, hashes, "0", "-")[:-1],
    ]
    return all_end_so(program, lines, (b"", USAGE))


def serves_two_files(program):
    os.mkdir("index")
    # no node leads the server along the headers that the scan finds, so that the chain stays empty
    put("a/blk00000.dat", record(GENESIS))
    put("a/blk00001.dat", record(BLOCK1))
    return ask_served(program, "a", ONE + b"{}\n"), (NONE_FOUND + INVALID, ENDED)


def serves_blocks_in_any_order(program):
    os.mkdir("index")
    put("a/blk00000.dat", record(BLOCK1))
    put("a/blk00003.dat", record(GENESIS))
    return ask_served(program, "a", ONE), (NONE_FOUND, ENDED)


def serves_no_folder(program):
    os.mkdir("index")
    return ask_served(program, "a", ONE), (b"", because(FILES_FAILED, "block folder a", NOT_THERE))


def serves_again_over_its_index(program):
    # the index of no blocks is a meta row, the heads, a closed gate and the root
    put("a/blk00000.dat", GOOD)
    put_index([])
    wanted = written()
    shutil.rmtree("index")
    os.mkdir("index")
    for _ in range(3):
        did = ask_served(program, "a", ONE)
        if did != as_wanted((NONE_FOUND, ENDED)) or written() != wanted:
            return (did, {name: len(data) for name, data in held("index").items()}), (NONE_FOUND, ENDED)
    return did, (NONE_FOUND, ENDED)


def files_of_an_index(program):
    # what the program writes is what the formats say of the chain, file by file; only the redo file keeps more
    put("a/blk00000.dat", GOOD)
    put_index([GENESIS, BLOCK1])
    wanted = written()
    shutil.rmtree("index")
    os.mkdir("index")
    it = Served(program)
    node = it.node()
    did = it.ends(node.asks(tip_line(BLOCK1)), node)
    files = written()
    gate = files.pop("29.idx")[:1]
    return ({**files, "29.idx": gate} == wanted, *did[1:]), (True, ENDED)


def index_of_format_1(program):
    # all of it is written in format 2, whatever the root was, and nothing stays of format 1; the first table's move is
    # told, and where five seconds went by how far a later one is
    os.mkdir("a")
    for root in (None, b"", b"\x07", b"\x00\x02"):
        put_index([GENESIS, BLOCK1])
        wanted = {**written(), "30.idx": b"\x02" + (root or b"")[1:]}
        shutil.rmtree("index")
        put_index([GENESIS, BLOCK1], width=OLD_WIDTH)
        if root is not None:
            put("index/30.idx", root)
        it = Served(program)
        did = ask_started(it, ONE)
        told = it.moved[:1] == [b"electrum_serve: blocks moved to format 2: 2 of 2\n"]
        if did != as_wanted((FOUND, ENDED)) or written() != wanted or not told:
            return (did, it.moved, {name: len(data) for name, data in held("index").items()}), (FOUND, ENDED)
        shutil.rmtree("index")
    return did, (FOUND, ENDED)


def index_of_format_1_whose_commit_waits(program):
    # the first commit of all, over files that are not there
    os.mkdir("a")
    body = commit({t: [] for t in range(1, 9)}, tables_of([GENESIS, BLOCK1], OLD_WIDTH), MAIN, OLD_WIDTH)
    put("index/09.idx", waiting(body) + b"what an earlier record left")
    given = ONE + asks(BLOCK1_SCRIPT, 2)
    return ask_served(program, "a", given), (FOUND + replies([(1, BLOCK1_TXID)], 2), ENDED)


def index_of_format_1_behind_format_2(program):
    # where format 2 is live, what is left of format 1 is nothing
    os.mkdir("a")
    put_index([GENESIS], width=OLD_WIDTH)
    put_index([GENESIS, BLOCK1])
    given = ONE + asks(BLOCK1_SCRIPT, 2)
    wanted = (FOUND + replies([(1, BLOCK1_TXID)], 2), ENDED)
    did = ask_served(program, "a", given)
    left = sum(len(held("index")[f"{place:02}.idx"]) for place in range(10))
    return ((did[0], left), *did[1:]), ((wanted[0], 0), wanted[1])


def index_with_more_buckets(program):
    # the words tell how many buckets an index has that is made; one that is there keeps its own
    put("a/blk00000.dat", GOOD)
    os.mkdir("index")
    told = b""
    for bits, line in (("18", tip_line(GENESIS)), ("16", tip_line(BLOCK1)), ("24", tip_line(BLOCK1))):
        it = Served(program, more=["--head-bits", bits])
        node = it.node()
        did = it.ends(node.asks(line), node)
        told += did[0]
        files = held("index")
        sizes = (files["20.idx"][12:16], len(files["23.idx"]), len(files["27.idx"]))
        if sizes != (number(18), 8 << 18, 8 << 18):
            return (sizes, *did[1:]), ((number(18), 8 << 18, 8 << 18), ENDED)
    wanted = at_line(GENESIS, 0) + at_line(BLOCK1, 1) + at_line(BLOCK1, 1)
    return (told, *did[1:]), (wanted, ENDED)


def serves_from_an_index_made_elsewhere(program):
    # the block files are gone; balance and coins of the second block, history of the first
    os.mkdir("a")
    put_index([GENESIS, BLOCK1])
    given = ONE + asks(BLOCK1_SCRIPT, 2, "get_balance") + asks(BLOCK1_SCRIPT, 3, "listunspent") + asks("00" * 32, 4)
    wrote = (
        b'{"id":2,"jsonrpc":"2.0","result":{"confirmed":5000000000,"unconfirmed":0}}\n'
        b'{"id":3,"jsonrpc":"2.0","result":[{"height":1,"tx_hash":"%s","tx_pos":0,"value":5000000000}]}\n'
        % BLOCK1_TXID.encode()
    )
    return ask_served(program, "a", given), (FOUND + wrote + replies([], 4), ENDED)


def serves_from_the_record_of_the_formats(program):
    # the first block's files are made here, and the second's commit waits as the page has it; it is made, and waits no more
    os.mkdir("a")
    put_index([GENESIS], redo=record_of_the_formats())
    given = ONE + asks(BLOCK1_SCRIPT, 2) + asks(BLOCK1_SCRIPT, 3, "get_balance")
    balance = b'{"id":3,"jsonrpc":"2.0","result":{"confirmed":5000000000,"unconfirmed":0}}\n'
    did = ask_served(program, "a", given)
    wanted = (FOUND + replies([(1, BLOCK1_TXID)], 2) + balance, ENDED)
    if did != as_wanted(wanted):
        return did, wanted
    made = held("index")
    put_index([GENESIS, BLOCK1], redo=b"\x00" + record_of_the_formats()[1:])
    return (made == held("index"), *did[1:]), (True, ENDED)


def index_of_another_network(program):
    put("a/blk00000.dat", record(GENESIS))
    put_index([GENESIS])
    return ask_served(program, "a", ONE, "testnet3"), (b"", BAD_INDEX)


def index_of_another_chain(program):
    # another first block stands alone in the block files
    put("a/blk00000.dat", record(GENESIS[:79] + b"\x00" + GENESIS[80:]))
    put_index([GENESIS])
    return ask_served(program, "a", ONE), (b"", OTHER_CHAIN)


def index_of_another_chain_in_a_later_file(program):
    put("a/blk00001.dat", record(GENESIS[:79] + b"\x00" + GENESIS[80:]))
    put_index([GENESIS])
    return ask_served(program, "a", ONE), (b"", OTHER_CHAIN)


def index_of_a_commit_that_waits(program):
    # the first commit of all, over files that are not there
    os.mkdir("a")
    body = commit({t: [] for t in range(1, 9)}, tables_of([GENESIS, BLOCK1]), MAIN)
    put("index/29.idx", waiting(body) + b"what an earlier record left")
    put("index/30.idx", b"\x02")
    given = ONE + asks(BLOCK1_SCRIPT, 2)
    return ask_served(program, "a", given), (FOUND + replies([(1, BLOCK1_TXID)], 2), ENDED)


def index_in_a_journal(program):
    # what earlier versions kept is left alone, and the index is built anew beside it
    put("a/blk00000.dat", GOOD)
    kept = waiting(commit({t: [] for t in range(1, 9)}, tables_of([GENESIS]), MAIN)) + b"\x00"
    put("index/10.idx", kept)
    it = Served(program)
    node = it.node()
    told = it.client().says_all(ONE) + node.asks(tip_line(BLOCK1))
    did = it.ends(told, node)
    stays = held("index")["10.idx"] == kept
    return ((did[0], stays), *did[1:]), ((NONE_FOUND + at_line(BLOCK1, 1), True), ENDED)


def index_that_is_a_device(program):
    # it can't be synced
    put("a/blk00000.dat", GOOD)
    os.mkdir("index")
    os.symlink("/dev/full", "index/09.idx")
    why = "Invalid argument (os error 22)"
    return ask_served(program, "a", ONE), (b"", because(DISK_FAILED, "index file index/09.idx", why))


def index_without_room(program):
    # a file may have 100 bytes here, and the first move's record is larger: nothing is acknowledged, and what was written
    # of it is no harm to a next start with room
    put("a/blk00000.dat", GOOD)
    put_index([])
    it = served_with_file_limit(program, 100)
    node = it.node()
    did = it.ends(node.says_all(tip_line(BLOCK1)), node)
    wanted = (b"", because(DISK_FAILED, "index file index/29.idx", "File too large (os error 27)"))
    if did != as_wanted(wanted):
        return did, wanted
    it = Served(program)
    node = it.node()
    return it.ends(node.asks(tip_line(BLOCK1)), node), (at_line(BLOCK1, 1), ENDED)


def index_without_room_for_its_heads(program):
    # an index can't be made, and what was written of it is no harm to a next start with room
    put("a/blk00000.dat", GOOD)
    os.mkdir("index")
    it = served_with_file_limit(program, 65_536)
    did = it.ends(b"")
    wanted = (b"", because(DISK_FAILED, "index file index/23.idx", "File too large (os error 27)"))
    if did != as_wanted(wanted):
        return did, wanted
    it = Served(program)
    node = it.node()
    return it.ends(node.asks(tip_line(BLOCK1)), node), (at_line(BLOCK1, 1), ENDED)


# Three blocks of 8,000 outputs, which take 33 bytes each in the table of outputs, 264,000 a block, and 42 in the redo
# file, where a block has some 336,600. The tables of heads have 524,288 bytes from the start. By the bytes that a file
# may have: how many blocks are told, in which file a write is cut, and how many blocks the next start finds.
WIDE = [block(None, 0, 0, [coinbase(0, 0, 1, [(1, 2)] * 7_998 + [(7, 3)])])]
for _ in range(2):
    WIDE.append(block(WIDE[-1], len(WIDE), 0, [coinbase(len(WIDE), 0, 1, [(1, 2)] * 7_998 + [(7, 3)])]))
CUT_WRITES = [(300_000, 0, "29", 0), (700_000, 2, "24", 3), (791_999, 2, "24", 3), (792_000, 3, None, 3)]


def coins_of_the_last_outputs(chain):
    """What a client is told of the script to which the last output of each of these wide blocks pays."""
    return [
        {"height": height, "tx_hash": shown(double(data[81:])), "tx_pos": 7_999, "value": 7}
        for height, data in enumerate(chain)
    ]


def index_of_writes_that_are_cut(program):
    # a block is told where all of it was written; the next start finds what was told, or the block whose record waits
    put("a/blk00000.dat", b"".join(record(it, REGTEST) for it in WIDE))
    for limit, count, cut, found in CUT_WRITES:
        put_index([], REGTEST)
        it = served_with_file_limit(program, limit, network="regtest")
        node = it.node()
        did = it.ends(node.says_all(b"".join(map(tip_line, WIDE))), node)
        told = b"".join(at_line(data, height) for height, data in enumerate(WIDE[:count]))
        end = because(DISK_FAILED, f"index file index/{cut}.idx", "File too large (os error 27)") if cut else ENDED
        if did != as_wanted((told, end)):
            return (limit, *did), (told, end)
        it = Served(program, network="regtest")
        coins = answered(it.client().asks(asks(script_hash(3), method="listunspent")))
        did = it.ends(coins)
        if did != as_wanted(([coins_of_the_last_outputs(WIDE[:found])], ENDED)):
            return (limit, *did), ([coins_of_the_last_outputs(WIDE[:found])], ENDED)
        shutil.rmtree("index")
    return did, ([coins_of_the_last_outputs(WIDE[:found])], ENDED)


class PassedOver(Exception):
    """Why a case can't be tried on this machine."""


def traced(program, calls, *more):
    """A program that runs that one and writes those calls of the system that it makes into the file `calls`."""
    words = ["strace", "-f", "-qq", "-y", "-s", "3", "-e", "trace=" + calls, *more, "-o", os.path.abspath("calls")]
    try:
        tried = subprocess.run([*words, "true"], stdout=subprocess.DEVNULL, stderr=subprocess.DEVNULL, timeout=60)
    except FileNotFoundError:
        raise PassedOver("there is no strace") from None
    if tried.returncode:
        raise PassedOver("strace may not trace")
    put("traced", b'#!/bin/sh\nexec %s "$@"\n' % shlex.join([*words, program]).encode())
    os.chmod("traced", 0o755)
    return os.path.abspath("traced")


# A call in which a file is made or synced, or the node's answer to a `tip` line is sent.
DEED = re.compile(
    r'f(?:data)?sync\(\d+<(?P<synced>[^>]*)>|openat\([^"]*"(?P<made>[^"]*)", [A-Z_|]*O_CREAT'
    r'|sendto\(.*?"(?P<told>at )"')


def deeds(deed=DEED):
    """What was traced, in order: calls of these kinds, each with the name of its file, or what was told."""
    with open("calls", encoding="utf-8") as it:
        found = [match for match in map(deed.search, it) if match]
    return [f"{match.lastgroup} {os.path.basename(match[match.lastgroup])}" for match in found]


# What a commit syncs: the redo file with the record, and with the open gate; the nine other files; and the closed gate.
COMMIT = [f"synced {name}.idx" for name in (29, 29, *range(20, 29), 29)]


def commits_are_synced_before_they_are_told(program):
    # the folder is synced as soon as a file was made: at the start the redo file of format 1 and those of format 2 that
    # have bytes without blocks; the others in the first commit
    os.mkdir("index")
    put("a/blk00000.dat", b"".join(record(it, REGTEST) for it in (ZERO, A1, A2, B1, B2, B3)))
    it = Served(traced(program, "fsync,fdatasync,openat,sendto"), network="regtest")
    node = it.node()
    did = it.ends(node.asks(tip_line(A2) + tip_line(B3) + tip_line(A2)), node)
    done = deeds()
    made = {deed: after for deed, after in zip(done, done[1:]) if deed.startswith("made ") and deed != "made lock"}
    commits = [it for it in done if it != "synced index" and not it.startswith("made ")][-39:]
    told = at_line(A2, 2) + at_line(B3, 3) + at_line(A2, 2)
    wanted = (told, {f"made {name:02}.idx": "synced index" for name in (9, *range(20, 31))}, 3 * [*COMMIT, "told at "])
    return ((did[0], made, commits), *did[1:]), (wanted, ENDED)


def index_without_a_folder(program):
    put("a/blk00000.dat", GOOD)
    return ask_served(program, "a", ONE), (b"", because(DISK_FAILED, "index folder index", NOT_THERE))


def index_that_is_no_folder(program):
    put("a/blk00000.dat", GOOD)
    put("index", b"")
    return ask_served(program, "a", ONE), (b"", because(DISK_FAILED, "index folder index", NO_FOLDER))


def index_that_cannot_be_written(program):
    put("a/blk00000.dat", GOOD)
    os.makedirs("index/04.idx")
    return ask_served(program, "a", ONE), (b"", because(DISK_FAILED, "index file index/04.idx", A_FOLDER))


def runs_without_rights(program):
    """How the program ends where it serves. Root may read and write every file: a program of root's runs here as another
    user, from a copy that this one may run."""
    who = {}
    if os.geteuid() == 0:
        os.chmod(".", 0o755)
        program = shutil.copy(program, os.path.abspath("program"))
        who = {"user": NOBODY, "group": NOBODY, "extra_groups": []}
    words = serve("a", "main", *(str(port) for port in free_ports()))
    return ends(start(program, words, stdin=subprocess.DEVNULL, stdout=subprocess.PIPE, **who), None)


def index_that_may_not_be_read(program):
    put("a/blk00000.dat", GOOD)
    put_index([GENESIS])
    put("index/lock", b"")
    for name in os.listdir("index"):
        os.chmod(f"index/{name}", 0o666)
    os.chmod("index/28.idx", 0)
    return runs_without_rights(program), (b"", because(DISK_FAILED, "index file index/28.idx", NO_RIGHTS))


def index_without_rights(program):
    put("a/blk00000.dat", GOOD)
    os.mkdir("index")
    os.chmod("index", 0o555)
    return runs_without_rights(program), (b"", because(DISK_FAILED, "index folder index", NO_RIGHTS))


HELD = because(DISK_FAILED, "index folder index", "another program holds it")


def second_server_on_one_index(program):
    # it ends at once, and the first one goes on; after this one's end a third one has the folder
    os.mkdir("index")
    put("a/blk00000.dat", GOOD)
    first = Served(program)
    node = first.node()
    told = node.asks(tip_line(GENESIS))
    did = ask_served(program, "a", ONE)
    if did != as_wanted((b"", HELD)):
        first.killed()
        return did, (b"", HELD)
    told += node.asks(tip_line(BLOCK1))
    did = first.ends(told, node)
    if did != as_wanted((at_line(GENESIS, 0) + at_line(BLOCK1, 1), ENDED)):
        return did, (at_line(GENESIS, 0) + at_line(BLOCK1, 1), ENDED)
    return ask_served(program, "a", ONE), (FOUND, ENDED)


def lock_after_a_kill(program):
    # a killed program holds its folder no more
    os.mkdir("index")
    put("a/blk00000.dat", GOOD)
    for _ in range(3):
        first = Served(program)
        did = ask_served(program, "a", ONE)
        first.killed()
        if did != as_wanted((b"", HELD)):
            return did, (b"", HELD)
    return ask_served(program, "a", ONE), (NONE_FOUND, ENDED)


def folder_that_another_program_holds(program):
    # the lock is the file's, and not the program's own: any other program's holds the folder too
    os.mkdir("index")
    os.mkdir("a")
    with open("index/lock", "wb") as lock:
        fcntl.flock(lock, fcntl.LOCK_EX)
        did = ask_served(program, "a", ONE)
    if did != as_wanted((b"", HELD)):
        return did, (b"", HELD)
    return ask_served(program, "a", ONE), (NONE_FOUND, ENDED)


def index_that_is_cut(program):
    # an open gate and two of the eight bytes of a length; a body of three bytes; a meta row, and a table, one byte short
    put("a/blk00000.dat", GOOD)
    for width, first in ((OLD_WIDTH, OLD_FIRST), (WIDTH, FIRST)):
        for place, keeps in ((9, b"\x01\x05\x00"), (9, waiting(b"abc")), (0, None), (8, None)):
            put_index([GENESIS], width=width)
            name = f"{first + place:02}.idx"
            put(f"index/{name}", held("index")[name][:-1] if keeps is None else keeps)
            before = written()
            did = ask_served(program, "a", ONE)
            if did != as_wanted((b"", BAD_INDEX)) or written() != before:
                return (name, did), (b"", BAD_INDEX)
            shutil.rmtree("index")
    return did, (b"", BAD_INDEX)


def words_that_are_no_text(program):
    put("a/blk00000.dat", GOOD)
    return run(program, [*once("a"), b"\xff"], ONE), (b"", USAGE)


def folder_that_is_not_there(program):
    put("blk00000.dat", GOOD)
    return run(program, once("a"), ONE), (b"", because(FILES_FAILED, "block folder a", NOT_THERE))


def folder_that_is_a_file(program):
    put("a", GOOD)
    return run(program, once("a"), ONE), (b"", because(FILES_FAILED, "block folder a", "not a directory"))


def folder_below_a_file(program):
    put("a", GOOD)
    return run(program, once("a/b"), ONE), (b"", because(FILES_FAILED, "block folder a/b", NO_FOLDER))


def folder_that_goes_away(program):
    # no file of it is one without bytes then, and it is found again where it comes back
    os.mkdir("index")
    put("a/blk00000.dat", GOOD)
    it = Served(program)
    node, client = it.node(), it.client()
    told = node.asks(tip_line(BLOCK1))
    get = requests([("blockchain.transaction.get", BLOCK1_TXID)])
    os.rename("a", "b")
    told += node.asks(b"block 0 0\nblock 1 0\n")
    answers = answered(client.asks(get))
    os.rename("b", "a")
    told += node.asks(b"block 0 0\nblock 1 0\n")
    answers += answered(client.asks(get))
    wanted = at_line(BLOCK1, 1) + b"refused archive\n" * 2 + b"block %s\nrefused place\n" % GENESIS_HASH.encode()
    return it.ends((told, answers), node), ((wanted, [(4, "block files failed"), BLOCK1[81:].hex()]), ENDED)


def folder_that_can_not_be_listed(program):
    # a file whose name isn't told is not one that isn't there
    os.mkdir("index")
    put("a/blk00000.dat", GOOD)
    failing = traced(program, "getdents64", "-e", "inject=getdents64:error=EIO:when=1")
    why = "Input/output error (os error 5)"
    return ask_served(failing, "a", ONE), (b"", because(FILES_FAILED, "block folder a", why))


def file_that_can_not_be_opened(program):
    os.mkdir("a")
    os.symlink("blk00000.dat", "a/blk00000.dat")
    why = "Too many levels of symbolic links (os error 40)"
    return run(program, once("a"), ONE), (b"", because(FILES_FAILED, "block file a/blk00000.dat", why))


def file_that_can_not_be_read(program):
    # a folder is opened as a file is, and has a size; with many names in it one that no record is too long for
    for number in range(100):
        put("a/blk00000.dat/a-file-with-a-long-name-%d" % number, b"")
    return run(program, once("a"), ONE), (b"", because(FILES_FAILED, "block file a/blk00000.dat", A_FOLDER))


def no_file(program):
    os.mkdir("a")
    return run(program, once("a"), ONE), (NONE_FOUND, ENDED)


def another_file_alone(program):
    put("a/blk00001.dat", GOOD)
    put("a/blk0000.dat", GOOD)
    return run(program, once("a"), ONE), (NONE_FOUND, ENDED)


def file_whose_name_is_no_text(program):
    # it is no block file, and all of those are found
    os.mkdir("index")
    put("a/blk00001.dat", record(BLOCK1))
    put(b"a/blk00002\xff.dat", GOOD)
    put("a/blk00003.dat", record(GENESIS))
    it = Served(program)
    node = it.node()
    return it.ends(node.asks(tip_line(BLOCK1)), node), (at_line(BLOCK1, 1), ENDED)


def masked(data):
    """The bytes of a block file under the mask."""
    return bytes(byte ^ MASK[place % 8] for place, byte in enumerate(data))


def masked_file(program):
    # the second block's record begins at another place of the mask than the first one's
    put("a/xor.dat", MASK)
    put("a/blk00000.dat", masked(GOOD))
    return run(program, once("a"), ONE + asks(BLOCK1_SCRIPT, 2)), (FOUND + replies([(1, BLOCK1_TXID)], 2), ENDED)


def mask_of_zeros(program):
    put("a/xor.dat", bytes(8))
    put("a/blk00000.dat", GOOD)
    return run(program, once("a"), ONE), (FOUND, ENDED)


def masked_file_without_its_mask(program):
    put("a/blk00000.dat", masked(GOOD))
    return run(program, once("a"), ONE), (NONE_FOUND, ENDED)


def mask_of_another_length(program):
    put("a/blk00000.dat", GOOD)
    wanted = (b"", because(FILES_FAILED, "mask a/xor.dat", "it hasn't eight bytes"))
    for mask in (b"", bytes(7), bytes(9), MASK + MASK):
        put("a/xor.dat", mask)
        did = run(program, once("a"), ONE)
        if did != as_wanted(wanted):
            break
    return did, wanted


def mask_that_can_not_be_read(program):
    os.makedirs("a/xor.dat")
    put("a/blk00000.dat", GOOD)
    return run(program, once("a"), ONE), (b"", because(FILES_FAILED, "mask a/xor.dat", A_FOLDER))


def record_far_in_the_file(program):
    put("a/blk00000.dat", record(GENESIS) + bytes(100_000) + record(BLOCK1) + b"\xf9")
    return run(program, once("a"), asks(BLOCK1_SCRIPT)), (replies([(1, BLOCK1_TXID)]), ENDED)


def second_block_alone(program):
    put("a/blk00000.dat", record(BLOCK1))
    return run(program, once("a"), ONE), (b"", BAD_CHAIN)


def header_proofs_past_groups(program):
    # up to checkpoints around the borders of two full groups, each header twice, before and after a branch parted
    # below the first border
    def blocks(chain, end, branch):
        for height in range(len(chain), end):
            chain.append(block(chain[-1] if chain else None, height, branch, [coinbase(height, branch, 1)]))
        return chain

    def asked(chain, upto):
        ids = [double(data[:80]) for data in chain[:upto + 1]]
        heights = [height for height in (0, 2039, 2040, 2047, 2048, 2060, 4095, 4096) if height <= upto]
        calls = [("blockchain.block.header", height, upto) for height in heights for _ in range(2)]
        answers = []
        for _, height, _ in calls:
            branch, top = proof(ids, height)
            answers.append({
                "branch": [shown(it) for it in branch], "header": chain[height][:80].hex(), "root": shown(top)})
        return answered(client.asks(requests(calls))) == answers

    first = blocks([], 2061, 0)
    other = blocks(first[:2040], 4097, 1)
    os.mkdir("index")
    put("a/blk00000.dat", b"".join(record(data, REGTEST) for data in (*first, *other[2040:])))
    it = Served(program, network="regtest")
    node, client = it.node(), it.client()
    told, right = b"", []
    for chain, top in ((first, 2060), (other, 2060), (other, 4096)):
        node.says(tip_line(chain[top]))
        while not told.endswith(at_line(chain[top], top)):
            line = node.hears()
            if not line.startswith(b"at "):
                return (line, *it.ends(b"", node)[1:]), (at_line(chain[top], top), ENDED)
            told += line
        right += [asked(chain, upto) for upto in (top, 2047, 2046, top - 1)]
    client.leaves()
    return it.ends(right, node), ([True] * 12, ENDED)


def many_lines(program):
    put("a/blk00000.dat", GOOD)
    given = ONE + asks(BLOCK1_SCRIPT, 2) + b"{}\n" + asks("00" * 32, 3) + ONE
    wrote = FOUND + replies([(1, BLOCK1_TXID)], 2) + INVALID + replies([], 3) + FOUND
    return run(program, once("a"), given), (wrote, ENDED)


# Each method over the two blocks of Bitcoin, with what it answers: a result, or a code and its message.
EVERY_METHOD = [
    (("server.version", "electrum/4.5", ["1.4", "1.4.2"]), ["el_serve 1.0", "1.4.2"]),
    (("server.version",), (1, "version already agreed")),
    (("server.features",), {
        "genesis_hash": GENESIS_HASH, "hash_function": "sha256", "hosts": {}, "protocol_max": "1.4.2",
        "protocol_min": "1.4", "pruning": None, "server_version": "el_serve 1.0",
    }),
    (("server.banner",), "Electrum Protocol 1.4 server over block files"),
    (("server.donation_address",), ""),
    (("server.ping",), None),
    (("server.peers.subscribe",), []),
    (("server.add_peer", {}), False),
    (("blockchain.block.header", 0), HEX0),
    (("blockchain.block.header", 1, 0), HEX1),
    (("blockchain.block.header", 0, 1), {"branch": [BLOCK1_HASH], "header": HEX0, "root": HEADERS_ROOT}),
    (("blockchain.block.header", 0, 2), (1, "bad checkpoint")),
    (("blockchain.block.header", 2), (1, "no such height")),
    (("blockchain.block.headers", 0, 2016), {"count": 2, "hex": HEX0 + HEX1, "max": 2016}),
    (("blockchain.block.headers", 2, 5), {"count": 0, "hex": "", "max": 2016}),
    (("blockchain.block.headers", 0, 2, 1), {
        "branch": [GENESIS_HASH], "count": 2, "hex": HEX0 + HEX1, "max": 2016, "root": HEADERS_ROOT,
    }),
    (("blockchain.estimatefee", 2), -1),
    (("blockchain.relayfee",), 0),
    (("blockchain.headers.subscribe",), {"height": 1, "hex": HEX1}),
    (("blockchain.scripthash.get_balance", BLOCK1_SCRIPT), {"confirmed": 5_000_000_000, "unconfirmed": 0}),
    (("blockchain.scripthash.get_history", GENESIS_SCRIPT), [{"height": 0, "tx_hash": GENESIS_TXID}]),
    (("blockchain.scripthash.get_mempool", BLOCK1_SCRIPT), []),
    (("blockchain.scripthash.listunspent", BLOCK1_SCRIPT), [
        {"height": 1, "tx_hash": BLOCK1_TXID, "tx_pos": 0, "value": 5_000_000_000},
    ]),
    (("blockchain.scripthash.subscribe", GENESIS_SCRIPT), status_of([GENESIS_TXID + ":0:"])),
    (("blockchain.scripthash.subscribe", "00" * 32), None),
    (("blockchain.scripthash.get_balance", "00" * 32), {"confirmed": 0, "unconfirmed": 0}),
    (("blockchain.scripthash.listunspent", "00" * 32), []),
    (("blockchain.transaction.broadcast", "00"), (2, "no relay")),
    (("blockchain.transaction.get", GENESIS_TXID), GENESIS[81:].hex()),
    (("blockchain.transaction.get", BLOCK1_TXID.upper(), False), BLOCK1[81:].hex()),
    (("blockchain.transaction.get", GENESIS_TXID, True), (1, "verbose not served")),
    (("blockchain.transaction.get", "00" * 32), (1, "no such transaction")),
    (("blockchain.transaction.get_merkle", GENESIS_TXID, 0), {"block_height": 0, "merkle": [], "pos": 0}),
    (("blockchain.transaction.get_merkle", GENESIS_TXID, 1), (1, "not in that block")),
    (("blockchain.transaction.get_merkle", GENESIS_TXID, 2), (1, "no such height")),
    (("blockchain.transaction.id_from_pos", 0, 0), GENESIS_TXID),
    (("blockchain.transaction.id_from_pos", 1, 0, True), {"merkle": [], "tx_hash": BLOCK1_TXID}),
    (("blockchain.transaction.id_from_pos", 0, 1), (1, "no such position")),
    (("mempool.get_fee_histogram",), []),
    (("blockchain.scripthash.unsubscribe", GENESIS_SCRIPT), True),
    (("blockchain.scripthash.unsubscribe", GENESIS_SCRIPT), False),
    (("blockchain.scripthash.unsubscribe",), (-32602, "invalid params")),
    (("blockchain.scripthash.forget", GENESIS_SCRIPT), (-32601, "unknown method")),
    (("server.ping", 1), (-32602, "invalid params")),
    (("blockchain.block.header",), (-32602, "invalid params")),
    (("blockchain.block.header", -1), (-32602, "invalid params")),
    (("blockchain.scripthash.get_balance", GENESIS_TXID[1:]), (-32602, "invalid params")),
]
EVERY_CALL = [call for call, _ in EVERY_METHOD]
EVERY_ANSWER = [answer for _, answer in EVERY_METHOD]


def every_method(program):
    put("a/blk00000.dat", GOOD)
    did = run(program, once("a"), requests(EVERY_CALL))
    return (answered(did[0]), *did[1:]), (EVERY_ANSWER, ENDED)


def every_method_of_a_masked_file(program):
    # where a transaction stands, its bytes are read once more, each by the mask of its own place
    put("a/xor.dat", MASK)
    put("a/blk00000.dat", masked(GOOD))
    did = run(program, once("a"), requests(EVERY_CALL))
    return (answered(did[0]), *did[1:]), (EVERY_ANSWER, ENDED)


def parameters_by_name(program):
    put("a/blk00000.dat", GOOD)
    given = (
        request("blockchain.block.header", {"height": 0, "cp_height": 1})
        + request("blockchain.scripthash.get_history", {"scripthash": BLOCK1_SCRIPT}, 2)
        + request("server.version", {"protocol_version": "1.4"}, 3)
        + request("blockchain.block.header", {"height": 0, "depth": 1}, 4)
    )
    answers = [
        {"branch": [BLOCK1_HASH], "header": HEX0, "root": HEADERS_ROOT},
        [{"height": 1, "tx_hash": BLOCK1_TXID}], ["el_serve 1.0", "1.4"], (-32602, "invalid params"),
    ]
    did = run(program, once("a"), given)
    return (answered(did[0]), *did[1:]), (answers, ENDED)


def no_blocks(program):
    os.mkdir("a")
    calls = [
        ("blockchain.headers.subscribe",), ("server.features",), ("blockchain.block.header", 0),
        ("blockchain.block.headers", 0, 1), ("blockchain.transaction.id_from_pos", 0, 0),
        ("blockchain.scripthash.subscribe", GENESIS_SCRIPT),
    ]
    answers = [
        (1, "no blocks yet"), (1, "no blocks yet"), (1, "no such height"), {"count": 0, "hex": "", "max": 2016},
        (1, "no such height"), None,
    ]
    did = run(program, once("a"), requests(calls))
    return (answered(did[0]), *did[1:]), (answers, ENDED)


# Lines of other forms, each with the line that answers it, or with nothing.
PARSE = b'{"error":{"code":-32700,"message":"parse error"},"id":null,"jsonrpc":"2.0"}\n'
ODD_LINES = [
    (b"{", PARSE),
    (b"", PARSE),
    (b"\xff", PARSE),
    (b'{"id":1,"method":"server.ping"} {}', PARSE),
    (b'{"id":1,"method":"server.ping","x":' + b"[" * 127 + b"]" * 127 + b"}", PARSE),
    (b"5", INVALID),
    (b"[]", INVALID),
    (b"{}", INVALID),
    (b'{"method":"server.ping"}', b""),
    (b'[{"method":"server.ping"}]', b""),
    (b'{"id":null,"method":"server.ping"}', b'{"id":null,"jsonrpc":"2.0","result":null}\n'),
    (b'{"id":"\\u20ac\\n","method":"server.ping"}', '{"id":"\u20ac\\n","jsonrpc":"2.0","result":null}\n'.encode()),
    (b'{"id":1,"id":2,"method":"server.ping"}', b'{"id":2,"jsonrpc":"2.0","result":null}\n'),
    (b'{"id":18446744073709551615,"method":"server.ping"}',
     b'{"id":18446744073709551615,"jsonrpc":"2.0","result":null}\n'),
    (b'{"id":-9223372036854775808,"method":"server.ping"}',
     b'{"id":-9223372036854775808,"jsonrpc":"2.0","result":null}\n'),
    (b'{"id":18446744073709551616,"method":"server.ping"}', INVALID),
    (b'{"id":1.5,"method":"server.ping"}', INVALID),
    (b'{"id":7}', b'{"error":{"code":-32600,"message":"invalid request"},"id":7,"jsonrpc":"2.0"}\n'),
    (b'{"id":7,"method":"server.ping","params":"x"}',
     b'{"error":{"code":-32600,"message":"invalid request"},"id":7,"jsonrpc":"2.0"}\n'),
    (b'{"id":7,"method":"server.ping","params":null}', b'{"id":7,"jsonrpc":"2.0","result":null}\n'),
    (b'[{"id":1,"method":"server.ping"},{"method":"server.ping"},{"id":2,"method":"nope"},5]',
     b'[{"id":1,"jsonrpc":"2.0","result":null},'
     b'{"error":{"code":-32601,"message":"unknown method"},"id":2,"jsonrpc":"2.0"},'
     b'{"error":{"code":-32600,"message":"invalid request"},"id":null,"jsonrpc":"2.0"}]\n'),
    (b"[[]]", b'[{"error":{"code":-32600,"message":"invalid request"},"id":null,"jsonrpc":"2.0"}]\n'),
]


def odd_lines(program):
    put("a/blk00000.dat", GOOD)
    did = run(program, once("a"), b"".join(line + b"\n" for line, _ in ODD_LINES))
    return did, (b"".join(answer for _, answer in ODD_LINES), ENDED)


def wallet(scripts):
    """What a wallet of forty scripts sends as it starts."""
    return b"".join([
        b'{"jsonrpc":"2.0","id":0,"method":"server.version","params":["electrum/4.5",["1.4","1.4.2"]]}\n',
        request("server.features", number=1),
        request("blockchain.headers.subscribe", number=2),
        request("blockchain.block.headers", [0, 2016], 3),
        *(request("blockchain.scripthash.subscribe", [script_hash(k)], number) for number, k in enumerate(scripts, 4)),
        request("blockchain.estimatefee", [2], 44),
        request("blockchain.relayfee", number=45),
        request("mempool.get_fee_histogram", number=46),
        request("server.ping", number=47),
        request("server.version", number=48),
    ])


def wallet_told(scripts, chain):
    """What it is told over a chain, line by line."""
    headers = [data[:80].hex().encode() for data in chain]
    told = statuses(chain)
    return b"".join([
        b'{"id":0,"jsonrpc":"2.0","result":["el_serve 1.0","1.4.2"]}\n',
        b'{"id":1,"jsonrpc":"2.0","result":{"genesis_hash":"%s","hash_function":"sha256","hosts":{},'
        b'"protocol_max":"1.4.2","protocol_min":"1.4","pruning":null,"server_version":"el_serve 1.0"}}\n'
        % block_id(chain[0]).encode(),
        b'{"id":2,"jsonrpc":"2.0","result":{"height":%d,"hex":"%s"}}\n' % (len(chain) - 1, headers[-1]),
        b'{"id":3,"jsonrpc":"2.0","result":{"count":%d,"hex":"%s","max":2016}}\n' % (len(chain), b"".join(headers)),
        *(b'{"id":%d,"jsonrpc":"2.0","result":%s}\n' % (number, json.dumps(told.get(script(k))).encode())
          for number, k in enumerate(scripts, 4)),
        b'{"id":44,"jsonrpc":"2.0","result":-1}\n',
        b'{"id":45,"jsonrpc":"2.0","result":0}\n',
        b'{"id":46,"jsonrpc":"2.0","result":[]}\n',
        b'{"id":47,"jsonrpc":"2.0","result":null}\n',
        b'{"error":{"code":1,"message":"version already agreed"},"id":48,"jsonrpc":"2.0"}\n',
    ])


WALLET, WALLET_TOLD = wallet(range(40)), wallet_told(range(40), [GENESIS, BLOCK1])


def tip_news(chain):
    """What a client that subscribes to headers is told of a new tip."""
    return (
        b'{"jsonrpc":"2.0","method":"blockchain.headers.subscribe","params":[{"height":%d,"hex":"%s"}]}\n'
        % (len(chain) - 1, chain[-1][:80].hex().encode()))


def script_news(k, told):
    """What a client that subscribes to a script is told where these are the statuses now."""
    return (
        b'{"jsonrpc":"2.0","method":"blockchain.scripthash.subscribe","params":["%s",%s]}\n'
        % (script_hash(k).encode(), json.dumps(told.get(script(k))).encode()))


def script_lines(scripts, was, now, kept_before=(), kept_now=()):
    """What a client that subscribes to these scripts is told of them where one chain became another one."""
    before, after = statuses(was, kept_before), statuses(now, kept_now)
    changed = [k for k in scripts if after.get(script(k)) != before.get(script(k))]
    return b"".join(script_news(k, after) for k in changed)


def news_of(scripts, was, now, kept_before=(), kept_now=()):
    """What a client that subscribes to headers and these scripts is told where one chain became another one."""
    tip = b"" if was[-1] == now[-1] else tip_news(now)
    return tip + script_lines(scripts, was, now, kept_before, kept_now)


def start_of_a_wallet(program):
    put("a/blk00000.dat", GOOD)
    return run(program, once("a"), WALLET), (WALLET_TOLD, ENDED)


def tip_line(data):
    """The node's line that names a block as the tip."""
    return b"tip %s\n" % block_id(data).encode()


def at_line(data, height):
    """The answer that the chain ends in that block."""
    return b"at %s %d\n" % (block_id(data).encode(), height)


def tx_line(data):
    """The node's line that brings a transaction."""
    return b"tx %s\n" % data.hex().encode()


def txid(data):
    """A transaction's id without a witness, as it is shown."""
    return shown(double(data))


def start_of_a_wallet_over_sockets(program):
    # the same bytes in pieces of one byte
    os.mkdir("index")
    put("a/blk00000.dat", GOOD)
    it = Served(program)
    node, client = it.node(), it.client()
    told = node.asks(tip_line(BLOCK1)) + client.asks(WALLET, 1)
    return it.ends(told, node), (at_line(BLOCK1, 1) + WALLET_TOLD, ENDED)


def every_method_over_sockets(program):
    os.mkdir("index")
    put("a/blk00000.dat", GOOD)
    it = Served(program)
    node, client = it.node(), it.client()
    told = node.asks(tip_line(BLOCK1))
    answers = answered(client.asks(requests(EVERY_CALL)))
    return it.ends((told, answers), node), ((at_line(BLOCK1, 1), EVERY_ANSWER), ENDED)


def serves_without_blocks(program):
    os.mkdir("index")
    put("a/blk00000.dat", GOOD)
    given = ONE + asks(GENESIS_SCRIPT, 2, "get_balance") + asks(GENESIS_SCRIPT, 3, "listunspent")
    empty = b'{"id":2,"jsonrpc":"2.0","result":{"confirmed":0,"unconfirmed":0}}\n'
    return ask_served(program, "a", given), (NONE_FOUND + empty + replies([], 3), ENDED)


def tells_what_it_serves(program):
    os.mkdir("index")
    os.mkdir("a")
    it = Served(program)
    told = b"electrum_serve: serving main, blocks a, index index, clients on port %d, node on port %d\n" % (
        it.client_port, it.node_port)
    return it.ends(it.serves), (told, ENDED)


def told_of(client, k):
    """The history, the balance and the set's part of a script, as a client is told of them."""
    return answered(client.asks(requests([
        ("blockchain.scripthash.get_history", script_hash(k)), ("blockchain.scripthash.get_balance", script_hash(k)),
        ("blockchain.scripthash.get_mempool", script_hash(k)), ("blockchain.scripthash.subscribe", script_hash(k)),
    ])))


def fees_of(client):
    """The fee histogram that a client is told."""
    return answered(client.asks(requests([("mempool.get_fee_histogram",)])))


def seen(history, confirmed, unconfirmed=0, pool=()):
    """What a client is told where the history has these entries, and the set these of height and fee, by txid."""
    waiting = [{"fee": fee, "height": height, "tx_hash": txid} for txid, height, fee in pool]
    whole = list(history) + [(entry["height"], entry["tx_hash"]) for entry in waiting]
    entries = [{"height": height, "tx_hash": txid} for height, txid in history]
    return [
        entries + waiting, {"confirmed": confirmed, "unconfirmed": unconfirmed}, waiting,
        status_of(f"{txid}:{height}:" for height, txid in whole) if whole else None,
    ]


def node_leads_to_another_branch(program):
    os.mkdir("index")
    put("a/blk00000.dat", b"".join(record(it, REGTEST) for it in (ZERO, A1, A2, B1, B2)))
    it = Served(program, network="regtest")
    node, client = it.node(), it.client()
    told = node.asks(tip_line(A2))
    first = told_of(client, 1)
    # the last block comes while the program runs
    at = os.path.getsize("a/blk00000.dat")
    with open("a/blk00000.dat", "ab") as blocks:
        blocks.write(record(B3, REGTEST))
    told += node.asks(tip_line(B3) + b"block 0 %d\n" % at + tip_line(B3), 7) + client.hears()
    second = told_of(client, 1)
    wanted = (
        at_line(A2, 2) + b"refused unknown %s\n" % block_id(B3).encode() + b"block %s\n" % block_id(B3).encode()
        + at_line(B3, 3) + script_news(1, statuses([ZERO, B1, B2, B3])),
        seen([(1, txid(MOVED))], 2_500_000_000), seen([(2, txid(MOVED))], 2_500_000_000),
    )
    return it.ends((told, first, second), node), (wanted, ENDED)


def node_tells_of_unconfirmed_transactions(program):
    os.mkdir("index")
    holding = block(ZERO, 1, 0, [coinbase(1, 0, 101), PARENT])
    put("a/blk00000.dat", record(ZERO, REGTEST) + record(holding, REGTEST))
    it = Served(program, network="regtest")
    node, client = it.node(), it.client()
    told = node.asks(tip_line(ZERO) + tx_line(PARENT) + tx_line(CHILD))
    first = [told_of(client, k) for k in (101, 1, 2)]
    got = answered(client.asks(requests([("blockchain.transaction.get", txid(CHILD))])))
    fees = [fees_of(client)]
    told += node.asks(tip_line(holding)) + client.hears(3)
    second = [told_of(client, k) for k in (1, 2)]
    fees.append(fees_of(client))
    told += node.asks(b"drop %s\n" % txid(CHILD).encode() * 2) + client.hears(2)
    third = told_of(client, 2)
    fees.append(fees_of(client))
    moved, dropped = statuses([ZERO, holding], [CHILD]), statuses([ZERO, holding])
    parent, child, base = txid(PARENT), txid(CHILD), txid(BASE)
    wanted = (
        at_line(ZERO, 0) + b"tx %s\ntx %s\n" % (parent.encode(), child.encode()) + at_line(holding, 1)
        + b"".join(script_news(k, moved) for k in (101, 1, 2))
        + b"gone %s\nrefused absent %s\n" % (child.encode(), child.encode())
        + script_news(1, dropped) + script_news(2, dropped),
        [
            seen([(0, base)], 5_000_000_000, -5_000_000_000, [(parent, 0, 0)]),
            seen([], 0, 0, sorted([(parent, 0, 0), (child, -1, 0)])),
            seen([], 0, 5_000_000_000, [(child, -1, 0)]),
        ],
        [CHILD.hex()],
        [
            seen([(1, parent)], 5_000_000_000, -5_000_000_000, [(child, 0, 0)]),
            seen([], 0, 5_000_000_000, [(child, 0, 0)]),
        ],
        seen([], 0),
        # both, the child, none: 65 bytes each, without a fee
        [[[[0, 130]]], [[[0, 65]]], [[]]],
    )
    return it.ends((told, first, got, second, third, fees), node), (wanted, ENDED)


def with_witness(tx, size):
    """A transaction of one input, with a witness of one item that has so many bytes, below 253."""
    return tx[:4] + b"\x00\x01" + tx[4:-4] + b"\x01" + number(size, 1) + bytes(size) + tx[-4:]


# The fees of transactions whose witness has an item of so many bytes. Without the witness they have 65 bytes; the marker
# and the witness are 4 bytes and the item, which count for a quarter: 65 + 104 / 4 = 91 virtual bytes, so with 103 too,
# since a part counts as a whole one; 92 with 105.
FEES = [
    (91 * 10_000, 100), (91 * 10_000 - 1, 100), (92 * 20, 101), (91 * 20, 99), (92 * 20 - 1, 101), (92, 101), (91, 101),
    (0, 100),
]
HISTOGRAM = [[10_000, 91], [5_000, 91], [20, 92 + 91], [10, 92], [1, 92], [0, 92 + 91]]


def fees_at_their_edges(program):
    # by virtual bytes, as the node knows transactions, with their witnesses; one that goes is counted no more
    os.mkdir("index")
    base = coinbase(0, 0, 101, [(1_000_000, 1)] * len(FEES))
    first = block(None, 0, 0, [base])
    put("a/blk00000.dat", record(first, REGTEST))
    it = Served(program, network="regtest")
    node, client = it.node(), it.client()
    plain = [spend([(double(base), place)], [(1_000_000 - fee, 2)]) for place, (fee, _) in enumerate(FEES, 1)]
    told = node.asks(tip_line(first) + b"".join(tx_line(with_witness(tx, size)) for tx, (_, size) in zip(plain, FEES)))
    fees = fees_of(client)
    told += node.asks(b"drop %s\n" % txid(plain[4]).encode() + b"drop %s\n" % txid(plain[2]).encode())
    fees += fees_of(client)
    wanted = (
        at_line(first, 0) + b"".join(b"tx %s\n" % txid(tx).encode() for tx in plain)
        + b"".join(b"gone %s\n" % txid(plain[place]).encode() for place in (4, 2)),
        [HISTOGRAM, [[10_000, 91], [5_000, 91], [20, 91], [1, 92], [0, 92 + 91]]],
    )
    return it.ends((told, fees), node), (wanted, ENDED)


# Transactions that a wallet may send: of the coins it isn't asked.
SENT = [spend([(double(BASE), place)], [(1, 1)]) for place in range(4)]
RELAY_FAILED = (6, "relay failed")


def sends(client, *txs):
    """What a wallet is told that sends these transactions."""
    return answered(client.asks(requests([("blockchain.transaction.broadcast", tx.hex()) for tx in txs])))


def relay_that_is_no_folder(program):
    # the program serves, and a broadcast fails; the folder is looked for at each, and the cause is told at the end
    os.mkdir("index")
    os.mkdir("a")
    put("file", b"")
    for folder, why in (("relay", NOT_THERE), ("file", NO_FOLDER)):
        it = Served(program, more=["--relay", folder])
        told = sends(it.client(), SENT[0], SENT[0])
        did = it.ends(told)
        wanted = ([RELAY_FAILED] * 2, because(ENDED, f"relay folder {folder}", why))
        if did != as_wanted(wanted):
            return did, wanted
    it = Served(program, more=["--relay", "relay"])
    client = it.client()
    told = sends(client, SENT[0])
    os.mkdir("relay")
    told += sends(client, SENT[0])
    did = it.ends((told, held("relay")))
    wanted = ([RELAY_FAILED, txid(SENT[0])], {txid(SENT[0]) + ".tx": SENT[0].hex().encode()})
    wanted = (wanted, because(ENDED, "relay folder relay", NOT_THERE))
    if did != as_wanted(wanted):
        return did, wanted
    return run(program, [*serve("a"), "--relay"]), (b"", USAGE)


def relay_of_many_files(program):
    # 10,000 may wait, and files of other names are none of them. One more fails until another is gone, but what is there
    # already, or was taken before, is taken as it is
    os.mkdir("index")
    os.mkdir("a")
    names = [f"relay/{number:064x}" for number in range(9_999)]
    for name in names:
        put(name + ".tx", b"")
    put("relay/" + "ff" * 32 + ".refused", b"")
    put("relay/" + "ff" * 32 + ".tx.part", b"")
    it = Served(program, more=["--relay", "relay"])
    client = it.client()
    told = sends(client, SENT[0], SENT[1], SENT[1], SENT[0])
    put(f"relay/{txid(SENT[2])}.tx", b"what stands there")
    told += sends(client, SENT[2], SENT[1])
    for name in names[:2]:
        os.remove(name + ".tx")
    told += sends(client, SENT[1], SENT[3])
    files = held("relay")
    found = [files.get(txid(tx) + ".tx") for tx in SENT]
    first, second, third, _ = map(txid, SENT)
    wanted = (
        [first, RELAY_FAILED, RELAY_FAILED, first, third, RELAY_FAILED, second, RELAY_FAILED],
        [SENT[0].hex().encode(), SENT[1].hex().encode(), b"what stands there", None], 10_002)
    return it.ends((told, found, len(files))), (wanted, because(ENDED, "relay folder relay", "no storage space"))


# A call by which a transaction's file is made, written, synced or renamed, the folder is synced, or a wallet is told.
RELAY_DEED = re.compile(
    r'write\(\d+<(?P<written>[^>]*\.part)>|f(?:data)?sync\(\d+<(?P<synced>[^>]*)>|openat\([^"]*"(?P<made>[^"]*)", [A-Z_|]*O_CREAT'
    r'|rename(?:at2?)?\(.*"(?P<renamed>[^"]*)"|sendto\(.*?"(?P<told>\{)')


def broadcast_is_synced_before_it_is_told(program):
    # nobody finds half a file under the transaction's name, and what is told is on the disk
    for name in ("index", "a", "relay"):
        os.mkdir(name)
    calls = "openat,write,fsync,fdatasync,rename,renameat,renameat2,sendto"
    it = Served(traced(program, calls), more=["--relay", "relay"])
    did = it.ends(sends(it.client(), SENT[0]))
    name = txid(SENT[0])
    done = deeds(RELAY_DEED)
    done = done[done.index(f"made {name}.tx.part"):]
    done = done[:done.index("told {") + 1]
    wanted = [
        f"made {name}.tx.part", f"written {name}.tx.part", f"synced {name}.tx.part", f"renamed {name}.tx", "synced relay",
        "told {"]
    return ((did[0], done), *did[1:]), (([name], wanted), ENDED)


def node_tells_of_refused_transactions(program):
    os.mkdir("index")
    put("a/blk00000.dat", record(ZERO, REGTEST))
    it = Served(program, network="regtest", more=["--pool-count", "1"])
    node = it.node()
    coin, missing = (double(BASE), 0), (b"\x11" * 32, 0)
    parent = txid(PARENT).encode()
    given = [
        (tip_line(ZERO), at_line(ZERO, 0)),
        (b"tx 00\n", b"refused form\n"),
        (tx_line(coinbase(5, 0, 1)), b"refused coinbase\n"),
        (tx_line(BASE), b"refused coinbase\n"),
        (tx_line(spend([coin], [(5_000_000_001, 1)])), b"refused overspends 5000000000 5000000001\n"),
        (tx_line(PARENT), b"tx %s\n" % parent),
        (tx_line(PARENT), b"refused known %s\n" % parent),
        (tx_line(spend([coin], [(1, 3)])), b"refused conflict %s\n" % parent),
        (tx_line(CHILD), b"refused full 1 65\n"),
        (tx_line(spend([missing], [(1, 1)])), b"refused missing %s 0\n" % (b"11" * 32)),
        (b"drop %s\n" % parent, b"gone %s\n" % parent),
        (b"drop %s\n" % parent, b"refused absent %s\n" % parent),
    ]
    told = node.asks(b"".join(line for line, _ in given))
    return it.ends(told, node), (b"".join(answer for _, answer in given), ENDED)


def node_tells_of_a_confirmed_transaction(program):
    os.mkdir("index")
    put("a/blk00000.dat", b"".join(record(it, REGTEST) for it in (ZERO, A1)))
    it = Served(program, network="regtest")
    node = it.node()
    told = node.asks(tip_line(A1) + tx_line(MOVED))
    return it.ends(told, node), (at_line(A1, 1) + b"refused confirmed %s\n" % txid(MOVED).encode(), ENDED)


def node_leads_to_blocks_that_are_refused(program):
    # none of them moves the chain: a second first block, one whose parent nobody has, one under another root, one whose
    # bytes have changed since it was found, and one that can't be read
    os.mkdir("index")
    other, wrong = block(None, 0, 1, [BASE]), A1[:36] + bytes(32) + A1[68:]
    records = [record(it, REGTEST) for it in (ZERO, other, B2, wrong, A1)]
    put("a/blk00000.dat", b"".join(records))
    it = Served(program, network="regtest")
    node = it.node()
    told = node.asks(
        tip_line(ZERO) + b"block 0 %d\n" % len(records[0]) + b"".join(map(tip_line, (other, B2, wrong))))
    with open("a/blk00000.dat", "r+b") as blocks:
        blocks.seek(sum(map(len, records[:4])) + 8)
        blocks.write(bytes(80))
    told += node.asks(tip_line(A1))
    os.remove("a/blk00000.dat")
    for number in range(100):
        put("a/blk00000.dat/a-file-with-a-long-name-%d" % number, b"")
    told += node.asks(tip_line(A1) + b"block 0 0\n" + tip_line(ZERO))
    names = [block_id(it).encode() for it in (other, B2, wrong, A1)]
    wanted = (
        at_line(ZERO, 0)
        + b"refused genesis %s\nrefused unknown %s\nrefused unconnected %s\nrefused bad %s merkle\n"
        % (names[0], *names[:3])
        + b"refused changed %s\nrefused archive\nrefused archive\n" % names[3] + at_line(ZERO, 0))
    return it.ends(told, node), (wanted, ENDED)


def node_says_other_lines(program):
    os.mkdir("index")
    put("a/blk00000.dat", GOOD)
    unknown = b"22" * 32
    given = [
        (b"Tip x\n", b"refused line\n"),
        (b"tip %s\n" % unknown, b"refused unknown %s\n" % unknown),
        (b"block 0 0\n", b"block %s\n" % GENESIS_HASH.encode()),
        (b"block 0 1\n", b"refused place\n"),
        (b"block 7 0\n", b"refused place\n"),
        (b"tx\n", b"refused line\n"),
        (b"tx 0\n", b"refused line\n"),
        (b"tx  00\n", b"refused line\n"),
        (b"drop 00\n", b"refused line\n"),
        (b"x" * 8_000_101 + b"\n", b"refused long 8000100\n"),
        (b"tip %s\n" % BLOCK1_HASH.encode(), b"at %s 1\n" % BLOCK1_HASH.encode()),
        (b"tip %s\n" % BLOCK1_HASH.upper().encode(), b"at %s 1\n" % BLOCK1_HASH.encode()),
    ]
    it = Served(program)
    node = it.node()
    told = node.asks(b"".join(line for line, _ in given))
    return it.ends(told, node), (b"".join(answer for _, answer in given), ENDED)


def two_wallets_are_told_of_blocks(program):
    # the node has its answer before a client is told, and clients are told in the order in which they came
    os.mkdir("index")
    put("a/blk00000.dat", b"".join(record(it, REGTEST) for it in (ZERO, A1, A2, B1, B2, B3)))
    it = Served(program, network="regtest")
    node = it.node()
    told = node.asks(tip_line(ZERO))
    wallets = [(it.client(), range(40)), (it.client(), range(119, 79, -1))]
    told += b"".join(client.asks(wallet(scripts)) for client, scripts in wallets)
    wanted = at_line(ZERO, 0) + b"".join(wallet_told(scripts, [ZERO]) for _, scripts in wallets)
    chains = [[ZERO], [ZERO, A1], [ZERO, A1, A2], [ZERO, B1, B2, B3]]
    in_order = []
    for was, now in zip(chains, chains[1:]):
        news = [news_of(scripts, was, now) for _, scripts in wallets]
        answer = at_line(now[-1], len(now) - 1)
        node.says(tip_line(now[-1]))
        heard = wallets[1][0].hears(news[1].count(b"\n"))
        in_order.append(wallets[0][0].has_come() == news[0] and node.has_come() == answer)
        told += node.hears() + wallets[0][0].hears(news[0].count(b"\n")) + heard
        wanted += answer + b"".join(news)
    told += b"".join(client.asks(request("server.ping")) for client, _ in wallets)
    wanted += b'{"id":1,"jsonrpc":"2.0","result":null}\n' * 2
    return it.ends((told, in_order), node), ((wanted, [True] * 3), ENDED)


def clients_are_told_of_unconfirmed_transactions(program):
    # nobody is told of a line that changes nothing, and of the tip only where it is another one
    os.mkdir("index")
    holding = block(ZERO, 1, 0, [coinbase(1, 0, 7), PARENT])
    put("a/blk00000.dat", record(ZERO, REGTEST) + record(holding, REGTEST))
    it = Served(program, network="regtest")
    node, client = it.node(), it.client()
    scripts = [1, 2, 101, 7]
    told = node.asks(tip_line(ZERO))
    client.asks(request("blockchain.headers.subscribe"))
    client.asks(requests(("blockchain.scripthash.subscribe", script_hash(k)) for k in scripts))
    parent = txid(PARENT).encode()
    steps = [
        (tx_line(PARENT), b"tx %s\n" % parent, ([ZERO], [ZERO], (), [PARENT])),
        (tx_line(PARENT), b"refused known %s\n" % parent, None),
        (b"block 0 0\n", b"block %s\n" % block_id(ZERO).encode(), None),
        (b"drop %s\n" % parent, b"gone %s\n" % parent, ([ZERO], [ZERO], [PARENT], ())),
        (tx_line(PARENT), b"tx %s\n" % parent, ([ZERO], [ZERO], (), [PARENT])),
        (tip_line(holding), at_line(holding, 1), ([ZERO], [ZERO, holding], [PARENT], ())),
        (tip_line(holding), at_line(holding, 1), None),
    ]
    wanted = at_line(ZERO, 0)
    for line, answer, change in steps:
        told += node.asks(line)
        news = news_of(scripts, *change) if change else b""
        told += client.hears(news.count(b"\n")) + client.asks(request("server.ping"))
        wanted += answer + news + b'{"id":1,"jsonrpc":"2.0","result":null}\n'
    return it.ends(told, node), (wanted, ENDED)


# What clients ask for by the versions that they take, and which one is agreed; none is where they are closed.
VERSIONS = [
    ([], "1.4"), (["c"], "1.4"), (["electrum/4.3.4", "1.4"], "1.4"), (["c", "1.4.1"], "1.4.1"),
    (["c", "1.4.2"], "1.4.2"), (["c", ["1.4", "1.4.2"]], "1.4.2"), (["c", ["1.4", "1.4.1"]], "1.4.1"),
    (["c", ["1.4.1", "2"]], "1.4.2"), (["c", ["0.9", "1.4.0"]], "1.4"), (["c", "1.3"], None),
    (["c", ["1.4.3", "1.5"]], None), (["c", ["1.4.2", "1.4"]], None),
]


def versions_that_clients_take(program):
    # the greatest that is served and that the client takes; where there is none, the client is closed
    os.mkdir("index")
    put("a/blk00000.dat", GOOD)
    it = Served(program)
    told = []
    for params, shared in VERSIONS:
        client = it.client()
        client.says(request("server.version", params) + request("server.ping"))
        if shared:
            told.append(client.hears(2))
            client.leaves()
        else:
            told.append(client.rest())
    ping = b'{"id":1,"jsonrpc":"2.0","result":null}\n'
    refused = b'{"error":{"code":1,"message":"version not shared"},"id":1,"jsonrpc":"2.0"}\n'
    wanted = [
        b'{"id":1,"jsonrpc":"2.0","result":["el_serve 1.0","%s"]}\n' % shared.encode() + ping if shared else refused
        for _, shared in VERSIONS]
    return it.ends(told), (wanted, ENDED)


def subscription_that_is_dropped(program):
    # of one that was dropped nothing is told, another client is told on; what comes again stands last, and its
    # answer is the status of then
    os.mkdir("index")
    put("a/blk00000.dat", b"".join(record(it, REGTEST) for it in (ZERO, A1, A2)))
    it = Served(program, network="regtest")
    node, client, other = it.node(), it.client(), it.client()
    subscribe, drop = "blockchain.scripthash.subscribe", "blockchain.scripthash.unsubscribe"
    scripts = [101, 1, 2]
    told = node.asks(tip_line(ZERO))
    for one in (client, other):
        one.asks(requests((subscribe, script_hash(k)) for k in scripts))
    told += client.asks(requests([("server.version", "c", "1.4.2"), (drop, script_hash(101)), (drop, script_hash(101))]))
    wanted = at_line(ZERO, 0) + (
        b'{"id":1,"jsonrpc":"2.0","result":["el_serve 1.0","1.4.2"]}\n'
        b'{"id":2,"jsonrpc":"2.0","result":true}\n{"id":3,"jsonrpc":"2.0","result":false}\n')
    steps = [(A1, [ZERO], [ZERO, A1], [1, 2], scripts), (A2, [ZERO, A1], [ZERO, A1, A2], [1, 2, 101], scripts)]
    for top, was, now, of_client, of_other in steps:
        mine, others = script_lines(of_client, was, now), script_lines(of_other, was, now)
        told += node.asks(tip_line(top)) + client.hears(mine.count(b"\n")) + other.hears(others.count(b"\n"))
        wanted += at_line(top, len(now) - 1) + mine + others
        if 101 not in of_client:
            told += client.asks(request(subscribe, [script_hash(101)]))
            status = json.dumps(statuses(now).get(script(101))).encode()
            wanted += b'{"id":1,"jsonrpc":"2.0","result":%s}\n' % status
    return it.ends(told, node), (wanted, ENDED)


def three_clients_of_whom_one_leaves(program):
    # the second one breaks off; the others are told on, and one that comes later is told of what comes later
    os.mkdir("index")
    put("a/blk00000.dat", b"".join(record(it, REGTEST) for it in (ZERO, A1, A2)))
    it = Served(program, network="regtest")
    node, clients = it.node(), [it.client() for _ in range(3)]
    subscribes = requests([
        ("blockchain.headers.subscribe",), ("blockchain.scripthash.subscribe", script_hash(101)),
        ("blockchain.scripthash.subscribe", script_hash(1)),
    ])
    told = node.asks(tip_line(ZERO))
    for client in clients:
        client.asks(subscribes)
    clients.pop(1).resets()
    news = news_of([101, 1], [ZERO], [ZERO, A1])
    told += node.asks(tip_line(A1)) + b"".join(client.hears(news.count(b"\n")) for client in clients)
    clients.append(it.client())
    clients[2].asks(subscribes)
    later = news_of([101, 1], [ZERO, A1], [ZERO, A1, A2])
    told += node.asks(tip_line(A2)) + b"".join(client.hears(later.count(b"\n")) for client in clients)
    wanted = at_line(ZERO, 0) + at_line(A1, 1) + news * 2 + at_line(A2, 2) + later * 3
    return it.ends(told, node), (wanted, ENDED)


def as_many_clients_as_may_be(program):
    # one more is closed unheard; all others are told; and where one leaves another one may come
    os.mkdir("index")
    put("a/blk00000.dat", GOOD)
    it = Served(program)
    node, clients = it.node(), [it.client() for _ in range(256)]
    told = node.asks(tip_line(GENESIS))
    answers = {client.asks(request("blockchain.headers.subscribe")) for client in clients}
    told += it.client().rest() + node.asks(tip_line(BLOCK1))
    news = {client.hears() for client in clients}
    clients.pop(100).leaves()
    told += it.next_client_says(ONE)
    told += b"".join(client.asks(ONE) for client in clients)
    wanted = (
        at_line(GENESIS, 0) + at_line(BLOCK1, 1) + FOUND * 256,
        {b'{"id":1,"jsonrpc":"2.0","result":{"height":0,"hex":"%s"}}\n' % HEX0.encode()},
        {tip_news([GENESIS, BLOCK1])},
    )
    return it.ends((told, answers, news), node), (wanted, ENDED)


def as_many_subscriptions_as_may_be(program):
    # one more is refused and told of nothing; those that are held are answered and told on
    os.mkdir("index")
    put("a/blk00000.dat", GOOD)
    it = Served(program)
    node, client = it.node(), it.client()
    told = node.asks(tip_line(GENESIS))
    method = "blockchain.scripthash.subscribe"
    scripts = [BLOCK1_SCRIPT, *("%064x" % number for number in range(49_999))]
    calls = [{"id": number, "method": method, "params": [script]} for number, script in enumerate(scripts)]
    batches = [calls[at:at + 5_000] for at in range(0, 50_000, 5_000)]
    answers = [client.asks(json.dumps(batch).encode() + b"\n") for batch in batches]
    one_more = requests([(method, GENESIS_SCRIPT), (method, BLOCK1_SCRIPT)])
    held = answered(client.asks(one_more))
    told += node.asks(tip_line(BLOCK1)) + client.hears()
    held += answered(client.asks(one_more))
    # one is dropped, and a new one is answered in its place
    dropped = "blockchain.scripthash.unsubscribe"
    held += answered(client.asks(requests([(dropped, scripts[7]), (dropped, scripts[7]), (method, GENESIS_SCRIPT)])))
    held += answered(client.asks(requests([(method, scripts[7])])))
    status = status_of([BLOCK1_TXID + ":1:"])
    none = [b",".join(b'{"id":%d,"jsonrpc":"2.0","result":null}' % call["id"] for call in batch) for batch in batches]
    too_many = (1, "too many subscriptions")
    wanted = (
        at_line(GENESIS, 0) + at_line(BLOCK1, 1)
        + b'{"jsonrpc":"2.0","method":"%s","params":["%s","%s"]}\n'
        % (method.encode(), BLOCK1_SCRIPT.encode(), status.encode()),
        [b"[%s]\n" % batch for batch in none], [
            too_many, None, too_many, status, True, False, status_of([GENESIS_TXID + ":0:"]), too_many,
        ],
    )
    return it.ends((told, answers, held), node), (wanted, ENDED)


MANY = 5_000


def block_of_many_transactions(program):
    # each takes a coin of one script and pays to a script of its own: that one has a coin and then an entry of its
    # history for each, the block a long branch, and one line of the node is followed by a notice for each
    os.mkdir("index")
    base = coinbase(0, 0, 101, [(1_000, 1)] * MANY)
    funded = double(base)
    txs = [spend([(funded, place)], [(1_000, 1_000 + place)]) for place in range(1, MANY + 1)]
    first = block(None, 0, 0, [base])
    second = block(first, 1, 0, [coinbase(1, 0, 101), *txs])
    put("a/blk00000.dat", record(first, REGTEST) + record(second, REGTEST))
    it = Served(program, network="regtest")
    node, client = it.node(), it.client()
    told = node.asks(tip_line(first))
    method = "blockchain.scripthash.subscribe"
    owners = [script_hash(1_000 + place) for place in range(1, MANY + 1)]
    coins = answered(client.asks(asks(script_hash(1), 1, "listunspent")))
    batch = [{"id": number, "method": method, "params": [owner]} for number, owner in enumerate(owners)]
    subscribed = json.loads(client.asks(json.dumps(batch).encode() + b"\n"))
    told += node.asks(tip_line(second))
    news = client.hears(MANY) == b"".join(
        b'{"jsonrpc":"2.0","method":"%s","params":["%s","%s"]}\n'
        % (method.encode(), owner.encode(), status_of([txid(tx) + ":1:"]).encode()) for owner, tx in zip(owners, txs))
    ids = [double(tx) for tx in (coinbase(1, 0, 101), *txs)]
    places = (0, 1, 2_499, 4_096, MANY)
    branches = [[shown(it) for it in proof(ids, place)[0]] for place in places]
    answers = answered(client.asks(requests([
        *(("blockchain.transaction.get_merkle", shown(ids[place]), 1) for place in places),
        *(("blockchain.transaction.id_from_pos", 1, place, True) for place in places),
        ("blockchain.scripthash.get_history", script_hash(1)), (method, script_hash(1)),
    ])))
    entries = [(0, shown(funded)), *((1, txid(tx)) for tx in txs)]
    whole = [
        coins == [[{"height": 0, "tx_hash": shown(funded), "tx_pos": at, "value": 1_000} for at in range(1, MANY + 1)]],
        subscribed == [{"id": number, "jsonrpc": "2.0", "result": None} for number in range(MANY)],
        news,
        answers[:5] == [{"block_height": 1, "merkle": it, "pos": place} for it, place in zip(branches, places)],
        answers[5:10] == [{"merkle": it, "tx_hash": shown(ids[place])} for it, place in zip(branches, places)],
        answers[10] == [{"height": height, "tx_hash": txid} for height, txid in entries],
        answers[11] == status_of(f"{txid}:{height}:" for height, txid in entries),
    ]
    return it.ends((told, whole), node), ((at_line(first, 0) + at_line(second, 1), [True] * 7), ENDED)


def unconfirmed_transaction_of_much(program):
    # it takes 2,000 bitcoins and makes 10,000 coins, and goes again
    os.mkdir("index")
    much = 200_000_000_000
    base = coinbase(0, 0, 101, [(much, 1)])
    first = block(None, 0, 0, [base])
    put("a/blk00000.dat", record(first, REGTEST))
    wide = spend([(double(base), 1)], [(much // 10_000, 2)] * 10_000)
    made = txid(wide)
    it = Served(program, network="regtest")
    node, client = it.node(), it.client()
    told = node.asks(tip_line(first) + tx_line(wide))
    before = [told_of(client, k) for k in (1, 2)]
    coins = answered(client.asks(asks(script_hash(2), 1, "listunspent")))
    told += node.asks(b"drop %s\n" % made.encode()) + client.hears(2)
    after = [told_of(client, k) for k in (1, 2)]
    whole = coins == [[
        {"height": 0, "tx_hash": made, "tx_pos": at, "value": much // 10_000} for at in range(10_000)]]
    left = {script(1): status_of([txid(base) + ":0:"])}
    wanted = (
        at_line(first, 0) + b"tx %s\ngone %s\n" % (made.encode(), made.encode())
        + script_news(1, left) + script_news(2, left),
        [seen([(0, txid(base))], much, -much, [(made, 0, 0)]), seen([], 0, much, [(made, 0, 0)])],
        True,
        [seen([(0, txid(base))], much), seen([], 0)],
    )
    return it.ends((told, before, whole, after), node), (wanted, ENDED)


def client_that_breaks_off(program):
    os.mkdir("index")
    put("a/blk00000.dat", GOOD)
    it = Served(program)
    node, first = it.node(), it.client()
    told = node.asks(tip_line(BLOCK1)) + first.asks(ONE)
    first.says(ONE[:20])
    first.resets()
    told += it.next_client_says(ONE + ONE[:20])
    return it.ends(told, node), (at_line(BLOCK1, 1) + FOUND * 2, ENDED)


def client_of_another_version(program):
    # it is closed after the answers to the whole batch; its next line has no effect
    os.mkdir("index")
    os.mkdir("a")
    it = Served(program)
    batch = b'[{"id":1,"method":"server.version","params":["x","1.5"]},{"id":2,"method":"server.ping"}]\n'
    answer = (
        b'[{"error":{"code":1,"message":"version not shared"},"id":1,"jsonrpc":"2.0"},'
        b'{"id":2,"jsonrpc":"2.0","result":null}]\n'
    )
    client = it.client()
    client.says(batch + request("server.ping"))
    return it.ends(client.rest()), (answer, ENDED)


def clients_of_another_version(program):
    # 300 are closed, more than there are places, and each place is free again: as many are answered then as may be, one
    # more is closed unheard, and another one comes in place of one that leaves
    os.mkdir("index")
    os.mkdir("a")
    it = Served(program)
    refused = set()
    for _ in range(300):
        client = it.client()
        client.says(request("server.version", ["x", "1.5"]))
        refused.add(client.rest())
        client.leaves()
    clients = [it.client() for _ in range(256)]
    answers = {client.asks(ONE) for client in clients}
    beside = it.client().rest()
    clients.pop().leaves()
    not_shared = b'{"error":{"code":1,"message":"version not shared"},"id":1,"jsonrpc":"2.0"}\n'
    told = (refused, answers, beside, it.next_client_says(ONE))
    return it.ends(told), (({not_shared}, {NONE_FOUND}, b"", NONE_FOUND), ENDED)


class Flood(threading.Thread):
    """A client that sends requests without replies, as fast as they are taken, until it stops or for ten seconds."""

    def __init__(self, client):
        super().__init__(daemon=True)
        self.client, self.begun, self.enough = client, threading.Event(), threading.Event()

    def run(self):
        latest = time.monotonic() + 10
        while time.monotonic() < latest and not self.enough.is_set():
            self.client.says(b'{"method":"server.ping"}\n' * 10_000)
            self.begun.set()

    def stops(self):
        """Whether it sent until now."""
        lasted = self.is_alive()
        self.enough.set()
        self.join()
        return lasted


def client_that_always_sends(program):
    # the node leads on meanwhile, and others are answered and told, whether they came before or after
    os.mkdir("index")
    put("a/blk00000.dat", GOOD)
    it = Served(program)
    node, before, floods, after = it.node(), it.client(), it.client(), it.client()
    told = node.asks(tip_line(GENESIS))
    for client in (before, after):
        client.asks(request("blockchain.headers.subscribe"))
    flood = Flood(floods)
    flood.start()
    flood.begun.wait(60)
    told += node.asks(tip_line(BLOCK1)) + b"".join(client.hears() + client.asks(ONE) for client in (before, after))
    lasted = flood.stops()
    told += floods.asks(request("server.ping"))
    wanted = at_line(GENESIS, 0) + at_line(BLOCK1, 1) + (tip_news([GENESIS, BLOCK1]) + FOUND) * 2
    return it.ends((told, lasted), node), ((wanted + b'{"id":1,"jsonrpc":"2.0","result":null}\n', True), ENDED)


def seconds_of_twenty_pairs(client):
    """How long a client waits for the answers to twenty times two requests, each two sent in one piece. It acknowledges
    late what came, as a system does by itself after a while."""
    begun = time.monotonic()
    for _ in range(20):
        client.socket.setsockopt(socket.IPPROTO_TCP, socket.TCP_QUICKACK, 0)
        client.asks(request("server.ping") * 2)
    return time.monotonic() - begun


def answers_that_come_at_once(program):
    # where the second reply waited until the client acknowledges the first, a pair would take some 40 ms
    os.mkdir("index")
    os.mkdir("a")
    it = Served(program)
    best = min(seconds_of_twenty_pairs(it.client()) for _ in range(3))
    return it.ends(best < 20 * 0.035), (True, ENDED)


def client_of_a_line_that_is_too_long(program):
    # 1,000,000 bytes are read, and one more closes the client
    os.mkdir("index")
    os.mkdir("a")
    it = Served(program)
    longest = request("server.ping")[:-1].ljust(1_000_000)
    client = it.client()
    client.says(longest + b"\n" + longest)
    told = client.hears()
    client.says(b" ")
    return it.ends(told + client.rest()), (b'{"id":1,"jsonrpc":"2.0","result":null}\n', ENDED)


def transaction_of_many_bytes():
    """A coinbase whose output has 900,000 bytes."""
    return coinbase(0, 0, 1).replace(b"\x05" + script(1), b"\xfe" + number(900_000) + b"x" * 900_000)


def client_closed_before_it_reads(program):
    # for a line that is too long, behind lines whose replies are more than the system holds for it: they come still
    os.mkdir("index")
    big = transaction_of_many_bytes()
    first = block(None, 0, 0, [big])
    put("a/blk00000.dat", record(first, REGTEST))
    it = Served(program, network="regtest")
    node, client, other = it.node(), it.client(), it.client()
    told = node.asks(tip_line(first))
    client.says(requests([("blockchain.transaction.get", txid(big))] * 8) + b" " * 1_000_001)
    # each of these is answered in a pass over all clients, in which some of those bytes are read too
    for _ in range(100):
        other.asks(request("server.ping"))
    hexed = big.hex().encode()
    whole = client.rest() == b"".join(b'{"id":%d,"jsonrpc":"2.0","result":"%s"}\n' % (k, hexed) for k in range(1, 9))
    return it.ends((told, whole), node), ((at_line(first, 0), True), ENDED)


def batch_of_a_large_result(program):
    big = transaction_of_many_bytes()
    put("a/blk00000.dat", record(block(None, 0, 0, [big]), REGTEST))
    batch = [
        {"id": 1, "method": "server.ping"},
        {"id": 2, "method": "blockchain.transaction.get", "params": [txid(big)]},
        {"id": 3, "method": "server.ping"},
    ]
    wrote, *ended = run(program, once("a", "regtest"), json.dumps(batch).encode() + b"\n")
    whole = wrote == (
        b'[{"id":1,"jsonrpc":"2.0","result":null},{"id":2,"jsonrpc":"2.0","result":"%s"},'
        b'{"id":3,"jsonrpc":"2.0","result":null}]\n' % big.hex().encode())
    return (whole, *ended), (True, ENDED)


def client_that_reads_slowly(program):
    # more is unsent for it than is kept for a client that is still read; its last request is answered all the same, and
    # another client is answered and told meanwhile
    os.mkdir("index")
    big = transaction_of_many_bytes()
    first = block(None, 0, 0, [big])
    second = block(first, 1, 0, [coinbase(1, 0, 1)])
    put("a/blk00000.dat", record(first, REGTEST) + record(second, REGTEST))
    it = Served(program, network="regtest")
    node, client, other = it.node(), it.client(), it.client()
    told = node.asks(tip_line(first)) + other.asks(request("blockchain.headers.subscribe"))
    asked = [("blockchain.transaction.get", txid(big))] * 12
    client.says(requests(asked))
    time.sleep(2)
    told += node.asks(tip_line(second)) + other.hears()
    client.says(request("server.ping", number=13))
    answers = answered(client.hears(13))
    whole = [answer == big.hex() for answer in answers[:12]]
    wanted = (
        at_line(first, 0) + b'{"id":1,"jsonrpc":"2.0","result":{"height":0,"hex":"%s"}}\n' % first[:80].hex().encode()
        + at_line(second, 1) + tip_news([first, second]))
    return it.ends((told, whole, answers[12]), node), ((wanted, [True] * 12, None), ENDED)


def second_node(program):
    # it is closed at once; the first one leads on
    os.mkdir("index")
    put("a/blk00000.dat", GOOD)
    it = Served(program)
    node = it.node()
    told = node.asks(tip_line(GENESIS))
    told += it.node().rest() + node.asks(tip_line(BLOCK1))
    return it.ends(told, node), (at_line(GENESIS, 0) + at_line(BLOCK1, 1), ENDED)


def node_that_sends_no_more(program):
    # it gets the answers to its whole lines; what it said last is none
    os.mkdir("index")
    put("a/blk00000.dat", GOOD)
    it = Served(program)
    node = it.node()
    told = node.says_all(tip_line(GENESIS) + b"tip")
    return it.ends(told, node), (at_line(GENESIS, 0), ENDED)


def node_that_leaves_in_a_line(program):
    # it breaks off as soon as it has said a line of several moves: what comes to be answered can't be sent
    os.mkdir("index")
    chain = [ZERO]
    for height in range(1, 60):
        chain.append(block(chain[-1], height, 0, [coinbase(height, 0, 101)]))
    put("a/blk00000.dat", b"".join(record(it, REGTEST) for it in chain))
    it = Served(program, network="regtest")
    node, client = it.node(), it.client()
    node.says(tip_line(chain[-1]))
    node.resets()
    wrote, said, status = it.ends(client.rest(), node)
    # by the moment at which the system notices, it says that the pipe is broken or the connection reset
    for why in (b"Broken pipe (os error 32)", b"Connection reset by peer (os error 104)"):
        said = said.replace(why, b"it left")
    return (wrote, said, status), (b"", because(LINK_FAILED, f"node on port {it.node_port}", "it left"))


def killed_after_a_move(program):
    # the ports can be had at once, and the chain is the one that was told; the set is not kept
    os.mkdir("index")
    put("a/blk00000.dat", b"".join(record(it, REGTEST) for it in (ZERO, A1, A2, B1, B2, B3)))
    ports = free_ports()
    first = Served(program, network="regtest", ports=ports)
    node, client = first.node(), first.client()
    told = node.asks(tip_line(A2) + tx_line(spend([(double(MOVED), 0)], [(1, 1)])) + tip_line(B3))
    before = told_of(client, 1)
    first.killed()
    second = Served(program, network="regtest", ports=ports)
    node, client = second.node(), second.client()
    header = answered(client.asks(request("blockchain.headers.subscribe")))
    after = told_of(client, 1)
    third = spend([(double(MOVED), 0)], [(1, 1)])
    wanted = (
        at_line(A2, 2) + b"tx %s\n" % txid(third).encode() + at_line(B3, 3),
        seen([(2, txid(MOVED))], 2_500_000_000, 1 - 2_500_000_000, [(txid(third), 0, 2_499_999_999)]),
        [{"height": 3, "hex": B3[:80].hex()}], seen([(2, txid(MOVED))], 2_500_000_000),
    )
    return second.ends((told, before, header, after), node), (wanted, ENDED)


def killed_at_random_moments(program):
    # whatever moment it is stopped at, the chain is the one that was told last or that of the move in flight, and each
    # status is the one of a scan of that chain's blocks
    os.mkdir("index")
    put("a/blk00000.dat", b"".join(record(it, REGTEST) for it in (ZERO, A1, A2, B1, B2, B3)))
    chains = [[ZERO, A1, A2], [ZERO, B1, B2, B3]]
    scripts = [script(k) for k in (1, 100, 101)]
    wanted = [[statuses(chain).get(it) for it in scripts] for chain in chains]
    at_lines = [at_line(chain[-1], len(chain) - 1) for chain in chains]
    asked = requests([("blockchain.headers.subscribe",)] + [
        ("blockchain.scripthash.subscribe", shown(hashlib.sha256(it).digest())) for it in scripts])
    moments, last, moves = random.Random(10), None, 12
    for round_number in range(200):
        it = Served(program, network="regtest")
        node = it.node()
        order = [1, 0] * moves if last == 0 else [0, 1] * moves
        node.says(b"".join(tip_line(chains[which][-1]) for which in order))
        time.sleep(moments.random() * 0.05)
        stop(it.started)
        told = node.rest()
        it.started.communicate()
        done = told.count(b"\n")
        if told[:told.rfind(b"\n") + 1] != b"".join(at_lines[which] for which in order[:done]):
            return (round_number, told), (b"", ENDED)
        may_be = ([order[done - 1]] if done else [] if last is None else [last]) + order[done:done + 1]
        it = Served(program, network="regtest")
        tip, *answers = answered(it.client().asks(asked))
        did = it.ends(b"")
        found = [which for which in may_be if tip == {"height": len(chains[which]) - 1, "hex": chains[which][-1][:80].hex()}]
        if not found and done == 0 and last is None and tip == (1, "no blocks yet"):
            continue
        if did != as_wanted((b"", ENDED)) or not found or answers != wanted[found[0]]:
            return (round_number, done, tip, answers, *did), (b"", ENDED)
        last = found[0]
    return did, (b"", ENDED)


def stopped_by_a_signal(program):
    os.mkdir("index")
    os.mkdir("a")
    it = Served(program)
    it.started.send_signal(signal.SIGTERM)
    printed, said, status = ends(it.started, None)
    return (printed + said, b"electrum_serve: ended\n", status + signal.SIGTERM), (b"", ENDED)


def port_that_is_taken(program):
    # the other one is closed again, and the index and the block files were opened before
    os.mkdir("index")
    os.mkdir("a")
    for place, name in enumerate(("client port", "node port")):
        ports = free_ports()
        with socket.create_server(("127.0.0.1", ports[place])):
            did = run(program, serve("a", "main", *(str(port) for port in ports)))
        wanted = (b"", because(LINK_FAILED, f"{name} {ports[place]}", TAKEN))
        if did != as_wanted(wanted):
            break
    return did, wanted


def is_refused(port, address="127.0.0.1"):
    """Whether nobody listens at the port of that address."""
    try:
        Peer(port, address).leaves()
    except ConnectionRefusedError:
        return True
    return False


def ports_on_one_address(program):
    # a port that is open on each address of the machine, as a third one here, is so on 127.0.0.2 too
    os.mkdir("index")
    os.mkdir("a")
    it = Served(program)
    with socket.create_server(("0.0.0.0", 0)) as third:
        ports = (it.client_port, it.node_port, third.getsockname()[1])
        refused = [is_refused(port, "127.0.0.2") for port in ports]
    return it.ends((refused, it.client().says_all(ONE))), (([True, True, False], NONE_FOUND), ENDED)


def opening(path):
    """Opens a pipe for writing once another one waits to read it; fails where that doesn't come."""
    for _ in range(1_200):
        try:
            return os.open(path, os.O_WRONLY | os.O_NONBLOCK)
        except OSError:
            time.sleep(0.05)
    raise OSError("nobody waits to read " + path)


def ports_that_open_as_it_serves(program):
    # a block file that is a pipe holds the program in its opening until somebody opens the other end; a pipe has no bytes
    os.mkdir("index")
    os.mkdir("a")
    os.mkfifo("a/blk00000.dat")
    it = Served(program, waits=False)
    refused = []
    for _ in range(20):
        time.sleep(0.05)
        refused += [is_refused(it.client_port), is_refused(it.node_port)]
    os.close(opening("a/blk00000.dat"))
    os.unlink("a/blk00000.dat")
    told = b"electrum_serve: serving main, " in it.comes() and it.client().says_all(ONE)
    return it.ends((all(refused), told)), ((True, NONE_FOUND), ENDED)


def input_in_pieces(program):
    put("a/blk00000.dat", GOOD)
    started = start(program, once("a"), stdin=subprocess.PIPE, stdout=subprocess.PIPE)
    for piece in (ONE[:30], ONE[30:50], ONE[50:] + ONE[:20]):
        started.stdin.write(piece)
        started.stdin.flush()
        time.sleep(0.05)
    return ends(started, ONE[20:]), (FOUND + FOUND, ENDED)


def input_cut_in_a_line(program):
    put("a/blk00000.dat", GOOD)
    return run(program, once("a"), ONE + ONE[:-1]), (FOUND, ENDED)


def no_input(program):
    put("a/blk00000.dat", GOOD)
    return run(program, once("a")), (b"", ENDED)


def input_that_can_not_be_read(program):
    put("a/blk00000.dat", GOOD)
    folder = os.open("a", os.O_RDONLY)
    did = ends(start(program, once("a"), stdin=folder, stdout=subprocess.PIPE), None)
    os.close(folder)
    return did, (b"", because(LINK_FAILED, "standard input", A_FOLDER))


def closed_output(program):
    put("a/blk00000.dat", GOOD)
    words = ["-c", 'exec "$@" >&-', "", program, *once("a")]
    did = ends(start("sh", words, stdin=subprocess.PIPE, stdout=subprocess.PIPE), ONE + ONE)
    return did, (b"", ENDED)


def output_that_nobody_reads(program):
    put("a/blk00000.dat", GOOD)
    reading, writing = os.pipe()
    os.close(reading)
    did = ends(start(program, once("a"), stdin=subprocess.PIPE, stdout=writing), ONE + ONE)
    os.close(writing)
    return (b"", *did[1:]), (b"", ENDED)


def full_output(program):
    put("a/blk00000.dat", GOOD)
    with open("/dev/full", "wb") as full:
        did = ends(start(program, once("a"), stdin=subprocess.PIPE, stdout=full), ONE + ONE)
    return (b"", *did[1:]), (b"", ENDED)


def network_of_another_name(program):
    put("a/blk00000.dat", GOOD)
    return run(program, once("a", "testnet3"), ONE), (NONE_FOUND, ENDED)


def network_of_its_own(program):
    put("a/blk00000.dat", record(GENESIS, REGTEST) + record(BLOCK1))
    return run(program, once("a", "regtest"), ONE + asks(BLOCK1_SCRIPT, 2)), (FOUND + replies([], 2), ENDED)


def folder_elsewhere(program):
    put("a/b/blk00000.dat", GOOD)
    put("a/blk00000.dat", record(BLOCK1))
    put("blk00000.dat", record(BLOCK1))
    return run(program, once(os.path.abspath("a/b")), ONE), (FOUND, ENDED)


CASES = [
    no_words,
    mistyped_words,
    options_in_any_order,
    options_of_once_in_any_order,
    numbers_at_their_bounds,
    checks_chains,
    mistyped_checks,
    audits_an_index_made_elsewhere,
    audits_an_empty_folder,
    audits_an_index_whose_balance_changed,
    audits_an_index_whose_history_changed,
    audits_an_index_whose_coins_changed,
    audits_block_files_that_changed,
    audits_an_index_without_its_last_block,
    audits_an_index_that_another_program_holds,
    mistyped_audits,
    checks_proofs,
    mistyped_proofs,
    serves_two_files,
    serves_blocks_in_any_order,
    serves_without_blocks,
    every_method_over_sockets,
    header_proofs_past_groups,
    start_of_a_wallet_over_sockets,
    tells_what_it_serves,
    node_leads_to_another_branch,
    node_tells_of_unconfirmed_transactions,
    fees_at_their_edges,
    relay_that_is_no_folder,
    relay_of_many_files,
    broadcast_is_synced_before_it_is_told,
    node_tells_of_refused_transactions,
    node_tells_of_a_confirmed_transaction,
    node_leads_to_blocks_that_are_refused,
    node_says_other_lines,
    node_that_sends_no_more,
    node_that_leaves_in_a_line,
    second_node,
    as_many_clients_as_may_be,
    as_many_subscriptions_as_may_be,
    block_of_many_transactions,
    unconfirmed_transaction_of_much,
    three_clients_of_whom_one_leaves,
    versions_that_clients_take,
    subscription_that_is_dropped,
    two_wallets_are_told_of_blocks,
    clients_are_told_of_unconfirmed_transactions,
    client_that_breaks_off,
    client_of_another_version,
    clients_of_another_version,
    client_that_always_sends,
    answers_that_come_at_once,
    client_of_a_line_that_is_too_long,
    client_closed_before_it_reads,
    batch_of_a_large_result,
    client_that_reads_slowly,
    killed_after_a_move,
    killed_at_random_moments,
    stopped_by_a_signal,
    port_that_is_taken,
    ports_on_one_address,
    ports_that_open_as_it_serves,
    serves_no_folder,
    serves_again_over_its_index,
    serves_from_an_index_made_elsewhere,
    files_of_an_index,
    index_of_format_1,
    index_of_format_1_whose_commit_waits,
    index_of_format_1_behind_format_2,
    index_with_more_buckets,
    serves_from_the_record_of_the_formats,
    index_of_another_network,
    index_of_another_chain,
    index_of_another_chain_in_a_later_file,
    index_of_a_commit_that_waits,
    index_in_a_journal,
    index_that_is_a_device,
    index_without_room,
    index_without_room_for_its_heads,
    index_of_writes_that_are_cut,
    commits_are_synced_before_they_are_told,
    index_without_a_folder,
    index_that_is_no_folder,
    index_that_cannot_be_written,
    index_that_may_not_be_read,
    index_without_rights,
    second_server_on_one_index,
    lock_after_a_kill,
    folder_that_another_program_holds,
    index_that_is_cut,
    words_that_are_no_text,
    folder_that_is_not_there,
    folder_that_is_a_file,
    folder_below_a_file,
    folder_that_goes_away,
    folder_that_can_not_be_listed,
    file_that_can_not_be_opened,
    file_that_can_not_be_read,
    no_file,
    another_file_alone,
    file_whose_name_is_no_text,
    masked_file,
    mask_of_zeros,
    masked_file_without_its_mask,
    mask_of_another_length,
    mask_that_can_not_be_read,
    record_far_in_the_file,
    second_block_alone,
    many_lines,
    every_method,
    every_method_of_a_masked_file,
    parameters_by_name,
    no_blocks,
    odd_lines,
    start_of_a_wallet,
    input_in_pieces,
    input_cut_in_a_line,
    no_input,
    input_that_can_not_be_read,
    closed_output,
    output_that_nobody_reads,
    full_output,
    network_of_another_name,
    network_of_its_own,
    folder_elsewhere,
]


def as_wanted(wanted):
    """What a program does that does as it is to do."""
    wrote, (status, words, *causes) = wanted
    return wrote, b"".join(causes) + b"electrum_serve: %s\n" % words.encode(), status


class TooLong(Exception):
    """A case took more time than it may."""


def is_late(*_):
    """Ends the case that runs."""
    raise TooLong(f"it had not ended after {BOUND} seconds")


def in_time(program, case):
    """What a case that ends in time did, and what it was to do. What it started is stopped, in whatever way it ends."""
    signal.signal(signal.SIGALRM, is_late)
    signal.setitimer(signal.ITIMER_REAL, BOUND, 60)
    try:
        return case(program)
    finally:
        signal.setitimer(signal.ITIMER_REAL, 0)
        stop_all()


def in_a_room(program, case):
    """The same, in a folder of the case's own."""
    before = os.getcwd()
    with tempfile.TemporaryDirectory(prefix="tries-") as room:
        os.chdir(room)
        try:
            return in_time(program, case)
        finally:
            os.chdir(before)


def try_case(program, case):
    """Whether the case ends as it is to end; says how it did otherwise. None where it can't be tried."""
    try:
        did, wanted = in_a_room(program, case)
        wanted = as_wanted(wanted)
    except PassedOver as why:
        print(f"tries: {case.__name__} PASSED OVER: {why}")
        return None
    except Exception as error:
        print(f"tries: {case.__name__} FAILED: {error!r}")
        return False
    if did == wanted:
        return True
    print(f"tries: {case.__name__} FAILED: it wrote, said and ended with {did}, and not {wanted}")
    return False


def main(given):
    passed, failed = (int(given[0]), int(given[1])) if len(given) == 2 else (0, 0)
    program = os.path.join(BUILT, "electrum_serve")
    if os.access(program, os.X_OK):
        ended = [try_case(program, case) for case in CASES]
        passed += ended.count(True)
        failed += ended.count(False)
        print(f"tries: {len(CASES)} cases of the built program, {ended.count(None)} of them passed over")
    else:
        print(f"tries: FAILED: the program was not built: {program}")
        failed += 1
    print(f"{passed} passed, {failed} failed")
    return 1 if failed else 0


if __name__ == "__main__":
    sys.exit(main(sys.argv[1:]))
