#!/usr/bin/env python3
"""Makes block files of a regtest chain, with real proof of work, to try the server with no node.

usage: regtest.py --blocks DIR grow N [--pay SCRIPT] [--back K] [--confirm HEX] [--part K] [--mask]
       regtest.py --blocks DIR spend HEIGHT --pay SCRIPT

`grow` adds N blocks to the chain, whose coinbases pay to SCRIPT, a locking script in hex (51, which anyone may spend, where
none is given). With --back K they stand on the block K below the tip instead: a branch, which is the chain once it is
longer. --confirm puts a transaction, in hex or as @FILE with its hex, into the first of them. --mask makes a new folder's
files masked. With --part K only the first K bytes of the last one's record are written, as where a node is stopped in a
write; the next call writes over them. `spend` prints a transaction, in hex, that spends the coinbase of that height, where
it paid to 51, into SCRIPT. The first block is that of Bitcoin's regtest.

As a node does, it takes room for the block file ahead, in zeros, and writes over them.
"""

import argparse
import os
import struct
import sys

# Nothing is written beside this file.
sys.dont_write_bytecode = True
from block_files import MAGICS, ZERO, BlockFiles, Headers, double_sha256, merkle_root, shown

MAGIC = bytes.fromhex(MAGICS["regtest"])
# The steps in which room is taken ahead.
AHEAD = 16 << 20
BITS = 0x207FFFFF
TARGET = 0x7FFFFF << 8 * (0x20 - 3)
SUBSIDY = 5_000_000_000
FIRST = bytes.fromhex(
    "01000000" + "00" * 32 + "3ba3edfd7a7b12b27ac72c3e67768f617fc81bc3888a51323a9fb8aa4b1e5e4a"
    "dae5494d" "ffff7f20" "02000000" "01"
    "01000000" "01" + "00" * 32 + "ffffffff" "4d"
    "04ffff001d0104455468652054696d65732030332f4a616e2f32303039204368616e63656c6c6f72206f6e206272696e"
    "6b206f66207365636f6e64206261696c6f757420666f722062616e6b73"
    "ffffffff" "01" "00f2052a01000000" "43"
    "4104678afdb0fe5548271967f1a67130b7105cd6a828e03909a67962e0ea1f61deb649f6bc3f4cef38c4f35504e51ec1"
    "12de5c384df7ba0b8d578a4c702b6bf11d5fac" "00000000"
)


def compact(n):
    """A number in Bitcoin's CompactSize, below 65,536."""
    return bytes([n]) if n < 253 else b"\xfd" + struct.pack("<H", n)


def transaction(inputs, outputs):
    """A transaction: its inputs are outpoints with scripts, its outputs values with scripts."""
    body = struct.pack("<i", 2) + compact(len(inputs))
    for outpoint, script in inputs:
        body += outpoint + compact(len(script)) + script + b"\xff\xff\xff\xff"
    body += compact(len(outputs))
    for value, script in outputs:
        body += struct.pack("<Q", value) + compact(len(script)) + script
    return body + bytes(4)


def coinbase(height, branch, script):
    """The coinbase of a height (BIP 34) in a branch, of which no two are the same."""
    number = height.to_bytes((height.bit_length() + 8) // 8, "little")
    start = bytes([len(number)]) + number + compact(len(branch)) + branch
    return transaction([(ZERO + b"\xff\xff\xff\xff", start)], [(SUBSIDY, script)])


def block(before, height, transactions):
    """A block with proof of work."""
    start = struct.pack("<i", 4) + before + merkle_root([double_sha256(t) for t in transactions])
    start += struct.pack("<II", 1_296_688_602 + 600 * height, BITS)
    nonce = 0
    while int.from_bytes(double_sha256(start + struct.pack("<I", nonce)), "little") > TARGET:
        nonce += 1
    return start + struct.pack("<I", nonce) + compact(len(transactions)) + b"".join(transactions)


class Chain:
    """The chain that stands in a folder of block files."""

    def __init__(self, folder, masked):
        os.makedirs(folder, exist_ok=True)
        self.path = os.path.join(folder, "blk00000.dat")
        if masked and not os.listdir(folder):
            with open(os.path.join(folder, "xor.dat"), "wb") as it:
                it.write(bytes.fromhex("a5c30f69125ae178"))
        self.files, self.headers = BlockFiles(folder, MAGIC), Headers()
        self.end = 0
        self.look()
        if self.headers.best is None:
            self.append(FIRST)
            self.look()

    def look(self):
        """Reads what stands in the folder."""
        for record in self.files.new_records():
            self.headers.add(record)
            self.end = record.after()

    def append(self, bytes_of_block, part=None):
        """Writes a record behind the last one, or the first part of it alone."""
        record = MAGIC + struct.pack("<I", len(bytes_of_block)) + bytes_of_block
        with open(os.open(self.path, os.O_RDWR | os.O_CREAT, 0o644), "r+b") as it:
            room = -(-(self.end + len(record)) // AHEAD) * AHEAD
            if room > os.fstat(it.fileno()).st_size:
                os.posix_fallocate(it.fileno(), 0, room)
            os.pwrite(it.fileno(), self.files.unmasked(record, self.end)[:part], self.end)
        if part is None:
            self.end += len(record)

    def back(self, count):
        """The block so many below the tip, with its height."""
        name = self.headers.best
        for _ in range(count):
            name = self.headers.blocks[name].before
        return name, self.headers.height(name)

    def grow(self, count, script, back, confirmed, part=None):
        """Adds blocks on the block so many below the tip, the first with these transactions; the last may be cut."""
        name, height = self.back(back)
        for i in range(count):
            height += 1
            mark = struct.pack("<I", len(self.headers.blocks) + i)
            made = block(name, height, [coinbase(height, mark, script), *confirmed])
            self.append(made, part if i == count - 1 else None)
            name, confirmed = double_sha256(made[:80]), []
        return name, height

    def coinbase_of(self, height):
        """The coinbase of a height."""
        for _, found in self.headers.path_back(self.headers.best):
            if found.height == height:
                return self.files.block(found.number, found.place)[81:]
        raise SystemExit(f"regtest: no block of height {height}")


def hex_of(text):
    """The bytes of a hex text, or of the one in @FILE."""
    if text.startswith("@"):
        with open(text[1:], encoding="ascii") as it:
            text = it.read()
    return bytes.fromhex(text)


def words():
    """The words of the command line."""
    reader = argparse.ArgumentParser(description=__doc__.split("\n", maxsplit=1)[0])
    reader.add_argument("--blocks", required=True, help="the folder of the block files")
    commands = reader.add_subparsers(dest="command", required=True)
    grow = commands.add_parser("grow", help="add blocks")
    grow.add_argument("count", type=int)
    grow.add_argument("--pay", default="51", help="a locking script in hex")
    grow.add_argument("--back", type=int, default=0, help="on the block so many below the tip")
    grow.add_argument("--confirm", action="append", default=[], help="a transaction in hex, or @FILE")
    grow.add_argument("--part", type=int, help="write so many bytes of the last one's record alone")
    grow.add_argument("--mask", action="store_true", help="mask a new folder's files")
    spend = commands.add_parser("spend", help="print a transaction that spends a coinbase")
    spend.add_argument("height", type=int)
    spend.add_argument("--pay", default="51", help="a locking script in hex")
    return reader.parse_args()


def main():
    given = words()
    chain = Chain(given.blocks, given.command == "grow" and given.mask)
    script = bytes.fromhex(given.pay)
    if given.command == "grow":
        name, height = chain.grow(given.count, script, given.back, [hex_of(t) for t in given.confirm], given.part)
        print(f"{shown(name)} {height}")
    else:
        paid = double_sha256(chain.coinbase_of(given.height))
        print(transaction([(paid + bytes(4), b"")], [(SUBSIDY, script)]).hex())
    return 0


if __name__ == "__main__":
    sys.exit(main())
