"""A Bitcoin node's block files: the records in them whose blocks are whole, and the tree of their headers.

A node takes room for its files ahead, in zeros, and writes blocks over them: a file's size tells nothing, and zeros are no
end. A record's head may stand before its block does. Masked files are read without their mask; zeros made ahead have none.
"""

import hashlib
import os
import re
import time
from typing import NamedTuple

MAGICS = {"main": "f9beb4d9", "testnet3": "0b110907", "regtest": "fabfb5da"}
ZERO = bytes(32)
# The sizes that a block can have, and how many bytes magic, size and header take.
SMALLEST, LARGEST, HEAD = 81, 4_000_000, 88
PIECE = 1 << 20
NOTHING = bytes(PIECE)
# A file that was written so many seconds ago may be written again with no newer time.
FRESH = 2


def double_sha256(data):
    """The hash of blocks and transactions."""
    return hashlib.sha256(hashlib.sha256(data).digest()).digest()


def shown(hash_bytes):
    """A hash as it is shown: its bytes from the last to the first, in hex."""
    return hash_bytes[::-1].hex()


def inner(text):
    """The hash that is shown so."""
    return bytes.fromhex(text)[::-1]


def work_of(bits):
    """How many hashes a block with these bits took on average (Bitcoin Core, GetBlockProof)."""
    size, mantissa = bits >> 24, bits & 0x7FFFFF
    target = mantissa << 8 * (size - 3) if size > 3 else mantissa >> 8 * (3 - size)
    return 0 if target <= 0 or bits & 0x800000 else (1 << 256) // (target + 1)


def number_at(data, at):
    """The CompactSize at a place, and the place after it. Here and below IndexError tells that the bytes end too early."""
    first = data[at]
    if first < 253:
        return first, at + 1
    after = at + {253: 3, 254: 5, 255: 9}[first]
    return int.from_bytes(data[at + 1:after], "little"), after


def after_texts(data, at):
    """The place after a list of texts, as a stack of a witness is one."""
    count, at = number_at(data, at)
    for _ in range(count):
        size, at = number_at(data, at)
        at += size
    return at


def inputs_at(data, at):
    """The txids that the inputs at a place spend from, and the place after them."""
    parents = []
    count, at = number_at(data, at)
    for _ in range(count):
        parents.append(data[at:at + 32])
        size, at = number_at(data, at + 36)
        at += size + 4
    return parents, at


def after_outputs(data, at):
    """The place after the outputs at a place."""
    count, at = number_at(data, at)
    for _ in range(count):
        size, at = number_at(data, at + 8)
        at += size
    return at


def transaction_at(data, start):
    """The txid of the transaction at a place, the txids that it spends from, and the place after it (BIP 144)."""
    has_witness = data[start + 4] == 0
    if has_witness and data[start + 5] != 1:
        raise IndexError("no transaction")
    first = start + (6 if has_witness else 4)
    parents, at = inputs_at(data, first)
    after = after_outputs(data, at)
    at = after
    for _ in parents if has_witness else []:
        at = after_texts(data, at)
    if at + 4 > len(data):
        raise IndexError("cut")
    return double_sha256(data[start:start + 4] + data[first:after] + data[at:at + 4]), parents, at + 4


def merkle_root(hashes):
    """The Merkle root of these hashes."""
    while len(hashes) > 1:
        if len(hashes) % 2:
            hashes = hashes + hashes[-1:]
        hashes = [double_sha256(a + b) for a, b in zip(hashes[::2], hashes[1::2])]
    return hashes[0]


def is_whole(block):
    """Whether these bytes are a header and all of the transactions whose Merkle root it has."""
    hashes = []
    try:
        count, at = number_at(block, 80)
        for _ in range(count):
            name, _, at = transaction_at(block, at)
            hashes.append(name)
    except IndexError:
        return False
    return hashes != [] and at == len(block) and merkle_root(hashes) == block[36:68]


class Record(NamedTuple):
    """A block in the block files: its file, the place of its magic there, its size, its header."""

    number: int
    place: int
    size: int
    header: bytes

    def after(self):
        """The place after it."""
        return self.place + 8 + self.size


class BlockFile:
    """How far one block file was read."""

    def __init__(self):
        # The place where the last record ended; the file's size and its time of writing when all of it was looked at.
        self.end, self.stamp = 0, None


class BlockFiles:
    """The records of a folder of block files, in the order in which they are met."""

    def __init__(self, folder, magic):
        self.folder, self.magic = folder, magic
        self.files, self.mask = {}, bytes(8)

    def path(self, number):
        return os.path.join(self.folder, f"blk{number:05}.dat")

    def numbers(self):
        """The numbers of the files that are there."""
        found = (re.fullmatch(r"blk(\d{5})\.dat", name) for name in os.listdir(self.folder))
        return sorted(int(it.group(1)) for it in found if it)

    def read_mask(self):
        """Reads the eight bytes by which a node masks its block files. Where they are others all is looked at anew."""
        try:
            with open(os.path.join(self.folder, "xor.dat"), "rb") as it:
                mask = it.read()
        except FileNotFoundError:
            mask = bytes(8)
        if len(mask) != 8:
            raise OSError(f"xor.dat has {len(mask)} bytes and not 8")
        if mask != self.mask:
            self.files, self.mask = {}, mask

    def unmasked(self, data, place):
        """Bytes that stand at a place of a file, without the mask."""
        if not any(self.mask):
            return data
        turn = place % 8
        mask = (self.mask[turn:] + self.mask[:turn]) * (len(data) // 8 + 1)
        return (int.from_bytes(data, "big") ^ int.from_bytes(mask[:len(data)], "big")).to_bytes(len(data), "big")

    def read(self, it, place, size):
        """So many bytes of an opened file, or as many as it has there, without the mask."""
        return self.unmasked(os.pread(it.fileno(), size, place), place)

    def block(self, number, place):
        """The bytes of the block whose record stands at a place; None where none stands there."""
        with open(self.path(number), "rb") as it:
            record = self.record_at(it, number, place, os.fstat(it.fileno()).st_size)
            return None if record is None else self.read(it, place + 8, record.size)

    def look_anew(self, number):
        """Lets that file be looked at from its start."""
        self.files.pop(number, None)

    def new_records(self):
        """Each record that came since the last call, once its block is whole. OSError where a file can't be read."""
        self.read_mask()
        numbers = self.numbers()
        for number in numbers:
            yield from self.records_in(number, number == numbers[-1])

    def records_in(self, number, newest):
        """Those of one file. Where it was written and nothing came to its end, a node that had stopped may have begun again
        before it, and all of it is looked at."""
        file = self.files.setdefault(number, BlockFile())
        status = os.stat(self.path(number))
        stamp = status.st_size, status.st_mtime_ns
        if stamp == file.stamp and status.st_size <= file.end:
            return
        was_written = stamp != file.stamp
        with open(self.path(number), "rb") as it:
            records = self.records_from(it, number, file.end, was_written, newest)
            if was_written and not records:
                records = self.records_from(it, number, 0, True, newest)
        if records:
            file.end = records[-1].after()
        file.stamp = stamp if status.st_mtime < time.time() - FRESH else None
        yield from records

    def records_from(self, it, number, place, all_of_it, newest):
        """Those from that place on: of all the rest, or only where they follow there one on the other."""
        size, from_start, found = os.fstat(it.fileno()).st_size, place == 0, []
        while place is not None:
            record = self.record_at(it, number, place, size)
            if record is None:
                place = self.next_magic(it, place + 1, size) if all_of_it else None
                continue
            place = record.after()
            is_followed = from_start and self.is_followed(it, record, size, newest)
            if is_followed or is_whole(self.read(it, record.place + 8, record.size)):
                found.append(record)
        return found

    def record_at(self, it, number, place, size):
        """The record at a place of a file of that size; None where none stands there."""
        head = self.read(it, place, HEAD)
        length = int.from_bytes(head[4:8], "little")
        if len(head) < HEAD or head[:4] != self.magic or not SMALLEST <= length <= LARGEST:
            return None
        return Record(number, place, length, head[8:]) if place + 8 + length <= size else None

    def is_followed(self, it, record, size, newest):
        """Whether the node wrote on behind the record, which then is whole: no block is read for that."""
        after = record.after()
        return self.read(it, after, 4) == self.magic or (after == size and not newest)

    def next_magic(self, it, place, size):
        """The first place from this one on where the magic stands; None where it doesn't."""
        while place + 8 + SMALLEST <= size:
            data = os.pread(it.fileno(), PIECE, place)
            if len(data) < 4:
                break
            at = -1 if data == NOTHING[:len(data)] else self.unmasked(data, place).find(self.magic)
            if at >= 0:
                return place + at
            place += len(data) - 3
        return None


class Block:
    """A header that was found: the hash before it, its record's place and size, its work; and what its path back to the
    first block has, where all of it was found: its height, and the work of all."""

    __slots__ = ("before", "number", "place", "size", "work", "height", "all_work")

    def __init__(self, record):
        self.before = record.header[4:36]
        self.number, self.place, self.size = record.number, record.place, record.size
        self.work = work_of(int.from_bytes(record.header[72:76], "little"))
        self.height, self.all_work = None, None


class Headers:
    """The tree of the headers that were found, and the one with the most work behind it."""

    def __init__(self):
        self.blocks, self.waiting, self.best = {}, {}, None

    def add(self, record):
        """Takes one record in, and tells whether it wasn't there before. A known block stands at the new place then."""
        name = double_sha256(record.header)
        known = self.blocks.get(name)
        if known is not None:
            is_new = (known.number, known.place) != (record.number, record.place)
            known.number, known.place = record.number, record.place
            return is_new
        self.blocks[name] = Block(record)
        ready = [name]
        while ready:
            name = ready.pop()
            if self.connect(name):
                ready += self.waiting.pop(name, [])
        return True

    def connect(self, name):
        """Gives a block its height, where that of the one before it is known; else it waits."""
        block = self.blocks[name]
        parent = self.blocks.get(block.before)
        if block.before == ZERO:
            block.height, block.all_work = 0, block.work
        elif parent is not None and parent.height is not None:
            block.height, block.all_work = parent.height + 1, parent.all_work + block.work
        else:
            self.waiting.setdefault(block.before, []).append(name)
            return False
        if self.best is None or block.all_work > self.blocks[self.best].all_work:
            self.best = name
        return True

    def height(self, name):
        """The height of a block; None where it or one before it wasn't found."""
        block = self.blocks.get(name)
        return None if block is None else block.height

    def path_back(self, name):
        """The blocks from this one back to the first, each with its hash."""
        while name in self.blocks:
            yield name, self.blocks[name]
            name = self.blocks[name].before

    def is_before(self, first, second):
        """Whether the first block stands on the path back from the second, or is it."""
        height = self.height(first)
        for name, block in self.path_back(second):
            if name == first or block.height is None or height is None or block.height <= height:
                return name == first
        return False
