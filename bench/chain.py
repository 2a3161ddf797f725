"""Makes block files of two regtest chains: full blocks of many transactions, and near-empty blocks.

Blocks carry no proof of work, and scripts, keys and signatures are random bytes: the server trusts its node
for these. All else is as it has to be: headers that name the block before, Merkle roots, coins that are
there, values that aren't above what is spent. The same seed gives the same bytes.
"""

import hashlib
import os
import random
import struct
import sys
from typing import NamedTuple

TOP = os.path.dirname(os.path.dirname(os.path.abspath(__file__)))
sys.path.insert(0, os.path.join(TOP, "examples"))
from block_files import ZERO, double_sha256, merkle_root, shown  # noqa: E402
from regtest import AHEAD, BITS, FIRST, MAGIC, compact, transaction  # noqa: E402

# A node's block file has at most so many bytes.
LARGEST_FILE = 128 << 20
# A coin of a coinbase, in satoshi, so low that no number of blocks comes near the limit of all coins.
COIN = 100_000_000
# About so many bytes has a transaction of two inputs and two outputs; so many weigh a little below 4,000,000.
TRANSACTION_SIZE, FULL_BLOCK = 373, 3_200
# So many bytes of the chain for each coin that its first blocks make, and for each rare script; and how many
# of these coins one coinbase makes.
SIZE_FOR_A_COIN, SIZE_FOR_A_RARE_SCRIPT, COINBASE_OUTPUTS = 1_500, 22_000, 4_000
# How often the popular scripts are paid, and how often at most: a reply lists at most 100,000 entries.
POPULAR_WEIGHTS, MOST_PAYMENTS = [32, 16, 8, 4, 2, 1], 45_000
# The shares of transactions whose second output pays to a popular script, to a rare one; that have witnesses.
TO_POPULAR, TO_RARE, WITNESS_SHARE = 0.12, 0.20, 0.5
# The usual locking scripts: what stands before a hash or key, how many bytes that has, and what stands after.
# P2WPKH, P2PKH, P2SH, P2TR, P2WSH.
FORMS = [
    (b"\x00\x14", 20, b""), (b"\x76\xa9\x14", 20, b"\x88\xac"), (b"\xa9\x14", 20, b"\x87"),
    (b"\x51\x20", 32, b""), (b"\x00\x20", 32, b"")]
# How many transactions of each block are kept to be asked for.
SAMPLES_A_BLOCK = 10


class Coin(NamedTuple):
    """An output that can be spent: its outpoint, its satoshi, its locking script."""

    outpoint: bytes
    value: int
    script: bytes


class Sample(NamedTuple):
    """A transaction that can be asked for, and the height of its block."""

    txid: bytes
    height: int


class Files:
    """Block files as a node writes them: record behind record, in room that is taken ahead in zeros."""

    def __init__(self, folder: str):
        self.folder, self.number, self.end, self.room = folder, 0, 0, 0
        os.makedirs(folder)
        self.open_file = open(self.path(0), "wb")

    def path(self, number: int) -> str:
        """The file of a number."""
        return os.path.join(self.folder, f"blk{number:05}.dat")

    def append(self, block: bytes) -> tuple[int, int]:
        """Writes a block's record; tells its file's number, and its place there."""
        record = MAGIC + len(block).to_bytes(4, "little") + block
        if self.end + len(record) > LARGEST_FILE:
            self.begin_next()
        if self.end + len(record) > self.room:
            self.room = -(-(self.end + len(record)) // AHEAD) * AHEAD
            os.posix_fallocate(self.open_file.fileno(), 0, self.room)
        place = self.end
        self.open_file.write(record)
        self.end += len(record)
        return self.number, place

    def begin_next(self) -> None:
        """Cuts off what was taken ahead and isn't needed, and begins the next file."""
        self.open_file.truncate(self.end)
        self.open_file.close()
        self.number, self.end, self.room = self.number + 1, 0, 0
        self.open_file = open(self.path(self.number), "wb")

    def move_to(self, folder: str) -> None:
        """All files go to another folder; what is written later goes into them there."""
        self.open_file.flush()
        for number in range(self.number + 1):
            source = self.path(number)
            os.rename(source, os.path.join(folder, os.path.basename(source)))
        self.folder = folder

    def parts(self) -> list[tuple[str, int]]:
        """The files, each with how many bytes of it aren't room taken ahead."""
        self.open_file.flush()
        paths = [self.path(number) for number in range(self.number + 1)]
        return [(path, os.path.getsize(path)) for path in paths[:-1]] + [(paths[-1], self.end)]


class Chain:
    """A chain in block files, from regtest's first block on, and what a run has to know of it."""

    def __init__(self, folder: str, seed: int):
        self.files, self.random = Files(folder), random.Random(seed)
        self.places: list[tuple[int, int]] = []
        self.tip, self.transactions, self.bytes = ZERO, 0, 0
        self.samples: list[Sample] = []
        self.append(FIRST, 1)

    @property
    def height(self) -> int:
        """The height of the last block."""
        return len(self.places) - 1

    def append(self, block: bytes, count: int) -> None:
        """Writes a block with so many transactions behind the others."""
        self.places.append(self.files.append(block))
        self.tip = double_sha256(block[:80])
        self.transactions += count
        self.bytes += len(block)

    def append_of(self, transactions: list[bytes], txids: list[bytes]) -> None:
        """Writes a block of these transactions upon the last one."""
        time = 1_296_688_602 + 600 * len(self.places)
        head = struct.pack("<i", 4) + self.tip + merkle_root(txids) + struct.pack("<III", time, BITS, 0)
        self.append(head + compact(len(transactions)) + b"".join(transactions), len(transactions))

    def coinbase(self, outputs: list[tuple[int, bytes]]) -> bytes:
        """The coinbase of the next block, with its height in front (BIP 34)."""
        start = b"\x04" + struct.pack("<I", len(self.places))
        return transaction([(ZERO + b"\xff" * 4, start)], outputs)

    def new_script(self) -> bytes:
        """A locking script that nothing was paid to."""
        before, size, after = FORMS[self.below(len(FORMS))]
        return before + self.random.randbytes(size) + after

    def below(self, count: int) -> int:
        """A random number below that."""
        return int(self.random.random() * count)


class NearEmptyChain(Chain):
    """So many blocks upon the first, each with a coinbase alone that pays to a new script."""

    def __init__(self, folder: str, seed: int, count: int):
        super().__init__(folder, seed)
        for _ in range(count):
            made = self.coinbase([(COIN, self.new_script())])
            self.append_of([made], [double_sha256(made)])


class FullChain(Chain):
    """Full blocks of about so many bytes together. The coinbases of the first ones make coins. Each later
    transaction spends two coins and makes two: one pays to a new script, the other to a popular one, a rare
    one or that of the first input."""

    def __init__(self, folder: str, seed: int, size: int):
        super().__init__(folder, seed)
        self.coins: list[Coin] = []
        self.popular = [self.new_script() for _ in POPULAR_WEIGHTS]
        self.rare = [self.new_script() for _ in range(max(20, size // SIZE_FOR_A_RARE_SCRIPT))]
        self.payments = dict.fromkeys(self.popular, 0)
        self.append_coins(size // SIZE_FOR_A_COIN)
        while self.bytes < size:
            self.append_full([], min(FULL_BLOCK, (size - self.bytes) // TRANSACTION_SIZE + 1))

    def append_coins(self, count: int) -> None:
        """Writes blocks whose coinbases make so many coins."""
        for start in range(0, count, COINBASE_OUTPUTS):
            outputs = [(COIN, self.new_script()) for _ in range(min(COINBASE_OUTPUTS, count - start))]
            made = self.coinbase(outputs)
            self.append_of([made], [self.keep_coins(made, outputs)])

    def append_full(self, paid: list[bytes], count: int = FULL_BLOCK) -> None:
        """Writes a block of so many transactions beside its coinbase; the first ones pay to these scripts."""
        outputs = [(COIN, self.new_script())]
        transactions = [self.coinbase(outputs)]
        txids = [self.keep_coins(transactions[0], outputs)]
        for number in range(count):
            data, txid = self.spend(paid[number] if number < len(paid) else self.new_script())
            transactions.append(data)
            txids.append(txid)
        self.append_of(transactions, txids)
        self.samples += [Sample(txids[self.below(count + 1)], self.height) for _ in range(SAMPLES_A_BLOCK)]

    def spend(self, script: bytes) -> tuple[bytes, bytes]:
        """The bytes and the txid of a transaction whose first output pays to this script."""
        coins = [self.take_coin(), self.take_coin()]
        total = coins[0].value + coins[1].value
        total -= total // 100_000
        first = int(total * (0.25 + 0.5 * self.random.random()))
        outputs = [(first, script), (total - first, self.second_script(coins[0].script))]
        data, stripped = self.signed([coin.outpoint for coin in coins], outputs)
        return data, self.keep_coins(stripped, outputs)

    def signed(self, outpoints: list[bytes], outputs: list[tuple[int, bytes]]) -> tuple[bytes, bytes]:
        """A transaction with bytes for signatures and keys, and it without its witness (BIP 144)."""
        noise = self.random.randbytes(210)
        signs = [b"\x48" + noise[at:at + 72] + b"\x21" + noise[at + 72:at + 105] for at in (0, 105)]
        if self.random.random() >= WITNESS_SHARE:
            data = transaction(list(zip(outpoints, signs)), outputs)
            return data, data
        stripped = transaction([(outpoint, b"") for outpoint in outpoints], outputs)
        witness = b"".join(b"\x02" + sign for sign in signs)
        return stripped[:4] + b"\x00\x01" + stripped[4:-4] + witness + stripped[-4:], stripped

    def second_script(self, back: bytes) -> bytes:
        """A popular script, a rare one, or this one; a new one for a popular one that has had enough."""
        draw = self.random.random()
        chosen = back
        if draw < TO_POPULAR:
            chosen = self.random.choices(self.popular, POPULAR_WEIGHTS)[0]
        elif draw < TO_POPULAR + TO_RARE:
            chosen = self.rare[self.below(len(self.rare))]
        if chosen not in self.payments:
            return chosen
        self.payments[chosen] += 1
        return chosen if self.payments[chosen] <= MOST_PAYMENTS else self.new_script()

    def take_coin(self) -> Coin:
        """A random one of the coins that are there, which is there no more."""
        at = self.below(len(self.coins))
        self.coins[at], self.coins[-1] = self.coins[-1], self.coins[at]
        return self.coins.pop()

    def keep_coins(self, stripped: bytes, outputs: list[tuple[int, bytes]]) -> bytes:
        """Keeps what a transaction pays as coins, and tells its txid."""
        txid = double_sha256(stripped)
        self.coins += [Coin(txid + struct.pack("<I", at), *output) for at, output in enumerate(outputs)]
        return txid


def script_hash(script: bytes) -> str:
    """A locking script's hash, as the Electrum Protocol shows it."""
    return shown(hashlib.sha256(script).digest())
