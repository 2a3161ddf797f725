#!/usr/bin/env python3
"""Measures the built program: first loads, starts, requests and notifications, beside plain yardsticks.

usage: bench/run.py [--size MIB] [--blocks N] [--seed N] [--program FILE] [--work DIR]

It makes two regtest chains, one of full blocks and one of near-empty ones, in a folder of its own, which it
removes at the end, also where it is stopped. The figures are one table on standard output; what a row means
stands in bench/README.md. Standard error tells what it does meanwhile.
"""

import argparse
import hashlib
import os
import platform
import shutil
import signal
import sys
import tempfile
import time
from typing import Iterator, NamedTuple

# Nothing is written beside these files.
sys.dont_write_bytecode = True
from chain import TOP, Chain, FullChain, NearEmptyChain
from clients import CLIENTS, Round, Told, ask_all, ask_echo, kinds_of, proofs, tell_all
from follow import Away, Refused
from server import Load, Problem, Server, Start, load_by_feeder, load_by_lines

PROGRAM = os.path.join(TOP, "crates", "electrum_serve", "out", "electrum_serve")
PIECE = 1 << 20
MIB = 1 << 20


class Figures(NamedTuple):
    """What was measured with one chain: the seconds of both yardsticks, and what the server took."""

    name: str
    blocks: int
    transactions: int
    bytes: int
    hashing: float
    copying: float
    loads: dict[str, Load]
    start: Start
    rounds: dict[str, Round]
    told: dict[str, Told]


def say(text: str) -> None:
    """One line on standard error."""
    print("bench: " + text, file=sys.stderr, flush=True)


def pieces(parts: list[tuple[str, int]]) -> Iterator[bytes]:
    """The bytes of block files, without the room taken ahead."""
    for path, left in parts:
        with open(path, "rb") as it:
            while left:
                data = it.read(min(PIECE, left))
                left -= len(data)
                yield data


def hash_twice(parts: list[tuple[str, int]]) -> float:
    """Seconds of a processor in which hashlib's SHA-256 goes over these bytes twice."""
    began = time.process_time()
    for _ in range(2):
        hashed = hashlib.sha256()
        for data in pieces(parts):
            hashed.update(data)
        hashed.digest()
    return time.process_time() - began


def copy(parts: list[tuple[str, int]], path: str) -> float:
    """Seconds by the clock in which these bytes are written to a file and synced."""
    began = time.monotonic()
    with open(path, "wb") as it:
        for data in pieces(parts):
            it.write(data)
        it.flush()
        os.fsync(it.fileno())
    took = time.monotonic() - began
    os.remove(path)
    return took


def measure(name: str, chain: Chain, program: str, folder: str) -> Figures:
    """All that is measured with one chain."""
    blocks, transactions, size, parts = chain.height + 1, chain.transactions, chain.bytes, chain.files.parts()
    say(f"{name}: {blocks:,} blocks, {transactions:,} transactions, {size:,} bytes; yardsticks")
    hashing, copying = hash_twice(parts), copy(parts, os.path.join(folder, "copy"))
    say(f"{name}: a first load by lines of its own")
    index = os.path.join(folder, "index")
    own = load_by_lines(program, chain, os.path.join(folder, "blocks"), index)
    shutil.rmtree(index)
    say(f"{name}: a first load by examples/follow.py")
    fed = load_by_feeder(program, chain, index)
    say(f"{name}: a start, and requests")
    with Server(program, chain.files.folder, index) as server:
        start = server.serves()
        if isinstance(chain, FullChain):
            rounds, told = ask_all(server, kinds_of(chain)), tell_all(server, chain)
        else:
            rounds, told = ask_all(server, {"block.header with a proof": proofs(chain)}), {}
    loads = {"own lines": own, "follow.py": fed}
    return Figures(name, blocks, transactions, size, hashing, copying, loads, start, rounds, told)


def measure_all(given: argparse.Namespace, folder: str) -> list[Figures]:
    """Both chains, one after the other. A chain's files go before the next one is made."""
    makers = {
        "full": lambda blocks: FullChain(blocks, given.seed, given.size * MIB),
        "near-empty": lambda blocks: NearEmptyChain(blocks, given.seed, given.blocks)}
    found = []
    for name, make in makers.items():
        own = os.path.join(folder, name)
        os.mkdir(own)
        say(f"{name}: makes the chain")
        found.append(measure(name, make(os.path.join(own, "made")), given.program, own))
        shutil.rmtree(own)
    return found


def aligned(rows: list[list[str]]) -> list[str]:
    """The lines of a part of the table, whose first row is its heading."""
    widths = [max(map(len, column)) for column in zip(*rows)]
    first = max(widths[0], 44)
    return ["  ".join([row[0].ljust(first), *map(str.rjust, row[1:], widths[1:])]) for row in rows]


def chains_part(found: list[Figures]) -> list[list[str]]:
    """The chains and the yardsticks."""
    rows = [["chain", "blocks", "transactions", "bytes", "hashed twice s", "copied s"]]
    for it in found:
        counts = [f"{count:,}" for count in (it.blocks, it.transactions, it.bytes)]
        rows.append([it.name, *counts, f"{it.hashing:.3f}", f"{it.copying:.3f}"])
    return rows


def loads_part(found: list[Figures]) -> list[list[str]]:
    """First loads, with their ratios to the yardsticks."""
    rows = [[
        "first load", "clock s", "/copied", "processor s", "/hashed", "resident MiB", "peak MiB", "index MB"]]
    for it in found:
        for name, load in it.loads.items():
            rows.append([
                f"{it.name}, {name}", f"{load.clock:.2f}", f"{load.clock / it.copying:.1f}",
                f"{load.processor:.2f}", f"{load.processor / it.hashing:.1f}", f"{load.resident / MIB:.0f}",
                f"{load.peak / MIB:.0f}", f"{load.index / 1e6:.1f}"])
    return rows


def starts_part(found: list[Figures]) -> list[list[str]]:
    """Starts over the index of a first load."""
    rows = [["start again", "clock s", "processor s", "resident MiB", "peak MiB"]]
    for it in found:
        start = it.start
        rows.append([
            it.name, f"{start.clock:.2f}", f"{start.processor:.2f}", f"{start.resident / MIB:.0f}",
            f"{start.peak / MIB:.0f}"])
    return rows


def rounds_part(found: list[Figures], echoes: dict[str, Round]) -> list[list[str]]:
    """Requests; of the full chain where no other is named."""
    rounds = {
        name if it.name == "full" else f"{name}, {it.name}": one
        for it in found for name, one in it.rounds.items()}
    rows = [["request", "count", "entries", "reply bytes", "clock us", "processor us"]]
    for name, it in (rounds | echoes).items():
        rows.append([
            name, f"{it.count:,}", f"{it.entries:,.0f}" if it.entries else "-", f"{it.size:,.0f}",
            f"{it.clock:,.1f}", f"{it.processor:,.1f}"])
    return rows


def told_part(told: dict[str, Told]) -> list[list[str]]:
    """Notifications."""
    rows = [[f"new block, {CLIENTS} clients of", "lines each", "first ms", "last ms", "processor ms"]]
    for name, it in told.items():
        rows.append([name, str(it.lines), f"{it.first:,.1f}", f"{it.last:,.1f}", f"{it.processor:,.1f}"])
    return rows


def report(given: argparse.Namespace, found: list[Figures], echoes: dict[str, Round]) -> str:
    """The table."""
    parts = [chains_part(found), loads_part(found), starts_part(found), rounds_part(found, echoes)]
    parts.append(told_part({name: one for it in found for name, one in it.told.items()}))
    chains = f"{given.size} MiB of full blocks, {given.blocks:,} near-empty ones, seed {given.seed}"
    machine = f"{os.cpu_count()} processors, {platform.system()} {platform.release()}"
    head = f"electrum_serve: {chains}; {machine}, Python {platform.python_version()}"
    return "\n\n".join([head, *("\n".join(aligned(part)) for part in parts)])


def number_from(least: int, most: int):
    """What reads a number within these bounds."""

    def number(text: str) -> int:
        """The number; argparse tells where it is none of them."""
        if not text.isdecimal() or not least <= int(text) <= most:
            raise argparse.ArgumentTypeError(f"a number from {least:,} to {most:,} is wanted")
        return int(text)

    return number


def words() -> argparse.Namespace:
    """The words of the command line."""
    reader = argparse.ArgumentParser(description=__doc__.split("\n", maxsplit=1)[0])
    reader.add_argument(
        "--size", type=number_from(1, 16_384), default=64, metavar="MIB", help="full blocks, in MiB (64)")
    reader.add_argument(
        "--blocks", type=number_from(1, 10_000_000), default=100_000, metavar="N",
        help="near-empty blocks (100000)")
    reader.add_argument(
        "--seed", type=number_from(0, 2**32 - 1), default=1, metavar="N",
        help="the same seed gives the same chains (1)")
    reader.add_argument(
        "--program", default=PROGRAM, metavar="FILE",
        help="the built program (crates/electrum_serve/out/electrum_serve)")
    reader.add_argument(
        "--work", metavar="DIR",
        help="a folder on the disk that is to be measured, for a temporary one (the system's)")
    return reader.parse_args()


def check(given: argparse.Namespace) -> None:
    """Tells at once what would be met late."""
    if not os.path.isfile("/proc/self/stat"):
        raise Problem("processor time and memory are read from /proc: run it on Linux")
    if not os.access(given.program, os.X_OK) or os.path.isdir(given.program):
        raise Problem(
            f"there is no program {given.program}: build it as README.md says (`rt run` in "
            "crates/electrum_serve), or name another one with --program")
    if given.work is not None and not os.path.isdir(given.work):
        raise Problem(f"there is no folder {given.work}: make it, or name another one with --work")


def stop(*_) -> None:
    """A signal ends it as Ctrl-C does, so that it cleans up."""
    raise KeyboardInterrupt


def main() -> int:
    """Measures, and prints the table. Status 1 tells that there is none, and one line why."""
    given = words()
    for number in (signal.SIGTERM, signal.SIGHUP):
        signal.signal(number, stop)
    try:
        check(given)
        given.program = os.path.abspath(given.program)
        with tempfile.TemporaryDirectory(prefix="bench-", dir=given.work) as folder:
            found = measure_all(given, folder)
            print(report(given, found, ask_echo()))
        return 0
    except (Problem, Refused) as problem:
        say(str(problem))
    except Away as away:
        say(f"{away.what} is away: {away.why}: run it again")
    except OSError as error:
        say(f"{error}: see whether --work has room and --program runs on this machine")
    except KeyboardInterrupt:
        say("stopped")
        return 130
    return 1


if __name__ == "__main__":
    sys.exit(main())
