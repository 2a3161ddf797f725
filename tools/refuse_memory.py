#!/usr/bin/env python3
"""Runs the built program again and again, and each time refuses it memory once, at another of its requests.

usage: tools/refuse_memory.py [EVERY [FIRST]]

In each run a node leads the program along one branch and then along another, with an unconfirmed transaction between,
and a client subscribes, asks and is told. Request number FIRST (1) for memory is refused in the first run, then each
EVERYth (1) after it, up to the last that a run makes. There are two tables: over an empty folder, and over an index of
an earlier life.

What is looked for in each run: it ends with status 7, or goes on to its end with status 0, or can't list the folder of
the block files at its start, which is a failed call of them, with its cause: status 4; what the node and the client are
told is, line by line, the front of what they are told where nothing is refused, so that no answer is a wrong one; who
is told less was closed, and doesn't wait in vain; and the next start, to which nothing is refused, finds the chain that
was told last or that of the move that was under way. That no request is counted is a failure too.

It is no part of the gate: it takes some tenths of a second a run, and a C compiler, `cc`, for the few lines that stand
before malloc and realloc of the C library. These count and refuse what the program's own code asks for, by the place
from which they are called, and not what the C library asks for in its own calls. The last line is 'N passed, M failed'.
"""

import collections
import importlib.util
import os
import shutil
import subprocess
import sys
import tempfile

TOP = os.path.dirname(os.path.dirname(os.path.abspath(__file__)))

# Refuses the request with the number in REFUSED, counted from 1. How many there were stands in the file ASKED, which is
# mapped, so that it has them however the program ends.
SHIM = r"""
#define _GNU_SOURCE
#include <errno.h>
#include <fcntl.h>
#include <link.h>
#include <stdint.h>
#include <stdlib.h>
#include <sys/mman.h>

extern void *__libc_malloc(size_t size);
extern void *__libc_realloc(void *block, size_t size);

static uint64_t refused;
static uint64_t *asked;
static uintptr_t first = UINTPTR_MAX, end;

/* Where the program stands in memory: it is the first of all objects. */
static int find(struct dl_phdr_info *object, size_t size, void *nothing)
{
    (void)size;
    (void)nothing;
    for (int i = 0; i < object->dlpi_phnum; i++) {
        const ElfW(Phdr) *part = &object->dlpi_phdr[i];
        uintptr_t at = object->dlpi_addr + part->p_vaddr;
        if (part->p_type == PT_LOAD) {
            first = at < first ? at : first;
            end = at + part->p_memsz > end ? at + part->p_memsz : end;
        }
    }
    return 1;
}

__attribute__((constructor)) static void begin(void)
{
    const char *number = getenv("REFUSED"), *name = getenv("ASKED");
    int file = name == NULL ? -1 : open(name, O_RDWR);
    void *mapped = mmap(NULL, sizeof *asked, PROT_READ | PROT_WRITE, MAP_SHARED, file, 0);
    if (number == NULL || mapped == MAP_FAILED)
        abort();
    refused = strtoull(number, NULL, 10);
    dl_iterate_phdr(find, NULL);
    asked = mapped;
}

static int is_refused(const void *caller)
{
    uintptr_t at = (uintptr_t)caller;
    if (asked == NULL || at < first || end <= at)
        return 0;
    errno = ENOMEM;
    return __atomic_add_fetch(asked, 1, __ATOMIC_SEQ_CST) == refused;
}

void *malloc(size_t size)
{
    return is_refused(__builtin_return_address(0)) ? NULL : __libc_malloc(size);
}

void *realloc(void *block, size_t size)
{
    return is_refused(__builtin_return_address(0)) ? NULL : __libc_realloc(block, size);
}
"""


def tries():
    """The gate's script, whose blocks and peers serve here too."""
    spec = importlib.util.spec_from_file_location("tries", os.path.join(TOP, ".ci", "tries.py"))
    module = importlib.util.module_from_spec(spec)
    spec.loader.exec_module(module)
    return module


sys.dont_write_bytecode = True
T = tries()
THIRD = T.spend([(T.double(T.MOVED), 0)], [(1, 1)])
# The node leads along the first of these, and then along the second.
CHAINS = [[T.ZERO, T.A1, T.A2], [T.ZERO, T.B1, T.B2, T.B3]]
SCRIPTS = [1, 100, 101]
STATUSES = [T.statuses(chain) for chain in CHAINS]

# What is said where the folder of the block files can't be listed for want of memory.
UNLISTED = b"electrum_serve: block folder a: out of memory\nelectrum_serve: block files failed\n"

# No peer waits longer for a line, in seconds.
PATIENCE = 20


def asks_of_a_client():
    """What the client asks, line by line, each of which has one answer."""
    calls = [("server.version", "a", "1.4"), ("blockchain.headers.subscribe",)]
    calls += [("blockchain.scripthash.subscribe", T.script_hash(k)) for k in SCRIPTS]
    calls += [
        ("blockchain.scripthash.get_history", T.script_hash(1)),
        ("blockchain.scripthash.get_balance", T.script_hash(101)),
        ("blockchain.scripthash.listunspent", T.script_hash(101)),
        ("blockchain.block.headers", 0, 2016),
        ("blockchain.block.header", 1, 2),
        ("blockchain.transaction.get", T.txid(T.BASE)),
        ("blockchain.transaction.get_merkle", T.txid(T.BASE), 0),
        ("server.features",),
    ]
    return T.requests(calls).splitlines(keepends=True)


class Life:
    """One run: what was told, and how it ended."""

    def __init__(self, program, refused):
        self.told = {"node": [], "client": []}
        self.tips, self.left, self.faults, self.peers = 0, set(), [], {}
        T.put("asked", bytes(8))
        shim = {"LD_PRELOAD": "shim.so", "ASKED": "asked"}
        shim = {name: os.path.abspath(file) for name, file in shim.items()}
        self.served = T.Served(program, network="regtest", env={**os.environ, **shim, "REFUSED": str(refused)})
        self.serves = bool(T.serving_line(self.served.serves))
        if self.serves:
            self.goes()
        _, self.said, self.status = self.served.ends(b"", self.peers.get("node"))
        with open("asked", "rb") as it:
            self.asked = int.from_bytes(it.read(), sys.byteorder)

    def peer(self, who):
        """The node or the client, which comes as it is needed first."""
        if who not in self.peers:
            self.peers[who] = getattr(self.served, who)()
            self.peers[who].socket.settimeout(PATIENCE)
        return self.peers[who]

    def says(self, who, line, count=1):
        """One line of a peer, and so many that it hears; nothing where the program has left it."""
        try:
            self.peer(who).says(line)
        except OSError:
            self.left.add(who)
        self.hears(who, count)

    def hears(self, who, count):
        """So many lines, or fewer where the program leaves the peer."""
        for _ in range(count):
            if who in self.left:
                return
            try:
                line = self.peers[who].lines.readline()
            except TimeoutError:
                self.faults.append(f"the {who} waits in vain")
                line = b""
            except OSError:
                line = b""
            if not line:
                self.left.add(who)
            else:
                self.told[who].append(line)

    def leads(self, which):
        """The node names a chain's last block as the tip."""
        self.tips += "node" not in self.left
        self.says("node", T.tip_line(CHAINS[which][-1]))

    def goes(self):
        """The node leads along the branches, and the client asks between and is told."""
        self.leads(0)
        for line in asks_of_a_client():
            self.says("client", line)
        self.says("node", T.tx_line(THIRD))
        self.hears("client", T.news_of(SCRIPTS, CHAINS[0], CHAINS[0], (), (THIRD,)).count(b"\n"))
        self.leads(1)
        self.hears("client", T.news_of(SCRIPTS, *CHAINS, (THIRD,), (THIRD,)).count(b"\n"))
        self.says("client", T.request("server.ping", number=99))

    def may_be(self, before):
        """The chains that the next start may find: the last that was told, or else the one before, and those that were
        named after it."""
        done = sum(line.startswith(b"at ") for line in self.told["node"])
        return [done - 1 if done else before, *range(done, self.tips)]


def found_after(program):
    """What the next start finds: which of the two chains, None for no blocks, or what it does in place of it."""
    served = T.Served(program, network="regtest")
    try:
        answers = T.answered(served.client().asks(T.requests([("blockchain.headers.subscribe",)] + [
            ("blockchain.scripthash.subscribe", T.script_hash(k)) for k in SCRIPTS])))
    except (OSError, ValueError) as error:
        answers = [repr(error)]
    ended = served.ends(b"")
    if ended[2] != 0 or not answers:
        return ended
    tip, *told = answers
    if tip == (1, "no blocks yet"):
        return None
    for which, chain in enumerate(CHAINS):
        if tip == {"height": len(chain) - 1, "hex": chain[-1][:80].hex()}:
            return which if told == [STATUSES[which].get(T.script(k)) for k in SCRIPTS] else (tip, told)
    return tip


def faults_of(life, whole, found, may_be):
    """What is wrong with a run and the start after it."""
    faults = list(life.faults)
    if life.status not in (0, 7) and (life.status, life.said) != (4, UNLISTED):
        faults.append(f"status {life.status}, {life.said}")
    if life.status == 0 and life.told["node"] != whole.told["node"]:
        faults.append("status 0, and the node was told less")
    for who, lines in life.told.items():
        if lines != whole.told[who][:len(lines)]:
            faults.append(f"the {who} was told {lines[-1:]}")
    if found not in may_be:
        faults.append(f"the next start finds {found}, of {may_be}")
    return faults


def kind_of(life, whole):
    """How a run ended."""
    if not life.serves:
        return f"status {life.status} before the ports were open"
    if life.status != 0:
        return f"status {life.status} in the run"
    return "status 0, all told" if life.told == whole.told else "status 0, the client closed"


def begin():
    """Makes the folder of the index what `was` has. Nothing runs any more then that was started before."""
    T.stop_all()
    shutil.rmtree("index", ignore_errors=True)
    shutil.copytree("was", "index")


def is_faultless(faults, which):
    """Whether a run has no faults, which are told otherwise."""
    for fault in faults:
        print(f"refuse_memory: FAILED: {which}: {fault}", flush=True)
    return not faults


def table(program, name, every, number, before):
    """How many runs passed and how many failed: one without a refusal, and then one for each number. The folder `was`
    has the index before each of them, whose chain is `before`."""
    begin()
    whole = Life(program, 0)
    faults = faults_of(whole, whole, found_after(program), [1])
    if whole.asked == 0:
        faults.append("no request for memory was counted, so that none can be refused")
    passed = [is_faultless(faults, f"{name}, nothing refused")]
    counts = collections.Counter()
    for number in range(number, whole.asked + 1, every):
        begin()
        life = Life(program, number)
        faults = faults_of(life, whole, found_after(program), life.may_be(before))
        passed.append(is_faultless(faults, f"{name}, number {number}"))
        counts[kind_of(life, whole)] += 1
    print(f"refuse_memory: {name}: {whole.asked} requests in a whole run, {sum(counts.values())} of them refused")
    for kind, count in sorted(counts.items()):
        print(f"refuse_memory:   {count} times {kind}", flush=True)
    return passed.count(True), passed.count(False)


def both_tables(program, every, first):
    """How many runs passed and how many failed, in a folder of their own."""
    T.put("shim.c", SHIM.encode())
    subprocess.run(["cc", "-shared", "-fPIC", "-O1", "-Wall", "-Wextra", "-o", "shim.so", "shim.c"], check=True)
    T.put("a/blk00000.dat", b"".join(T.record(it, T.REGTEST) for it in (T.ZERO, T.A1, T.A2, T.B1, T.B2, T.B3)))
    os.makedirs("was")
    empty = table(program, "over an empty folder", every, first, None)
    shutil.rmtree("index")
    os.rename("was", "index")
    Life(program, 0)
    os.rename("index", "was")
    kept = table(program, "over an index", every, first, 1)
    return empty[0] + kept[0], empty[1] + kept[1]


def main(given):
    every, first = (list(map(int, given)) + [1, 1][len(given):])[:2]
    program = os.path.join(T.BUILT, "electrum_serve")
    if not os.access(program, os.X_OK):
        print(f"refuse_memory: FAILED: the program was not built: {program}")
        return 1
    with tempfile.TemporaryDirectory(prefix="refuse-") as room:
        os.chdir(room)
        try:
            passed, failed = both_tables(program, every, first)
        finally:
            T.stop_all()
            os.chdir(TOP)
    print(f"{passed} passed, {failed} failed")
    return 1 if failed else 0


if __name__ == "__main__":
    sys.exit(main(sys.argv[1:]))
