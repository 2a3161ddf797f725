"""The unconfirmed transactions that the server was told, and those that it is to be told next."""

from block_files import shown, transaction_at
from node_rpc import NODE

# Transactions that one request to the node asks for.
BATCH = 100
# From so many on it is told that they were said.
WORTH_A_LINE = 1000


class Order:
    """Puts transactions into an order in which each stands after those of them that it spends from."""

    def __init__(self, txids):
        self.left, self.waiting = set(txids), {}

    def next(self, found):
        """Those that can be said once these came too, by txid their hex, None for one that isn't there any more."""
        ready, stack = [], list(found.items())[::-1]
        while stack:
            txid, text = stack.pop()
            parent = self.parent_left(txid, text)
            if parent is not None:
                self.waiting.setdefault(parent, []).append((txid, text))
                continue
            self.left.discard(txid)
            if text is not None:
                ready.append((txid, text))
            stack += self.waiting.pop(txid, [])
        return ready

    def parent_left(self, txid, text):
        """One that it spends from and that wasn't said yet."""
        if text is None:
            return None
        try:
            parents = {shown(name) for name in transaction_at(bytes.fromhex(text), 0)[1]}
        except IndexError:
            return None
        return next((name for name in parents if name in self.left and name != txid), None)


class Unconfirmed:
    """What the server was told of the unconfirmed transactions of a node."""

    def __init__(self, server, node, say):
        self.server, self.node, self.say = server, node, say
        self.begin()

    def begin(self):
        """The server knows none."""
        # Those that it may keep, and of them those that it surely does; those that it refused, with its answer; whether it
        # keeps as many as it may.
        self.told, self.kept, self.refused, self.is_full = set(), set(), {}, False

    def moved(self, back):
        """The server's chain is another one, for which blocks were taken back or not. What those blocks had is unconfirmed
        again, and the server doesn't keep it any more."""
        if back:
            self.kept = set()
        self.refused, self.is_full = {}, False

    def tell(self, tip):
        """Tells which came and went, where the node's best block is that to which the server was led."""
        txids, best = self.server.beside(NODE, self.node.unconfirmed)
        if best != tip:
            return
        here = set(txids)
        self.drop(self.told - here)
        self.refused = {txid: answer for txid, answer in self.refused.items() if txid in here and not self.may_stand(answer)}
        if not self.is_full:
            self.add([txid for txid in txids if txid not in self.kept and txid not in self.refused])

    def may_stand(self, answer):
        """Whether what it was refused for as missing was told since."""
        return answer.startswith("refused missing ") and answer.split()[2] in self.kept

    def drop(self, txids):
        """Tells that the node no longer has these."""
        for _ in self.server.ask_all("drop " + txid for txid in txids):
            self.is_full = False
        if txids:
            self.told -= txids
            self.kept -= txids
            self.refused = {}

    def add(self, txids):
        """Tells those of these that the node still has, each after its parents."""
        order = Order(txids)
        for start in range(0, len(txids), BATCH):
            some = txids[start:start + BATCH]
            ready = order.next(dict(zip(some, self.server.beside(NODE, self.node.transactions, some))))
            answers = self.server.ask_all("tx " + text for _, text in ready)
            for (txid, _), (_, answer) in zip(ready, answers):
                self.take(txid, answer)
            if self.is_full:
                return
        if len(txids) >= WORTH_A_LINE:
            self.say(f"{len(self.kept)} unconfirmed transactions told")

    def take(self, txid, answer):
        """What the server answers to one."""
        if answer.startswith(("tx ", "refused known", "refused confirmed")):
            self.told.add(txid)
            self.kept.add(txid)
            return
        if answer.startswith("refused full") and not self.is_full:
            self.is_full = True
            self.say(f"the server keeps as many unconfirmed transactions as it may (--pool-count, --pool-bytes): {answer}")
        elif not answer.startswith(("refused full", "refused missing")):
            self.say(f"{txid}: {answer}")
        self.refused[txid] = answer
