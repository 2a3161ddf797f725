"""The transactions of wallets that the server leaves in a folder, each of which is given to the node."""

import os
import re

from node_rpc import NODE

FOLDER = "the relay's folder"
WAITING = re.compile(r"([0-9a-f]{64})\.tx")


class Relay:
    """The folder of the server's --relay. A file TXID.tx has a transaction that waits, in hex; it goes once the node has it.
    Where the node refuses it, TXID.refused has it, and after it the node's reason."""

    def __init__(self, folder, server, node, say):
        self.folder, self.server, self.node, self.say = folder, server, node, say

    def path(self, txid, end):
        return os.path.join(self.folder, txid + end)

    def waiting(self):
        """The txids of those that wait, in the order in which they came."""
        found = []
        with os.scandir(self.folder) as files:
            for it in files:
                name = WAITING.fullmatch(it.name)
                if name:
                    found.append((it.stat().st_mtime_ns, name.group(1)))
        return [txid for _, txid in sorted(found)]

    def send(self):
        """Gives those that wait to the node. Where the folder isn't as it has to be they wait on, and that is told."""
        waits = self.server.waits
        try:
            for txid in self.waiting():
                self.send_one(txid)
        except OSError as error:
            waits.begin(FOLDER, str(error))
        else:
            waits.end(FOLDER)

    def send_one(self, txid):
        """Gives one to the node."""
        with open(self.path(txid, ".tx"), encoding="ascii", errors="replace") as it:
            text = it.read()
        reason = self.server.beside(NODE, self.node.send, text)
        if reason is None:
            self.say(f"{txid}: the node has it")
            if os.path.exists(self.path(txid, ".refused")):
                os.remove(self.path(txid, ".refused"))
        else:
            self.say(f"{txid}: the node refuses it: {reason}")
            self.keep_refused(txid, f"{text}\n{reason}\n")
        os.remove(self.path(txid, ".tx"))

    def keep_refused(self, txid, text):
        """What the node refused is on the disk, with its reason, before it waits no more."""
        part = self.path(txid, ".refused.part")
        with open(part, "w", encoding="utf-8") as it:
            it.write(text)
            it.flush()
            os.fsync(it.fileno())
        os.replace(part, self.path(txid, ".refused"))
        folder = os.open(self.folder, os.O_RDONLY)
        try:
            os.fsync(folder)
        finally:
            os.close(folder)
