"""What is asked of a Bitcoin node's JSON-RPC."""

import base64
import http.client
import json
import re

from block_files import inner

# Seconds in which a node that works on something long may begin its reply.
PATIENCE = 600
NODE = "the node"
WARMING_UP = -28
# What it answers of a transaction that it has already: in a block, or among the unconfirmed ones.
IN_A_BLOCK = -27
KNOWN = ("txn-already-in-mempool", "txn-already-known", "txn-same-nonwitness-data-in-mempool")
HASH = re.compile(r"[0-9a-f]{64}")


class Away(Exception):
    """Something isn't as it has to be, and is waited for: what, and why."""

    def __init__(self, what, why):
        super().__init__(what, why)
        self.what, self.why = what, why


def away(why):
    """The node is waited for."""
    return Away(NODE, why)


class Node:
    """The JSON-RPC of a node. Each call may be answered by `Away`."""

    def __init__(self, host, port, cookie):
        self.address, self.cookie = (host, int(port)), cookie

    def secret(self):
        """What the node's cookie has today: each start of a node makes another one."""
        try:
            with open(self.cookie, "rb") as it:
                return base64.b64encode(it.read().strip()).decode()
        except OSError as error:
            raise away(f"its cookie can't be read: {error}") from error

    def post(self, text):
        """The bytes of the reply to a request."""
        headers = {"Content-Type": "application/json", "Authorization": "Basic " + self.secret()}
        connection = http.client.HTTPConnection(*self.address, timeout=PATIENCE)
        try:
            connection.request("POST", "/", text.encode(), headers)
            reply = connection.getresponse()
            found = reply.read()
        except OSError as error:
            raise away(str(error.strerror or error)) from error
        except (OverflowError, ValueError, http.client.HTTPException) as error:
            raise away(f"its reply is no whole one ({type(error).__name__})") from error
        finally:
            connection.close()
        if reply.status == 401:
            raise away("it refuses what its cookie has")
        if reply.status != 200:
            raise away(f"HTTP {reply.status} {found[:200].decode(errors='replace')}")
        return found

    def replies(self, *calls):
        """The reply to each of these calls, each a method and its parameters."""
        body = [{"jsonrpc": "1.0", "id": i, "method": c[0], "params": list(c[1:])} for i, c in enumerate(calls)]
        try:
            replies = {reply["id"]: reply for reply in json.loads(self.post(json.dumps(body)))}
            found = [replies[i] for i in range(len(calls))]
            codes = [(reply.get("error") or {}).get("code") for reply in found]
        except (ValueError, TypeError, KeyError, AttributeError) as error:
            raise away("its reply isn't one to what it was asked") from error
        if WARMING_UP in codes:
            raise away(f"it warms up: {found[codes.index(WARMING_UP)]['error'].get('message')}")
        return found

    def results(self, *calls):
        """The result of each of these calls, none of which may fail."""
        found = self.replies(*calls)
        for call, reply in zip(calls, found):
            if reply.get("result") is None:
                raise away(f"{call[0]} fails: {reply.get('error')}")
        return [reply["result"] for reply in found]

    @staticmethod
    def hashes(texts):
        """These texts, which have to be hashes as they are shown."""
        if not isinstance(texts, list) or not all(isinstance(t, str) and HASH.fullmatch(t) for t in texts):
            raise away("what has to be hashes in its reply isn't")
        return texts

    def best(self):
        """The hash of its best block, in inner order."""
        return inner(self.hashes(self.results(("getbestblockhash",)))[0])

    def unconfirmed(self):
        """The txids of its unconfirmed transactions, as they are shown; and then the hash of its best block."""
        txids, best = self.results(("getrawmempool",), ("getbestblockhash",))
        return self.hashes(txids), inner(self.hashes([best])[0])

    def transactions(self, txids):
        """The hex of each of these transactions, None for one that it no longer has, in their order."""
        found = [reply.get("result") for reply in self.replies(*[("getrawtransaction", t) for t in txids])]
        return [text if isinstance(text, str) and re.fullmatch("([0-9a-f]{2})+", text) else None for text in found]

    def send(self, text):
        """Gives it a transaction, in hex: why it refuses it, None where it has it then, as where it had it already."""
        error = self.replies(("sendrawtransaction", text))[0].get("error")
        if error is None or error.get("code") == IN_A_BLOCK:
            return None
        reason = " ".join(str(error.get("message")).split())
        return None if any(word in reason for word in KNOWN) else f"{reason} ({error.get('code')})"
