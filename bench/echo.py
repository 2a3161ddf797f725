"""A yardstick for requests: answers each line of one client, a number, by a line of so many bytes.

It first says its port on standard error.
"""

import socket
import sys


def main() -> None:
    """Serves one client until it leaves."""
    with socket.create_server(("127.0.0.1", 0)) as listener:
        print(f"port {listener.getsockname()[1]}", file=sys.stderr, flush=True)
        link, _ = listener.accept()
        link.setsockopt(socket.IPPROTO_TCP, socket.TCP_NODELAY, 1)
        with link, link.makefile("rb") as lines:
            for line in lines:
                link.sendall(b"." * (int(line) - 1) + b"\n")


if __name__ == "__main__":
    main()
