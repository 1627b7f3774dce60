#!/usr/bin/env python3
"""Shakes hands with a recorder by TLS, in good ways and in bad ones.

    record_handshakes.py PORT ROOT    the recorder's port, and the file of the root certificate

The ways are TLS after a request and at once, a request within TLS, bytes between a request and the handshake, and TLS at
once that names no protocol or another one. Prints how many were tried.
"""

import contextlib
import socket
import ssl
import struct
import sys

import asked

REQUEST = struct.pack(">II", 8, 80877103)
SETTINGS = b"user\0postgres\0database\0postgres\0\0"
STARTUP = struct.pack(">II", 8 + len(SETTINGS), 196608) + SETTINGS
READY = b"Z\0\0\0\x05I"


def connected(port):
    return socket.create_connection(("127.0.0.1", port), timeout=10)


def wrapped(root, client, protocol):
    context = ssl.create_default_context(cafile=root)
    if protocol:
        context.set_alpn_protocols([protocol])
    return context.wrap_socket(client, server_hostname="localhost")


def answer(client, last=READY):
    """What is answered up to some last bytes, or to the end."""
    got = b""
    with contextlib.suppress(OSError):
        while not got.endswith(last) and (more := client.recv(65536)):
            got += more
    return got


def after_request(port, root):
    client = connected(port)
    client.sendall(REQUEST)
    asked = client.recv(1)
    client = wrapped(root, client, None)
    client.sendall(STARTUP)
    return asked == b"S" and answer(client).endswith(READY)


def at_once(port, root):
    client = wrapped(root, connected(port), "postgresql")
    client.sendall(STARTUP)
    return client.selected_alpn_protocol() == "postgresql" and answer(client).endswith(READY)


def asked_within(port, root):
    client = wrapped(root, connected(port), "postgresql")
    client.sendall(REQUEST + STARTUP)
    return answer(client) == b""


def bytes_between(port, root):
    client = connected(port)
    client.sendall(REQUEST + STARTUP)
    return answer(client) == b""


def without_protocol(port, root):
    client = wrapped(root, connected(port), None)
    with contextlib.suppress(OSError):
        client.sendall(STARTUP)
    return answer(client) == b""


def main():
    port, root = asked.words(__doc__, "PORT", "ROOT")
    ways = [after_request, at_once, asked_within, bytes_between, without_protocol]
    wrong = [way.__name__ for way in ways if not way(int(port), root)]
    if wrong:
        sys.exit(f"wrong: {', '.join(wrong)}")
    print(len(ways))


if __name__ == "__main__":
    main()
