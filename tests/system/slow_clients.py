#!/usr/bin/env python3
"""Clients that a program must bear, since they say little, much, or nothing:

    slow_clients.py rough PORT       a hundred say nothing, or half of a first message; one says its Startup a byte a second, and its
                                     rest once standard input ends; one announces a Query of a gigabyte, and sends 64 megabytes
                                     of it. Prints `begun` once all are there, and `answered` when the slow one has got its answer
    slow_clients.py opening PORT     says a Startup, a byte each half second, and prints whether the connection ends within 55
                                     to 75 seconds
    slow_clients.py idle PORT PID    opens a thousand connections, and prints the most memory in kB that the process PID held
    slow_clients.py silent PORT      begins 3,000 connections that say nothing, and prints after how many seconds one that says its
                                     Startup and Terminate is answered; fails where that takes 40
    slow_clients.py server           lets clients in on a free port, which it prints, and says nothing more
"""

import pathlib
import re
import resource
import selectors
import socket
import struct
import sys
import time

import asked

SETTINGS = b"user\0postgres\0database\0postgres\0\0"
STARTUP = struct.pack(">II", 8 + len(SETTINGS), 196608) + SETTINGS
QUERY = b"Q\0\0\0\x0dSELECT 7\0"
READY = b"Z\0\0\0\x05I"
LET_IN = b"R\0\0\0\x08\0\0\0\0" + READY
MEGABYTE = 1 << 20
GIGABYTE = 1_000_000_000
IDLE, MOST_KB = 1000, 40_000
SILENT, MOST_SECONDS = 3000, 40
TERMINATE = b"X\0\0\0\x04"


def connected(port):
    return socket.create_connection(("127.0.0.1", port), timeout=20)


def receive(client, last):
    """Reads until the bytes end so."""
    got = b""
    while not got.endswith(last):
        more = client.recv(65536)
        if not more:
            sys.exit(f"the connection ends after {got!r}")
        got += more


def rough(port):
    silent = [connected(port) for _ in range(100)]
    for client in silent[::2]:
        client.sendall(STARTUP[:20])
    slow, much = connected(port), connected(port)
    much.sendall(STARTUP)
    receive(much, READY)
    much.sendall(b"Q" + struct.pack(">I", GIGABYTE))
    print("begun", flush=True)
    for at in range(3):
        slow.sendall(STARTUP[at : at + 1])
        time.sleep(1)
        for _ in range(21):
            much.sendall(bytes(MEGABYTE))
    sys.stdin.read()
    slow.sendall(STARTUP[3:] + QUERY)
    receive(slow, b"SELECT 1\0" + READY)
    print("answered", flush=True)


def opening(port):
    begun = time.monotonic()
    with socket.create_connection(("127.0.0.1", port), timeout=0.5) as client:
        for byte in b"\0\0\x20\0\0\x03\0\0" + b"x" * 190:
            try:
                client.sendall(bytes([byte]))
                if client.recv(1000) == b"":
                    break
            except TimeoutError:
                continue
            except ConnectionError:
                break
    lasted = time.monotonic() - begun
    print("a minute" if 55 < lasted < 75 else f"{lasted:.0f} seconds")


def allow_many(count=2 * IDLE):
    """Lets this process have a descriptor for each of the connections."""
    resource.setrlimit(resource.RLIMIT_NOFILE, (count + 100, resource.getrlimit(resource.RLIMIT_NOFILE)[1]))


def silent(port):
    allow_many(SILENT)
    clients = [socket.socket() for _ in range(SILENT)]
    for client in clients:
        client.setblocking(False)
        client.connect_ex(("127.0.0.1", port))
    begun = time.monotonic()
    with socket.create_connection(("127.0.0.1", port), timeout=120) as client:
        client.sendall(STARTUP + TERMINATE)
        receive(client, READY)
    lasted = time.monotonic() - begun
    print(f"{lasted:.1f}")
    sys.exit(lasted > MOST_SECONDS)


def serve():
    allow_many()
    listener, waiting = socket.create_server(("127.0.0.1", 0), backlog=IDLE), selectors.DefaultSelector()
    print(listener.getsockname()[1], flush=True)
    waiting.register(listener, selectors.EVENT_READ)
    while True:
        for key, _ in waiting.select():
            if key.fileobj is listener:
                waiting.register(listener.accept()[0], selectors.EVENT_READ)
            elif key.fileobj.recv(65536):
                key.fileobj.sendall(LET_IN)
            else:
                waiting.unregister(key.fileobj)
                key.fileobj.close()


def idle(port, process):
    allow_many()
    clients = [connected(port) for _ in range(IDLE)]
    for client in clients:
        client.sendall(STARTUP)
    for client in clients:
        receive(client, READY)
    peak = int(re.search(r"VmHWM:\s*(\d+)", pathlib.Path(f"/proc/{process}/status").read_text())[1])
    print(peak)
    sys.exit(peak > MOST_KB)


def main():
    match asked.words(__doc__, rough="PORT", opening="PORT", silent="PORT", idle="PORT PID", server=""):
        case "rough", port:
            rough(int(port))
        case "opening", port:
            opening(int(port))
        case "silent", port:
            silent(int(port))
        case "idle", port, process:
            idle(int(port), process)
        case ["server"]:
            serve()


if __name__ == "__main__":
    main()
