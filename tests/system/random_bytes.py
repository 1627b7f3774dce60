#!/usr/bin/env python3
"""Sends random and mutated bytes by COUNT connections.

    random_bytes.py clients PORT COUNT SEED                says them to the server at a port of this machine
    random_bytes.py both PG_RECORD RECORDING COUNT SEED    records them, said by clients and by a server

Clients begin with first messages and frames whose bytes are changed, doubled, cut out or random. They send them in pieces,
and leave at any place. With `both`, a server behind a recorder answers in the same way. The recorder must neither end nor
grow, and must still pass an honest session on; a second reader must read its recording, and the recorder print it in each
form. Prints the number of bytes, and with `both` the most memory in kB.
"""

import contextlib
import pathlib
import random
import re
import socket
import struct
import subprocess
import sys
import threading
import time
from concurrent.futures import ThreadPoolExecutor

import asked

sys.path.insert(0, str(pathlib.Path(__file__).resolve().parents[2] / "programs/examples"))
import read_recording  # noqa: E402

STARTUP = struct.pack(">II", 22, 196608) + b"user\0postgres\0"
MOST_KB = 40_000
THREADS = 8


def frame(tag, body=b""):
    return tag + struct.pack(">I", len(body) + 4) + body


# Honest beginnings and frames, of which others are made.
FIRST = [
    STARTUP,
    struct.pack(">II", 8, 80877103),
    struct.pack(">II", 8, 80877104),
    struct.pack(">IIII", 16, 80877102, 1, 2),
    b"\x16\3\1\2\0\1\0\1\xfc\3\3",
    b"GET / HTTP/1.1\r\n\r\n",
]
FRAMES = [
    frame(b"Q", b"SELECT 1\0"), frame(b"P", b"\0SELECT 2\0\0\0"), frame(b"B", b"\0\0\0\0\0\1\0\0\0\x025\0\0\0"),
    frame(b"B", bytes(8)), frame(b"E", bytes(5)), frame(b"D", b"P\0"), frame(b"C", b"S\0"), frame(b"S"), frame(b"H"),
    frame(b"X"), frame(b"d", b"data"), frame(b"c"), frame(b"f", b"no\0"), frame(b"F", b"\0\0\0\1" + bytes(6)),
    frame(b"p", b"secret\0"),
]
HONEST = STARTUP + b"Q\0\0\0\x14SELECT 'honest'\0X\0\0\0\4"
SERVER = [
    b"R\0\0\0\x08\0\0\0\0Z\0\0\0\5I",
    b"R\0\0\0\x2a\0\0\0\x0aSCRAM-SHA-256-PLUS\0SCRAM-SHA-256\0\0",
    b"T\0\0\0\x1a\0\1a\0\0\0\0\0\0\0\0\0\0\x17\0\4\xff\xff\xff\xff\0\0D\0\0\0\x0b\0\1\0\0\0\x017Z\0\0\0\5I",
    b"E\0\0\0\x0cSERROR\0\0N\0\0\0\x0aM\x1b[2J\0\0",
    b"G\0\0\0\x0b\0\0\2\0\0\0\0d\0\0\0\x09abcde",
    b"A\0\0\0\x0c\0\0\0\1ab\0\0",
    b"",
]


def mutated(rng, honest):
    """Bytes that begin somehow as honest ones do."""
    said = bytearray(rng.choice(honest))
    for _ in range(rng.choice((0, 0, 1, 2, 8))):
        at = rng.randrange(len(said) + 1)
        match rng.randrange(5):
            case 0:
                said[at : at + 1] = rng.randbytes(1)
            case 1:
                said[at:at] = rng.randbytes(rng.choice((1, 4, 300)))
            case 2:
                del said[at : at + rng.choice((1, 4, 100))]
            case 3:
                said[at : at + 4] = struct.pack(">I", rng.choice((0, 3, 4, 5, 10_000, 2**31 - 1, 2**31, 2**32 - 1)))
            case _:
                said += rng.choice(honest)
    if rng.random() < 0.1:
        said += rng.randbytes(rng.choice((10, 70_000)))
    return bytes(said)


def said_by_client(rng):
    """What a client says: a first message that is mutated, or an honest one and some frames, mutated or not."""
    way = rng.randrange(4)
    if way == 0:
        return mutated(rng, FIRST)
    frames = b"".join(rng.choices(FRAMES, k=rng.randrange(1, 12)))
    return STARTUP + (frames if way == 1 else mutated(rng, [frames]))


def speak(rng, side, said):
    """Says bytes in pieces, and takes some answers."""
    side.settimeout(0.02)
    at = 0
    with contextlib.suppress(OSError):
        while at < len(said):
            size = rng.choice((1, 7, 100_000, 100_000))
            side.sendall(said[at : at + size])
            at += size
        if rng.random() < 0.7:
            side.shutdown(socket.SHUT_WR)
        while rng.random() < 0.9 and side.recv(65536):
            pass
    if rng.random() < 0.3:
        # The connection is reset.
        side.setsockopt(socket.SOL_SOCKET, socket.SO_LINGER, struct.pack("ii", 1, 0))
    side.close()


def answer_all(seed, listener):
    """The server behind a recorder."""
    rng = random.Random(seed)
    with contextlib.suppress(OSError):
        while True:
            side, _ = listener.accept()
            each = random.Random(rng.random())
            threading.Thread(target=speak, args=(each, side, mutated(each, SERVER)), daemon=True).start()


def ask_some(seed, port, times):
    """So many clients, one after the other. How many bytes they say."""
    rng, count = random.Random(seed), 0
    for _ in range(times):
        said = said_by_client(rng)
        count += len(said)
        with contextlib.suppress(ConnectionError):
            speak(rng, socket.create_connection(("127.0.0.1", port)), said)
    return count


def ask_all(seed, port, times):
    with ThreadPoolExecutor(THREADS) as threads:
        return sum(threads.map(lambda at: ask_some(seed + at, port, times // THREADS), range(THREADS)))


def receive(side, length):
    """Up to so many bytes of a side that may say fewer."""
    side.settimeout(5)
    got = b""
    with contextlib.suppress(OSError):
        while len(got) < length and (more := side.recv(length - len(got))):
            got += more
    return got


def is_honest(port, listener):
    """Whether a session passes unharmed, also where connections of others come before it."""
    listener.settimeout(10)
    with socket.create_connection(("127.0.0.1", port), timeout=10) as client:
        client.sendall(HONEST)
        while True:
            with listener.accept()[0] as server:
                if receive(server, len(HONEST)) == HONEST:
                    server.sendall(SERVER[0])
                    break
        return receive(client, 1 + len(SERVER[0])) == SERVER[0]


def memory_of(process):
    return int(re.search(r"VmHWM:\s*(\d+)", pathlib.Path(f"/proc/{process.pid}/status").read_text())[1])


def judge(program, path, recorder):
    """Words for what is wrong at the end."""
    recorder.terminate()
    if recorder.wait() != 143:
        return f"status {recorder.returncode}"
    with open(path, "rb") as file:
        read_recording.head_of(file)
        if None in read_recording.records(file):
            return "the recording ends within a record"
    for form in ["--trace"], ["--trace=whole", "--numbers"], ["--stream"]:
        ran = subprocess.run([program, "--print", path, *form], stdout=subprocess.PIPE, stderr=subprocess.DEVNULL)
        if ran.returncode or re.search(rb"[\0-\x08\x0b-\x1f\x7f]", ran.stdout):
            return f"it is printed with status {ran.returncode}, or with control characters"
    return ""


def try_recorder(program, path, times, seed):
    """Both sides of a recorder. How many bytes clients say, and its most memory in kB."""
    pathlib.Path(path).unlink(missing_ok=True)
    listener = socket.create_server(("127.0.0.1", 0), backlog=100)
    address = ["-h", "127.0.0.1", "-p", str(listener.getsockname()[1])]
    with open(f"{path}.errors", "w") as errors:
        recorder = subprocess.Popen([program, *address, "-o", path, "0"], stderr=errors)
    while not (found := re.search(r"^listening on .* port (\d+)", pathlib.Path(f"{path}.errors").read_text())):
        time.sleep(0.01)
    port = int(found[1])
    serving = threading.Thread(target=answer_all, args=(seed, listener))
    serving.start()
    count = ask_all(seed + 1, port, times)
    # The one that accepts is woken, and leaves the listener to the honest session.
    listener.shutdown(socket.SHUT_RDWR)
    serving.join()
    peak = memory_of(recorder)
    listener = socket.create_server(("127.0.0.1", int(address[-1])))
    wrong = "" if is_honest(port, listener) else "an honest session doesn't pass"
    wrong = judge(program, path, recorder) or wrong or (f"{peak} kB" if peak > MOST_KB else "")
    if wrong:
        sys.exit(f"seed {seed}: {wrong}")
    return count, peak


def main():
    match asked.words(__doc__, clients="PORT COUNT SEED", both="PG_RECORD RECORDING COUNT SEED"):
        case "clients", port, times, seed:
            print(ask_all(int(seed), int(port), int(times)), "bytes")
        case "both", program, path, times, seed:
            print("%d bytes, %d kB" % try_recorder(program, path, int(times), int(seed)))


if __name__ == "__main__":
    main()
