"""Passes a stream on, as a proxy would: pass_on.py client|server SEED [TAGS] < STREAM

Takes standard input in pieces of lengths that SEED decides, as a client or a server says it, and writes what goes out.
Messages with one of TAGS are taken whole, or all where no TAGS are given. Says at the end on standard error how many
messages and bytes these were.
"""

import random
import sys

from pgmsg import Relay

# The most bytes of a message that is taken whole.
LIMIT = 1 << 30

side, seed, *tags = sys.argv[1:]
wanted = tags[0].encode() if tags else range(256)
relay = (Relay.of_client if side == "client" else Relay.of_server)(LIMIT, wanted)
chance = random.Random(int(seed))
stream = memoryview(sys.stdin.buffer.read())
messages = size = 0
while stream:
    # Half of the pieces are short.
    length = chance.randint(1, chance.choice([20, 1 << 14]))
    piece, stream = stream[:length], stream[length:]
    while piece:
        is_new = not relay.left
        event, piece = relay.next(piece)
        if event is not None:
            sys.stdout.buffer.write(event.bytes)
            messages += is_new
            size += len(event.bytes)
if relay.held or relay.left:
    sys.exit("the stream ends within a message")
sys.stdout.flush()
print(f"{messages} messages of {size} bytes", file=sys.stderr)
