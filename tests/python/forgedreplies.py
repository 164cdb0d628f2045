"""Replies of a daemon that is none to the commands of the program, and how each command must end."""

import random
import socket
import struct
import tempfile
import time
from pathlib import Path

import frames
from running import GETSTAT, INVALIDATE, PATIENCE, SHUTDOWN, request
from spawning import Runner

PIECES = 16  # with a seed each
SEED, COUNT = 1, 100_000
MOST = 65_536  # bytes of a reply
ZERO = bytes(4)
FAILED, BAD = (b"", b"nscd: socket failed\n", 8), (b"", b"nscd: bad reply from server\n", 12)
TEXT = b"passwd cache:\nenabled yes\nhits 1\nnegative hits 0\n"
COMMANDS = (
    (("-g",), request(GETSTAT, b"")),
    (("-K",), request(SHUTDOWN, b"")),
    *((("-i", name), request(INVALIDATE, name.encode() + b"\0")) for name in frames.DATABASES),
)


def forged(dice):
    """A reply: right, too short, too long, nearly right, or any bytes."""
    how = dice.random()
    if how < 0.1:
        return b""
    if how < 0.3:
        return ZERO
    if how < 0.4:
        return bytes(dice.randint(1, 9))
    if how < 0.55:
        return struct.pack("<i", dice.choice((1, 22, 256, -1, 1 << 24, dice.randint(-(2**31), 2**31 - 1))))
    if how < 0.65:
        return TEXT[: dice.randint(1, len(TEXT))]
    if how < 0.85:
        return dice.randbytes(dice.choice((1, 3, 4, 5, 36, 604, 3000)))
    size = MOST + dice.choice((-1, 0, 0, 1, 1, 2, 4464, 134_464))
    return dice.choice((bytes(size), dice.randbytes(size)))


def wanted(words, reply, is_read, took):
    """How the command may end. A connection that is closed before its request is read is cut off, and a command waits no longer for a reply."""
    if took > PATIENCE:
        return FAILED, *wanted(words, reply, is_read, 0)
    if not is_read:
        return (FAILED, BAD) if len(reply) > MOST else (FAILED,)
    if len(reply) > MOST or (words[0] != "-g" and reply != ZERO):
        return (BAD,)
    return ((reply if words[0] == "-g" else b"", b"", 0),)


def send(peer, reply, dice):
    """Sends the reply at once, or in pieces."""
    pieces = [reply]
    if dice.random() < 0.3:
        size = dice.choice((1, 2, 3, 1000)) if len(reply) < 100 else max(1, len(reply) // dice.randint(2, 9))
        pieces = [reply[at : at + size] for at in range(0, len(reply), size)]
    try:
        for piece in pieces:
            peer.sendall(piece)
    except ConnectionError:
        pass


def take(peer, size):
    taken = b""
    while len(taken) < size and (part := peer.recv(size - len(taken))):
        taken += part
    return taken


def serve(listener, sent, reply, dice):
    """Serves one connection. Gives the request, or None where it was not read."""
    peer = listener.accept()[0]
    with peer:
        peer.settimeout(2 * PATIENCE)
        how = dice.random()
        if how < 0.1:
            send(peer, reply, dice)
            return None
        if how < 0.2:
            # The reply is there before the request is read.
            send(peer, reply[:MOST], dice)
            came = take(peer, len(sent))
            send(peer, reply[MOST:], dice)
        else:
            came = take(peer, len(sent))
            send(peer, reply, dice)
        return came


def commands(work):
    """`count` commands of one seed: how they ended, and the first differences."""
    seed, count = work
    dice, statuses, faults = random.Random(f"replies {seed}"), {}, []
    with tempfile.TemporaryDirectory(prefix="nscd-forged-") as folder, socket.socket(socket.AF_UNIX) as listener:
        listener.bind(str(Path(folder) / "admin"))
        listener.listen()
        listener.settimeout(2 * PATIENCE)
        runner = Runner()
        for number in range(count):
            words, sent = dice.choice(COMMANDS)
            reply, began = forged(dice), time.monotonic()
            runner.start(*words, "--run-dir", folder)
            came = serve(listener, sent, reply, dice)
            took = time.monotonic() - began
            said = runner.end()
            statuses[said[2]] = statuses.get(said[2], 0) + 1
            if said not in wanted(words, reply, came is not None, took) or came not in (None, sent):
                text = f"it asks {came!r}, and ends with {said[0][:80]!r}, {said[1]!r}, {said[2]}, after {took:.1f} s"
                faults.append(f"seed {seed}, reply {number} to {' '.join(words)}: {reply[:400].hex()} of {len(reply)} bytes: {text}")
                if len(faults) == 5:
                    break
        runner.close()
    return statuses, faults


def trial(pool, count=COUNT, seed=SEED):
    found = pool.map(commands, [(f"{seed}-{piece}", count // PIECES + (piece < count % PIECES)) for piece in range(PIECES)], chunksize=1)
    statuses = {}
    for some, _ in found:
        for status, number in some.items():
            statuses[status] = statuses.get(status, 0) + number
    named = ", ".join(f"{number} with {status}" for status, number in sorted(statuses.items()))
    return f"{sum(statuses.values())} forged replies of seed {seed} to commands, which end {named}", [fault for _, faults in found for fault in faults]
