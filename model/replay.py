#!/usr/bin/env python3
"""The replay of document 01, module 5, over the model of the device in transfers.py: event records to lines.

It makes the streams of crates/replay and crates/troubles, the example in examples/, and what the programs have to print of them.
Run it from the repository's root: python3 model/replay.py
With a number and a file it writes so many event records instead: python3 model/replay.py 1000000 events
"""
import struct
import sys

import transfers

RECORD = 80
WORDS = {"h": "h%02x", "c": "c%02x", "a": "a%02x"}


def event_of(record):
    """The event of a record, or None if it is malformed or partial."""
    if len(record) != RECORD or record[0] > 4:
        return None
    if record[0] < 4:
        return (transfers.KINDS[record[0]],)
    read, refused, length = record[1:4]
    out, done, setup = struct.unpack("<HHH", record[4:10])
    if read > 2 or refused > 1 or length > 64:
        return None
    if any(record[10:16]) or any(record[16 + length :]):
        return None
    return ("data", out, done, setup, read, refused == 0, record[16 : 16 + length])


def word(action, packet):
    if isinstance(action, str):
        return action
    name, argument = action
    return WORDS[name] % argument if name in WORDS else name + packet.hex()


def replayed(stream, number=1):
    """The lines of a stream, the first numbered so."""
    transfers.BOOK = b""
    device = transfers.Device(8)
    text = ""
    for at in range(0, len(stream), RECORD):
        event = event_of(stream[at : at + RECORD])
        if event is None:
            return text + "%d ! 10\n" % number
        actions = device.step(*event)
        text += " ".join([str(number), device.state] + [word(a, device.packet) for a in actions]) + "\n"
        number = (number + 1) % 2**64
    return text


# ---- streams of good records

def record(*event):
    return transfers.event_record(*event)


def setup(hexed, taken=True, done=0, out=0, read=0):
    return record("data", out, done, 1, read, taken, bytes.fromhex(hexed))


def done(taken=True):
    return record("data", 0, 1, 0, 1, taken, b"")


def out(packet=b"", read=0):
    return record("data", 1, 0, 0, read, True, packet)


def bus(*kinds):
    return b"".join(record(kind) for kind in kinds)


def notes():
    """Field notes 9 to 12, a stream for each."""
    note_9 = setup("4002000000000400") + out(bytes(range(1, 9)))
    note_10 = out() + bus("reset") + out(b"abc")
    note_11 = setup("0005050000000000") + done()
    note_12 = setup("0005050000000000", False) + setup("0009010000000000") + done()
    return [note_9, note_10, note_11, note_12]


def example():
    """An enumeration: descriptor, address, configuration, a string, and a tile read of an empty book."""
    return (
        bus("reset")
        + setup("8006000100001200") + done() * 3 + out()
        + setup("0005050000000000") + done()
        + setup("0009010000000000") + done()
        + setup("800601030904ff00") + done() * 2 + out()
        + setup("0203000081000000") + done()
        + setup("c001000000001000")
        + bus("suspend", "nothing", "resume")
    )


def transferred():
    """The transfers that transfers.py drives."""
    transfers.EVENTS.clear()
    for part in (transfers.enumeration, transfers.features, transfers.tiles, transfers.abandoned, transfers.refused,
                 transfers.whole_packets, transfers.out_data, transfers.out_of_turn, transfers.sleeping, transfers.reset_midway):
        part()
    return b"".join(record(*event) for event in transfers.EVENTS)


REQUESTS = [
    "8006000100001200", "8006000100000800", "800600020000ff00", "8006010309040800", "8006030309040800", "8006000300000400",
    "0005050000000000", "00057f0000000000", "0005800000000000", "0009010000000000", "0009000000000000", "0009020000000000",
    "8000000000000200", "8100000000000200", "8200000081000200", "8200000080000200", "8008000000000100", "810a000000000100",
    "0003010000000000", "0001010000000000", "0203000081000000", "0201000081000000", "0203000002000000", "0203000000000000",
    "010b000000000000", "010b010000000000", "4002000000000400", "4002000000008000", "4002000000008100", "c001000000001000",
    "0009010000000800", "80060001000000",
]


class Dice:
    """Numbers that are the same on every machine."""

    def __init__(self, seed):
        self.state = seed

    def below(self, n):
        self.state = (self.state * 6364136223846793005 + 1442695040888963407) % 2**64
        return (self.state >> 33) % n


def chance(dice):
    """A data event of the bus by chance: mostly of endpoint 0, writes taken three times of four."""
    masks = [dice.below(8) << 1 if dice.below(8) == 0 else 0 for _ in range(3)]
    kind = dice.below(8)
    read = (0, 0, 0, 0, 0, 0, 1, 2)[dice.below(8)]
    packet = bytes.fromhex(REQUESTS[dice.below(len(REQUESTS))])
    if kind < 3:
        masks[2] |= 1
    elif kind < 5:
        masks[0] |= 1
        packet = bytes(dice.below(256) for _ in range((0, 0, 8, 8, 3, 64)[dice.below(6)]))
    if kind >= 5 or dice.below(4) == 0:
        masks[1] |= 1
    return record("data", *masks, read, dice.below(4) != 0, packet)


def troubled(seed, count):
    """Events by chance: one in ten is a reset, a suspend, a resume or nothing."""
    dice = Dice(seed)
    stream = b""
    for _ in range(count):
        plain = ("nothing", "resume", "suspend", "suspend", "reset")
        stream += bus(plain[dice.below(5)]) if dice.below(10) == 0 else chance(dice)
    return stream


# ---- streams with a bad record

def spoiled(place, value, base=None):
    """A record with another byte at a place."""
    base = base or setup("8006000100001200")
    return base[:place] + bytes([value]) + base[place + 1 :]


def malformed():
    """A stream for each field that can be wrong, the bad record second and a good one behind it."""
    fields = [(0, 5), (0, 255), (1, 3), (1, 255), (2, 2), (2, 255), (3, 65), (3, 255)]
    fields += [(place, 1) for place in range(10, 16)]
    fields += [(24, 1), (79, 255), (3, 7)]
    bad = [spoiled(*field) for field in fields]
    bad += [spoiled(16, 1, done()), spoiled(79, 1, out(b"a" * 63)), spoiled(17, 1, out(b"a"))]
    return [(1, bus("reset") + b + bus("resume")) for b in bad]


def partial():
    """A last record that is not whole, alone and after others, of an event of each kind."""
    whole = setup("0005050000000000")
    cut = [whole[:n] for n in (1, 2, 4, 10, 16, 17, 24, 79)]
    cut += [record(kind)[:n] for kind in ("nothing", "reset", "suspend", "resume") for n in (1, 79)]
    return [(1, c) for c in cut] + [(1, whole + done() + c) for c in cut[:4]]


def odd():
    """Well-formed records that look odd, and numbers of every length."""
    kinds = [bytes([kind]) + bytes(range(1, 80)) for kind in range(4)]
    full = out(bytes(range(192, 256)))
    unread = [setup("0005050000000000", read=read) for read in (1, 2)] + [out(b"xyz", read) for read in (1, 2)]
    lengths = [(10**n - 1, bus("nothing", "nothing")) for n in range(1, 20)]
    most = [(2**64 - 2, bus("reset", "suspend", "nothing")), (2**64 - 1, bus("suspend") + b"\4"), (0, bus("reset"))]
    return [(1, b""), (1, b"".join(kinds)), (1, setup("4002000000008000") + full * 2 + b"".join(unread))] + lengths + most


def write(path, content):
    with open(path, "wb") as f:
        f.write(content if isinstance(content, bytes) else content.encode())


def main():
    stream = bus("reset").join(notes()) + bus("reset") + transferred() + troubled(1, 1100) + bus("reset")[:79]
    write("crates/replay/stdin", stream)
    write("crates/replay/stdout", replayed(stream))
    streams = [(1, s) for s in [example()] + notes()] + malformed() + partial() + odd()
    write("crates/troubles/stdin", b"".join(struct.pack("<QH", n, len(s)) + s for n, s in streams))
    write("crates/troubles/stdout", "".join(replayed(s, n) + "-\n" for n, s in streams))
    write("examples/enumeration.events", example())
    write("examples/enumeration.lines", replayed(example()))


def many(count, path):
    """So many event records: the transfers, again and again."""
    stream = transferred()
    write(path, (stream * (count * RECORD // len(stream) + 1))[: count * RECORD])


if __name__ == "__main__":
    if len(sys.argv) == 3:
        many(int(sys.argv[1]), sys.argv[2])
    else:
        main()
