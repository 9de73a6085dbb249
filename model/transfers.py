#!/usr/bin/env python3
"""A model of the device, written from document 01 and from nothing else, and the transfers that it is driven through.

It makes the event records of crates/transfers/stdin and what the program has to print of them, crates/transfers/stdout.
Run it from the repository's root: python3 model/transfers.py
"""
import struct

BUFFER = 128
BOOK = bytes(100 + i for i in range(48))
CONFIGURATION = bytes.fromhex("0902190001010080320904000001ff000000" + "07058102400000")
NAME = bytes.fromhex("0803500061006e00")
IN_STAGES = ("DataIn", "DataInZlp", "DataInLast", "StatusOut")


def device_descriptor(size):
    return bytes([18, 1, 0, 2, 0, 0, 0, size, 0x34, 0x12, 0x38, 0x01, 0, 1, 1, 2, 0, 1])


def string_descriptor(number, language):
    if number == 0:
        return bytes([4, 3, 9, 4])
    return NAME if number in (1, 2) and language == 0x0409 else None


class Device:
    """Notes 4 to 6's device, without the quirk. A step returns its actions, and leaves what it wrote in `packet`."""

    def __init__(self, size):
        self.size = size
        self.state, self.before = "D", None
        self.wakeup, self.halts = False, set()
        self.packet = b""
        self.forget()

    def forget(self):
        self.stage, self.pending = "Idle", 0
        self.answer, self.sent, self.data = b"", 0, b""

    def stall(self):
        self.stage = "Error"
        return ["so", "si"]

    def write(self, packet, taken):
        self.packet = packet
        return [("w" if taken else "x", len(packet))]

    def chunk(self, taken):
        packet = self.answer[self.sent : self.sent + self.size]
        if taken:
            self.sent += len(packet)
            if self.sent == len(self.answer):
                self.stage = "DataInZlp" if len(packet) == self.size else "DataInLast"
        return self.write(packet, taken)

    def empty(self, taken, stage):
        if taken:
            self.stage = stage
        return self.write(b"", taken)

    def descriptor(self, value, index):
        kind = value >> 8
        if kind == 3:
            return string_descriptor(value & 255, index)
        return {1: device_descriptor(self.size), 2: CONFIGURATION}.get(kind)

    def bytes_of(self, first, request, value, index):
        """What an IN request is answered with, or None for a stall."""
        who = (first >> 5 & 3, first & 31)
        if who == (0, 0):
            if request == 0:
                return bytes([2 * self.wakeup, 0])
            if request == 6:
                return self.descriptor(value, index)
            if request == 8:
                return bytes([self.state == "C"])
        if who == (0, 1):
            if request == 0:
                return bytes(2)
            if request == 10 and index < 256:
                return bytes(1)
        if who == (0, 2) and request == 0:
            return bytes([index & 0x8F in self.halts, 0])
        if who == (2, 0) and request == 1 and index == 0 and value < len(BOOK) // 16:
            return BOOK[16 * value :]
        return None

    def effect_of(self, first, request, value, index):
        """What an OUT request does: its actions, or None for a stall."""
        who = (first >> 5 & 3, first & 31)
        if who == (0, 0):
            if request in (1, 3) and value == 1:
                self.wakeup = request == 3
                return []
            if request == 5 and 1 <= value <= 127:
                self.pending = value
                return []
            if request == 9 and value == 1:
                self.state = "C"
                return []
            if request == 9 and value == 0:
                self.state = "D" if self.state == "D" else "A"
                return []
        if who == (0, 1) and request == 11 and value == 0 and index < 256:
            return []
        if who == (0, 2) and request in (1, 3) and value == 0:
            endpoint = index & 0x8F
            if request == 3:
                self.halts.add(endpoint)
                return [("h", endpoint)]
            self.halts.discard(endpoint)
            return [("c", endpoint)]
        return None

    def decide(self, taken):
        first, request, value, index, length = self.request
        if first & 0x80:
            answer = self.bytes_of(first, request, value, index)
            if answer is None:
                return self.stall()
            self.answer, self.stage = answer[:length], "DataIn"
            return self.chunk(taken)
        actions = self.effect_of(first, request, value, index)
        if actions is None:
            return self.stall()
        self.stage = "CompleteOut"
        return actions + self.empty(taken, "StatusIn")

    def setup(self, read, packet):
        """The actions of a SETUP, and whether its request is complete."""
        if read != 0 or len(packet) != 8:
            return [], False
        self.forget()
        self.halts -= {0, 0x80}
        self.request = struct.unpack("<BBHHH", packet)
        length = self.request[4]
        if self.request[0] & 0x80 or length == 0:
            return ["uo", "ui"], True
        if length <= BUFFER:
            self.stage = "DataOut"
            return ["uo", "ui"], False
        return ["uo", "ui"] + self.stall(), False

    def out(self, read, packet):
        if self.stage == "DataOut":
            if read == 1:
                return [], False
            if read == 2 or len(self.data) + len(packet) > BUFFER:
                return self.stall(), False
            self.data += packet
            return [], len(self.data) >= self.request[4]
        if read != 0 or packet:
            return [], False
        if self.stage in IN_STAGES:
            self.stage = "Idle"
            return [], False
        return self.stall(), False

    def complete(self, taken):
        if self.stage == "DataIn":
            return self.chunk(taken)
        if self.stage == "DataInZlp":
            return self.empty(taken, "DataInLast")
        if self.stage == "DataInLast":
            self.stage = "StatusOut"
            return ["uo"]
        if self.stage == "StatusIn":
            self.stage = "Idle"
            if self.pending:
                address, self.pending, self.state = self.pending, 0, "A"
                return [("a", address)]
        return []

    def data_came(self, out, done, setup, read, taken, packet):
        actions, ready = [], False
        if setup & 1:
            actions, ready = self.setup(read, packet)
        elif out & 1:
            actions, ready = self.out(read, packet)
        if ready:
            return actions + self.decide(taken)
        if done & 1:
            return actions + self.complete(taken)
        return actions

    def step(self, kind, *event):
        self.packet, actions = b"", []
        if self.state == "S":
            if kind in ("nothing", "suspend"):
                return []
            self.state, actions = self.before, ["rs"]
        if kind == "reset":
            self.forget()
            self.state, self.wakeup, self.halts = "D", False, set()
            return actions + ["rb"]
        if kind == "suspend":
            self.before, self.state = self.state, "S"
            return actions + ["su"]
        return actions + self.data_came(*event) if kind == "data" else actions


KINDS = ["nothing", "reset", "suspend", "resume", "data"]
CODES = ["", "rs", "su", "rb", "uo", "ui", "so", "si", "h", "c", "a", "w", "x"]


def event_record(kind, *event):
    if kind != "data":
        return bytes([KINDS.index(kind)]).ljust(80, b"\0")
    out, done, setup, read, taken, packet = event
    head = bytes([4, read, not taken, len(packet)]) + struct.pack("<HHH", out, done, setup)
    return head.ljust(16, b"\0") + packet.ljust(64, b"\0")


def trace_entry(device, actions, kind, *event):
    masks = (0, 0, 0)
    if kind == "data":
        out, done, setup = event[:3]
        masks = (setup & 0xFFFE, out & ~setup & 0xFFFE, done & 0xFFFE)
    entry = bytes(["DACS".index(device.state), kind == "data"]) + struct.pack("<HHH", *masks)
    for action in actions:
        name, argument = (action, 0) if isinstance(action, str) else action
        entry += bytes([CODES.index(name), argument])
    return entry.ljust(18, b"\0") + device.packet.ljust(64, b"\0")


EVENTS = []


def setup(hexed, taken=True, done=0, out=0):
    EVENTS.append(("data", out, done, 1, 0, taken, bytes.fromhex(hexed)))


def done(taken=True):
    EVENTS.append(("data", 0, 1, 0, 1, taken, b""))


def out(packet=b"", read=0):
    EVENTS.append(("data", 1, 0, 0, read, True, packet))


def bus(kind):
    EVENTS.append((kind,))


def get(hexed, packets):
    """An IN transfer with so many IN-completes, then the host's status."""
    setup(hexed)
    for _ in range(packets):
        done()
    out()


def put(hexed):
    """An OUT transfer without data."""
    setup(hexed)
    done()


def enumeration():
    bus("reset")
    get("8006000100004000", 4)
    bus("reset")
    put("0005050000000000")
    get("8006000100001200", 4)
    get("800600020000ff00", 5)
    get("8006000300000400", 2)
    get("800601030904ff00", 2)
    get("800603030904ff00", 1)
    put("0009010000000000")
    get("8008000000000100", 2)
    get("8000000000000200", 2)


def features():
    put("0003010000000000")
    get("8000000000000200", 2)
    put("0203000081000000")
    get("8200000081000200", 2)
    put("0201000081000000")
    get("8200000081000200", 2)
    put("0203000000000000")
    get("8200000000000200", 2)
    get("810a000000000100", 2)
    put("010b000000000000")
    setup("010b010000000000")


def tiles():
    get("c001000000003000", 8)
    get("c001010000001000", 4)
    get("c00100000000ffff", 8)
    get("c001030000001000", 1)
    get("c001000001001000", 1)


def abandoned():
    setup("c001000000003000")
    done()
    get("c001020000000800", 3)
    setup("c001000000003000")
    get("8006000100001200", 4)


def refused():
    setup("c001010000002000", False)
    for taken in (False, True, False, True, True, True, True):
        done(taken)
    out()
    setup("0005060000000000", False)
    put("0009010000000000")
    setup("0005070000000000", False)
    done()


def whole_packets():
    setup("8006000100000000")
    done()
    done()
    out()
    get("8006000100001000", 4)
    get("c001000000004000", 8)


def out_data():
    setup("4002000000000400")
    out(bytes(range(8)))
    setup("0009010000000900")
    out(b"12345678")
    out(b"", 1)
    out(b"9")
    done()
    setup("4002000000008100")
    done()
    for packets in ((b"a" * 64, b"b" * 64), (b"a" * 64, b"b" * 63, b"cc")):
        setup("4002000000008000")
        for packet in packets:
            out(packet)
    setup("4002000000000400")
    out(b"", 2)


def out_of_turn():
    bus("reset")
    out()
    out(b"abc")
    setup("c001000000003000")
    out(b"x")
    out()
    done()
    setup("c001000000003000")
    setup("80060001000040", True, 1)
    EVENTS.append(("data", 1, 1, 1, 1, True, b""))
    EVENTS.append(("data", 1, 1, 1, 2, True, b""))
    setup("800600010000400000", True, 1)
    out()
    setup("8006000100004000", True, 1, 1)
    EVENTS.append(("data", 0x0012, 0x8004, 0x0010, 1, True, b""))
    EVENTS.append(("data", 0xFFFF, 0xFFFE, 0x0002, 0, True, b""))


def sleeping():
    setup("0005080000000000")
    for kind in ("suspend", "suspend", "nothing"):
        bus(kind)
    done()
    for kind in ("suspend", "resume", "resume", "nothing", "suspend"):
        bus(kind)
    setup("4002000000008100")
    bus("suspend")
    bus("reset")


def reset_midway():
    setup("c001000000003000")
    done()
    bus("reset")
    done()
    out(b"z")
    setup("0005090000000000")
    bus("reset")
    done()
    get("8006000100004000", 4)


def note_nine():
    """Eight bytes where four are awaited: the data is the first four, and the request stalls."""
    setup("4002000000000400")
    out(bytes(range(8)))


PARTS = (enumeration, features, tiles, abandoned, refused, whole_packets, out_data, out_of_turn, sleeping, reset_midway, note_nine)


def main():
    for part in PARTS:
        part()
    partial = event_record("nothing")[:40]
    with open("crates/transfers/stdin", "wb") as f:
        f.write(b"".join(event_record(*e) for e in EVENTS) + partial)
    lines = []
    for size in (8, 16, 32, 64):
        device = Device(size)
        for event in EVENTS:
            actions = device.step(*event)
            lines.append(trace_entry(device, actions, *event).rstrip(b"\0").hex())
        data = device.data[: device.request[4]]
        lines.append("%d %d 10 %d 0 %s" % (size, len(EVENTS), len(data), data.hex()))
    with open("crates/transfers/stdout", "w") as f:
        f.write("\n".join(lines) + "\n")


if __name__ == "__main__":
    main()
