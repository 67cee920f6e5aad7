#!/usr/bin/env python3
"""Model of the program `console`: orders on standard input, answers on standard output."""
import sys

DIGITS = b"0123456789"
HEXDIGITS = b"0123456789ABCDEFabcdef"
U8, U16, U64 = 0xFF, 0xFFFF, 0xFFFFFFFFFFFFFFFF

RSC, BLO, UBL, GRS, CGB, CGU, REL, IAM = 0x12, 0x13, 0x14, 0x17, 0x18, 0x19, 0x0C, 0x01
BY_RESET, BY_HARDWARE_BLOCK = 3, 4
KINDS = ("maintenance", "hardware")
ENDED_BY = {1: "a release received", 2: "a release complete", 3: "a reset",
            4: "a hardware block", 5: "a dual seizure"}


class NotUnderstood(Exception):
    pass


class Refused(Exception):
    pass


# ---------------------------------------------------------------- reading

def decimal(word, largest):
    if not word or any(c not in DIGITS for c in word):
        raise NotUnderstood
    digits = word.lstrip(b"0") or b"0"
    if len(digits) > 20 or int(digits) > largest:
        raise NotUnderstood
    return int(digits)


def hex32(word):
    if not 1 <= len(word) <= 8 or any(c not in HEXDIGITS for c in word):
        raise NotUnderstood
    return int(word, 16)


def hex_octet(word):
    if len(word) != 2 or any(c not in HEXDIGITS for c in word):
        raise NotUnderstood
    return int(word, 16)


def take(arguments, count):
    if len(arguments) != count:
        raise NotUnderstood
    return arguments


# ---------------------------------------------------------------- selection

class Ends:
    """Chooses the lowest or the highest place of the set."""

    def __init__(self, choose):
        self.members = set()
        self.choose = choose

    def offer(self, place):
        self.members.add(place)

    def withdraw(self, place):
        self.members.discard(place)

    def choice(self):
        return self.choose(self.members) if self.members else None


class ReleaseOrder:
    """Keeps the order in which places were offered."""

    def __init__(self, controlled_parity):
        self.members = []           # offered longest ago first
        self.parity = controlled_parity

    def offer(self, place):
        if place not in self.members:
            self.members.append(place)

    def withdraw(self, place):
        if place in self.members:
            self.members.remove(place)

    def choice(self):
        for place in self.members:
            if place % 2 == self.parity:
                return place
        for place in reversed(self.members):
            return place
        return None


def new_policy(selection, higher):
    if selection == b"low":
        return Ends(min)
    if selection == b"high":
        return Ends(max)
    return ReleaseOrder(0 if higher else 1)


# ---------------------------------------------------------------- the trunk

class Record:
    def __init__(self, equipped):
        self.equipped = equipped
        self.call = "idle"
        self.local = ["none", "none"]       # maintenance, hardware
        self.far = [False, False]
        self.reset = "none"
        self.cause = (0, 0)

    def is_open(self):
        return (self.equipped and self.call == "idle" and self.reset == "none"
                and self.local == ["none", "none"] and self.far == [False, False])


class Trunk:
    def __init__(self, first, higher, selection, equipment):
        if first % 32 != 0:
            raise Refused(1)
        if not 1 <= len(equipment) <= 16:
            raise Refused(1)
        for word in equipment:
            if word & 1 or not word >> 1 & 1 or not word >> 31 & 1:
                raise Refused(1)
        if first + 32 * len(equipment) - 1 > 4095:
            raise Refused(1)
        self.first = first
        self.systems = len(equipment)
        self.table = [Record(bool(word >> slot & 1)) for word in equipment for slot in range(32)]
        self.policy = new_policy(selection, higher)
        self.were_open = [False] * len(self.table)
        self.events = []            # (cic, word) of begun and ended
        self.sends = []
        self.octets = []
        self.keep_policy()

    # offers what opened and withdraws what closed, by rising CIC
    def keep_policy(self):
        for place, record in enumerate(self.table):
            now = record.is_open()
            if now and not self.were_open[place]:
                self.policy.offer(place)
            if not now and self.were_open[place]:
                self.policy.withdraw(place)
            self.were_open[place] = now
        assert sorted(self.policy.members) == [p for p, r in enumerate(self.table) if r.is_open()]

    # runs one operation; returns its words and octets
    def run(self, operation, *arguments):
        self.events, self.sends, self.octets = [], [], []
        operation(*arguments)
        self.keep_policy()
        return [word for _, word in sorted(self.events)] + self.sends, self.octets

    # ---- parts of operations

    def place(self, cic):
        if not self.first <= cic < self.first + len(self.table):
            raise Refused(9)
        return cic - self.first

    def circuit(self, cic):
        record = self.table[self.place(cic)]
        if not record.equipped:
            raise Refused(9)
        return record

    def send(self, cic, kind, rest=()):
        message = [cic & 0xFF, cic >> 8 & 0x0F, kind, *rest]
        self.sends.append(0x10000000 | len(self.octets) << 16 | len(message))
        self.octets += message

    def begin_outgoing(self, cic, record):
        record.call = "calling"
        self.events.append((cic, 0x20000000 | cic))

    def end(self, cic, record, cause):
        if record.call != "idle":
            record.call = "idle"
            self.events.append((cic, 0x30000000 | cause << 12 | cic))

    def reset_record(self, cic, record, reset):
        self.end(cic, record, BY_RESET)
        record.local = ["none", "none"]
        record.far = [False, False]
        record.reset = reset

    # the circuits of a system, time slots 0 to 31: (slot, CIC, record)
    def system(self, system):
        if system >= self.systems:
            raise Refused(9)
        return [(slot, self.first + 32 * system + slot, self.table[32 * system + slot])
                for slot in range(32)]

    def named(self, kind, system, mask):
        if kind > 1 or mask == 0:
            raise Refused(8)
        named = [entry for entry in self.system(system) if mask >> entry[0] & 1]
        if any(not record.equipped for _, _, record in named):
            raise Refused(9)
        if any(record.reset != "none" for _, _, record in named):
            raise Refused(10)
        return named

    def send_group(self, message, kind, system, mask):
        status = [0, 0, 0, 0]
        for slot in range(1, 32):
            if mask >> slot & 1:
                bit = slot - 1
                status[bit // 8] |= 1 << bit % 8
        self.send(self.first + 32 * system + 1, message, [kind, 1, 5, 30, *status])

    # ---- operations

    def seize(self, body):
        if not 1 <= len(body) <= 256:
            raise Refused(8)
        place = self.policy.choice()
        if place is None:
            raise Refused(11)
        cic = self.first + place
        self.begin_outgoing(cic, self.table[place])
        self.send(cic, IAM, body)

    def release(self, cic, location, cause):
        if location > 15 or cause > 127:
            raise Refused(8)
        record = self.circuit(cic)
        if record.call not in ("calling", "talking"):
            raise Refused(10)
        record.call = "releasing"
        record.cause = (0x80 + location, 0x80 + cause)
        self.send(cic, REL, [2, 0, 2, *record.cause])

    def block(self, cic):
        record = self.circuit(cic)
        if record.reset != "none":
            raise Refused(10)
        record.local[0] = "asked"
        self.send(cic, BLO)

    def unblock(self, cic):
        record = self.circuit(cic)
        if record.reset != "none":
            raise Refused(10)
        if record.local[0] != "none":
            record.local[0] = "lifting"
        self.send(cic, UBL)

    def group_block(self, kind, system, mask):
        for _, cic, record in self.named(kind, system, mask):
            record.local[kind] = "asked"
            if kind == 1:
                self.end(cic, record, BY_HARDWARE_BLOCK)
        self.send_group(CGB, kind, system, mask)

    def group_unblock(self, kind, system, mask):
        for _, _, record in self.named(kind, system, mask):
            if record.local[kind] != "none":
                record.local[kind] = "lifting"
        self.send_group(CGU, kind, system, mask)

    def reset(self, cic):
        record = self.circuit(cic)
        if record.reset == "group":
            raise Refused(10)
        self.reset_record(cic, record, "single")
        self.send(cic, RSC)

    def group_reset(self, system):
        for _, cic, record in self.system(system):
            if record.equipped:
                self.reset_record(cic, record, "group")
        self.send(self.first + 32 * system + 1, GRS, [1, 1, 30])

    def show(self, cic):
        record = self.table[self.place(cic)]
        if not record.equipped:
            return "circuit %d: not equipped" % cic
        return ("circuit %d: %s, maintenance %s, hardware %s, far maintenance %s, "
                "far hardware %s, reset %s, cause %02X %02X, %s" % (
                    cic, record.call, record.local[0], record.local[1],
                    "yes" if record.far[0] else "no", "yes" if record.far[1] else "no",
                    record.reset, *record.cause, "open" if record.is_open() else "closed"))


# ---------------------------------------------------------------- plain words

def hexes(octets):
    return " ".join("%02X" % octet for octet in octets)


def explain_message(m):
    cic, kind, rest = m[0] | (m[1] & 0x0F) << 8, m[2], m[3:]
    if kind in (RSC, BLO, UBL):
        return "%s cic=%d" % ({RSC: "RSC", BLO: "BLO", UBL: "UBL"}[kind], cic)
    if kind == REL:
        return "REL cic=%d cause=%s" % (cic, hexes(rest[3:]))
    if kind == IAM:
        return "IAM cic=%d body=%s" % (cic, hexes(rest))
    if kind == GRS:
        return "GRS cic=%d range=%d" % (cic, rest[2])
    span, status = rest[3], rest[4:]
    chosen = [str(cic + n) for n in range(span + 1) if status[n // 8] >> n % 8 & 1]
    return "%s cic=%d %s range=%d set=%s" % (
        "CGB" if kind == CGB else "CGU", cic, KINDS[rest[0]], span, ",".join(chosen))


def explain_word(word, octets):
    kind, cic = word >> 28, word & 0xFFF
    if kind == 1:
        place, length = word >> 16 & 0xFFF, word & 0xFFFF
        return "send " + explain_message(octets[place:place + length])
    if kind == 2:
        return "begun cic=%d %s" % (cic, "incoming" if word >> 12 & 1 else "outgoing")
    return "ended cic=%d by %s" % (cic, ENDED_BY[word >> 12 & 0xFF])


def ok(words, octets):
    lines = ["ok",
             "words " + (" ".join("%08X" % word for word in words) or "-"),
             "octets " + (hexes(octets) or "-")]
    return lines + ["  " + explain_word(word, octets) for word in words]


# ---------------------------------------------------------------- orders

class Console:
    def __init__(self):
        self.trunk = None

    def open(self, arguments):
        if len(arguments) < 3:
            raise NotUnderstood
        first = decimal(arguments[0], U16)
        if arguments[1] not in (b"higher", b"lower"):
            raise NotUnderstood
        if arguments[2] not in (b"low", b"high", b"release"):
            raise NotUnderstood
        equipment = [hex32(word) for word in arguments[3:]]
        self.trunk = Trunk(first, arguments[1] == b"higher", arguments[2], equipment)
        return ok([], [])

    def order(self, name, arguments):
        if name == b"open":
            return self.open(arguments)
        trunk = self.trunk
        if trunk is None:
            raise NotUnderstood
        if name == b"seize":
            return ok(*trunk.run(trunk.seize, [hex_octet(word) for word in arguments]))
        if name == b"release":
            cic, location, cause = take(arguments, 3)
            return ok(*trunk.run(trunk.release, decimal(cic, U16), decimal(location, U8),
                                 decimal(cause, U8)))
        if name in (b"block", b"unblock", b"reset"):
            operation = {b"block": trunk.block, b"unblock": trunk.unblock,
                         b"reset": trunk.reset}[name]
            cic, = take(arguments, 1)
            return ok(*trunk.run(operation, decimal(cic, U16)))
        if name in (b"group-block", b"group-unblock"):
            operation = trunk.group_block if name == b"group-block" else trunk.group_unblock
            kind, system, mask = take(arguments, 3)
            return ok(*trunk.run(operation, decimal(kind, U8), decimal(system, U64), hex32(mask)))
        if name == b"group-reset":
            system, = take(arguments, 1)
            return ok(*trunk.run(trunk.group_reset, decimal(system, U64)))
        if name == b"show":
            cic, = take(arguments, 1)
            return [trunk.show(decimal(cic, U16))]
        raise NotUnderstood

    # the lines of the answer; none for a line passed over
    def line(self, line):
        words = [word for word in line.split(b" ") if word]
        if not words or line.startswith(b"#"):
            return []
        try:
            answer = self.order(words[0], words[1:])
        except NotUnderstood:
            answer = ["not understood"]
        except Refused as refusal:
            answer = ["refused %d" % refusal.args[0]]
        return [b"> " + line] + [text.encode() for text in answer]


def main():
    console = Console()
    lines = sys.stdin.buffer.read().split(b"\n")
    last = lines.pop()              # what stands after the last line feed
    lines = [line[:-1] if line.endswith(b"\r") else line for line in lines]
    if last:
        lines.append(last)
    for line in lines:
        for text in console.line(line):
            sys.stdout.buffer.write(text + b"\n")
    sys.stdout.buffer.flush()


if __name__ == "__main__":
    main()
