#!/usr/bin/env python3
"""Makes random runs for perf/operations: lines to play, one after the other.

usage: runs.py SEED EVENTS PROGRAM ARGUMENT..

PROGRAM plays lines and answers each at once. What it sends is answered here as a far exchange would,
so that calls, blocks and resets go on; the lines alone are written to the standard output. The order of
lines depends on the seed and on the program's answers alone. Counts of what was reached go to the
standard error.
"""
import collections
import random
import subprocess
import sys

IAM, ACM, CON, ANM, CPG, REL, RLC = 0x01, 0x06, 0x07, 0x09, 0x2C, 0x0C, 0x10
RSC, BLO, UBL, BLA, UBA = 0x12, 0x13, 0x14, 0x15, 0x16
GRS, CGB, CGU, CGBA, CGUA, GRA = 0x17, 0x18, 0x19, 0x1A, 0x1B, 0x29
NAMES = {v: k for k, v in list(globals().items()) if k.isupper() and isinstance(v, int)}
TYPES = sorted(NAMES)
TIMERS = [1, 5] + list(range(12, 24))
ORDERS = ["seize", "release", "block", "unblock", "reset", "group-block", "group-unblock", "group-reset"]
EVERY = 0xFFFFFFFE


def head(cic, kind):
    return [cic & 255, cic >> 8 & 15, kind]


class Run:
    """One trunk, from its opening to its end."""

    def __init__(self, random, program, count, wanted):
        self.random = random
        self.program = program
        self.count = count
        self.wanted = wanted
        # messages on their way to us, and the calls that were begun and have not ended
        self.waiting = []
        self.calls = set()
        # whether records are put that no operation leaves
        self.odd = random.random() < 0.25
        self.pick_trunk()

    # trunks

    def pick_trunk(self):
        r = self.random
        self.systems = r.choice([1, 2, 16])
        self.first = 32 * r.choice([0, 0, r.randrange(0, 129 - self.systems), 128 - self.systems])
        self.higher = r.choice([0, 1])
        few = 0x80000002
        kinds = [lambda: EVERY, lambda: (r.getrandbits(32) | few) & ~1, lambda: few,
                 lambda: (r.getrandbits(32) | r.getrandbits(32) | few) & ~1]
        self.equipment = [r.choice(kinds)() for _ in range(self.systems)]
        self.equipped = [32 * i + k for i, w in enumerate(self.equipment) for k in range(32) if w >> k & 1]
        # most events are about a few circuits, so that they meet
        self.focus = r.sample(self.equipped, min(len(self.equipped), r.choice([2, 4, 8, 40])))

    def opening(self, first, higher, equipment):
        return f"open {first} {higher} " + " ".join(f"{w:08X}" for w in equipment)

    def bad_opening(self):
        r = self.random
        equipment = [EVERY] * r.choice([1, 2, 16])
        which = r.randrange(5)
        if which == 0:
            return self.opening(r.randrange(0, 4096) | 1, 1, equipment)
        if which == 1:
            return self.opening(32 * (129 - len(equipment)), 1, equipment)
        if which == 2:
            return self.opening(0, 0, [EVERY] * 17)
        if which == 3:
            return self.opening(0, 0, [])
        equipment[r.randrange(len(equipment))] ^= r.choice([1, 2, 1 << 31])
        return self.opening(0, 0, equipment)

    # arguments

    def cic(self):
        r = self.random
        chance = r.random()
        if chance < 0.85:
            return self.first + r.choice(self.focus)
        if chance < 0.93:
            return self.first + r.randrange(32 * self.systems)
        if chance < 0.97:
            return max(0, self.first + r.choice([-1, -32, 32 * self.systems, 32 * self.systems + 5]))
        return r.randrange(4096)

    def system(self):
        r = self.random
        if r.random() < 0.95:
            return r.choice(self.focus) // 32
        return r.choice([0, self.systems - 1, self.systems, 16, 2 ** 32, 2 ** 64 - 1])

    def named(self, system):
        """Bits of circuits of a PCM system, most of them equipped."""
        r = self.random
        word = self.equipment[system] if system < self.systems else EVERY
        mask = r.choice([word, r.getrandbits(32) & word, 1 << r.randrange(1, 32)])
        for place in self.focus:
            if place // 32 == system and r.random() < 0.5:
                mask |= 1 << place % 32
        if r.random() < 0.05:
            mask ^= 1 << r.randrange(32)
        return mask & 0xFFFFFFFF

    def status(self, place, last):
        """Status octets for a range from a place on."""
        r = self.random
        spread = r.choice([0.05, 0.2, 0.9])
        most = r.choice([32, 32, 32, 33])
        bits = 0
        for n in range(last + 1):
            sure = place + n in self.equipped
            if (sure and r.random() < spread) or r.random() < 0.0003:
                if bin(bits).count("1") < most:
                    bits |= 1 << n
        octets = list(bits.to_bytes(last // 8 + 1, "little"))
        if r.random() < 0.3:
            octets[-1] |= r.getrandbits(8) & (0xFF << (last % 8 + 1) & 0xFF)
        return octets

    # events

    def order(self):
        r = self.random
        kind = r.choice(ORDERS + ["seize", "release", "group-block", "group-unblock"])
        if kind == "seize":
            length = r.choice([1, 5, 20, 256] if r.random() < 0.97 else [0, 257, 300])
            return "seize " + " ".join(f"{r.getrandbits(8):02X}" for _ in range(length))
        if kind == "release":
            cic = r.choice(sorted(self.calls)) if self.calls and r.random() < 0.6 else self.cic()
            return f"release {cic} {r.randrange(16 if r.random() < 0.95 else 256)} " \
                f"{r.randrange(128 if r.random() < 0.95 else 256)}"
        if kind == "group-reset":
            if r.random() < 0.5:
                return f"reset {self.cic()}"
            return f"group-reset {self.system()}"
        if kind.startswith("group"):
            system = self.system()
            why = r.randrange(2) if r.random() < 0.97 else r.randrange(2, 256)
            mask = self.named(system) if r.random() < 0.97 else r.choice([0, 1, 0xFFFFFFFF])
            return f"{kind} {why} {system} {mask:08X}"
        return f"{kind} {self.cic() if r.random() < 0.99 else r.randrange(65536)}"

    def expiry(self):
        r = self.random
        if self.waiting and r.random() < 0.5:
            return self.due(r.choice(self.waiting))
        timer = r.choice(TIMERS) if r.random() < 0.97 else r.randrange(256)
        if timer >= 18:
            at = self.system() & 0xFFFF
        else:
            at = self.cic() if r.random() < 0.98 else r.randrange(65536)
        why = r.randrange(2) if r.random() < 0.97 else r.randrange(256)
        return f"expire {timer} {at} {why}"

    def due(self, octets):
        """A timer that an answer on its way would stop."""
        r = self.random
        if len(octets) < 3:
            return "expire 1 0"
        cic = octets[0] | (octets[1] & 15) << 8
        pairs = {RLC: [1, 5, 16, 17], BLA: [12, 13], UBA: [14, 15], CGBA: [18, 19], CGUA: [20, 21], GRA: [22, 23]}
        timer = r.choice(pairs.get(octets[2], TIMERS))
        at = cic if timer < 18 else max(0, cic - self.first) // 32
        why = octets[3] & 3 if octets[2] in (CGBA, CGUA) and len(octets) > 3 else 0
        return f"expire {timer} {at} {why}"

    def record(self):
        r = self.random
        odd = "".join(str(r.choice(x)) for x in ([1, 1, 0], range(4), range(4), range(4), [0, 1], [0, 1], range(3)))
        place = r.choice(self.focus) if r.random() < 0.7 else r.randrange(32 * self.systems)
        if r.random() < 0.3:
            # time slot 0, which the far exchange may name where it is equipped
            place = place // 32 * 32
            if odd[0] == "1":
                self.equipped.append(place)
                self.focus[r.randrange(len(self.focus))] = place
        return f"put {place} {odd}"

    def grouped(self, kind, place, last, status, why):
        spare = self.random.choice([0, 0, 0, 0x54])
        return head(self.first + place, kind) + [why | spare, 1, len(status) + 1, last] + status

    def message(self):
        r = self.random
        kind = r.choice(TYPES)
        cic = self.cic()
        if kind in (IAM, ACM, CON, ANM, CPG):
            return head(cic, kind) + [r.getrandbits(8) for _ in range(r.choice([1, 3, 30]))]
        if kind == REL:
            cause = [r.getrandbits(8), r.getrandbits(8)]
            return head(cic, kind) + r.choice([[2, 0, 2] + cause, [2, 4, 2] + cause + [r.getrandbits(8)] * 3])
        if kind == RLC:
            return head(cic, kind) + r.choice([[0], []])
        if kind in (RSC, BLO, UBL, BLA, UBA):
            return head(cic, kind)
        place = r.choice(self.focus) // 32 * 32 + 1
        last = 30
        if r.random() < 0.5:
            place = max(0, cic - self.first - r.randrange(4))
            last = r.choice([1, 7, 8, 15, 29, 30, 31, r.randrange(32)])
            if kind in (CGB, CGU, CGBA, CGUA):
                last = r.choice([last, last, 32, 62, 63, 64, 100, 255])
        room = 32 * self.systems - 1 - place
        if r.random() < 0.95:
            last = max(0, min(last, room))
        if kind == GRS:
            return head(self.first + place, kind) + [1, 1, last]
        status = self.status(place, last)
        if kind == GRA:
            return head(self.first + place, kind) + [1, len(status) + 1, last] + status
        return self.grouped(kind, place, last, status, r.randrange(2) if r.random() < 0.97 else 2)

    def damaged(self, octets):
        r = self.random
        octets = list(octets)
        which = r.randrange(6)
        if which == 0:
            return octets[:r.randrange(len(octets) + 1)]
        if which == 1:
            return octets + [r.getrandbits(8) for _ in range(r.randrange(1, 4))]
        if which == 2:
            return [r.getrandbits(8) for _ in range(r.randrange(12))]
        if which == 3:
            octets[2] = r.getrandbits(8)
        else:
            octets[r.randrange(len(octets))] ^= r.choice([1 << r.randrange(8), r.randrange(1, 256)])
        return octets

    # the far exchange

    def answers(self, sent):
        """What a far exchange may answer to a message."""
        r = self.random
        cic = sent[0] | sent[1] << 8
        kind = sent[2]
        if kind == IAM:
            call = [[head(cic, r.choice([ACM, CON, CPG])) + [0]], [head(cic, ANM) + [0]]]
            ends = [[head(cic, REL) + [2, 0, 2, 0x80, 0x90]], [head(cic, IAM) + [1]], []]
            return r.choice(call)[:] + r.choice(ends)
        if kind == REL:
            return [head(cic, RLC) + r.choice([[], [0]])]
        if kind in (BLO, UBL):
            return [head(cic, kind + 2)]
        if kind == RSC:
            return [head(cic, RLC) + [0]]
        if kind == GRS:
            place = cic - self.first
            return [head(cic, GRA) + [1, 5, 30] + self.status(place, 30)]
        if kind in (CGB, CGU):
            return [head(cic, kind + 2) + sent[3:]]
        return []

    def take(self, answer):
        parts = answer.split()
        if parts[0] != "words":
            return
        mark = parts.index("octets")
        octets = [int(x, 16) for x in parts[mark + 1:] if "=" not in x]
        for word in parts[1:mark]:
            word = int(word, 16)
            if word >> 28 == 1:
                at, length = word >> 16 & 0xFFF, word & 0xFFFF
                for message in self.answers(octets[at:at + length]):
                    if self.random.random() < 0.9:
                        self.waiting.append(message)
            if word >> 28 == 3:
                self.calls.discard(word & 0xFFF)
            if word >> 28 == 2:
                self.calls.add(word & 0xFFF)
                place = (word & 0xFFF) - self.first
                if place not in self.focus:
                    self.focus[self.random.randrange(len(self.focus))] = place

    # lines

    def receive(self, octets):
        return "receive " + " ".join(f"{x:02X}" for x in octets)

    def event(self):
        r = self.random
        chance = r.random()
        if self.waiting and chance < 0.4:
            octets = self.waiting.pop(r.choice([0, 0, 0, r.randrange(len(self.waiting))]))
            if r.random() < 0.03:
                octets = self.damaged(octets)
            return self.receive(octets)
        if chance < 0.6:
            return self.order()
        if chance < 0.72:
            return self.expiry()
        if chance < 0.93:
            return self.receive(self.message())
        return self.receive(self.damaged(self.message()))

    def play(self, line):
        print(line)
        self.program.stdin.write(line + "\n")
        self.program.stdin.flush()
        answer = self.program.stdout.readline()
        if "WROTE MORE" in answer:
            sys.exit(f"wrote more than it says: {line}")
        return answer

    def tally(self, line, answer):
        word, *rest = line.split()
        name = word
        if word == "receive":
            name = NAMES.get(int(rest[2], 16), "unknown") if len(rest) > 2 else "short"
        elif word == "expire":
            name = f"T{rest[0]}" if int(rest[0]) in TIMERS else "no timer"
        parts = answer.split()
        if parts[0] == "refused":
            self.count[name, "refused"] += 1
            self.count["refusal", int(parts[1])] += 1
        else:
            did = parts[1] != "octets" or len(parts) > 2
            self.count[name, "did" if did else "nothing"] += 1

    def go(self, events):
        r = self.random
        self.play(self.opening(self.first, self.higher, self.equipment))
        done = 0
        while done < events:
            if r.random() < 0.003:
                # lent too little, or too much, for one event
                places = 32 * self.systems
                self.play(r.choice([f"lend {places} 95 320", f"lend {places} 96 319", f"lend {places - 1} 96 320",
                                    "lend 544 96 320", "lend 544 0 0"]))
                line = self.event()
                self.tally(line, self.play(line))
                self.play(f"lend {places} 96 320")
                done += 1
                continue
            if r.random() < 0.002:
                self.tally("open", self.play(self.bad_opening()))
                continue
            if self.odd and r.random() < 0.03:
                self.play(self.record())
            line = self.event()
            answer = self.play(line)
            self.tally(line, answer)
            self.take(answer)
            done += 1
        # what the policy holds, and in which order
        for _ in range(32 * self.systems):
            answer = self.play("seize 0A")
            self.count["seize", "at the end"] += 1
            if answer.startswith("refused"):
                self.count["refusal", int(answer.split()[1])] += 1
                break
        return done


def main():
    seed, wanted = int(sys.argv[1]), int(sys.argv[2])
    program = subprocess.Popen(sys.argv[3:], stdin=subprocess.PIPE, stdout=subprocess.PIPE, text=True)
    rng = random.Random(seed)
    count = collections.Counter()
    done = 0
    while done < wanted:
        done += Run(rng, program, count, wanted).go(rng.choice([200, 600, 1500]))
    program.stdin.close()
    program.wait()
    names = [NAMES[t] for t in TYPES] + [f"T{t}" for t in TIMERS] + ORDERS + ["open"]
    missing = [n for n in names if n != "open" and not count[n, "did"]]
    missing += [f"refusal {n}" for n in range(1, 13) if not count["refusal", n]]
    print(f"{done} events", file=sys.stderr)
    for name in names:
        print(f"{name:14} did {count[name, 'did']:6}  nothing {count[name, 'nothing']:6}"
              f"  refused {count[name, 'refused']:6}", file=sys.stderr)
    print("refused by " + ", ".join(f"{n}: {count['refusal', n]}" for n in range(1, 13)), file=sys.stderr)
    if missing and wanted >= 50000:
        sys.exit("never reached: " + ", ".join(missing))


main()
