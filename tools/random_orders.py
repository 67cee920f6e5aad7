#!/usr/bin/env python3
"""random_orders.py SEED N: writes N random order lines for the program `console`."""
import random
import sys

ALL = 0xFFFFFFFE
MUST = 0x80000002
NO_DECIMAL = ["x", "-1", "+1", "1.0", "0x1", "1_0", "A", "1a", "\u00e9", "\u0663", "99999999999999999999999"]
NO_HEX32 = ["G", "0x2", "+2", "-2", "123456789", "000000002", "80000002h", "\u00e9"]
NO_OCTET = ["A", "0", "0AB", "G0", "0x", "+A", "-1", "A+", "0A0B", "\u00e9"]


class Orders:
    def __init__(self, seed):
        self.r = random.Random(seed)
        self.opened = False
        self.first, self.equipment = 0, [ALL]
        self.guess, self.seized = [], 0         # circuits in the likely order of seizing

    def maybe(self, chance):
        return self.r.random() < chance

    # ---- numbers

    def dec(self, number):
        return "0" * self.r.choice([1, 2, 30]) + str(number) if self.maybe(0.02) else str(number)

    def hex(self, number):
        text = self.r.choice(["%X", "%x", "%08X", "%08x"]) % number
        return "".join(self.r.choice([c.upper(), c.lower()]) for c in text) if self.maybe(0.1) else text

    def bits(self, word):
        return [k for k in range(32) if word >> k & 1]

    def equipment_word(self):
        how = self.r.randrange(5)
        if how == 0:
            return ALL
        if how == 1:
            return 0xFFFEFFFE                   # time slot 16 left out
        if how == 2:
            return MUST | self.r.getrandbits(32) & ALL
        if how == 3:
            return MUST | (self.r.getrandbits(32) | self.r.getrandbits(32)) & ALL
        return MUST | self.r.getrandbits(32) & self.r.getrandbits(32) & self.r.getrandbits(32) & ALL

    def cic(self):
        r, size = self.r, 32 * len(self.equipment)
        x = r.random()
        if x < 0.45 and self.guess:             # likely seized, or soon
            return r.choice(self.guess[:self.seized + 3])
        if x < 0.75 and self.guess:
            return r.choice(self.guess)
        if x < 0.92:                            # any place, equipped or not
            return self.first + r.randrange(size)
        inside = self.first + r.randrange(size)
        return r.choice([max(self.first - 1, 0), self.first + size, self.first + size + 1,
                         (self.first + 2048) % 4096, inside + 4096, 4095, 4096, 65535,
                         r.randrange(4096), r.randrange(65536)])

    def system(self):
        r, count = self.r, len(self.equipment)
        if self.maybe(0.93):
            return r.randrange(count)
        return r.choice([count, count + 1, 15, 16, 127, 128, 255, 256, 2 ** 27, 2 ** 32, 2 ** 59,
                         2 ** 63, 2 ** 64 - 1])

    def mask(self, system):
        r = self.r
        word = self.equipment[system] if system < len(self.equipment) else ALL
        slots = self.bits(word)
        x = r.random()
        if x < 0.50:
            mask = sum(1 << k for k in r.sample(slots, min(len(slots), r.randint(1, 3))))
        elif x < 0.70:                          # slots of likely calls
            base = self.first + 32 * system
            likely = [c - base for c in self.guess[:self.seized + 2] if 0 <= c - base < 32]
            likely = likely or slots
            mask = sum(1 << k for k in r.sample(likely, min(len(likely), r.randint(1, 8))))
        elif x < 0.80:
            mask = word & r.getrandbits(32) or word
        elif x < 0.84:
            mask = word
        elif x < 0.88:
            mask = 0
        elif x < 0.92:
            mask = 1 | word & r.getrandbits(32)
        elif x < 0.96:
            mask = r.getrandbits(32)
        else:
            mask = r.choice([1, 0xFFFFFFFF, 0x80000000, ALL, 1 << r.randrange(32)])
        return mask

    def body(self):
        r = self.r
        length = r.choices([0, 1, r.randint(2, 12), r.randint(13, 60), 255, 256, 257, 300, 321],
                           [4, 25, 55, 8, 1, 3, 3, 1, 1])[0]
        return [r.choice(["%02X", "%02x"]) % r.getrandbits(8) for _ in range(length)]

    # ---- orders

    def open_valid(self):
        r = self.r
        count = 16 if self.maybe(0.03) else r.randint(1, 3)
        top = 4096 - 32 * count
        self.first = r.choice([0, 32, top, 32 * r.randint(0, top // 32), 32 * r.randint(0, top // 32)])
        self.equipment = [self.equipment_word() for _ in range(count)]
        point, selection = r.choice(["higher", "lower"]), r.choice(["low", "high", "release", "release"])
        self.guess = [self.first + 32 * s + k for s in range(count) for k in self.bits(self.equipment[s])]
        if selection == "high":
            self.guess.reverse()
        if selection == "release":
            parity = 0 if point == "higher" else 1
            ours = [c for c in self.guess if c % 2 == parity]
            self.guess = ours + [c for c in reversed(self.guess) if c % 2 != parity]
        self.seized = 0
        self.opened = True
        return ["open", self.dec(self.first), point, selection] + [self.hex(w) for w in self.equipment]

    # refused or not understood
    def open_invalid(self):
        r = self.r
        count = r.randint(1, 3)
        first = 32 * r.randint(0, 100)
        words = [self.equipment_word() for _ in range(count)]
        how = r.randrange(7)
        if how == 0:                            # no multiple of 32
            first += r.choice([1, 16, 31, r.randint(1, 31)])
        elif how == 1:                          # past 4095
            first, words = r.choice([(4064, [ALL, ALL]), (4032, [ALL] * 3), (4096, [ALL]),
                                     (3616, [ALL] * 16), (65504, [ALL]), (65504, [ALL, ALL])])
        elif how == 2:                          # a wrong equipment word
            at = r.randrange(count)
            words[at] = r.choice([words[at] | 1, words[at] & ~2, words[at] & 0x7FFFFFFF, 0, 0xFFFFFFFF])
        elif how == 3:
            first, words = r.choice([0, 32, 3584]), [ALL] * r.choice([0, 17, 18, 63, 64])
        elif how == 4:
            words = [ALL] * r.choice([65, 66, 130])
        elif how == 5:
            first = r.choice([4095, 65535, 65536, 131072])
        line = ["open", self.dec(first), r.choice(["higher", "lower"]),
                r.choice(["low", "high", "release"])] + [self.hex(w) for w in words]
        if how == 6:
            at = r.randint(1, len(line) - 1)
            line[at] = r.choice(["middle", "low", "lower", "HIGH", "Release"] if at in (2, 3)
                                else NO_DECIMAL if at == 1 else NO_HEX32)
            if line[2] in ("higher", "lower") and line[3] in ("low", "high", "release") and at in (2, 3):
                line = line[:at]                # the word happened to be right: too few arguments
        return line

    def seize(self):
        body = self.body()
        if 1 <= len(body) <= 256:
            self.seized += 1
        return ["seize"] + body

    def release(self):
        r = self.r
        location = r.randrange(16) if self.maybe(0.9) else r.choice([15, 16, 17, 128, 255])
        cause = r.randrange(128) if self.maybe(0.9) else r.choice([127, 128, 129, 255])
        return ["release", self.dec(self.cic()), self.dec(location), self.dec(cause)]

    def single(self, name):
        return [name, self.dec(self.cic())]

    def group(self, name):
        kind = self.r.randrange(2) if self.maybe(0.95) else self.r.choice([2, 3, 128, 255])
        system = self.system()
        return [name, self.dec(kind), self.dec(system), self.hex(self.mask(system))]

    def group_reset(self):
        return ["group-reset", self.dec(self.system())]

    def good(self):
        name = self.r.choices(
            ["seize", "release", "block", "unblock", "reset", "group-block", "group-unblock",
             "group-reset", "show"], [24, 13, 6, 8, 3, 7, 8, 0.5, 30])[0]
        if name == "seize":
            return self.seize()
        if name == "release":
            return self.release()
        if name == "group-reset":
            return self.group_reset()
        if name.startswith("group"):
            return self.group(name)
        return self.single(name)

    # a line that is not understood
    def bad(self):
        r = self.r
        how = r.randrange(5)
        if how == 0:
            return [r.choice(["talk", "Seize", "SHOW", "block5", "group", "group-", "blo", "opens", "#",
                              "?", "groupblock", "\u00e9"])] + ["5"] * r.randrange(3)
        kept = self.seized
        line = self.good()
        self.seized = kept
        if how == 1 and line[0] != "seize":     # too many
            return line + [r.choice(["0", "1", "5", "x"])]
        if how == 2 and line[0] != "seize":     # too few
            return line[:r.randint(1, len(line) - 1)]
        if how == 3 and line[0] != "seize":     # does not fit its type
            at = r.randint(1, len(line) - 1)
            if line[0].startswith("group-") and at == 3:
                line[at] = r.choice(["100000000", "FFFFFFFFF"])
            elif line[0].startswith("group-") and (at == 2 or line[0] == "group-reset"):
                line[at] = r.choice(["18446744073709551616", "18446744073709551617", "1" + "0" * 40])
            elif line[0].startswith("group-") or at > 1:
                line[at] = r.choice(["256", "257", "65536"])
            else:
                line[at] = r.choice(["65536", "65537", "4294967297"])
            return line
        if line[0] == "seize":
            line = line[:20] + ["00"]
            line[r.randint(1, len(line) - 1)] = r.choice(NO_OCTET)
            return line
        at = r.randint(1, len(line) - 1)
        line[at] = r.choice(NO_HEX32 if line[0] in ("group-block", "group-unblock") and at == 3 else
                            NO_DECIMAL)
        return line

    # a line passed over
    def silent(self):
        return self.r.choice(["", " ", "    ", "#", "# a comment", "#show 1", "# open 0 higher low 80000002",
                              "#" + " ".join(self.good_copy())])

    def good_copy(self):
        kept = self.seized
        line = self.good()
        self.seized = kept
        return line

    def spaced(self, words):
        if not self.maybe(0.06):
            return " ".join(words)
        if self.maybe(0.1):
            return "\t".join(words)             # a tab separates nothing
        text = words[0]
        for word in words[1:]:
            text += " " * self.r.randint(1, 3) + word
        return " " * self.r.choice([0, 0, 1, 3]) + text + " " * self.r.choice([0, 1, 2])

    def line(self, number):
        if number == 0 and self.maybe(0.85):
            return self.spaced(self.open_valid())
        x = self.r.random()
        if x < (0.01 if self.opened else 0.25):
            return self.spaced(self.open_valid())
        x = self.r.random()
        if x < 0.012:
            return self.spaced(self.open_invalid())
        if x < 0.06:
            return self.spaced(self.bad())
        if x < 0.085:
            return self.silent()
        return self.spaced(self.good())


def main():
    orders = Orders(int(sys.argv[1]))
    for number in range(int(sys.argv[2])):
        line = orders.line(number)
        end = "\r\n" if orders.maybe(0.02) else "\n"
        sys.stdout.buffer.write((line + end).encode())
    sys.stdout.buffer.flush()


if __name__ == "__main__":
    main()
