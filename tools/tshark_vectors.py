#!/usr/bin/env python3
"""Makes crates/vectors/stdin: messages with what tshark says of each.

Needs tshark and text2pcap (Debian package tshark). Nothing of our reader is used here.
Each message gets the service octet 85 and a routing label in front and goes into a capture of link type 141 (MTP3).
Of tshark's reading the table keeps: the name, the CIC, the blocking type, the range, the cause octets, the status where
tshark prints it (one octet), and whether it calls the packet malformed.
tshark prints the number of circuits where the message has the range, one less; and UBLA for UBA.
"""
import json
import random
import subprocess
import tempfile

PREFIX = "85 01 00 00 00".split()
OTHER_NAMES = {"UBLA": "UBA"}


def head(cic, kind, spare=0):
    return [cic & 0xFF, (cic >> 8) | spare << 4, kind]


def group(r, indicator, rng, most):
    octets = (r + 1 + 7) // 8
    status = [0] * octets
    for n in rng.sample(range(r + 1), rng.randint(0, min(most, r + 1))):
        status[n // 8] |= 1 << (n % 8)
    return ([] if indicator is None else [indicator]) + [1, 1 + octets, r] + status


def call_bodies(rng):
    digits = [rng.randrange(256) for _ in range(rng.randint(2, 8))]
    number = [0x03 if rng.random() < 0.5 else 0x83, 0x10] + digits
    return {
        0x01: [0x00, 0x60, 0x01, 0x0A, 0x00, 0x02, 0x00, len(number)] + number,
        0x06: [0x16, 0x14, 0x00],
        0x07: [0x16, 0x14, 0x00],
        0x09: [0x00],
        0x2C: [0x01, 0x00],
    }


def valid(rng):
    """Messages of every type, with small and large codes, every blocking type, and ranges from 1 to 254 (tshark 4.0 takes range 255 for 0 circuits)."""
    cic = lambda: rng.choice([0, 1, 31, 255, 256, 4095, rng.randrange(4096), rng.randrange(4096)])
    for kind in (0x12, 0x13, 0x14, 0x15, 0x16):
        for spare in (0, 0, 0, 5, 15):
            yield head(cic(), kind, spare)
    for _ in range(3):
        yield head(cic(), 0x10) + [0]
    for _ in range(6):
        yield head(cic(), 0x0C) + [2, 0, 2, 0x80 | rng.randrange(16), 0x80 | rng.randrange(128)]
    for _ in range(4):
        yield head(cic(), 0x0C) + [2, 4, 2, 0x80 | rng.randrange(16), 0x80 | rng.randrange(128), 0x11, 2, 0, 0, 0]
    for _ in range(4):
        for kind, body in call_bodies(rng).items():
            yield head(cic(), kind) + body
    for r in (1, 2, 7, 8, 29, 30, 31):
        yield head(cic(), 0x17) + [1, 1, r]
        yield head(cic(), 0x29) + group(r, None, rng, 32)
    for kind in (0x18, 0x19, 0x1A, 0x1B):
        for r in (1, 2, 5, 7, 8, 15, 16, 30, 31, 32, 63, 100, 200, 254):
            for indicator in (0, 1):
                yield head(cic(), kind) + group(r, indicator, rng, 32)
        for indicator in (0x04, 0x05, 0xFC, 0xFD):
            yield head(cic(), kind) + group(rng.randint(1, 7), indicator, rng, 8)


def damaged():
    """Damaged messages that tshark may call malformed."""
    yield [6, 0, 0x0C, 2, 0, 2, 0x84]
    yield [6, 0, 0x01]
    yield [6, 0, 0x06]
    yield [6, 0, 0x0C]
    yield [1, 0, 0x17, 1, 2, 30]
    yield [1, 0, 0x17, 2, 1, 30]
    yield [1, 0, 0x29, 1, 5, 30, 0, 0, 0]
    yield [1, 0, 0x18, 1, 5, 30, 4, 0, 1, 0]  # the indicator left out
    yield [1, 0, 0x18, 0, 1, 5, 30, 4, 0, 1]
    yield [1]
    yield [1, 0]


def tshark(messages):
    with tempfile.TemporaryDirectory() as folder:
        text, capture = folder + "/in.txt", folder + "/out.pcap"
        with open(text, "w") as f:
            for m in messages:
                f.write("0000 " + " ".join(PREFIX + ["%02X" % x for x in m]) + "\n")
        subprocess.run(["text2pcap", "-q", "-l", "141", text, capture], check=True, stderr=subprocess.DEVNULL)
        run = lambda *words: subprocess.run(["tshark", "-r", capture, *words], check=True, capture_output=True, text=True).stdout
        info = run("-T", "fields", "-e", "_ws.col.Info").rstrip("\n").split("\n")
        return info, json.loads(run("-T", "json"))


def leaves(tree):
    """Every name and text of a JSON tree, by depth."""
    for name, value in tree.items():
        if isinstance(value, dict):
            yield name, ""
            yield from leaves(value)
        else:
            yield name, value


def words(info, packet):
    """What tshark said, in the words of the trace program."""
    layers = packet["_source"]["layers"]
    if "Malformed Packet" in info or "_ws.malformed" in layers:
        return "malformed"
    found = dict(leaves(layers["isup"]))
    name = info.split()[0]
    said = [OTHER_NAMES.get(name, name), "cic=" + found["isup.cic"]]
    if "isup.cgs_message_type" in found:
        said.append({"0": "maintenance", "1": "hardware"}[found["isup.cgs_message_type"]])
    if "isup.range_indicator" in found:
        circuits = int(found["isup.range_indicator"])
        said.append("range=%d" % (circuits - 1))
        if "isup.bitbucket" in found:
            octet = int(found["isup.bitbucket"])
            marked = [str(int(found["isup.cic"]) + n) for n in range(circuits) if octet >> n & 1]
            said.append("set=" + (",".join(marked) or "-"))
    if "isup.cause_indicators" in found:
        said.append("cause=" + " ".join(found["isup.cause_indicators"].upper().split(":")))
    return " ".join(said)


def main():
    rng = random.Random(767)
    messages = list(valid(rng))
    count = len(messages)
    messages += list(damaged())
    info, packets = tshark(messages)
    version = subprocess.run(["tshark", "--version"], capture_output=True, text=True).stdout.split("\n")[0]
    print("# messages with what %s says of each; made by tools/tshark_vectors.py" % version.split(" (Git")[0])
    for n, (m, i, p) in enumerate(zip(messages, info, packets)):
        said = words(i, p)
        if n >= count and said != "malformed":
            continue  # tshark passes over this damage
        print(" ".join("%02X" % x for x in m) + " | " + said)


main()
