#!/usr/bin/env python3
"""Prints the ISUP messages of a capture as lines of hexadecimal octets, for the trace program. Needs tshark."""
import json
import subprocess
import sys

if len(sys.argv) != 2:
    sys.exit("usage: capture_octets.py CAPTURE")
run = subprocess.run(["tshark", "-r", sys.argv[1], "-Y", "isup", "-T", "json", "-x"], check=True, capture_output=True, text=True)
for packet in json.loads(run.stdout or "[]"):
    raw = packet["_source"]["layers"].get("isup_raw")
    # a packet may carry several messages
    for octets, *_ in raw if raw and isinstance(raw[0], list) else [raw] if raw else []:
        print(" ".join(octets[n : n + 2] for n in range(0, len(octets), 2)))
