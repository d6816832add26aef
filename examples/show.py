#!/usr/bin/env python3
"""Prints a plan from standard input with its doubles as decimal numbers, and of each panel how much air is above it,
which is in the direction in which the job stacks panels (README, "Other corners")."""
import re
import struct
import sys


def decimal(match):
    return f"{struct.unpack('>d', bytes.fromhex(match[0]))[0]:.12g}"


for line in sys.stdin:
    line = re.sub(r"\b[0-9a-f]{16}\b", decimal, line)
    print(re.sub(r"^(put .*) (\S+)$", r"\1, \2 mm air above", line), end="")
