"""Writes a stream of copies of the longest sheet for replay_sheets, each with a zero byte behind it: refused 13 at the very end.

    python3 bench/longest.py 1000 > /tmp/longest
"""
import os
import sys
from random import Random

sys.dont_write_bytecode = True
sys.path.insert(0, os.path.join(os.path.dirname(os.path.abspath(__file__)), "..", "outside"))
from sheet_cases import longest_plant, sheet_bytes  # noqa: E402
from plant import encode  # noqa: E402

copies = int(sys.argv[1])
sheet = encode(longest_plant(Random(101))) + b"\0"
sys.stdout.buffer.write(copies.to_bytes(2, "big") + sheet_bytes(sheet) * copies)
