"""Fixed cases for a gate: `vectors.py sheets|tests|listings|tables stdin|stdout`.

The stdin stream is binary, all integers big-endian; the stdout stream is what
a right program answers, one line per case. README.md has the formats.
"""

import sys

from listing_cases import listing_cases, run_bytes, run_line
from sheet_cases import sheet_bytes, sheet_cases, sheet_line
from table_cases import table_cases, writing_bytes, writing_line
from test_cases import call_bytes, call_line, test_cases

STREAMS = {
    "sheets": (sheet_cases, sheet_bytes, sheet_line),
    "tests": (test_cases, call_bytes, call_line),
    "listings": (listing_cases, run_bytes, run_line),
    "tables": (table_cases, writing_bytes, writing_line),
}


def main(arguments):
    if len(arguments) != 2 or arguments[0] not in STREAMS:
        sys.exit("usage: vectors.py sheets|tests|listings|tables stdin|stdout")
    make, to_bytes, to_line = STREAMS[arguments[0]]
    cases = make()
    if arguments[1] == "stdin":
        stream = len(cases).to_bytes(2, "big") + b"".join(map(to_bytes, cases))
    elif arguments[1] == "stdout":
        stream = "".join(to_line(case) + "\n" for case in cases).encode()
    else:
        sys.exit("the second word is stdin or stdout")
    sys.stdout.buffer.write(stream)


if __name__ == "__main__":
    main(sys.argv[1:])
