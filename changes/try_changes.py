"""Which small changes of the model does a row of its tables notice?

    python3 changes/try_changes.py [-j LANES] [--only TEXT]
    python3 changes/try_changes.py --places

Each change is made by itself in a copy of crates/model, and `rt check` there says: 'noticed' where a row of the tables
fails, 'NOT NOTICED' where all is proved, 'BROKEN' where the changed definitions themselves are refused, so that the change
says nothing. A change that means the same is 'equivalent', with the reason. TEXT chooses the changes whose name has it, or
those of a file. With --places nothing is proved: each change has to have its places in the model, and a name of its own.
"""

import argparse
import re
import shutil
import subprocess
import sys
import tempfile
from concurrent.futures import ThreadPoolExecutor
from pathlib import Path
from queue import Queue

import call_changes  # noqa: F401  each module adds to CHANGES
import listing_changes  # noqa: F401
import search_changes  # noqa: F401
import sheet_changes  # noqa: F401
import table_changes  # noqa: F401
import text_changes  # noqa: F401
from change import CHANGES, changed

MODEL = Path(__file__).resolve().parent.parent / "crates" / "model"
MEANING = {file for _, file, _ in CHANGES}
EQUIVALENT = {
    "bit: beyond the end is 1": "`field` reads no bit beyond the end, and filler ends with its byte",
    "either: edition 2 where the first byte is not 1": "a first byte other than 1 and 2 gets 6 from either edition, and no byte 5",
    "either: an empty sheet is of edition 2": "an empty sheet gets 5 from either edition",
}


def verdict_of(output, proved):
    """What `rt check` said of a change, and where."""
    errors = re.findall(r"\b(specs|proofs)/(\w+)\.antt:(\d+):\d+: error: `([^`]*)`: (.*)", output)
    if proved and "logic=proved" in output:
        return "NOT NOTICED", ""
    if not errors:
        return "BROKEN", output[-200:]
    for part, file, line, what, why in errors:
        if part == "specs" and file in MEANING or "not in scope" in why or "no field" in why:
            return "BROKEN", f"{part}/{file}:{line} {what}: {why[:160]}"
    return "noticed", ", ".join(dict.fromkeys(f"{file}.{what}" for _, file, _, what, _ in errors))


def prove(lane):
    done = subprocess.run(["rt", "check"], cwd=lane / "crates" / "model", capture_output=True, text=True)
    return verdict_of(done.stdout + done.stderr, done.returncode == 0)


def new_lane(folder, number):
    """A copy of the model alone, proved once so that a change proves only what it touches."""
    lane = Path(folder) / str(number)
    shutil.copytree(MODEL, lane / "crates" / "model", ignore=shutil.ignore_patterns("must-fail", "out"))
    (lane / "crates.txt").write_text("model:\n")
    if prove(lane)[0] != "NOT NOTICED":
        sys.exit("the model itself is not proved")
    return lane


def try_one(lanes, change):
    name, file, pairs = change
    lane = lanes.get()
    path = lane / "crates" / "model" / "specs" / f"{file}.antt"
    before = path.read_text()
    try:
        path.write_text(changed(before, pairs, name))
        verdict, where = prove(lane)
    finally:
        path.write_text(before)
        lanes.put(lane)
    if verdict == "NOT NOTICED" and name in EQUIVALENT:
        verdict, where = "equivalent", EQUIVALENT[name]
    return verdict, file, name, where


def check_places():
    names = [name for name, _, _ in CHANGES]
    twice = {name for name in names if names.count(name) > 1}
    if twice:
        sys.exit(f"two changes of one name: {sorted(twice)}")
    for name, file, pairs in CHANGES:
        changed((MODEL / "specs" / f"{file}.antt").read_text(), pairs, name)
    print(f"changes: {len(CHANGES)}, each with its places in the model")


def main():
    parser = argparse.ArgumentParser()
    parser.add_argument("-j", type=int, default=2)
    parser.add_argument("--only", default="")
    parser.add_argument("--places", action="store_true")
    options = parser.parse_args()
    if options.places:
        check_places()
        return
    chosen = [c for c in CHANGES if options.only in c[0] or options.only == c[1]]
    tally = {}
    with tempfile.TemporaryDirectory() as folder, ThreadPoolExecutor(options.j) as pool:
        lanes = Queue()
        for number in range(options.j):
            lanes.put(new_lane(folder, number))
        for verdict, file, name, where in pool.map(lambda c: try_one(lanes, c), chosen):
            tally.setdefault(verdict, []).append(name)
            print(f"{verdict:12} {file:12} {name}: {where}", flush=True)
    print(", ".join(f"{len(names)} {verdict}" for verdict, names in sorted(tally.items())))
    sys.exit(1 if tally.keys() - {"noticed", "equivalent"} else 0)


if __name__ == "__main__":
    main()
