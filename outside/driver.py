"""What the run at scale shares: cases to `replay.c` and its answers back, and every
lent word held to the outside program's."""

import subprocess
import sys
from array import array
from collections import Counter
from struct import pack, unpack_from
from typing import NamedTuple

from cases import TYPES

BATCH = 100
TIME_MOST = 300  # seconds for a batch
SHOWN_MOST = 10
WIDTHS = {
    "sheet": 1,
    "codes": 8,
    "costs": 4,
    "products": 8,
    "values": 1,
    "queue": 8,
    "store": 8,
    "shown": 1,
    "conflict": 8,
    "result": 4,
    "sizes": 1,
    "value costs": 2,
    "counts": 1,
    "literals": 1,
    "numbers": 4,
    "written": 4,
}  # of a word of each buffer, in bytes


class Answer(NamedTuple):
    returned: int
    strays: int  # bytes around the buffers that changed
    buffers: dict  # the bytes of each by its name, in the call's order
    rules: frozenset = frozenset()  # how entries of the store went, of the outside lister's

    def words(self, name):
        return words_of(self.buffers[name], name)


# ---- the archive's answers -------------------------------------------------


def words_of(buffer, name):
    return array(TYPES[WIDTHS[name]], buffer).tolist()


def buffers_of(case):
    pairs = case.lent().items()
    return {name: array(TYPES[WIDTHS[name]], own).tobytes() for name, own in pairs}


def case_bytes(case):
    buffers = buffers_of(case)
    lengths = [len(own) // WIDTHS[name] for name, own in buffers.items()]
    head = (case.kind, *lengths, *case.numbers().values())
    return pack(f"={len(head)}Q", *head) + b"".join(buffers.values())


def take_answer(data, place, case):
    """The answer at this place and where it ends; None where it is cut off."""
    lengths = {name: len(own) for name, own in buffers_of(case).items()}
    end = place + 16 + sum(lengths.values())
    if end > len(data):
        return None, end
    returned, strays = unpack_from("=2Q", data, place)
    place += 16
    buffers = {}
    for name, length in lengths.items():
        buffers[name] = data[place : place + length]
        place += length
    return Answer(returned, strays, buffers), end


def replay(driver, names, cases):
    """The archive's answers."""
    stream = b"".join(map(case_bytes, cases))
    done = subprocess.run([driver], input=stream, stdout=subprocess.PIPE, timeout=TIME_MOST)
    answers, place = [], 0
    for name, case in zip(names, cases):
        answer, place = take_answer(done.stdout, place, case)
        if answer is None:
            sys.exit(f"scale: {name}: no answer, the driver ended with {done.returncode}")
        answers.append(answer)
    if place != len(done.stdout) or done.returncode:
        sys.exit(f"scale: after {names[-1]}: the driver ended with {done.returncode}")
    return answers


# ---- comparing -------------------------------------------------------------


def differences(got, want):
    if got.returned != want.returned:
        yield f"returned {got.returned}, wanted {want.returned}"
    if got.strays:
        yield f"{got.strays} bytes around the buffers changed"
    for name, own in got.buffers.items():
        if own != want.buffers[name]:
            pairs = enumerate(zip(got.words(name), want.words(name)))
            place, (is_, was) = next((p, pair) for p, pair in pairs if pair[0] != pair[1])
            yield f"{name}[{place}] is {is_:#x}, wanted {was:#x}"


def in_words(counter):
    return ", ".join(f"{name} {counter[name]}" for name in sorted(counter)) or "none"


class Tally:
    """Counts of what was compared, and of what differed."""

    def __init__(self):
        self.counts = Counter()
        self.refusals = Counter()

    def complain(self, name, what, case):
        self.counts["differences"] += 1
        if self.counts["differences"] > SHOWN_MOST:
            return
        words = {name: len(own) for name, own in case.lent().items()}
        numbers = {name: f"{number:#x}" for name, number in case.numbers().items()}
        print(f"scale: {name}: {what}")
        print(f"  sheet {case.sheet.hex()}")
        print(f"  {in_words(numbers)}; lengths: {in_words(words)}")

    def count(self, case, want):
        self.counts["cases"] += 1
        self.counts["damaged"] += case.damaged
        lent = case.lent()
        self.counts["words"] += sum(map(len, lent.values())) - len(case.sheet)
        if want.returned:
            self.refusals[want.returned] += 1
            return
        self.counts["damaged and read"] += case.damaged
        self.count_run(case, want)

    def check(self, name, case, got, want):
        """Every lent word against the outside program's, then by brute force."""
        self.count(case, want)
        found = list(differences(got, want))
        if not found and not got.returned:
            found += self.check_run(case, got)
        for what in found:
            self.complain(name, what, case)


def run_batch(driver, names, pairs, tally):
    """Cases with what is wanted of each; the archive's answers."""
    if not pairs:
        return []
    answers = replay(driver, names, [case for case, _ in pairs])
    for name, (case, want), got in zip(names, pairs, answers):
        tally.check(name, case, got, want)
    return answers


def batches(numbers):
    for first in range(numbers.start, numbers.stop, BATCH):
        yield range(first, min(first + BATCH, numbers.stop))
