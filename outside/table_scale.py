"""Tables at scale: written to sheets and read from sheets by the archive against the
outside program, and what the one call gave handed back to the other."""

from collections import Counter
from random import Random
from typing import NamedTuple

from cases import DAMAGE, READ, WRITE, any_plant, either_plant, junk
from driver import SHOWN_MOST, Answer, Tally, batches, buffers_of, in_words, run_batch
from listing_cases import listing_cases
from plant import Refusal, encode
from sheet_cases import sheet_cases
from table_cases import LENT, any_room, damaged_tables, mended, table_cases
from tables import LITERAL_BYTES, Tables, read_tables, tables_of, write_into
from test_cases import test_cases


def four_tables(tables):
    """By the names that the driver knows."""
    return dict(zip(("sizes", "value costs", "counts", "literals"), tables[3:]))


class WriteCase(NamedTuple):
    """Tables to be written; the buffer and the word for the number written as lent."""

    tables: Tables
    sheet: bytes
    written: list
    damaged: bool = False

    kind = WRITE

    def numbers(self):
        return dict(zip(Tables._fields, self.tables[:3]))

    def lent(self):
        return {**four_tables(self.tables), "sheet": self.sheet, "written": self.written}


class ReadCase(NamedTuple):
    """A sheet to be read; the tables and the three words for the numbers as lent."""

    sheet: bytes
    tables: Tables
    damaged: bool = False

    kind = READ

    def numbers(self):
        return {}

    def lent(self):
        numbers = list(self.tables[:3])
        return {"sheet": self.sheet, **four_tables(self.tables), "numbers": numbers}


# ---- the outside program's answers -----------------------------------------


def put_in(tables, lent):
    """The lent tables, beginning with these."""
    pairs = zip(tables[3:], lent[3:])
    return Tables(*tables[:3], *(front + own[len(front) :] for front, own in pairs))


def wanted(case):
    after = case
    try:
        if case.kind == WRITE:
            buffer = bytearray(case.sheet)
            written = write_into(case.tables, buffer)
            after = case._replace(sheet=bytes(buffer), written=[written])
        else:
            after = case._replace(tables=put_in(read_tables(case.sheet), case.tables))
    except Refusal as refusal:
        return Answer(refusal.number, 0, buffers_of(case))
    return Answer(0, 0, buffers_of(after))


# ---- there and back --------------------------------------------------------


def written_of(answer):
    return answer.buffers["sheet"][: answer.words("written")[0]]


def tables_read(answer):
    """The tables at the front of the lent ones, as long as the numbers say."""
    decisions, states, clauses = answer.words("numbers")
    sizes = answer.buffers["sizes"][: decisions + states]
    costs = tuple(answer.words("value costs")[: sum(sizes[:decisions])])
    counts = answer.buffers["counts"][:clauses]
    literals = answer.buffers["literals"][: LITERAL_BYTES * sum(counts)]
    return Tables(decisions, states, clauses, sizes, costs, counts, literals)


def way_back(rng, case, answer):
    """What was written, to be read; what was read, to be written."""
    if case.kind == WRITE:
        return ReadCase(written_of(answer), junk_tables(rng))
    room = len(case.sheet) + rng.choice([0, 0, 1, 5])
    return WriteCase(tables_read(answer), bytes(junk(rng, room, 1)), junk(rng, 1, 4))


def returns(case, answer):
    """Whether the answer to the way back is what the case began with."""
    if answer.returned:
        return False
    if case.kind == WRITE:
        return tables_read(answer) == case.tables
    return written_of(answer) == case.sheet


class TableTally(Tally):
    """Of tables written and read; the answers to each kind of call, 0 or a refusal."""

    def __init__(self):
        super().__init__()
        self.answers = {WRITE: Counter(), READ: Counter()}

    def complain(self, name, what, case):
        super().complain(name, what, case)
        if self.counts["differences"] <= SHOWN_MOST and case.kind == WRITE:
            print(f"  {case.tables}")

    def count(self, case, want):
        self.counts["cases"] += 1
        self.counts["damaged"] += case.damaged
        self.counts["damaged and right"] += case.damaged and not want.returned
        self.counts["words"] += sum(map(len, case.lent().values()))
        self.counts["longest"] = max(self.counts["longest"], len(case.sheet))
        self.answers[case.kind][want.returned] += 1

    def check_run(self, case, got):
        return []

    def hold_back(self, name, case, answer):
        self.counts["back"] += 1
        if not returns(case, answer):
            self.complain(name, "the way back does not return what was given", case)


def run_there_and_back(driver, names, cases, tally):
    pairs = [(case, wanted(case)) for case in cases]
    answers = run_batch(driver, names, pairs, tally)
    done = [one for one in zip(names, cases, answers) if not one[2].returned]
    names = [f"{name}, the way back" for name, _, _ in done]
    cases = [way_back(Random(name), case, got) for name, case, got in done]
    answers = run_batch(driver, names, [(case, wanted(case)) for case in cases], tally)
    for name, (_, case, _), answer in zip(names, done, answers):
        tally.hold_back(name, case, answer)


# ---- random cases, and those of the vectors --------------------------------


def junk_tables(rng):
    sizes, costs, counts, literals = (junk(rng, *lent) for lent in zip(LENT, (1, 2, 1, 1)))
    tables = bytes(sizes), tuple(costs), bytes(counts), bytes(literals)
    return Tables(*junk(rng, 3, 4), *tables)


def wrapped(rng, tables):
    """Numbers that agree with the sizes only where their sum wraps."""
    more = rng.randrange(1, 40)
    return tables._replace(decisions=2**32 - more, states=len(tables.sizes) + more)


def lengthened(rng, tables):
    """A table that is too long by what 8 or 16 bits leave out."""
    name = rng.choice(["sizes", "costs", "counts", "literals"])
    own = getattr(tables, name)
    more = rng.choice([256, 65_536])
    return tables._replace(**{name: own + type(own)([1]) * more})


def heavy(rng, tables):
    """Clauses of 255 literals: more bytes than 16 bits count."""
    counts = bytes([255]) * rng.choice([1, 90, 300])
    whole = mended(tables._replace(clauses=len(counts), counts=counts))
    return rng.choice([whole, whole._replace(literals=whole.literals[65_536:])])


def spoilt_tables(rng, tables):
    rare = [wrapped, lengthened, heavy]
    kinds = rare + [damaged_tables] * 17
    return rng.choice(kinds)(rng, tables)


def any_write(rng):
    tables = tables_of(any_plant(rng))
    damaged = rng.random() < 0.4
    tables = spoilt_tables(rng, tables) if damaged else tables
    room = any_room(rng, tables)
    return WriteCase(tables, bytes(junk(rng, room, 1)), junk(rng, 1, 4), damaged)


def any_read(rng):
    make = either_plant if rng.random() < 0.1 else any_plant
    plant = make(rng)
    damaged = rng.random() < 0.3
    sheet = rng.choice(DAMAGE)(rng, plant) if damaged else encode(plant)
    return ReadCase(sheet, junk_tables(rng), damaged)


def table_at(seed, number):
    rng = Random(f"{seed} table {number}")
    return rng.choice([any_write, any_read])(rng)


def stored_cases():
    """The tables and the sheets of the vectors."""
    rng = Random(1)
    for writing in table_cases():
        buffer = bytes([writing.fill]) * writing.room
        yield WriteCase(writing.tables, buffer, junk(rng, 1, 4))
    sheets = sheet_cases() + [case.sheet for case in listing_cases() + test_cases()]
    for sheet in dict.fromkeys(sheets):
        yield ReadCase(sheet, junk_tables(rng))


def run_stored(driver, tally):
    cases = list(stored_cases())
    for batch in batches(range(len(cases))):
        names = [f"stored table or sheet {number}" for number in batch]
        run_there_and_back(driver, names, [cases[number] for number in batch], tally)


def run_tables(driver, seed, numbers, tally):
    for batch in batches(numbers):
        names = [f"seed {seed}, table {number}" for number in batch]
        run_there_and_back(driver, names, [table_at(seed, number) for number in batch], tally)


def report_tables(tally):
    c = tally.counts
    print(
        f"scale: {c['cases']} tables written and sheets read, {c['damaged']} of them damaged "
        f"({c['damaged and right']} of these right), {c['words']} lent words compared; "
        f"the longest buffer or sheet {c['longest']}\n"
        f"scale: tables, done 0 or refused: {in_words(tally.answers[WRITE])}; "
        f"sheets: {in_words(tally.answers[READ])}\n"
        f"scale: {c['back']} ways back return what was given\n"
        f"scale: {c['differences']} differences"
    )
