"""Plants as text with names, and as sheets.

    python3 examples/plant_text.py list FILE.plant [-k STATES] [--limit TRIALS] [-v]
    python3 examples/plant_text.py sheet FILE.plant -o FILE.sheet
    python3 examples/plant_text.py text FILE.sheet -o FILE.plant
    python3 examples/plant_text.py tables FILE.plant
    python3 examples/plant_text.py names FILE.plant < FILE.list
    python3 examples/plant_text.py check FILE.plant ...

`list` lists the leading states of a text: it makes the sheet, runs the host
program over it and names what that prints. `sheet` writes the sheet of a text.
`text` writes a text of a sheet, with made-up names (p0, h0, s0). `tables` prints
the tables of a text with costs as leading_tables takes them. `names` reads what the
host or the program `leading` printed, names in each line the parts that are not in
their first state, below it the values of the hidden variables where the host was asked
for them (-v), and says in words what the ending means, and the conflicts. `check` holds
FILE.sheet to FILE.plant, and takes both there and back. A text has costs or weights;
the sheet is of edition 1 or 2. README.md says what a text looks like.

Bytes are packed and read by outside/plant.py, which shares nothing with the
proved library. Python 3, standard library only.
"""

import argparse
import codecs
import re
import subprocess
import sys
import textwrap
from math import prod
from pathlib import Path

ROOT = Path(__file__).resolve().parent.parent
sys.dont_write_bytecode = True
sys.path.insert(0, str(ROOT / "outside"))

from plant import (  # noqa: E402
    CLAUSES_MOST,
    FIRST,
    SECOND,
    STATES_MOST,
    Literal,
    Plant,
    Refusal,
    encode,
    read_either,
)

COMMANDS = ("list", "sheet", "text", "tables", "names", "check")
VALUES_MOST = 16
LITERALS_MOST = 15
WEIGHT_WHOLE = 256
NAME = re.compile(r"[A-Za-z][A-Za-z0-9_-]*")
LITERAL = re.compile(r"(\S+?)\s*(!=|=)\s*(\S+)")
RESERVED = ("part", "hidden", "or", "never")
HOST = ROOT / "target" / "host" / "leading_host"
TEXT_MOST = 1 << 22  # bytes
LINE_MOST = 10_000  # characters
SHOWN_MOST = 60  # characters of the text in a message
MARKS = (codecs.BOM_UTF8, codecs.BOM_UTF16_LE, codecs.BOM_UTF16_BE)
NOT_IN_TEXT = re.compile(rb"[\x00-\x08\x0b\x0c\x0e-\x1f\x7f]")
SHEET_BEGINS = (b"\x01", b"\x02")
LISTED = re.compile(r"([0-9]+) ([0-9]{1,20}) ([0-9a-f]{16})(?: (.+))?")
ENDED = re.compile(r"(all|enough|full|spent) ([0-9]+) tested .*")
SHOWN = re.compile(r"hidden ([0-9]+)((?: [0-9]{1,10})*)")
CONFLICT = re.compile(r"conflict ([0-9a-f]{16}) ([0-9a-f]{16})")
ANOTHER = "is this the list of another plant?"
HIDDEN = "  hidden: "
WIDTH = 80  # of the lines of hidden values

# What an ending means to an instructor.
ENDINGS = {
    "all": "no other explanation",
    "enough": "there may be more: these are as many as were asked for",
    "full": "there may be more: the queue was too short",
    "spent": "there may be more: the limit struck",
}

# What people write in a clause, and what to write.
HINTS = (
    (r"(^|\s)(OR|Or)(\s|$)|\|", "write 'or' in small letters"),
    (r"(^|\s)(?i:and)(\s|$)|&", "for 'and' write a line each: all lines have to hold"),
    (r"==", "write '=' for equal"),
    (r"[-=]>", "for 'a = x -> b = y' write 'a != x or b = y'"),
)


class TextError(Exception):
    """What cannot be written as a sheet, or named."""


class Reader:
    """A text read line by line: names are declared above their use."""

    def __init__(self):
        self.edition = FIRST
        self.parts = {}  # name to the costs, or weights, of its states by name
        self.hidden = {}  # name to its values' names
        self.clauses = []  # literals as (name, sign, value)

    def line(self, text):
        text = text.split("#", 1)[0].strip()
        word, rest = (text.split(None, 1) + ["", ""])[:2]
        if text == "weights":
            self.weigh()
        elif word == "part":
            self.part(*declared(rest))
        elif word == "hidden":
            self.hide(*declared(rest))
        elif text:
            self.clause(text)

    def weigh(self):
        if self.parts:
            raise TextError("'weights' stands above the first part")
        self.edition = SECOND

    def part(self, name, items):
        kind = "parts with weights" if self.edition == SECOND else "parts"
        self.declare(name, self.parts, self.edition.decisions_most, kind)
        states = [state_and_figure(item, self.edition) for item in items]
        self.parts[name] = dict(zip(distinct([s for s, _ in states]), (c for _, c in states)))

    def hide(self, name, items):
        self.declare(name, self.hidden, STATES_MOST, "hidden variables")
        self.hidden[name] = distinct([checked_name(item) for item in items])

    def declare(self, name, among, most, kind):
        if name in self.parts or name in self.hidden:
            raise TextError(f"'{short(name)}' is declared twice")
        if len(among) == most:
            raise TextError(f"more than {most} {kind}")

    def clause(self, text):
        if len(self.clauses) == CLAUSES_MOST:
            raise TextError(f"more than {CLAUSES_MOST} clauses")
        items = [] if text == "never" else re.split(r"\s+or\s+", text)
        if len(items) > LITERALS_MOST:
            raise TextError(f"more than {LITERALS_MOST} literals in a clause")
        self.clauses.append([self.literal(item) for item in items])

    def literal(self, item):
        match = LITERAL.fullmatch(item)
        if not match:
            expected = "expected 'name = state' or 'name != state'"
            raise TextError(f"{expected}, found '{short(item)}'{hints(item)}")
        name, sign, state = match.groups()
        states = self.parts.get(name) or self.hidden.get(name)
        if states is None:
            raise TextError(f"no part or hidden variable '{short(name)}' above{hints(item)}")
        if state not in states:
            only = f"only {', '.join(states)}"
            raise TextError(f"'{name}' has no state '{short(state)}', {only}{hints(item)}")
        return name, int(sign == "!="), list(states).index(state)

    def plant(self):
        if not self.parts:
            raise TextError("no part")
        numbers = {name: n for n, name in enumerate([*self.parts, *self.hidden])}
        costs = tuple(tuple(states.values()) for states in self.parts.values())
        sizes = tuple(len(values) for values in self.hidden.values())
        clauses = tuple(
            tuple(Literal(numbers[name], sign, value) for name, sign, value in clause)
            for clause in self.clauses
        )
        return Plant(costs, sizes, clauses, self.edition)


def short(text):
    return text if len(text) <= SHOWN_MOST else text[:SHOWN_MOST] + ".."


def hints(item):
    return "".join(f"; {hint}" for pattern, hint in HINTS if re.search(pattern, item))


def checked_name(word):
    if not NAME.fullmatch(word) or word in RESERVED:
        raise TextError(f"'{short(word)}' is not a name")
    return word


def distinct(names):
    for place, name in enumerate(names):
        if name in names[:place]:
            raise TextError(f"state '{short(name)}' is named twice")
    return names


def declared(text):
    """The name and the items of 'NAME: ITEM, ITEM, ..'."""
    name, colon, items = text.partition(":")
    if not colon:
        raise TextError("expected ':' after the name")
    items = [item.strip() for item in items.split(",")]
    if len(items) > VALUES_MOST:
        raise TextError(f"more than {VALUES_MOST} states")
    return checked_name(name.strip()), items


def state_and_figure(item, edition):
    """A state's name, and its cost or weight."""
    words, kind = item.split(), edition.figure
    if len(words) != 2 or not re.fullmatch("[0-9]+", words[1]):
        raise TextError(f"expected a state and its {kind}, found '{short(item)}'")
    most = (1 << edition.width) - 1
    digits = words[1].lstrip("0") or "0"
    if len(digits) > len(str(most)) or int(digits) > most:
        raise TextError(f"{kind} {short(words[1])} is above {most}")
    if int(digits) < edition.least:
        cure = "leave out a state that never comes"
        raise TextError(f"{kind} {short(words[1])} is below {edition.least}; {cure}")
    return checked_name(words[0]), int(digits)


def decoded(data, source):
    """The text of these bytes, or plainly why they are none."""
    if data.startswith(MARKS):
        raise TextError(f"{source}: begins with a byte order mark; save it as UTF-8 without one")
    if len(data) > TEXT_MOST:
        raise TextError(f"{source}: longer than {TEXT_MOST:,} bytes, too long for a text")
    found = NOT_IN_TEXT.search(data)
    place = found.start() if found else len(data)
    try:
        text = data[:place].decode("utf-8")
    except UnicodeDecodeError as error:
        place = error.start
    if place < len(data):
        line = data.count(b"\n", 0, place) + 1
        sheet = "; if it is a sheet, 'text' writes its text" if data[:1] in SHEET_BEGINS else ""
        raise TextError(f"{source}:{line}: not a text: it has the byte {data[place]:#04x}{sheet}")
    return text


def read_bytes(path):
    """Of a file, also of one without end, a byte more than any text or sheet has."""
    with open(path, "rb") as file:
        return file.read(TEXT_MOST + 1)


def read_text(path):
    return decoded(read_bytes(path), path)


def parse(text, source="text"):
    """The reader of a whole text; an error says where."""
    reader = Reader()
    lines = text.splitlines()
    try:
        for number, line in enumerate(lines, 1):
            if len(line) > LINE_MOST:
                raise TextError(f"a line of {len(line):,} characters; {LINE_MOST:,} is the most")
            reader.line(line)
        number = max(len(lines), 1)
        reader.plant()
    except TextError as error:
        raise TextError(f"{source}:{number}: {error}") from None
    return reader


def to_sheet(text, source="text"):
    return encode(parse(text, source).plant())


def to_text(sheet):
    """A text of the sheet, with names made up."""
    plant = read_either(sheet)
    lines = ["weights"] if plant.edition == SECOND else []
    names = [f"p{n}" for n in range(plant.decisions)]
    names += [f"h{n}" for n in range(len(plant.state_sizes))]
    for name, costs in zip(names, plant.costs):
        states = ", ".join(f"s{n} {cost}" for n, cost in enumerate(costs))
        lines.append(f"part {name}: {states}")
    for name, size in zip(names[plant.decisions :], plant.state_sizes):
        lines.append(f"hidden {name}: " + ", ".join(f"s{n}" for n in range(size)))
    for clause in plant.clauses:
        literals = (f"{names[v]} {'!=' if sign else '='} s{value}" for v, sign, value in clause)
        lines.append(" or ".join(literals) or "never")
    return "\n".join(lines) + "\n"


def chosen(parts, code, mask):
    """The states that the code gives to the mask's parts, each as the part's name,
    the state's name, its number and its cost or weight; an error where the plant has
    none such."""
    if mask << len(parts) & (1 << 64) - 1 or code << 4 * len(parts) & (1 << 64) - 1:
        raise TextError(f"a part beyond the {len(parts)} of this plant; {ANOTHER}")
    found = []
    for place, (name, states) in enumerate(parts.items()):
        value = code >> (60 - 4 * place) & 15
        if value >= len(states):
            raise TextError(f"state {value} of '{name}', which has {len(states)}; {ANOTHER}")
        if mask >> (63 - place) & 1:
            found.append((name, list(states)[value], value, list(states.values())[value]))
    return found


def in_words(conflict):
    words = [f"{name} {state}" for name, state, _, _ in conflict]
    if not words:
        return "no state fits"
    if len(words) == 1:
        return f"{words[0]}: impossible"
    return f"{', '.join(words[:-1])} and {words[-1]}: not together"


def with_meaning(line, ending, listed):
    """The line of the ending and the counts, then what the ending means."""
    return f"{line}\n{'no explanation' if ending == 'all' and not listed else ENDINGS[ending]}"


def rounded(number, divisor):
    """Their quotient to the nearest whole number; what lies halfway goes up."""
    return (2 * number + divisor) // (2 * divisor)


def chance_text(product, parts):
    """The chance in a form that people read, to three significant digits: as a
    percentage where that comes to 1.00% or more, otherwise as one in so many."""
    whole = WEIGHT_WHOLE**parts
    tenths, hundredths = rounded(1000 * product, whole), rounded(10_000 * product, whole)
    if hundredths >= 1000:
        return f"{tenths // 10}.{tenths % 10}%"
    if hundredths >= 100:
        return f"{hundredths // 100}.{hundredths % 100:02}%"
    unit = 1
    while whole >= 1000 * unit * product:
        unit *= 10
    return f"1 in {unit * rounded(whole, unit * product):,}"


def by_cost(costs, cost, chance):
    """What stands for the state in its line: its cost, which is held to the plant's."""
    own = sum(costs)
    if cost != own:
        raise TextError(f"a state that costs {cost}, and {own} in this plant; {ANOTHER}")
    if chance:
        raise TextError(f"a chance, {short(chance)}, and costs in this plant; {ANOTHER}")
    return f"{own}"


def by_product(weights, product, chance):
    """Its product and its chance, which are held to the plant's."""
    own = prod(weights)
    if product != own:
        raise TextError(f"a state of product {product}, and {own} in this plant; {ANOTHER}")
    likely = chance_text(own, len(weights))
    if chance != likely:
        found = f"the chance {short(chance)}" if chance else "no chance"
        raise TextError(f"{found} beside a product, and {likely} in this plant; {ANOTHER}")
    return f"{own} ({likely})"


def named_state(match, reader):
    every = (1 << 64) - (1 << (64 - len(reader.parts)))
    states = chosen(reader.parts, int(match[3], 16), every)
    figures = by_product if reader.edition == SECOND else by_cost
    figure = figures([figure for _, _, _, figure in states], int(match[2]), match[4])
    words = [f"{name}={state}" for name, state, value, _ in states if value]
    return f"{match[1]} {figure} {' '.join(words) or 'all in their first state'}"


def named(line, reader):
    """A line of a list with its code in names, that of the ending with its meaning, a
    conflict in words; other lines as they are."""
    ended = ENDED.fullmatch(line)
    if ended:
        return with_meaning(line, ended[1], int(ended[2]))
    conflict = CONFLICT.fullmatch(line)
    if conflict:
        return in_words(chosen(reader.parts, int(conflict[2], 16), int(conflict[1], 16)))
    state = LISTED.fullmatch(line)
    return named_state(state, reader) if state else line


def hidden_lines(hidden, numbers):
    """The hidden values in names; an error where the plant has none such."""
    if len(numbers) != len(hidden):
        count = f"{len(numbers)} hidden values, and {len(hidden)} in this plant"
        raise TextError(f"{count}; {ANOTHER}")
    words = []
    for (name, values), number in zip(hidden.items(), numbers):
        if number >= len(values):
            raise TextError(f"value {number} of '{name}', which has {len(values)}; {ANOTHER}")
        words.append(f"{name}={values[number]}")
    wraps = {"break_long_words": False, "break_on_hyphens": False}
    indents = {"initial_indent": HIDDEN, "subsequent_indent": " " * len(HIDDEN)}
    return textwrap.fill(" ".join(words) or "nothing", WIDTH, **indents, **wraps)


def every_clause_holds(reader, code, numbers):
    """With the parts' states by the code, and the hidden values of these numbers."""
    values = {name: code >> (60 - 4 * place) & 15 for place, name in enumerate(reader.parts)}
    values.update(zip(reader.hidden, numbers))
    return all(
        any((values[name] == value) != bool(sign) for name, sign, value in clause)
        for clause in reader.clauses
    )


class Naming:
    """A list put into names line by line. Hidden values come behind the list, and go
    right below their state."""

    def __init__(self, reader):
        self.reader = reader
        self.lines = []
        self.states = {}  # rank of a state to its code and its place among the lines

    def line(self, text):
        values = SHOWN.fullmatch(text)
        if values:
            self.show(values[1], [int(word) for word in values[2].split()])
            return
        state = LISTED.fullmatch(text)
        if state:
            self.states[state[1]] = int(state[3], 16), len(self.lines)
        self.lines.append(named(text, self.reader))

    def show(self, rank, numbers):
        if rank not in self.states:
            where = "which is not listed above, or has some already"
            raise TextError(f"hidden values of state {short(rank)}, {where}")
        code, place = self.states.pop(rank)
        below = hidden_lines(self.reader.hidden, numbers)
        if not every_clause_holds(self.reader, code, numbers):
            raise TextError(f"hidden values that break a clause of this plant; {ANOTHER}")
        self.lines[place] += f"\n{below}"


def print_named(text, reader, source):
    naming = Naming(reader)
    for number, line in enumerate(text.splitlines(), 1):
        try:
            naming.line(line)
        except TextError as error:
            raise TextError(f"{source}:{number}: {error}") from None
    for line in naming.lines:
        print(line)


def list_states(path, host, words):
    """The named list of a text by the host program; its exit status."""
    reader = parse(read_text(path), path)
    command = [str(host), "-c", "-k", str(words.k), "-l", str(words.limit)]
    command += ["-v"] if words.hidden else []
    try:
        done = subprocess.run(command, input=encode(reader.plant()), stdout=subprocess.PIPE)
    except OSError as error:
        cure = "'make host' makes it, and --host says where it is"
        raise TextError(f"{host}: no host program ({error.strerror}); {cure}") from None
    print_named(decoded(done.stdout, host), reader, host)
    return done.returncode


def to_tables(plant):
    """The plant's numbers and tables, a line each."""
    lines = {
        "numbers": [plant.decisions, len(plant.state_sizes), len(plant.clauses)],
        "sizes": [*map(len, plant.costs), *plant.state_sizes],
        "costs": [cost for row in plant.costs for cost in row],
        "counts": [len(clause) for clause in plant.clauses],
        "literals": [number for clause in plant.clauses for literal in clause for number in literal],
    }
    return "".join(" ".join(map(str, [word, *numbers])) + "\n" for word, numbers in lines.items())


def tables_of(path):
    plant = parse(read_text(path), path).plant()
    if plant.edition == SECOND:
        raise TextError(f"{path}: has weights; tables hold costs, of edition 1")
    return to_tables(plant)


def check(path):
    """The stored sheet is the text's, and both survive the way there and back."""
    text = read_text(path)
    sheet = read_bytes(path.with_suffix(".sheet"))
    if to_sheet(text, path) != sheet:
        raise TextError(f"{path}: its sheet is another one")
    again = to_text(sheet)
    if to_sheet(again) != sheet or to_text(to_sheet(again)) != again:
        raise TextError(f"{path}: the way there and back gives another sheet")


def write(data, path):
    """To the file, or to standard output: only what is whole, so that an error
    leaves no empty file."""
    if path:
        path.write_bytes(data)
    else:
        sys.stdout.buffer.write(data)


def run(words):
    first = words.files[0]
    if words.command == "list":
        return list_states(first, words.host, words)
    if words.command == "sheet":
        write(to_sheet(read_text(first), first), words.output)
    elif words.command == "text":
        write(to_text(read_bytes(first)).encode(), words.output)
    elif words.command == "tables":
        write(tables_of(first).encode(), None)
    elif words.command == "names":
        reader = parse(read_text(first), first)
        lines = decoded(sys.stdin.buffer.read(TEXT_MOST + 1), "standard input")
        print_named(lines, reader, "standard input")
    else:
        for path in words.files:
            check(path)
        print(f"plant_text: {len(words.files)} texts and their sheets, there and back")
    return 0


def arguments(words):
    layout = argparse.RawDescriptionHelpFormatter
    parser = argparse.ArgumentParser("plant_text.py", description=__doc__, formatter_class=layout)
    commands = parser.add_subparsers(dest="command", required=True)
    of = {name: commands.add_parser(name) for name in COMMANDS}
    for name, command in of.items():
        many = "+" if name == "check" else 1
        command.add_argument("files", type=Path, metavar="FILE", nargs=many)
    for name in ("sheet", "text"):
        of[name].add_argument("-o", dest="output", type=Path, metavar="FILE", help="write there")
    listing = of["list"].add_argument
    listing("-k", type=int, default=16, metavar="STATES", help="to list at most (16)")
    listing("--limit", type=int, default=1_000_000, metavar="TRIALS", help="at most (1000000)")
    listing("-v", dest="hidden", action="store_true", help="show hidden values too")
    listing("--host", default=HOST, metavar="PROGRAM", help="(target/host/leading_host)")
    return parser.parse_args(words)


def main(words):
    words = arguments(words)
    try:
        return run(words)
    except TextError as error:
        return str(error)
    except OSError as error:
        return f"{error.filename or 'standard output'}: {error.strerror}"
    except Refusal as refusal:
        hint = "" if NOT_IN_TEXT.search(read_bytes(words.files[0])) else "; this looks like text already"
        return f"{words.files[0]}: not a sheet: {refusal}{hint}"


if __name__ == "__main__":
    sys.exit(main(sys.argv[1:]))
