"""What plant_text.py writes, and where it says that something cannot be written."""

import contextlib
import io
import itertools
import sys
import tempfile
import unittest
from math import prod
from pathlib import Path

sys.dont_write_bytecode = True

from plant_text import (  # noqa: E402
    TextError,
    chance_text,
    decoded,
    main,
    named,
    parse,
    print_named,
    to_sheet,
    to_text,
)
from plant import read_either  # noqa: E402
import listing  # noqa: E402
import search  # noqa: E402

EXAMPLES = Path(__file__).resolve().parent
OTHER = "is this the list of another plant?"
TOP = "part lever: ahead 0, idle 3\nhidden shaft: still, turning\n"
WEIGHED = "weights\npart lever: ahead 240, idle 16\n"
EXPECTED = "expected 'name = state' or 'name != state'"
NEVER_COMES = "leave out a state that never comes"
NINE_PARTS = "\n".join(f"part p{n}: s 1" for n in range(9))

# A text, and the line and the message of its error.
ERRORS = [
    ("", "1: no part"),
    ("# nothing\nhidden shaft: still\n", "2: no part"),
    ("part lever ahead 0\n", "1: expected ':' after the name"),
    ("part 2nd: ahead 0\n", "1: '2nd' is not a name"),
    ("part or: ahead 0\n", "1: 'or' is not a name"),
    ("part lever: ahead\n", "1: expected a state and its cost, found 'ahead'"),
    ("part lever: ahead -1\n", "1: expected a state and its cost, found 'ahead -1'"),
    ("part lever: ahead 65536\n", "1: cost 65536 is above 65535"),
    ("part lever: ahead 0, ahead 1\n", "1: state 'ahead' is named twice"),
    (TOP + "\nhidden lever: a\n", "4: 'lever' is declared twice"),
    (TOP + "hidden gear: a, b c\n", "3: 'b c' is not a name"),
    (TOP + "lever = ahead or\n", f"3: {EXPECTED}, found 'lever = ahead or'"),
    (TOP + "lever ahead\n", f"3: {EXPECTED}, found 'lever ahead'"),
    (TOP + "levr = ahead\n", "3: no part or hidden variable 'levr' above"),
    (TOP + "lever = still\n", "3: 'lever' has no state 'still', only ahead, idle"),
    (TOP + "never or lever = idle\n", f"3: {EXPECTED}, found 'never'"),
    ("part p: " + ", ".join(f"s{n} 0" for n in range(17)), "1: more than 16 states"),
    ("\n".join(f"part p{n}: s 0" for n in range(17)), "17: more than 16 parts"),
    (TOP + "\n".join(f"hidden h{n}: s" for n in range(32)), "34: more than 32 hidden variables"),
    (TOP + "never\n" * 513, "515: more than 512 clauses"),
    (TOP + " or ".join(["lever = idle"] * 16), "3: more than 15 literals in a clause"),
    ("part lever: ahead " + "9" * 5000, f"1: cost {'9' * 60}.. is above 65535"),
    ("part lever: " + "a" * 100, f"1: expected a state and its cost, found '{'a' * 60}..'"),
    (TOP + "#" * 10001, "3: a line of 10,001 characters; 10,000 is the most"),
    ("weights\n", "1: no part"),
    (TOP + "weights\n", "3: 'weights' stands above the first part"),
    (WEIGHED + "weights of it\n", f"3: {EXPECTED}, found 'weights of it'"),
    ("weights\npart lever: ahead 0\n", f"2: weight 0 is below 1; {NEVER_COMES}"),
    ("weights\npart lever: ahead 1, idle 000\n", f"2: weight 000 is below 1; {NEVER_COMES}"),
    ("weights\npart lever: ahead 256\n", "2: weight 256 is above 255"),
    ("weights\npart lever: ahead " + "9" * 5000, f"2: weight {'9' * 60}.. is above 255"),
    ("weights\npart lever: ahead\n", "2: expected a state and its weight, found 'ahead'"),
    ("weights\npart lever: ahead -1\n", "2: expected a state and its weight, found 'ahead -1'"),
    ("weights\n" + NINE_PARTS, "10: more than 8 parts with weights"),
]

# A clause as people write it, and the end of its message.
HINTS = [
    ("lever = idle OR shaft = still", "OR shaft = still'; write 'or' in small letters"),
    ("lever = idle || shaft = still", "; write 'or' in small letters"),
    ("lever = idle and shaft = still", "; for 'and' write a line each: all lines have to hold"),
    ("lever = idle AND shaft = still", "; for 'and' write a line each: all lines have to hold"),
    ("lever == idle", "; write '=' for equal"),
    ("lever==idle", "'lever' has no state '=idle', only ahead, idle; write '=' for equal"),
    ("lever = idle -> shaft = still", "; for 'a = x -> b = y' write 'a != x or b = y'"),
    ("lever=idle->shaft=still", "; for 'a = x -> b = y' write 'a != x or b = y'"),
]

# Bytes that are no text, and the message.
MARK = ": begins with a byte order mark; save it as UTF-8 without one"
NO_TEXTS = [
    (TOP.encode("utf-8-sig"), MARK),
    (TOP.encode("utf-16"), MARK),
    (b"#\n\xff", ":2: not a text: it has the byte 0xff"),
    (b"#\n\n\0#", ":3: not a text: it has the byte 0x00"),
    (b"\x01\x10", ":1: not a text: it has the byte 0x01; if it is a sheet, 'text' writes its text"),
    (b"\x02\x10", ":1: not a text: it has the byte 0x02; if it is a sheet, 'text' writes its text"),
    (b"#" * ((1 << 22) + 1), ": longer than 4,194,304 bytes, too long for a text"),
]

# Lines of another plant's list, and the message; this plant has one part of two states.
OF_OTHERS = [
    ("1 3 2000000000000000", "state 2 of 'lever', which has 2"),
    ("1 3 1100000000000000", "a part beyond the 1 of this plant"),
    ("1 3 1000000000000001", "a part beyond the 1 of this plant"),
    ("1 4 1000000000000000", "a state that costs 4, and 3 in this plant"),
    ("1 3 1000000000000000 1.17%", "a chance, 1.17%, and costs in this plant"),
    ("conflict 4000000000000000 0000000000000000", "a part beyond the 1 of this plant"),
    ("conflict 8000000000000000 f000000000000000", "state 15 of 'lever', which has 2"),
]

# The same of a plant with weights, 240 and 16.
OF_OTHERS_WEIGHED = [
    ("1 16 2000000000000000 6.25%", "state 2 of 'lever', which has 2"),
    ("1 15 1000000000000000 6.25%", "a state of product 15, and 16 in this plant"),
    ("1 16 1000000000000000", "no chance beside a product, and 6.25% in this plant"),
    ("1 16 1000000000000000 6.3%", "the chance 6.3% beside a product, and 6.25% in this plant"),
    ("1 16 1000000000000000 1 in 9", "the chance 1 in 9 beside a product, and 6.25% in this plant"),
]

# A product, the number of parts, and its chance.
CHANCES = [
    (255, 1, "99.6%"),
    (255**8, 8, "96.9%"),
    (128, 1, "50.0%"),
    (26, 1, "10.2%"),
    (6549, 2, "9.99%"),
    (6551, 2, "10.0%"),
    (656, 2, "1.00%"),
    (653, 2, "1.00%"),
    (652, 2, "1 in 101"),
    (512, 2, "1 in 128"),
    (3, 1, "1.17%"),
    (2, 1, "1 in 128"),
    (1, 1, "1 in 256"),
    (66, 2, "1 in 993"),
    (65, 2, "1 in 1,010"),
    (16785, 3, "1 in 1,000"),
    (2**24, 8, "1 in 1,100,000,000,000"),
    (1, 8, "1 in 18,400,000,000,000,000,000"),
]


# A plant with hidden variables, what the host prints of it with -v and -c, and that with names.
SHAFTS = """part lever: low 0, high 2
hidden shaft: still, slow, quick, wild
hidden lamp: dark, lit
lever != high or shaft = quick
shaft != still or lamp = lit
lever = low or lever = high
"""
LISTING = """1 0 0000000000000000
2 2 1000000000000000
all 2 tested 2 learned 1 unkept 0 trials 9
hidden 1 0 1
hidden 2 2 0
conflict 8000000000000000 1000000000000000
"""
NAMED = """1 0 all in their first state
  hidden: shaft=still lamp=lit
2 2 lever=high
  hidden: shaft=quick lamp=dark
all 2 tested 2 learned 1 unkept 0 trials 9
no other explanation
lever high: impossible
"""

NOT_LISTED = "which is not listed above, or has some already"

# A line of hidden values behind that list's others, and the message.
NOT_SHOWN = [
    ("hidden 3 0 1", "hidden values of state 3, " + NOT_LISTED),
    ("hidden 0 0 1", "hidden values of state 0, " + NOT_LISTED),
    ("hidden 1 0", "1 hidden values, and 2 in this plant; " + OTHER),
    ("hidden 1", "0 hidden values, and 2 in this plant; " + OTHER),
    ("hidden 1 0 1 0", "3 hidden values, and 2 in this plant; " + OTHER),
    ("hidden 1 0 2", "value 2 of 'lamp', which has 2; " + OTHER),
    ("hidden 2 4 0", "value 4 of 'shaft', which has 4; " + OTHER),
    ("hidden 1 0 0", "hidden values that break a clause of this plant; " + OTHER),
    ("hidden 2 3 0", "hidden values that break a clause of this plant; " + OTHER),
]


def all_named(text, plant):
    said = io.StringIO()
    with contextlib.redirect_stdout(said):
        print_named(text, parse(plant), "it")
    return said.getvalue()


def without(text, start):
    return "".join(line for line in text.splitlines(True) if not line.startswith(start))


class PlantText(unittest.TestCase):
    def test_errors(self):
        for text, message in ERRORS:
            with self.subTest(message), self.assertRaises(TextError) as caught:
                to_sheet(text, "it")
            self.assertEqual(str(caught.exception), "it:" + message)

    def test_layout_is_free(self):
        plain = TOP + "lever != ahead or shaft = turning\nnever\n"
        loose = "# a\n" + TOP.replace(" ", "\t") + "\n"
        loose += " lever!=ahead  or shaft  =turning # b\n\tnever"
        self.assertEqual(to_sheet(plain), to_sheet(loose))

    def test_weights(self):
        """A line of its own above the parts makes the sheet one of edition 2."""
        small = (EXAMPLES / "small.plant").read_text()
        small = small.replace("ahead 0, idle 3", "ahead 240, idle 16")
        small = small.replace("closed 0, open 3", "closed 224, open 32")
        sheet = "02 10 20 10 f8 08 0f 01 00 98 10 06 01 04 42 00"
        self.assertEqual(to_sheet("weights\n" + small), bytes.fromhex(sheet))
        self.assertEqual(to_sheet(small)[0], 1)
        self.assertEqual(to_sheet("hidden a: b\n\tweights # chances\npart p: s 1")[0], 2)
        named_so = "weights\npart weights: weights 1\nweights = weights"
        self.assertEqual(to_sheet("weights\n" + named_so), to_sheet(named_so))

    def test_largest_weighed_there_and_back(self):
        weights = ", ".join(f"s{n} {255 - 16 * n}" for n in range(15)) + ", s15 1"
        values = ", ".join(f"s{n}" for n in range(16))
        lines = ["weights"] + [f"part p{n}: {weights}" for n in range(8)]
        lines += [f"hidden h{n}: {values}" for n in range(32)]
        lines += [" or ".join(["h31 != s15"] * 15)] * 512
        text = "\n".join(lines) + "\n"
        sheet = to_sheet(text)
        self.assertEqual(len(sheet), 10968)
        self.assertEqual(to_text(sheet), text)

    def test_largest_there_and_back(self):
        costs = ", ".join(f"s{n} {65535 - n}" for n in range(16))
        values = ", ".join(f"s{n}" for n in range(16))
        lines = [f"part p{n}: {costs}" for n in range(16)]
        lines += [f"hidden h{n}: {values}" for n in range(32)]
        lines += [" or ".join(["h31 != s15"] * 15)] * 512
        text = "\n".join(lines) + "\n"
        sheet = to_sheet(text)
        self.assertEqual(len(sheet), 11356)
        self.assertEqual(to_text(sheet), text)

    def test_names(self):
        lever = parse(TOP)
        self.assertEqual(named("2 3 1000000000000000", lever), "2 3 lever=idle")
        self.assertEqual(named("1 0 0000000000000000", lever), "1 0 all in their first state")
        self.assertEqual(named("refused 5", lever), "refused 5")
        lever = parse(WEIGHED)
        self.assertEqual(named("2 16 1000000000000000 6.25%", lever), "2 16 (6.25%) lever=idle")
        self.assertEqual(
            named("1 240 0000000000000000 93.8%", lever), "1 240 (93.8%) all in their first state"
        )

    def test_chances(self):
        for product, parts, text in CHANCES:
            self.assertEqual(chance_text(product, parts), text, (product, parts))

    def test_workshop(self):
        """The states of its list, by brute force over all of the plant's."""
        plant = read_either((EXAMPLES / "workshop.sheet").read_bytes())
        found = []
        for state in itertools.product(*map(range, plant.sizes[: plant.decisions])):
            if search.test(plant, state, search.Meter(1_000_000)) is not None:
                product = prod(weights[value] for weights, value in zip(plant.costs, state))
                found.append((-product, search.to_words(state)[1]))
        lines = [
            f"{rank} {-turned} {code:016x} {chance_text(-turned, plant.decisions)}"
            for rank, (turned, code) in enumerate(sorted(found), 1)
        ]
        listed = (EXAMPLES / "workshop.list").read_text().splitlines()
        self.assertEqual(listed[:-1], lines[:16])
        self.assertEqual(len(lines), 137)

    def test_workshop_counts(self):
        """The last line of its list, by the outside program with the host's settings."""
        sheet = (EXAMPLES / "workshop.sheet").read_bytes()
        lists = [0] * 16, [0] * 16, bytearray(16 * search.STATE_BYTES)
        settings = listing.Settings(16, *lists, [0] * 8192, [0] * 128, 0, 1_000_000)
        run = listing.listing(sheet, settings, listing.PRODUCTS)
        counts = f"tested {run.tested} learned {run.learned} unkept {run.unkept} trials {run.trials}"
        last = (EXAMPLES / "workshop.list").read_text().splitlines()[-1]
        self.assertEqual(last, f"{run.ending} {run.listed} {counts}")

    def test_endings(self):
        counts = "tested 9 learned 0 unkept 0 trials 9"
        words = {
            "all 3": "no other explanation",
            "all 0": "no explanation",
            "enough 3": "there may be more: these are as many as were asked for",
            "full 0": "there may be more: the queue was too short",
            "spent 12": "there may be more: the limit struck",
        }
        for ending, meaning in words.items():
            line = f"{ending} {counts}"
            self.assertEqual(named(line, parse(TOP)), f"{line}\n{meaning}")

    def test_conflicts(self):
        plant = parse("\n".join(f"part {name}: well 0, ill 1" for name in "abc"))
        words = {
            "0000000000000000 0000000000000000": "no state fits",
            "4000000000000000 0100000000000000": "b ill: impossible",
            "a000000000000000 0010000000000000": "a well and c ill: not together",
            "e000000000000000 0000000000000000": "a well, b well and c well: not together",
        }
        for conflict, expected in words.items():
            self.assertEqual(named("conflict " + conflict, plant), expected)

    def test_lists_of_others(self):
        of_others = [(TOP, *pair) for pair in OF_OTHERS]
        of_others += [(WEIGHED, *pair) for pair in OF_OTHERS_WEIGHED]
        for plant, line, message in of_others:
            with self.subTest(line), self.assertRaises(TextError) as caught:
                named(line, parse(plant))
            self.assertEqual(str(caught.exception), f"{message}; {OTHER}")

    def test_hidden(self):
        """Below each state, with the conflicts and without; and lists that have none."""
        self.assertEqual(all_named(LISTING, SHAFTS), NAMED)
        self.assertEqual(all_named(without(LISTING, "conflict"), SHAFTS), without(NAMED, "lever"))
        self.assertEqual(all_named(without(LISTING, "hidden"), SHAFTS), without(NAMED, "  hidden"))
        none = "1 0 0000000000000000\nhidden 1\n"
        expected = "1 0 all in their first state\n  hidden: nothing\n"
        self.assertEqual(all_named(none, "part lever: low 0\n"), expected)

    def test_hidden_of_others(self):
        states = without(LISTING, "hidden")
        for line, message in NOT_SHOWN:
            with self.subTest(line), self.assertRaises(TextError) as caught:
                all_named(states + line, SHAFTS)
            self.assertEqual(str(caught.exception), "it:5: " + message)
        with self.assertRaises(TextError) as caught:
            all_named(LISTING + "hidden 2 2 0", SHAFTS)
        self.assertEqual(str(caught.exception), "it:7: hidden values of state 2, " + NOT_LISTED)

    def test_many_hidden(self):
        """A name and its value stay on one line, whatever is in the name."""
        names = [f"shaft-{n}-of_the_rear" for n in range(30)] + ["w" * 90]
        plant = "part lever: low 0\n" + "".join(f"hidden {name}: s0, s-1\n" for name in names)
        lines = all_named("1 0 0000000000000000\nhidden 1" + " 1" * 31, plant).splitlines()
        self.assertEqual(lines[0], "1 0 all in their first state")
        self.assertEqual(lines[1][:10], "  hidden: ")
        self.assertEqual({line[:10] for line in lines[2:]}, {" " * 10})
        self.assertTrue(all(len(line) <= 80 for line in lines[1:-1]))
        words = " ".join(line[10:] for line in lines[1:]).split()
        self.assertEqual(words, [f"{name}=s-1" for name in names])

    def test_hints(self):
        for clause, message in HINTS:
            with self.subTest(clause), self.assertRaises(TextError) as caught:
                to_sheet(TOP + clause)
            self.assertTrue(str(caught.exception).endswith(message), caught.exception)

    def test_no_texts(self):
        for data, message in NO_TEXTS:
            with self.subTest(message), self.assertRaises(TextError) as caught:
                decoded(data, "it")
            self.assertEqual(str(caught.exception), "it" + message)
        self.assertEqual(decoded("# \u00e9\t\r\n".encode(), "it"), "# \u00e9\t\r\n")

    def test_files(self):
        """An error leaves no sheet behind, and what was there stays; files that are none."""
        with tempfile.TemporaryDirectory() as folder:
            text, sheet = Path(folder, "a.plant"), Path(folder, "a.sheet")
            text.write_text(TOP + "levr = idle")
            self.assertIn("no part or hidden", main(["sheet", str(text), "-o", str(sheet)]))
            self.assertFalse(sheet.exists())
            text.write_text(TOP)
            self.assertEqual(main(["sheet", str(text), "-o", str(sheet)]), 0)
            self.assertEqual(sheet.read_bytes(), to_sheet(TOP))
            self.assertEqual(main(["text", str(sheet), "-o", str(text)]), 0)
            self.assertEqual(to_sheet(text.read_text()), sheet.read_bytes())
            self.assertIn("looks like text already", main(["text", str(text)]))
            self.assertEqual(main(["sheet", folder]), f"{folder}: Is a directory")
            absent = str(Path(folder, "absent"))
            self.assertEqual(main(["names", absent]), f"{absent}: No such file or directory")
            self.assertIn("'make host' makes it", main(["list", str(text), "--host", absent]))
            text.write_text(WEIGHED)
            no_tables = f"{text}: has weights; tables hold costs, of edition 1"
            self.assertEqual(main(["tables", str(text)]), no_tables)

    def test_help(self):
        for words, status in ((["--help"], 0), ([], 2), (["sheets", "a"], 2)):
            said = io.StringIO()
            with self.subTest(words), self.assertRaises(SystemExit) as caught:
                with contextlib.redirect_stdout(said), contextlib.redirect_stderr(said):
                    main(words)
            self.assertEqual(caught.exception.code, status)
            self.assertIn("usage: plant_text.py", said.getvalue())


if __name__ == "__main__":
    unittest.main()
