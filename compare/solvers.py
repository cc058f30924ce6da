"""How ours and each solver are asked for the states of a plant, and what they answer."""

import os
import re
import shutil
import subprocess
import sys
from collections import namedtuple
from pathlib import Path
from statistics import median

HERE = Path(__file__).resolve().parent
ROOT = HERE.parent
sys.path.insert(0, str(ROOT / "outside"))

import inputs  # noqa: E402
import plant as sheets  # noqa: E402

ALL = 0  # as k: every state
ALL_MOST = 4096
HOST = ROOT / "target/host/leading_host"
ARCHIVE = ROOT / "target/lib/libleading.a"

# A list is [(cost, code)], in the order in which the solver gave it. `seconds` is
# the processor time of all processes that it took; `runs` is their number.
Answer = namedtuple("Answer", "list seconds runs")


# ---- processes -------------------------------------------------------------


class Shop:
    """A folder for inputs, outputs and the two programs built here."""

    prefix = ()  # put before each command

    def __init__(self, folder):
        self.folder = Path(folder)
        self.ours = self.folder / "ours"
        command = ["gcc", "-O2", f"-I{ROOT}/include", "-o", self.ours, HERE / "ours.c", ARCHIVE]
        subprocess.run(command, check=True)
        self.gecode = self.folder / "gecode_list"
        libraries = ["search", "minimodel", "int", "kernel", "support"]
        command = ["g++", "-O2", "-std=c++17", "-o", self.gecode, HERE / "gecode_list.cpp"]
        command += [f"-lgecode{name}" for name in libraries]
        if not shutil.which("g++") or subprocess.run(command, stderr=subprocess.DEVNULL).returncode:
            self.gecode = None

    def write(self, name, text):
        path = self.folder / name
        path.write_bytes(text if isinstance(text, bytes) else text.encode())
        return str(path)

    def run(self, *command):
        """Standard output, and the processor seconds of the process."""
        out = str(self.folder / "out")
        command = [str(word) for word in (*self.prefix, *command)]
        flags = os.O_WRONLY | os.O_CREAT | os.O_TRUNC
        actions = [
            (os.POSIX_SPAWN_OPEN, 1, out, flags, 0o600),
            (os.POSIX_SPAWN_OPEN, 2, "/dev/null", os.O_WRONLY, 0),
        ]
        child = os.posix_spawnp(command[0], command, os.environ, file_actions=actions)
        _, _, usage = os.wait4(child, 0)
        return Path(out).read_text(), usage.ru_utime + usage.ru_stime


class Job:
    """A plant with its inputs written, for all solvers."""

    empty = None  # the plant on which starting is measured

    def __init__(self, shop, name, plant, shuffle=None):
        self.shop, self.name, self.plant = shop, name, plant
        if plant.decisions <= sheets.DECISIONS_MOST:
            self.sheet = shop.write(f"{name}.sheet", sheets.encode(plant))
        for told in (False, True):
            word = "told" if told else "free"
            text = inputs.clingo(plant, told)
            if shuffle:
                lines = text.splitlines(True)
                shuffle(lines)
                text = "".join(lines)
            setattr(self, f"lp_{word}", shop.write(f"{name}-{word}.lp", text))
            if told and plant.decisions > sheets.DECISIONS_MOST:
                continue  # too large a weight
            text = inputs.toulbar2(plant, told)
            setattr(self, f"wcsp_{word}", shop.write(f"{name}-{word}.wcsp", text))
        self.tables = shop.write(f"{name}.tables", inputs.gecode(plant))

    def state(self, values):
        """Cost and code of the parts' values."""
        digits = "".join(f"{value:x}" for value in values)
        cost = sum(costs[value] for costs, value in zip(self.plant.costs, values))
        return cost, int(f"{digits:0<16}", 16)


# ---- ours ------------------------------------------------------------------


def ours(job, k):
    options = ["-k", k or ALL_MOST, "-q", 4096, "-s", 64, "-l", 2**32 - 1]
    out, seconds = job.shop.run(HOST, *options, job.sheet)
    *lines, end = out.splitlines()
    if end.split()[0] != "all" and (k == ALL or len(lines) != k):
        return None
    fields = (line.split() for line in lines)
    return Answer([(int(cost), int(code, 16)) for _, cost, code in fields], seconds, 1)


def ours_inside(job, k):
    out, _ = job.shop.run(job.shop.ours, job.sheet, k or ALL_MOST)
    return Answer(None, int(out) / 1e9, 1)


# ---- clingo ----------------------------------------------------------------

ATOM = re.compile(r"x\((\d+),(\d+)\)")
CORES = "--opt-strategy=usc"


def clingo_states(job, out):
    found = []
    for line in out.splitlines():
        atoms = dict(map(lambda pair: (int(pair[0]), int(pair[1])), ATOM.findall(line)))
        if atoms:
            found.append(job.state([atoms[i] for i in range(job.plant.decisions)]))
    return found


def clingo_best(job, path):
    out, seconds = job.shop.run("clingo", path, CORES, "-V0", "--quiet=1")
    return Answer(clingo_states(job, out)[-1:], seconds, 1)


def clingo_next(job, k, path):
    """One after another: next.lp, a process."""
    command = ["clingo", path, HERE / "next.lp", CORES, "-c", f"k={k}", "--outf=3"]
    out, seconds = job.shop.run(*command)
    return Answer(clingo_states(job, out), seconds, 1)


def clingo_under(job, most):
    """All states of cost `most` or less, as they come."""
    mode = "--opt-mode=ignore" if most is None else f"--opt-mode=enum,{most}"
    command = ["clingo", job.lp_free, mode, "--project=show", "-n", 0, "-V0"]
    out, seconds = job.shop.run(*command)
    return clingo_states(job, out), seconds


def clingo_free(job, k):
    if k == ALL:
        return Answer(*clingo_under(job, None), 1)
    return clingo_best(job, job.lp_free) if k == 1 else clingo_next(job, k, job.lp_free)


def clingo_told(job, k):
    if k == ALL:
        return None
    return clingo_best(job, job.lp_told) if k == 1 else clingo_next(job, k, job.lp_told)


def clingo_inside(job, k):
    """The clock of next.lp: grounding and solving, told to break ties; not the
    start of the process, nor reading the text."""
    options = [CORES] if k else ["--opt-mode=ignore", "--project=show", "-n", 0]
    path = job.lp_told if k else job.lp_free
    command = ["clingo", path, HERE / "next.lp", *options, "-c", f"k={k}", "--outf=3"]
    out, _ = job.shop.run(*command)
    return Answer(clingo_states(job, out), float(out.split()[-1]), 1)


def clingo_bound(job, k):
    return by_bound(job, k, clingo_best(job, job.lp_free), clingo_under)


def by_bound(job, k, best, under):
    """The best state; then all states up to a bound that doubles until there are
    k of them. The caller sorts, and so breaks ties himself."""
    if k in (ALL, 1):
        return None
    seconds, runs = best.seconds, best.runs
    dearest = sum(map(max, job.plant.costs))
    most = best.list[0][0] if best.list else 0
    while True:
        most = min(2 * max(most, 1), dearest)
        found, spent = under(job, most)
        seconds, runs = seconds + spent, runs + 1
        found = sorted(set(found))
        if len(found) >= k or most == dearest:
            return Answer(found[:k], seconds, runs)


# ---- toulbar2 --------------------------------------------------------------


def toulbar2_states(job, out):
    found = []
    for line in out.splitlines():
        row = line.split(":")[-1] if " solution(" in line else line
        if re.fullmatch(r"( +\d+)+ *", row):
            found.append(job.state(list(map(int, row.split()))[: job.plant.decisions]))
    return found


def toulbar2_best(job, path):
    out, seconds = job.shop.run("toulbar2", path, "-s")
    return Answer(toulbar2_states(job, out)[-1:], seconds, 1)


def toulbar2_under(job, most):
    """-a gives a state once for each setting of the hidden variables."""
    bound = [] if most is None else [f"-ub={most + 1}"]
    out, seconds = job.shop.run("toulbar2", job.wcsp_free, "-s", "-a", *bound)
    return list(dict.fromkeys(toulbar2_states(job, out))), seconds


def toulbar2_free(job, k):
    if k == ALL:
        return Answer(*toulbar2_under(job, None), 1)
    best = toulbar2_best(job, job.wcsp_free)
    return best if k == 1 else by_bound(job, k, best, toulbar2_under)


def toulbar2_net(job, k):
    """Its processes, less as many on an empty plant: it has no clock so fine.
    What is less than a tenth of the start-up cannot be told from none."""
    answer = toulbar2_free(job, k)
    nothing = [toulbar2_best(job.empty, job.empty.wcsp_free).seconds for _ in range(5)]
    start = answer.runs * median(nothing)
    rest = answer.seconds - start
    return answer._replace(seconds=rest if rest > start / 10 else 0.0)


def toulbar2_told(job, k):
    return toulbar2_best(job, job.wcsp_told) if k == 1 else None


# ---- gecode ----------------------------------------------------------------


def gecode(job, k):
    out, seconds = job.shop.run(job.shop.gecode, job.tables, k)
    fields = (line.split() for line in out.splitlines())
    return Answer([(int(cost), int(code, 16)) for cost, code in fields], seconds, 1)


def gecode_inside(job, k):
    out, _ = job.shop.run(job.shop.gecode, job.tables, k, 5)
    return Answer(None, int(out) / 1e9, 1)


# ---- who is there ----------------------------------------------------------

# name, function, whether the list has to be ours in order too, inside the process
Solver = namedtuple("Solver", "name run fixed inside")
OURS = Solver("ours", ours, True, False)
OURS_INSIDE = Solver("ours, inside", ours_inside, True, True)


def solvers(shop):
    there = []
    if shutil.which("clingo"):
        there.append(Solver("clingo", clingo_free, False, False))
        there.append(Solver("clingo, told", clingo_told, True, False))
        there.append(Solver("clingo, by bound", clingo_bound, True, False))
        there.append(Solver("clingo, inside", clingo_inside, True, True))
    if shutil.which("toulbar2"):
        there.append(Solver("toulbar2", toulbar2_free, False, False))
        there.append(Solver("toulbar2, told", toulbar2_told, True, False))
        there.append(Solver("toulbar2, less start-up", toulbar2_net, False, True))
    if shop.gecode:
        there.append(Solver("gecode", gecode, True, False))
        there.append(Solver("gecode, inside", gecode_inside, True, True))
    return there
