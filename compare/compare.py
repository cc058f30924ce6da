"""Ours beside solvers off the shelf, on the same plants: docs/COMPARISON.md.

    python3 -B compare/compare.py versions       what is installed
    python3 -B compare/compare.py times [N]      the tables; medians of N rounds (11)
    python3 -B compare/compare.py ties [N]       does the order of ties hold still?
                                                 N ways to write a plant, N plants (100)
    python3 -B compare/compare.py memory         the most memory of a process
    python3 -B compare/compare.py beyond         peers on plants beyond ours

Needs target/lib/libleading.a, target/host/leading_host (`make host`) and gcc.
A solver that is not installed is left out. No part of the gate.
"""
import os
import shutil
import subprocess
import sys
import tempfile
from dataclasses import replace
from pathlib import Path
from random import Random
from statistics import median

from solvers import (
    ALL,
    ARCHIVE,
    Job,
    OURS,
    OURS_INSIDE,
    ROOT,
    Shop,
    clingo_bound,
    ours,
    solvers,
    toulbar2_told,
)
import plant as sheets  # found by solvers, in outside/

PLANTS = [
    "examples/small",
    "examples/ties",
    "examples/driveline",
    "bench/corpus/driveline-08a",
    "bench/corpus/driveline-10a",
    "bench/corpus/driveline-10b",
    "bench/corpus/driveline-12b",
    "bench/corpus/driveline-16a",
    "bench/corpus/driveline-16b",
    "bench/corpus/driveline-16c",
]
def check(job, k, solver, answer, reference):
    """Costs have to be ours; the states too, but where ties are not fixed only
    as far as the costs settle them. Returns what differs, in words."""
    if answer.list is None:
        return ""
    costs = [cost for cost, _ in answer.list]
    wrong = f"{solver.name} on {job.name}, k {k}"
    assert sorted(costs) == [cost for cost, _ in reference.list], f"costs: {wrong}"
    assert len(set(answer.list)) == len(answer.list), f"repeats: {wrong}"
    if answer.list == reference.list:
        return ""
    assert not (solver.fixed and k != ALL), f"order: {wrong}"
    if sorted(answer.list) == reference.list:
        return "order of ties" if costs == sorted(costs) else "unsorted"
    last = reference.list[-1][0]
    below = [[s for s in which if s[0] < last] for which in (answer.list, reference.list)]
    assert sorted(below[0]) == below[1], f"states: {wrong}"
    assert set(answer.list) <= set(ours(job, ALL).list), f"states: {wrong}"
    return "other states at the last cost"


# ---- the tables ------------------------------------------------------------


def significant(number):
    if number == 0:
        return "?"
    for least, form in ((100, ",.0f"), (10, ".1f"), (0.995, ".2f")):
        if number >= least:
            return format(number, form)
    return f"{number:.2g}"


def measure(job, k, there, rounds):
    """Medians: {name: (seconds, ratio to ours, runs, difference)}. None where
    ours does not list k states, or all."""
    reference = ours(job, k)
    if reference is None:
        return None
    present, differs = [], {}
    for solver in [OURS, OURS_INSIDE, *there]:
        answer = solver.run(job, k)
        if answer:
            present.append(solver)
            differs[solver.name] = answer.runs, check(job, k, solver, answer, reference)
    samples = {solver.name: [] for solver in present}
    for _ in range(rounds):
        for solver in present:
            samples[solver.name].append(solver.run(job, k).seconds)
    measured = {}
    for name, _, _, inside in present:
        base = samples[OURS_INSIDE.name if inside else OURS.name]
        ratios = [own / other for own, other in zip(samples[name], base)]
        measured[name] = (median(samples[name]), median(ratios), *differs[name])
    return measured


def empty(shop):
    """One part with one state and no clause: what starting costs."""
    return Job(shop, "empty", sheets.Plant(((0,),), (), ()))


def table(title, header, rows):
    print(f"\n{title}\n\n| {' | '.join(header)} |\n|{' --- |' * len(header)}")
    for row in rows:
        print(f"| {' | '.join(row)} |")
    sys.stdout.flush()


def times(shop, rounds):
    there = solvers(shop)
    Job.empty = empty(shop)
    start = measure(Job.empty, 1, there, 3 * rounds)
    rows = [[name, f"{1e3 * seconds:.3f}"] for name, (seconds, *_) in start.items()]
    table("empty plant, k 1", ["who", "ms"], rows)
    jobs = [Job(shop, Path(p).name, read(p)) for p in PLANTS]
    inside_names = [s.name for s in there if s.inside]
    for k in (1, 16, ALL):
        taken = [(job, measure(job, k, there, rounds)) for job in jobs]
        taken = [(job, measured) for job, measured in taken if measured]
        for inside, own in ((False, OURS), (True, OURS_INSIDE)):
            names = [s.name for s in there if s.inside == inside]
            names = [name for name in names if any(name in measured for _, measured in taken)]
            rows = [row(job, measured, own.name, names) for job, measured in taken]
            unit = f"{own.name}, ms"
            table(f"k {k or 'all'}, over {own.name}", ["plant", "D", unit, *names], rows)
        print()
        for job, measured in taken:
            for name, (_, _, runs, differs) in measured.items():
                if (runs > 1 or differs) and name not in inside_names:
                    print(f"{job.name}, {name}: processes {runs}; {differs or 'as ours'}")


def row(job, measured, own, names):
    """A row of ratios."""
    ratios = (significant(measured[name][1]) if name in measured else "" for name in names)
    milliseconds = f"{1e3 * measured[own][0]:.4g}"
    return [job.name, str(job.plant.decisions), milliseconds, *ratios]


# ---- ties ------------------------------------------------------------------


def read(path):
    return sheets.read((ROOT / f"{path}.sheet").read_bytes())


def rewritten(shop, name, plant, seed):
    """The same plant with clauses, literals and lines in another order."""
    rng = Random(seed)
    clauses = [tuple(rng.sample(clause, len(clause))) for clause in plant.clauses]
    rng.shuffle(clauses)
    return Job(shop, name, replace(plant, clauses=tuple(clauses)), rng.shuffle)


def ties(shop, ways):
    """The same plant written in other orders: how many different lists?"""
    there = [s for s in [OURS, *solvers(shop)] if not s.inside]
    for path in ("examples/small", "examples/ties", "examples/driveline"):
        for k in (1, 16):
            lists = {s.name: set() for s in there}
            for way in range(ways):
                job = rewritten(shop, "again", read(path), way)
                for solver in there:
                    answer = solver.run(job, k)
                    if answer:
                        lists[solver.name].add(tuple(answer.list))
            counts = ", ".join(f"{name} {len(own)}" for name, own in lists.items() if own)
            print(f"{path}, k {k}, written in {ways} orders; different lists: {counts}", flush=True)
    random_ties(shop, there, ways)


def random_ties(shop, there, ways):
    """Random plants with many ties, each written in two orders."""
    there = [s for s in there if s.run is not clingo_bound]
    other, moved = {s.name: 0 for s in there}, {s.name: 0 for s in there}
    for seed in range(ways):
        plant = tied_plant(Random(seed))
        firsts = {s.name: [] for s in there}
        for way in (0, 1):
            job = rewritten(shop, "random", plant, way)
            for solver in there:
                firsts[solver.name].append(solver.run(job, 1).list)
        for name, (one, two) in firsts.items():
            other[name] += one != firsts[OURS.name][0]
            moved[name] += one != two
    print(f"{ways} random plants, k 1; the first state is not ours: {other}")
    print(f"and changes with the order of writing: {moved}")


def tied_plant(rng):
    """Seven parts of two or three states that cost 0, 1 or 2."""
    costs = tuple(tuple(rng.choice((0, 1, 2)) for _ in range(rng.choice((2, 3)))) for _ in range(7))
    sizes = [len(own) for own in costs] + [3, 3]
    clauses = []
    for _ in range(14):
        signed = zip(rng.sample(range(len(sizes)), 3), (0, 1, 1))
        literals = (sheets.Literal(v, sign, rng.randrange(sizes[v])) for v, sign in signed)
        clauses.append(tuple(literals))
    return sheets.Plant(costs, (3, 3), tuple(clauses))


# ---- memory, and more parts than ours takes --------------------------------


def memory(shop):
    """By /usr/bin/time: a process of this program counts its own."""
    for path in ("examples/small", "bench/corpus/driveline-16b"):
        job = Job(shop, Path(path).name, read(path))
        for solver in [OURS, *solvers(shop)]:
            if solver.inside:
                continue
            shop.prefix = ("/usr/bin/time", "-f", "%M", "-a", "-o", shop.folder / "peak")
            shop.write("peak", "")
            if solver.run(job, 16):
                words = (shop.folder / "peak").read_text().split()
                most = max(int(word) for word in words if word.isdigit())
                print(f"{job.name}, k 16, {solver.name}: {most} kB")
            shop.prefix = ()


def beyond(shop):
    """Peers where ours has no answer: 40 parts, and more than 4,096 states."""
    sys.path.insert(0, str(ROOT / "bench"))
    from corpus import STILL, driveline

    there = [s for s in solvers(shop) if not s.inside and s.run is not toulbar2_told]
    large = Job(shop, "driveline-40", driveline(1, 14, 13, 11, 4, STILL, STILL))
    counts = large.plant.decisions, len(large.plant.state_sizes), len(large.plant.clauses)
    print("driveline-40: parts, hidden variables, clauses:", *counts)
    asked = [(large, 1), (large, 16)]
    for name in ("driveline-12b", "driveline-16a"):
        asked.append((Job(shop, name, read(f"bench/corpus/{name}")), ALL))
    for job, k in asked:
        for solver in there:
            answers = [solver.run(job, k) for _ in range(5)]
            if answers[0]:
                costs = [cost for cost, _ in sorted(answers[0].list)]
                seconds = median(answer.seconds for answer in answers)
                print(f"{job.name}, k {k or 'all'}, {solver.name}: {1e3 * seconds:.1f} ms", end=", ")
                print(f"{len(costs)} states, least costs {costs[:16]}", flush=True)


def versions(shop):
    print(subprocess.run(["uname", "-srm"], capture_output=True, text=True).stdout.strip())
    packages = ["gringo", "clasp", "toulbar2", "libgecode-dev", "libgecode49"]
    form = "${Package} ${Version} ${Installed-Size} kB\n"
    for package in packages:
        command = ["dpkg-query", "-W", "-f", form, package]
        said = subprocess.run(command, capture_output=True, text=True)
        print(said.stdout.strip() or f"{package} not installed")
    for program in ("clingo", "toulbar2"):
        path = shutil.which(program)
        if path:
            out = subprocess.run([program, "--version"], capture_output=True, text=True).stdout
            print(next(line for line in out.splitlines() if "version" in line))
            print(f"{program}: {os.path.getsize(os.path.realpath(path)):,} bytes")
    print(f"{ARCHIVE.name}: {ARCHIVE.stat().st_size:,} bytes")
    subprocess.run(["size", str(ARCHIVE)])


def main():
    acts = {"versions": versions, "times": times, "ties": ties, "memory": memory, "beyond": beyond}
    if len(sys.argv) < 2 or sys.argv[1] not in acts:
        sys.exit(__doc__)
    defaults = {"times": [11], "ties": [100]}.get(sys.argv[1], [])
    with tempfile.TemporaryDirectory() as folder:
        acts[sys.argv[1]](Shop(folder), *([int(sys.argv[2])] if len(sys.argv) > 2 else defaults))


if __name__ == "__main__":
    main()
