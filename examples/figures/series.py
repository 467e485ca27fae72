#!/usr/bin/env python3
"""Runs the series of the paper's section 5 by the built program, and writes a table (CSV) for each. Usage: series.py PROGRAM [FOLDER]"""

import csv
import os
import pathlib
import statistics
import subprocess
import sys
from concurrent.futures import ThreadPoolExecutor
from dataclasses import dataclass

import workloads
from workloads import APPLICATIONS, KERNEL_THREADS, TASKS

BUDGET = 1_000_000
SEEDS = range(1, 6)
# The curves: what each is called, its command, and what is changed in the application.
CURVES = {"run": ("run", {}), "vp": ("vp", {}), "run, dear forks": ("run", {"fork_cost": KERNEL_THREADS})}
COUNTS = "ins out run stop block unblock cont back ready take free up told move want aim line fetch fetched giveback idle spin tick".split()
# The records that a thread package on its own would not see: the kernel's.
KERNEL = ("stop", "block", "unblock", "up", "want", "line")
PROCESSORS = range(1, 7)
MEMORY = range(100, 39, -5)
SCARCE = 60  # per cent of memory, for the series of widths and of lengths
WIDTHS = (6, 9, 12, 18, 24, 36)
LENGTHS = (60, 300, 600, 1800, 3600, 6000)


@dataclass
class Run:
    """What the trace of a run says: its number of events, how often each record came, the last instruction of each space, and what was lost."""

    events: int
    counts: dict
    ends: list
    lost: int

    def rounds(self, processors):
        """The time at which a space ends, on average, in rounds: in one of them each processor has one turn."""
        return statistics.mean(self.ends) / processors

    def idle(self):
        return (self.counts["idle"] + self.counts["spin"]) / self.events


class Program:
    """The built program, of which several runs go side by side."""

    def __init__(self, path):
        self.path, self.pool = path, ThreadPoolExecutor(os.cpu_count())

    def run(self, command, text, seed=None):
        """Runs a workload to its end, by round robin or in the random order of a seed."""
        words = [self.path, command, "--budget", str(BUDGET), "--schedule", f"seed:{seed}" if seed else "rr"]
        done = subprocess.run(words, input=text, capture_output=True, text=True, check=False)
        if done.returncode:
            sys.exit(f"{' '.join(words)}: status {done.returncode}: {done.stderr}")
        ends, lost = {}, 0
        for line in done.stdout.splitlines():
            word = line.split(" ")
            if word[2:3] == ["ins"]:
                ends[word[3]] = int(word[0])
            elif word[0] == "end":
                events, counts = int(word[2]), dict(zip(COUNTS, map(int, word[3:])))
            elif word[0] == "lost":
                lost += int(word[2])
        return Run(events, counts, list(ends.values()), lost)

    def seeded(self, command, text, seeds=SEEDS):
        """A run for each seed."""
        return list(self.pool.map(lambda seed: self.run(command, text, seed), seeds))

    def sequential(self, app):
        """The rounds that the application's work takes in one thread."""
        return self.run("run", workloads.sequential(app)).rounds(1)


def spread(values):
    """The mean of these values, the lowest and the highest one."""
    return {"mean": round(statistics.mean(values), 3), "low": round(min(values), 3), "high": round(max(values), 3)}


def figure1(program):
    """Speed-up over one thread, by processors, with all data in memory."""
    for name, app in APPLICATIONS.items():
        alone = program.sequential(app)
        for curve, (command, changed) in CURVES.items():
            if changed and name != "tasks":
                continue
            for processors in PROCESSORS:
                runs = program.seeded(command, workloads.parallel(app.but(**changed), processors))
                yield {"application": name, "curve": curve, "processors": processors, **spread([alone / it.rounds(processors) for it in runs])}


def figure2(program):
    """Rounds by available memory, on six processors."""
    for memory in MEMORY:
        misses = sum(workloads.misses_of(TASKS, memory))
        for curve, (command, changed) in CURVES.items():
            runs = program.seeded(command, workloads.parallel(TASKS.but(**changed), 6, memory=memory))
            lost = round(statistics.mean(it.lost for it in runs))
            yield {"memory": memory, "misses": misses, "curve": curve, **spread([it.rounds(6) for it in runs]), "lost": lost}


def ratios(program, app):
    """How many times as long `vp` takes as `run`, at the same seed, on six processors with scarce memory."""
    text = workloads.parallel(app, 6, memory=SCARCE)
    pairs = zip(program.seeded("vp", text), program.seeded("run", text))
    return spread([vp.rounds(6) / run.rounds(6) for vp, run in pairs])


def figure3(program):
    """What `vp` loses by how many threads there are for each processor, and by how long a read takes. The work is the same throughout."""
    for width in WIDTHS:
        app = TASKS.but(width=width, steps=TASKS.tasks() // width, serial=3 * width)
        yield {"varied": "threads", "value": width, **ratios(program, app)}
    for io in LENGTHS:
        yield {"varied": "io", "value": io, **ratios(program, TASKS.but(io=io))}


def table5(program):
    """Two copies at once on six processors, beside one copy alone on three."""
    for name, app in APPLICATIONS.items():
        alone = program.sequential(app)
        for command in ("run", "vp"):
            for copies, processors in ((2, 6), (1, 3)):
                runs = program.seeded(command, workloads.parallel(app, processors, copies))
                made = spread([alone / it.rounds(processors) for it in runs])
                idle = round(100 * statistics.mean(it.idle() for it in runs))
                yield {"application": name, "command": command, "copies": copies, "processors": processors, **made, "idle_percent": idle}


def table4(program):
    """What one thread operation takes: turns, and records of the kernel. The turns of the loop around it are taken off."""

    def both(command, operation):
        few, many = (program.run(command, workloads.repeated(operation, times)) for times in (100, 300))
        return (many.events - few.events) / 200, sum(many.counts[it] - few.counts[it] for it in KERNEL) / 200

    for command in ("run", "vp"):
        around = both(command, "nothing")[0]
        for operation, loops in (("null fork", 1), ("signal-wait", 2), ("io 1", 1)):
            turns, records = both(command, operation)
            # Two threads signal each other, each in a loop of its own.
            yield {"operation": operation, "command": command, "turns": round((turns - loops * around) / loops, 2), "kernel_records": round(records / loops, 2)}


def main():
    program = Program(str(pathlib.Path(sys.argv[1]).resolve()))
    folder = pathlib.Path(sys.argv[2] if len(sys.argv) > 2 else __file__).resolve()
    folder = folder if folder.is_dir() else folder.parent
    for series in (table4, figure1, figure3, table5, figure2):
        rows = list(series(program))
        with open(folder / f"{series.__name__}.csv", "w", newline="", encoding="utf-8") as file:
            table = csv.DictWriter(file, rows[0], lineterminator="\n")
            table.writeheader()
            table.writerows(rows)
        print(f"{series.__name__}.csv: {len(rows)} rows", flush=True)


if __name__ == "__main__":
    main()
