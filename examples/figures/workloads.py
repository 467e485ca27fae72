"""Workloads after the application of the paper's section 5: a main thread that makes a thread for each task, waits for all of them, and
begins again. What a task does is said by the fields of an Application; the text of a workload is in docs/WORKLOAD.md."""

import dataclasses
import random
from dataclasses import dataclass

FETCH = 10  # the events that the fetch of an upcall's page takes


@dataclass(frozen=True)
class Application:
    """An application. A turn is one instruction of a thread."""

    steps: int  # how often the main thread begins again
    width: int  # the tasks of a step
    parts: int  # the parts of a task; each begins with a read of one block of data
    compute: int  # the turns that a part computes
    critical: int = 0  # and the turns that it then computes with the mutex
    ring: int = 0  # the semaphores of a ring, at which a part ends: it signals the next one and waits for its own
    serial: int = 60  # the turns of the main thread before it makes the threads of a step
    fork_cost: int = 0  # the turns that making a thread costs beside the fork, and its end again
    io: int = 6000  # the events that a read takes whose block is not in memory
    blocks: int = 100  # the blocks of data
    hot: int = 75  # the first ones, the working set, of which most reads are
    cold: float = 0.03  # the share of reads that are of any block
    seed: int = 1  # of the choice of blocks

    def but(self, **changed):
        return dataclasses.replace(self, **changed)

    def tasks(self):
        return self.steps * self.width


TASKS = Application(width=20, steps=18, parts=2, compute=160, critical=12)
MUTEX = Application(width=24, steps=3, parts=8, compute=150, critical=40)
RING = Application(width=6, steps=10, parts=16, compute=30, ring=6, serial=100)
APPLICATIONS = {"tasks": TASKS, "mutex": MUTEX, "ring": RING}
# As dear as the paper's kernel threads: a fork takes 8 turns, and 2 times 108 more make it 28 times that.
KERNEL_THREADS = 108


def computing(turns, at):
    """A loop of about this many turns, which stands at this place. Register 1 is 1."""
    return [f"set r0 {max(1, (turns - 1) // 2)}", "sub r0 r1", f"jnz r0 {at + 1}"] if turns else []


def task(app, misses, place, alone=False):
    """A task of which so many parts miss, at this place of its step; or its work alone, where no other thread is."""
    code = [] if alone else ["set r1 1"]
    own, following = (f"{it % app.ring}" if app.ring else "" for it in (place, place + 1))
    for part in range(app.parts):
        if part * misses // app.parts != (part + 1) * misses // app.parts:
            code.append(f"io {app.io}")
        code += computing(app.compute, len(code))
        if app.critical:
            code += [] if alone else ["lock 0"]
            code += computing(app.critical, len(code))
            code += [] if alone else ["unlock 0"]
        if app.ring and not alone:
            code += [f"signal {following}", f"wait {own}"]
    return code + ([] if alone else [*computing(app.fork_cost, len(code)), "end"])


def main_thread(app, misses):
    """Makes the threads of each step and waits for them. Program 1 + k * places + i has k misses and the place i."""
    code, places = ["set r1 1"], max(1, app.ring)
    for step in range(app.steps):
        code += computing(app.serial, len(code))
        made = range(step * app.width, (step + 1) * app.width)
        for it in made:
            code.append(f"fork r2 {1 + misses[it] * places + it % places}")
            code += computing(app.fork_cost, len(code))
        for it in made:
            code += [f"set r2 {it + 1}", "join r2"]
    return code + ["end"]


def single_thread(app):
    """The same work in one thread that makes no other, with all data in memory."""
    body = ["set r1 1", f"set r3 {app.tasks()}"]
    for line in task(app, 0, 0, alone=True):
        body.append(f"jnz r0 {len(body) - 1}" if line.startswith("jnz") else line)
    code = [*body, "sub r3 r1", "jnz r3 2"]
    for _ in range(app.steps):
        code += computing(app.serial, len(code))
    return code + ["end"]


def misses_of(app, memory):
    """How many parts of each task miss where this share of the blocks, in per cent, fits in memory, and the one that was read longest ago gives way."""
    if memory == 100:
        return [0] * app.tasks()
    choice, fits = random.Random(app.seed), app.blocks * memory // 100
    kept = choice.sample(range(app.blocks), fits)
    found = []
    for _ in range(app.tasks()):
        found.append(0)
        for _ in range(app.parts):
            block = choice.randrange(app.blocks if choice.random() < app.cold else app.hot)
            if block in kept:
                kept.remove(block)
            else:
                found[-1] += 1
                kept.pop(0)
            kept.append(block)
    return found


def text(programs, processors=1, copies=1, mutexes=0, semaphores=0):
    """The text of a workload with this many copies of a space that has these programs."""
    space = [f"space 0 {mutexes} {semaphores} 0 {len(programs)}", *["sem 0"] * semaphores]
    for code in programs:
        space += [f"program {len(code)}", *code]
    return "\n".join(["workload 1", f"processors {processors}", f"fetch {FETCH}", f"spaces {copies}", *space * copies, "close", ""])


def parallel(app, processors, copies=1, memory=100):
    """The application, with its threads."""
    misses = misses_of(app, memory)
    programs = [main_thread(app, misses)]
    programs += [task(app, missed, place) for missed in range(max(misses) + 1) for place in range(max(1, app.ring))]
    return text(programs, processors, copies, 1, app.ring)


def sequential(app):
    """The application's work in one thread on one processor."""
    return text([single_thread(app)])


def repeated(operation, times):
    """One space in which thread 0 does an operation of the cost table so many times."""
    loop = ["set r1 1", f"set r0 {times}"]
    if operation == "nothing":
        return text([[*loop, "sub r0 r1", "jnz r0 2", "end"]])
    if operation == "null fork":
        return text([[*loop, "fork r2 1", "sub r0 r1", "jnz r0 2", "end"], ["end"]])
    if operation == "signal-wait":
        one = [*loop, "fork r2 1", "signal 0", "wait 1", "sub r0 r1", "jnz r0 3", "end"]
        other = [*loop, "wait 0", "signal 1", "sub r0 r1", "jnz r0 2", "end"]
        return text([one, other], semaphores=2)
    return text([[*loop, "io 1", "sub r0 r1", "jnz r0 2", "end"]])
