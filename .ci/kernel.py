#!/usr/bin/env python3
"""What .ci/kernel asks of the Python levels of examples/levels: prints a line for each check, its name, a tab, and what is wrong, if anything.

Each example and 300 generated workloads are run under each schedule, by `run` and by `kernel` with each level at the other end of its pipes. The
session of FastThreads has the trace of `run`, and comes again from its recorded replies. Each trace is legal by the rules of any user level; so
are runs with thread priorities and on host threads. Usage: .ci/kernel.py PROGRAM [SMALL], SMALL being the program of small.c."""

import contextlib
import multiprocessing
import os
import pathlib
import random
import select
import subprocess
import sys
import threading
import time

TOP = pathlib.Path(__file__).resolve().parent.parent
sys.path.insert(0, str(TOP / "examples/levels"))
sys.dont_write_bytecode = True

import fast  # noqa: E402
import naive  # noqa: E402
import smallest  # noqa: E402
import user  # noqa: E402

PROGRAM = sys.argv[1]
SMALL = sys.argv[2:]
GENERATED = 300
BUDGET = "300"  # of generated workloads
PATIENT = 30  # seconds, after which a session hangs


# --- Workloads.


def instruction(chance, objects, programs, length):
    """One of the instructions that a program of this length may have."""
    one, other = chance.randrange(3), chance.randrange(3)
    choices = [
        "compute",
        f"set r{one} {chance.randrange(4)}",
        f"add r{one} r{other}",
        f"sub r{one} r{other}",
        f"jnz r{one} {chance.randrange(length)}",
        f"out r{one}",
        f"join r{one}",
        f"touch {chance.randrange(2, 5)}",
    ]
    choices += [f"fork r{one} {chance.randrange(programs)}", f"io {chance.randint(1, 12)}"] * 2
    for words, count in zip((("lock", "unlock"), ("wait", "signal"), (f"load r{one}", f"store r{one}")), objects):
        choices += [f"{word} {chance.randrange(count)}" for word in words if count]
    return chance.choice(choices)


def space_lines(chance, patience):
    """The lines of a space and its programs."""
    objects, programs = [chance.randrange(3) for _ in range(3)], chance.randint(1, 4)
    numbers = [chance.randrange(2), *objects, programs, *([patience] if patience else [])]
    lines = [" ".join(map(str, ["space", *numbers]))]
    lines += [f"sem {chance.randrange(2)}" for _ in range(objects[1])]
    lines += [f"absent {page}" for page in range(5) if chance.random() < 0.15]
    for program in range(programs):
        forks = [f"fork r{k} {chance.randrange(programs)}" for k in range(0 if program else chance.randrange(4))]
        length = len(forks) + chance.randint(1, 12)
        rest = [instruction(chance, objects, programs, length) for _ in range(length - len(forks) - 1)]
        lines += [f"program {length}", *forks, *rest, "end"]
    return lines


def generated(number):
    """The workload of a number: its text, in the lowest version that can say it."""
    chance = random.Random(number)
    processors, spaces = chance.choice((1, 2, 2, 3, 4, 6)), chance.choice((1, 1, 2, 3))
    patience = [chance.choice((1, 1, 1, 3)) for _ in range(spaces)]
    version = 3 if max(patience) > 1 else chance.choice((1, 2))
    lines = [f"workload {version}", f"processors {processors}", f"fetch {chance.randint(1, 12)}"]
    lines += [f"slice {chance.randint(5, 40)}"] if version > 1 else []
    lines.append(f"spaces {spaces}")
    for each in patience:
        lines += space_lines(chance, each if version == 3 else None)
    pages = {(chance.randint(1, 200), chance.randrange(spaces), chance.randrange(5)) for _ in range(chance.choice((0, 0, 4, 12)))}
    lines += [f"evict {event} {space} {page}" for event, space, page in sorted(pages)]
    lines += [f"turn {chance.randrange(processors)}" for _ in range(chance.choice((0, 30, 100)))]
    return "".join(f"{line}\n" for line in [*lines, "close"])


def schedules(number, text):
    """A schedule of each kind for the workload."""
    processors = int(text.split("\n")[1].split()[1])
    return ["rr", f"seed:{number}", "given", f"hold:{number % processors}:{1 + number % 60}"]


# --- The program.


class Replies:
    """What a level replies goes to the program, and is recorded."""

    def __init__(self, pipe):
        self.pipe = pipe
        self.text = ""

    def write(self, text):
        self.text += text
        self.pipe.write(text)

    def flush(self):
        self.pipe.flush()


class Played:
    """A session of a level with `kernel`: its text, its replies, and how it ended."""

    def __init__(self, level, text, words):
        command = [PROGRAM, "kernel", *words]
        with subprocess.Popen(command, stdin=subprocess.PIPE, stdout=subprocess.PIPE, stderr=subprocess.PIPE, text=True) as program:
            watch = threading.Timer(PATIENT, program.kill)
            watch.start()
            self.lines, self.replies, self.failed = [], Replies(program.stdin), ""
            try:
                program.stdin.write(text)
                program.stdin.flush()
                level.play(user.Session(self.passing(text, program.stdout), self.replies))
            except (LookupError, AttributeError, TypeError, ValueError, OSError) as error:
                self.failed = repr(error)
                program.kill()
            self.error = self.failed + program.stderr.read()
            self.status = program.wait()
            watch.cancel()
            with contextlib.suppress(OSError):
                program.stdin.close()

    def passing(self, text, lines):
        """The workload and the lines of the session, which are recorded."""
        yield from text.splitlines(keepends=True)
        for line in lines:
            self.lines.append(line)
            yield line

    @property
    def text(self):
        return "".join(self.lines)

    @property
    def trace(self):
        return "".join(line for line in self.lines if line[0] in "0123456789e")


def answer(words, text):
    """The exit status, standard output and standard error of the program for a text."""
    done = subprocess.run([PROGRAM, *words], input=text, capture_output=True, text=True, timeout=PATIENT, check=False)
    return done.returncode, done.stdout, done.stderr


def verdict(text, trace, package="any"):
    """What is wrong with a trace of the workload, if anything."""
    said = answer(["check", "--package", package], text + trace)
    return "" if said == (0, "legal\n", "") else f"{said}"


def differs(wanted, got):
    """Tells in which line two texts differ, if they do."""
    if wanted == got:
        return ""
    pairs = zip(wanted.split("\n"), got.split("\n"))
    return next((f"line {k}: {it}, not {other}" for k, (other, it) in enumerate(pairs, 1) if it != other), "one is longer")


# --- What is asked of each workload under each schedule.


def ended(played):
    """What is wrong with the end of a session, if anything."""
    return "" if played.status in (0, 3, 4) and not played.error else f"status {played.status} {played.error}"


def fast_threads(text, words):
    """FastThreads gives the trace of `run`, and its replies give its session again."""
    played, run = Played(fast, text, words), answer(["run", *words], text)
    yield "as run", ended(played) or differs(run[1], played.trace) or ("" if played.status == run[0] else f"status {played.status}")
    again = answer(["kernel", *words], text + played.replies.text)
    yield "again", differs(played.text, again[1]) or ("" if again[::2] == (played.status, "") else f"{again}")
    yield "legal", verdict(text, played.trace, "fast")
    yield "legal by any", verdict(text, played.trace)


def in_c(text, played):
    """What is wrong with the replies of small.c to the session of the smallest level, if anything."""
    done = subprocess.run(SMALL, input=text + played.text, capture_output=True, text=True, timeout=PATIENT, check=False)
    return differs(played.replies.text, done.stdout)


def other_levels(text, words):
    """The smallest level and the naive one; the smallest in C replies the same."""
    for level in (smallest, naive):
        played = Played(level, text, words)
        yield level.__name__, ended(played) or verdict(text, played.trace)
        if SMALL and level is smallest:
            yield "small.c", in_c(text, played)


def packages(text, words, budget):
    """Runs with priorities, and on host threads, are legal for any user level."""
    yield "priorities", verdict(text, answer(["run", "--package", "prio", *words], text)[1])
    if "rr" in words:
        yield "host threads", verdict(text, answer(["threads", "--budget", budget], text)[1])


def asked(job):
    """All that is asked of a workload under a schedule: pairs of a name and a problem."""
    name, text, schedule, budget = job
    words = ["--schedule", schedule, "--budget", budget]
    found = [*fast_threads(text, words), *other_levels(text, words), *packages(text, words, budget)]
    return [(f"{name}, {schedule}: {what}", problem) for what, problem in found]


# --- Streaming, and replies that are cut off.


def heard(pipe, wanted):
    """What comes from the pipe up to the wanted number of bytes, and for an instant after them."""
    text = b""
    while select.select([pipe], [], [], PATIENT if len(text) < wanted else 0.002)[0]:
        piece = os.read(pipe.fileno(), 65536)
        if not piece:
            break
        text += piece
    return text


def streaming(text, words):
    """Whenever a reply is waited for, the session up to its question is there, and no more; also if replies come in pieces. Goes up to the first
    problem: what comes after it may hang."""
    played = Played(fast, text, words)
    yield "streaming: a session", ended(played)
    if ended(played):
        return
    with subprocess.Popen([PROGRAM, "kernel", *words], stdin=subprocess.PIPE, stdout=subprocess.PIPE, bufsize=0) as program:
        in_pieces(program.stdin, text, 40)
        replies, wanted, got = iter(played.replies.text.splitlines(keepends=True)), "", ""
        for line in played.lines:
            wanted += line
            if line[0] not in "ae":
                continue
            got += heard(program.stdout, len(wanted) - len(got)).decode()
            yield f"streaming: {line.strip()}", differs(wanted, got)
            if wanted != got:
                return
            if line.startswith("ask "):
                in_pieces(program.stdin, next(replies), 2)
        yield "streaming: it ends before its input does", "" if program.wait(PATIENT) == played.status else "another status"


def in_pieces(pipe, text, first):
    """Writes a text in two pieces, with a moment between them."""
    pipe.write(text[:first].encode())
    time.sleep(0.002)
    pipe.write(text[first:].encode())


def cut(text, words):
    """Without the rest of the replies the session ends at the next question, and its trace is legal."""
    played = Played(fast, text, words)
    questions = [k for k, line in enumerate(played.lines) if line.startswith("ask ")]
    replies = played.replies.text.splitlines(keepends=True)
    for number, (question, reply) in enumerate(zip(questions, replies)):
        status, out, error = answer(["kernel", *words], text + "".join(replies[:number]) + reply[:-1])
        problem = "" if (status, error) == (11, f"bad reply: line {number + 1}: why 9\n") else f"status {status} {error}"
        *lines, end = out.splitlines(keepends=True)
        problem = problem or differs("".join(played.lines[: question + 1]), "".join(lines))
        trace = "".join(line for line in lines if line[0].isdigit()) + end
        yield f"cut off in reply {number + 1}", problem or verdict(text, trace)


def say(pairs):
    """Prints names and problems, and tells whether there is no problem."""
    is_well = True
    for name, problem in pairs:
        print(name, " ".join(problem.split())[:200], sep="\t")
        is_well = is_well and not problem
    return is_well


def main():
    section = (TOP / "examples/section.workload").read_text(), ["--schedule", "given"]
    if not say(streaming(*section)):
        return
    say(cut(*section))
    examples = sorted(TOP.glob("examples/*.workload"))
    texts = [(path.stem, path.read_text().partition("close\n")[0] + "close\n", "1000") for path in examples]
    texts += [(f"workload {number}", generated(number), BUDGET) for number in range(GENERATED)]
    jobs = [(name, text, each, budget) for k, (name, text, budget) in enumerate(texts) for each in schedules(k, text)]
    with multiprocessing.Pool() as pool:
        for found in pool.imap(asked, jobs, 4):
            say(found)


if __name__ == "__main__":
    main()
