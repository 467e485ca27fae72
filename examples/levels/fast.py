#!/usr/bin/env python3
"""FastThreads in Python: what `sa run` does, from what `sa kernel` says alone.

Each processor of a space has a ready list with a lock. To put a thread into a list, or to take one out, a context takes
the lock, changes the list, and frees the lock: a critical section of three events. If a context is stopped in it, the
one that is told lets the section go on first, in a copy that gives control back at its end: section 3.3 of the SOSP
paper. Only then does it make threads ready itself.
"""

import enum

import user

MANY_TAKEN = 8  # so many activations are given back at once


class Doing(enum.Enum):
    """What a context does outside of a section."""

    HANDS = "sections go on and threads in hand become ready"
    RAISES = "it asks for more processors"
    GIVES_BACK = "taken activations are given back"
    RUNS = "its thread runs"
    LOOKS = "it looks for a thread"


class Section:
    """A change of a ready list whose lock is taken."""

    def __init__(self, number, own, puts):
        self.list = number
        self.own = own  # it was taken on the list's own processor
        self.puts = puts  # the thread that it puts into the list; None if it takes one out
        self.thread = None  # the thread that was stopped in it, if one was
        self.next = "change"  # then "free"; in a copy then "back"
        self.is_copy = False

    def step(self, threads):
        """The reply of its next step."""
        if self.next == "back":
            return "back"
        if self.next == "free":
            return f"free {self.list}"
        if self.puts is not None:
            return f"ready {self.puts}"
        return f"run {threads[-1 if self.own else 0]}"


class Space:
    """What the contexts of a space share."""

    def __init__(self, processors, patience):
        self.processors = processors
        self.patience = patience
        self.lists = [[] for _ in range(processors)]
        self.lists[0].append(0)
        self.locked = [False] * processors
        self.load = 1  # threads that are ready or run; one whose stop was not told yet counts as running
        self.demand = 0
        self.taken = 0  # activations that were handed over and not given back
        self.contexts = {}  # by the number of their activation

    def owed(self):
        """How many processors the space could use, and has not asked for."""
        return max(0, min(self.processors, self.load) - self.demand)

    def find(self, processor):
        """The first list, round from the processor's own, that is unlocked and has a thread; None if there is none."""
        order = [*range(processor, self.processors), *range(processor)]
        return next((number for number in order if self.lists[number] and not self.locked[number]), None)


class Context:
    """What runs in one activation."""

    def __init__(self, space, processor):
        self.space = space
        self.processor = processor
        self.thread = None
        self.section = None  # the section that it is in
        self.stopped = []  # sections that were stopped, to go on
        self.hand = []  # threads to make ready
        self.doing = Doing.HANDS
        self.looks = 0  # in vain
        self.must_settle = True  # at the end of the event

    def settle(self):
        """Decides what to do next."""
        self.must_settle = False
        if self.stopped or self.hand:
            self.doing = Doing.HANDS
        elif self.space.owed():
            self.doing = Doing.RAISES
        elif self.thread is None and self.space.taken >= MANY_TAKEN:
            self.doing = Doing.GIVES_BACK
        else:
            self.doing = Doing.LOOKS if self.thread is None else Doing.RUNS
            self.looks = 0

    def is_over(self):
        """What it is doing has lost its reason meanwhile, by what other contexts did."""
        if self.doing == Doing.RAISES:
            return not self.space.owed()
        return self.doing == Doing.GIVES_BACK and self.space.taken < MANY_TAKEN

    def step(self):
        """The reply to a question."""
        if self.section:
            return self.section.step(self.space.lists[self.section.list])
        if self.is_over():
            self.settle()
        if self.doing == Doing.HANDS:
            return self.hand_over()
        if self.doing == Doing.RAISES:
            self.must_settle = True
            return f"want {self.space.demand + self.space.owed()}"
        if self.doing == Doing.GIVES_BACK:
            return "giveback"
        return "ins" if self.doing == Doing.RUNS else self.look()

    def hand_over(self):
        """The reply that lets a section go on, or else begins to make a thread ready."""
        if self.stopped:
            thread = self.stopped[0].thread
            return "cont -" if thread is None else f"cont {thread}"
        return f"spin {self.processor}" if self.space.locked[self.processor] else f"take {self.processor}"

    def look(self):
        """The reply of a context without a thread."""
        number = self.space.find(self.processor)
        if number is not None:
            return f"take {number}"
        if self.looks >= self.space.patience and self.space.demand > self.space.load:
            return f"want {self.space.demand - 1}"
        return "idle"

    # What it keeps of the lines of its processor.

    def hear_told(self, line):
        """Another context was stopped, or has returned from the kernel: what it had to do is this one's now."""
        if line.notice not in ("preempted", "unblocked"):
            return
        old = self.space.contexts.pop(line.number)
        self.space.taken += 1
        if line.notice == "preempted" and old.thread is not None:
            self.space.load -= 1
        if old.section and old.section.next != "back":
            old.section.thread = old.thread
            old.section.is_copy = True
            self.stopped.append(old.section)
        self.stopped += old.stopped
        self.hand += old.hand

    def hear_hand(self, line):
        """A thread is to be made ready; one that was stopped in a section, only after that section."""
        if all(section.thread != line.thread for section in self.stopped):
            self.hand.append(line.thread)
            self.must_settle = True

    def hear_take(self, line):
        """The lock of a list is taken: a section begins."""
        puts = self.hand.pop(0) if self.doing == Doing.HANDS else None
        self.section = Section(line.list, line.list == self.processor, puts)
        self.space.locked[line.list] = True

    def hear_ready(self, line):
        """The list has the thread."""
        self.space.lists[self.section.list].append(line.thread)
        self.space.load += 1
        self.section.next = "free"

    def hear_run(self, line):
        """The context has the thread."""
        self.space.lists[self.section.list].remove(line.thread)
        self.thread = line.thread
        self.section.next = "free"

    def hear_free(self, line):
        """The lock is free. The section is over, but for the last step of a copy."""
        self.space.locked[line.list] = False
        if self.section.is_copy:
            self.section.next = "back"
        else:
            self.section = None
            self.must_settle = True

    def hear_cont(self, line):
        """The first stopped section goes on."""
        self.section = self.stopped.pop(0)
        self.thread = line.thread
        if self.thread is not None:
            self.space.load += 1

    def hear_back(self, _):
        """The copy gives control back. Its thread comes in a line `hand`."""
        self.section = None
        self.leave()

    def hear_waiting(self, _):
        """The thread waits."""
        self.leave()

    def hear_done(self, _):
        """The thread is done."""
        self.leave()

    def leave(self):
        """The context goes on without a thread."""
        if self.thread is not None:
            self.space.load -= 1
        self.thread = None
        self.must_settle = True

    def hear_block(self, _):
        """The context is in the kernel, with its thread."""
        if self.thread is not None:
            self.space.load -= 1

    def hear_giveback(self, _):
        """An activation was given back."""
        self.space.taken -= 1
        self.must_settle = True

    def hear_idle(self, _):
        """The context has looked in vain."""
        self.looks += 1


class FastThreads:
    """The spaces, and the context that runs on each processor."""

    def __init__(self, session):
        self.spaces = [Space(session.processors, patience) for patience in session.patience]
        self.running = {}

    def step(self, question):
        """The reply to a question."""
        return self.running[question.processor].step()

    def hear(self, line):
        """Keeps what a line says."""
        if line.word == "up":
            context = Context(self.spaces[line.space], line.processor)
            self.spaces[line.space].contexts[line.activation] = context
            self.running[line.processor] = context
        elif line.word == "move":
            self.running.pop(line.processor, None)
        elif line.word == "want":
            self.spaces[line.space].demand = line.demand
        elif line.processor in self.running:
            hear = getattr(self.running[line.processor], f"hear_{line.word}", None)
            if hear:
                hear(line)

    def end_event(self, processor):
        """The end of an event of this processor."""
        context = self.running.get(processor)
        if context and context.must_settle:
            context.settle()


def play(session):
    """Answers each question of the session."""
    level = FastThreads(session)
    for lines in session.events():
        for line in lines:
            if line.word == "ask":
                session.reply(level.step(line))
            else:
                level.hear(line)
        level.end_event(line.processor)


if __name__ == "__main__":
    play(user.Session())
