#!/usr/bin/env python3
"""A user level that knows nothing of section 3.3 of the SOSP paper: one ready list for each space, under a lock.

To put a thread into the list, or to take one out, a context takes the lock, changes the list, and frees the lock. If a
thread is stopped in between, it still has the lock. Before it runs again it must be put into the list; whoever is to do
that waits for the lock, and so for ever. What the thread had left to do is not even kept: its turn never comes.
"""

import user


class Space:
    """The ready list of a space, its lock, and the contexts by the number of their activation."""

    def __init__(self):
        self.ready = [0]
        self.locked = False
        self.contexts = {}


class Context:
    """What runs in one activation."""

    def __init__(self, space):
        self.space = space
        self.thread = None
        self.hand = []  # threads to put into the list
        self.section = []  # replies up to the end of a critical section

    def step(self, demand, processors):
        """The reply to a question."""
        if self.section:
            return self.section[0]
        if self.hand:
            return self.enter()
        own = 1 if self.thread is None else 0  # ready threads that it is about to take
        if len(self.space.ready) > own and demand < processors:
            return f"want {demand + 1}"
        if self.thread is not None:
            return "ins"
        return self.enter() if self.space.ready else "idle"

    def enter(self):
        """The reply that takes the lock, or waits for it."""
        return "spin 0" if self.space.locked else "take 0"

    # What it keeps of the lines of its processor.

    def hear_told(self, line):
        """Another context was stopped, or has returned: its hand is this one's now. Its thread comes in a line `hand`."""
        if line.notice in ("preempted", "unblocked"):
            self.hand += self.space.contexts.pop(line.number).hand

    def hear_hand(self, line):
        """A thread is to be made ready."""
        self.hand.append(line.thread)

    def hear_take(self, _):
        """The lock is taken: a section begins."""
        self.space.locked = True
        self.section = [f"ready {self.hand[0]}" if self.hand else f"run {self.space.ready[0]}", "free 0"]

    def hear_ready(self, line):
        """The list has the thread."""
        self.hand.remove(line.thread)
        self.space.ready.append(line.thread)
        self.section.pop(0)

    def hear_run(self, line):
        """The context has the thread."""
        self.space.ready.remove(line.thread)
        self.thread = line.thread
        self.section.pop(0)

    def hear_free(self, _):
        """The lock is free."""
        self.space.locked = False
        self.section.pop(0)

    def hear_waiting(self, _):
        """The thread waits."""
        self.thread = None

    def hear_done(self, _):
        """The thread is done."""
        self.thread = None


def play(session):
    """Answers each question of the session."""
    spaces = [Space() for _ in session.spaces]
    running = {}  # the context on each processor
    for line in session:
        if line.word == "ask":
            session.reply(running[line.processor].step(line.demand, session.processors))
        elif line.word == "up":
            running[line.processor] = Context(spaces[line.space])
            spaces[line.space].contexts[line.activation] = running[line.processor]
        else:
            hear = getattr(running.get(line.processor), f"hear_{line.word}", None)
            if hear:
                hear(line)


if __name__ == "__main__":
    play(user.Session())
