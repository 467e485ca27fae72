"""What a user level in Python needs for a session with `sa kernel`.

Standard input has the workload, up to its line `close`, and after it the session, as `connect` passes them on. A level
makes a Session, goes through its lines, and replies to each question:

    session = user.Session()
    for line in session:
        if line.word == "ask":
            session.reply("idle")
"""

import collections
import itertools
import sys

# The first word of each line, after the event and the processor, and the names of what follows it.
FIELDS = {
    "ins": "space thread place",
    "out": "space thread value",
    "run": "space thread",
    "stop": "space thread activation",
    "block": "space thread activation io",
    "unblock": "space thread activation",
    "cont": "space thread",
    "back": "space thread",
    "ready": "space thread",
    "take": "space list thread",
    "free": "space list thread",
    "up": "space activation",
    "told": "notice number",
    "move": "old new",
    "want": "space demand",
    "aim": "target space",
    "line": "target",
    "fetch": "space",
    "fetched": "space",
    "giveback": "activation",
    "idle": "",
    "spin": "list",
    "tick": "",
    "ask": "space activation thread demand taken",
    "hand": "space thread program",
    "waiting": "space thread",
    "done": "space thread",
}
LINES = {word: collections.namedtuple(word, f"word event processor {names}") for word, names in FIELDS.items()}


def value(word):
    """A word of a line: a number, None for a dash, or the word itself."""
    if word == "-":
        return None
    return int(word) if word.isdigit() else word


def line_of(text, before):
    """The line of this text. `hand`, `waiting` and `done` say something of the event of the line before them."""
    words = [value(word) for word in text.split()]
    if words[0] == "ask":
        word, event, processor, *fields = words
    elif words[0] in ("hand", "waiting", "done"):
        word, *fields = words
        event, processor = before.event, before.processor
    else:
        event, processor, word, *fields = words
    return LINES[word](word, event, processor, *fields)


class Session:
    """A workload, and what `sa kernel` says of its run."""

    def __init__(self, lines=sys.stdin, replies=sys.stdout):
        self.lines = iter(lines)
        self.replies = replies
        self.processors = 0
        self.patience = []  # of each space
        self.read_workload()

    def read_workload(self):
        """Reads the workload, and keeps what a user level may want to know of it."""
        for text in self.lines:
            words = text.split()
            if words == ["close"]:
                return
            if words[0] == "processors":
                self.processors = int(words[1])
            elif words[0] == "space":
                self.patience.append(int(words[6]) if len(words) > 6 else 1)

    @property
    def spaces(self):
        """The numbers of the spaces."""
        return range(len(self.patience))

    def __iter__(self):
        """Each line up to the last one, which begins with `end`."""
        line = None
        for text in self.lines:
            if text.startswith("end "):
                return
            line = line_of(text, line)
            yield line

    def events(self):
        """The same lines, in a group for each event. If the event is a step, its question comes first in its group."""
        return (lines for _, lines in itertools.groupby(self, key=lambda line: line.event))

    def reply(self, words):
        """Answers the last question. The reply goes out at once: one that stays behind would be waited for."""
        print(words, file=self.replies, flush=True)
