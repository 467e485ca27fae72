#!/usr/bin/env python3
"""The smallest user level: for each space one list of ready threads, first in, first out, without locks."""

import user


def play(session):
    """Answers each question of the session."""
    hands = [[] for _ in session.spaces]  # threads that are to be made ready
    ready = [[0] for _ in session.spaces]  # thread 0 of each space is ready at the opening
    for line in session:
        if line.word == "hand":
            hands[line.space].append(line.thread)
        elif line.word == "ask":
            session.reply(step(line, hands[line.space], ready[line.space], session.processors))


def step(question, hand, ready, processors):
    """The reply to a question."""
    if hand:
        ready.append(hand.pop(0))
        return f"ready {ready[-1]}"
    if question.thread is not None:
        return "ins"
    if len(ready) > 1 and question.demand < processors:
        return f"want {question.demand + 1}"
    if ready:
        return f"run {ready.pop(0)}"
    return "idle"


if __name__ == "__main__":
    play(user.Session())
