#!/usr/bin/env python3
"""try_rounds.py PROGRAM SEED NETWORKS: start and round on random small networks, compared with brute force.

Hands the calls to PROGRAM (crates/calls_trial) in one go and compares answer, place, count, status and every word of the
area with the independent lister's. It prints how often each answer was met. The first call that differs is printed
whole, and the exit status is then 1.
"""
import collections
import random
import sys

from independent_lister import UNREACHED, made, some_question, words
from trial_calls import WORDS, Call, compared, features, lendable, spoilt_area, spoilt_count, spoilt_question, table


def some_network():
    """Half of the networks reach some pair only by two ties or more."""
    deep = random.random() < 0.5
    while True:
        q = some_question()
        if not deep or any(1 < word < UNREACHED for word in words(q, q.marks * q.states)):
            return q


def preparation(q):
    """Start and rounds to the finish, each on what the one before should leave; and now and then a call that is spoilt."""
    pairs = q.marks * q.states
    rest = [random.randrange(65536) for _ in range(random.choice((0, 1, WORDS - pairs)))]
    call = Call(q, "start", 0, [random.randrange(65536) for _ in range(pairs)] + rest, [])
    while True:
        yield call
        if random.random() < 0.2:
            yield spoilt_question(call)
        if call.name == "round" and random.random() < 0.5:
            yield spoilt_area(call)
        if call.name == "round" and random.random() < 0.3:
            yield spoilt_count(call)
        answer, area, _ = made(q, call.name, call.done, call.area, [])
        if answer[2][0] != "Going" and call.name == "round" and answer[1] == call.done:
            return
        call = Call(q, "round", answer[1], area, [])


def main():
    program, seed = sys.argv[1], int(sys.argv[2])
    random.seed(seed)
    networks = [some_network() for _ in range(int(sys.argv[3]))]
    calls = [call for q in networks for call in preparation(q)]
    calls = [call for call in calls if lendable(call.q)]
    met = compared(program, calls, (made(*call) for call in calls))
    print(f"{len(networks)} networks, {len(calls)} calls: every answer and every word of the area equal")
    print(table(collections.Counter(name for q in networks for name in features(q))))
    print(table(met))


main()
