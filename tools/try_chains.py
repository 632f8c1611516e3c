#!/usr/bin/env python3
"""try_chains.py PROGRAM SEED NETWORKS: whole lists by first and next on random small networks, compared with brute force.

For each network first is asked for the earliest chain, and each listed chain is handed back to next, in any order; so the
list is gone through from every place, and nothing can be remembered. Calls that are spoilt follow: other
chains, short buffers, areas before their time, wrong counts, faults in what is lent. Answer, place and every word of
area and chain buffer are compared with the independent lister's (crates/calls_trial is PROGRAM). It prints how often
each answer and each sort of network was met. The first call that differs is printed whole, and the exit status is then 1.
"""
import collections
import random
import sys

from independent_lister import Question, chains, joined, made, members, status, words
from trial_calls import CHAIN, MOVES, TIES, Call, compared, features, lendable, spoilt_area, spoilt_count, spoilt_question, table

Listing = collections.namedtuple("Listing", "q length listed")


def question(marks, kinds, states, ties, moves, start, accept, s, t):
    ties = sorted(ties, key=lambda tie: tie[1])
    froms, tos, sets = ([tie[i] for tie in ties] for i in range(3))
    return Question(marks, kinds, froms, tos, sets, states, start, accept, moves, s, t)


def some_moves(states, kinds):
    return [(random.randrange(states), random.randrange(kinds), random.randrange(states)) for _ in range(random.randint(1, MOVES))]


def anywhere():
    """Ties between any two marks, a mark and itself among them."""
    v, k, states = random.randint(1, 6), random.randint(1, 3), random.randint(1, 4)
    ties = [(random.randrange(v), random.randrange(v), random.randrange(2 ** k)) for _ in range(random.randint(1, TIES))]
    start, accept = random.choice((0, 1, 1, 1, 1, 2 ** states - 1)), random.choice((1, 1 << states - 1, 1 << states - 1, 2 ** states - 1, 0))
    return question(v, k, states, ties, some_moves(states, k), start, accept, random.randrange(v), random.randrange(v))


def in_a_row():
    """Marks in a row, each joined to the next by several ties: long lists."""
    v, k, states = random.randint(2, 8), random.randint(1, 3), random.randint(1, 3)
    ties = [(i, i + 1, random.randrange(1, 2 ** k)) for i in range(v - 1)]
    ties += [(i, min(v - 1, i + random.randint(0, 1)), random.randrange(2 ** k)) for i in (random.randrange(v) for _ in range(TIES - len(ties)))]
    random.shuffle(ties)
    return question(v, k, states, ties, some_moves(states, k), 1, 1 << states - 1, 0, v - 1)


def many_ways():
    """Every kind on each tie, and a move under each kind between any two states: many ways and few chains."""
    v, k, states = random.randint(2, 8), 3, 2
    ties = [(i, i + 1, 7) for i in range(v - 1)] + [(random.randrange(v), random.randrange(v), 7) for _ in range(random.randint(0, 3))]
    moves = [(p, kind, q) for p in range(states) for kind in range(k) for q in range(states)]
    return question(v, k, states, ties, moves, 3, 3, 0, v - 1)


def wide():
    """Many states and kinds, up to the ceilings, around one mark."""
    states, k, steps = random.randint(25, 32), random.randint(25, 32), random.randint(1, 4)
    path = [0] + random.sample(range(1, states), steps)
    used = random.sample(range(k), random.randint(1, 4))
    moves = [(p, random.choice(used), q) for p, q in zip(path, path[1:])]
    moves += [(random.randrange(states), random.choice(used), random.choice(path)) for _ in range(random.randint(0, MOVES - len(moves)))]
    ties = [(0, 0, 1 << random.choice(used) | random.randrange(2) << random.randrange(k)) for _ in range(random.randint(2, TIES))]
    return question(1, k, states, ties, moves, 1, 1 << path[-1] | random.randrange(2) << random.randrange(states), 0, 0)


def listing(q):
    """The list by brute force, or None where it would take long or does not fit."""
    found = status(q, q.marks * q.states)
    if found[0] == "Found" and found[1] > CHAIN:
        return None
    if found[0] == "None":
        return Listing(q, None, [])
    rows = 1
    for n in range(found[1]):
        rows *= max(q.froms.count(mark) for mark in range(q.marks))
    if rows > 20000:
        return None
    listed = chains(q, found[1])
    return Listing(q, found[1], listed) if len(listed) <= 400 else None


def likely(shape, count):
    """How likely a network is kept: most lists are short, and few chains are worth keeping where there are many ways."""
    if shape in (many_ways, wide):
        return 0.1
    return 0.05 if count <= 1 else 0.1 if count <= 4 else 0.5 if count <= 12 else 1


def some_listing():
    while True:
        shape = random.choice((anywhere, anywhere, in_a_row, in_a_row, in_a_row, in_a_row, many_ways, wide))
        made_up = listing(shape())
        if made_up and random.random() < likely(shape, len(made_up.listed)):
            return made_up


def buffer(front, length):
    return front + [random.randrange(65536) for _ in range(random.choice((length, length, min(length + 1, CHAIN), CHAIN)) - len(front))]


def whole_list(l):
    """First, and next from every listed chain in any order, with what the list says."""
    done = random.choice((l.length, l.length, random.randint(l.length, l.q.marks * l.q.states)))
    area = words(l.q, done) + [random.randrange(65536) for _ in range(random.randint(0, 2))]
    call = Call(l.q, "first", done, area, buffer([], l.length))
    yield call, (("chain",), area, l.listed[0] + call.chain[l.length:])
    for i in random.sample(range(len(l.listed)), len(l.listed)):
        call = Call(l.q, "next", done, area, buffer(l.listed[i], l.length))
        following = l.listed[i + 1] + call.chain[l.length:] if i + 1 < len(l.listed) else call.chain
        yield call, (("chain",) if i + 1 < len(l.listed) else ("end",), area, following)


def other_chain(q, chain, length):
    """A chain that is not listed, or another that is: one tie changed, or any row of ties that are joined."""
    rows = joined(q, min(length, 3)) if random.random() < 0.3 else []
    if rows:
        row = list(random.choice(rows))
        return row + chain[len(row):]
    at = random.randrange(len(chain) or 1)
    return chain[:at] + [random.choice((random.randrange(TIES), len(q.froms), 65535))] + chain[at + 1:]


def spoilt(l):
    """Calls with another chain, a short buffer, an area before its time, and with what a round would refuse too."""
    q, top = l.q, l.q.marks * l.q.states
    done = top if l.length is None else l.length
    chain = list(random.choice(l.listed)) if l.listed else []
    call = Call(q, random.choice(("first", "next")), done, words(q, done), buffer(chain, len(chain)))
    yield call
    if l.length:
        yield call._replace(name="next", chain=other_chain(q, call.chain, l.length))
        yield call._replace(chain=call.chain[:random.randrange(l.length)])
        early = random.randrange(l.length)
        yield call._replace(done=early, area=words(q, early), chain=call.chain[:random.randint(0, l.length)])
    if random.random() < 0.3:
        yield spoilt_area(call)
    if random.random() < 0.2:
        yield spoilt_count(call)
    if random.random() < 0.3:
        yield spoilt_question(call)


def ways(q, chain):
    """In how many ways a chain can be met: rows of kinds with the states that they lead through."""
    alive = collections.Counter(members(q.start))
    for tie in chain:
        after = collections.Counter()
        for before, kind, state in set(q.moves):
            after[state] += alive[before] * (kind in members(q.sets[tie]))
        alive = after
    return sum(alive[state] for state in members(q.accept))


def sorts(l):
    """What the networks whose lists are gone through have, and their lists."""
    if l.listed and l.listed != sorted(l.listed):
        yield "the order from the first tie differs"
    if len(l.listed) == 1:
        yield "one chain"
    if l.length == 0:
        yield "the empty chain"
    if l.q.states > 24:
        yield "more than 24 states"
    most = sum(ways(l.q, chain) for chain in l.listed)
    if most > len(l.listed):
        yield "more ways than chains"
    if most > 1000 * len(l.listed) > 0:
        yield "a thousand times as many ways as chains"
    yield from features(l.q)


def main():
    program, seed = sys.argv[1], int(sys.argv[2])
    random.seed(seed)
    listings = [some_listing() for _ in range(int(sys.argv[3]))]
    asked = [pair for l in listings if l.listed for pair in whole_list(l)]
    asked += [(call, made(*call)) for l in listings for call in spoilt(l) if lendable(call.q)]
    met = compared(program, [call for call, _ in asked], [wanted for _, wanted in asked])
    print(f"{len(listings)} networks, {sum(len(l.listed) for l in listings)} chains, {len(asked)} calls: every answer and every word equal")
    print(table(collections.Counter(name for l in listings for name in sorts(l))))
    print(table(met))


main()
