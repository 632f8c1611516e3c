"""Calls as the program of crates/calls_trial reads them, calls that are spoilt, and the answers."""
import collections
import random
import struct
import subprocess
import sys

from independent_lister import UNREACHED, faulty

TIES, MOVES, WORDS, CHAIN = 16, 12, 40, 12  # room for ties, moves, the area and the chain buffer
NAMES = ("start", "round", "first", "next")
ASKED, SAID = 192, 64  # words of a call, and of an answer
STATUS = {1: "Found", 2: "None", 3: "Going"}

Call = collections.namedtuple("Call", "q name done area chain")


def lendable(q):
    """Two faults together can ask for more room, or for wider sets, than can be lent."""
    return max(map(len, (q.froms, q.tos, q.sets))) <= TIES and max([q.start, q.accept] + q.sets) < 1 << 32


def padded(column, room, nothing=0):
    return (list(column) + [nothing] * room)[:room]


def halves(n):
    return [n % 65536, n // 65536]


def packed(call):
    q = call.q
    asked = [NAMES.index(call.name), q.marks, q.kinds, q.states, q.s, q.t, len(q.froms), len(q.tos), len(q.sets), len(q.moves)]
    asked += [len(call.area), len(call.chain)] + halves(call.done) + halves(q.start) + halves(q.accept)
    asked += padded(q.froms, TIES) + padded(q.tos, TIES) + [half for kinds in padded(q.sets, TIES) for half in halves(kinds)]
    for part in zip(*padded(q.moves, MOVES, (0, 0, 0))):
        asked += part
    return struct.pack(f"<{ASKED}H", *padded(asked + padded(call.area, WORDS) + padded(call.chain, CHAIN), ASKED))


def answer_of(call, kind, number, long):
    if kind == 0:
        return ("refused", number, long)
    if call.name in ("first", "next"):
        return ({2: "none", 4: "chain", 5: "end"}.get(kind, kind),)
    return ("after", long, (STATUS.get(kind, kind),) + ((number,) if kind == 1 else ()))


def unpacked(call, said):
    kind, number, low, high, *rest = struct.unpack(f"<{SAID}H", said)
    area, chain = rest[4:4 + len(call.area)], rest[4 + WORDS:4 + WORDS + len(call.chain)]
    return answer_of(call, kind, number, low + 65536 * high), list(area), list(chain)


def spoilt_area(call):
    """One word changed."""
    area = list(call.area)
    at = random.randrange(len(area))
    area[at] = random.choice((0, 1, max(0, call.done - 1), call.done, call.done + 1, UNREACHED, random.randrange(65536)))
    return call._replace(area=area)


def spoilt_count(call):
    pairs = call.q.marks * call.q.states
    counts = (max(0, call.done - 1), call.done + 1, pairs, pairs + 1, 65536 + call.done, 1 << 31, random.randint(0, pairs))
    return call._replace(done=random.choice(counts))


def spoilt_question(call):
    """A few faults, a list of moves up to its ceiling or past it and a short area among them."""
    q, area = call.q, call.area
    for _ in range(random.choice((0, 1, 1, 1, 2, 3))):
        q = faulty(q)
    if random.random() < 0.1:
        q = q._replace(moves=q.moves + [(0, 0, 0)] * random.choice((256 - len(q.moves), 257, 300)))
    if random.random() < 0.4:
        area = area[:random.randrange(len(area))]
    return call._replace(q=q, area=area)


def heard(call, answer):
    """The answer in a word or two, to be counted."""
    told = f"refused {answer[1]}" if answer[0] == "refused" else answer[2][0] if answer[0] == "after" else answer[0]
    return f"{call.name}: {told}"


def compared(program, calls, expected):
    """How often each answer was met; the first call that differs from what is expected ends the run."""
    said = subprocess.run([program], input=b"".join(map(packed, calls)), stdout=subprocess.PIPE, check=True).stdout
    if len(said) != 2 * SAID * len(calls):
        sys.exit(f"{len(calls)} calls were made, and {len(said)} bytes were answered")
    met = collections.Counter()
    for i, (call, wanted) in enumerate(zip(calls, expected)):
        answered = unpacked(call, said[2 * SAID * i:2 * SAID * (i + 1)])
        if answered != wanted:
            print(f"call {i} differs: {call}\n  expected {wanted}\n  answered {answered}")
            sys.exit(1)
        met[heard(call, wanted[0])] += 1
    return met


def features(q):
    """What a network has that a careless program may trip over."""
    ties = list(zip(q.froms, q.tos))
    return [name for name, there in (
        ("a tie with no kind", 0 in q.sets),
        ("a tie with several kinds", any(kinds & kinds - 1 for kinds in q.sets)),
        ("a tie from a mark to itself", any(fro == to for fro, to in ties)),
        ("parallel ties", len(set(ties)) < len(ties)),
        ("a repeated move", len(set(q.moves)) < len(q.moves)),
        ("no start state", q.start == 0),
        ("no accepting state", q.accept == 0),
        ("s = t", q.s == q.t),
    ) if there]


def table(counter):
    return "\n".join(f"{name}: {counter[name]}" for name in sorted(counter))
