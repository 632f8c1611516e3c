#!/usr/bin/env python3
"""independent_lister.py SEED SESSIONS: random sessions at the desk, with every answer and buffer as document 01 says.

A lister that shares nothing with the definitions: it takes least lengths from the sets of chains, and lists by
trying every row of ties that are joined. It prints a table in the form of crates/walk/specs/OwnCases.antt, which the
gate has the prover compute from the definitions. On standard error it says how often each answer occurs.
"""
import collections
import functools
import random
import sys

UNREACHED = 65535
ROWS = 4096  # more rows of ties than these the prover is not asked to look through

Question = collections.namedtuple("Question", "marks kinds froms tos sets states start accept moves s t")


@functools.lru_cache(maxsize=None)
def members(bits):
    return frozenset(i for i in range(32) if bits >> i & 1)


def words(q, rounds):
    """The right area, from the chains themselves: all chains from s of each length, told apart by the mark where they end
    and the states that they reach."""
    least, ends = {}, {(q.s, frozenset(members(q.start)))}
    for length in range(rounds + 1):
        for mark, reached in ends:
            for state in reached:
                least.setdefault((mark, state), length)
        ends = {
            (to, frozenset(after for before, kind, after in q.moves if before in reached and kind in members(kinds)))
            for mark, reached in ends for fro, to, kinds in zip(q.froms, q.tos, q.sets) if fro == mark and reached
        }
    return [least.get((v, p), UNREACHED) for v in range(q.marks) for p in range(q.states)]


def status(q, rounds):
    area = words(q, rounds)
    at_t = [area[q.t * q.states + p] for p in members(q.accept)]
    if any(word != UNREACHED for word in at_t):
        return ("Found", min(at_t))
    return ("Going",) if rounds in area else ("None",)


def matches(q, chain):
    mark, alive = q.s, members(q.start)
    for tie in chain:
        if q.froms[tie] != mark:
            return False
        mark = q.tos[tie]
        alive = {after for before, kind, after in q.moves if before in alive and kind in members(q.sets[tie])}
    return mark == q.t and bool(alive & members(q.accept))


def joined(q, length):
    """Every row of ties that leads on from s, each tie leaving the mark that the one before entered."""
    rows = [()]
    for _ in range(length):
        rows = [row + (tie,) for row in rows for tie in range(len(q.froms)) if q.froms[tie] == (q.tos[row[-1]] if row else q.s)]
    return rows


def chains(q, length):
    return sorted((list(row) for row in joined(q, length) if matches(q, row)), key=lambda chain: chain[::-1])


def refusal(q, call, rounds, area, chain):
    """Number and place of the first row of the table that is given, or None."""
    pairs, ties = q.marks * q.states, range(len(q.froms))
    if not (1 <= q.marks <= 1024 and 1 <= q.kinds <= 32 and len(ties) <= 4096 and len(q.tos) == len(q.sets) == len(ties)):
        return (1, 0)
    for e in ties:
        if q.froms[e] >= q.marks or q.tos[e] >= q.marks or q.sets[e] >= 2 ** q.kinds:
            return (2, e)
    for e in ties[1:]:
        if q.tos[e] < q.tos[e - 1]:
            return (3, e)
    if not (1 <= q.states <= 32 and len(q.moves) <= 256 and q.start < 2 ** q.states and q.accept < 2 ** q.states):
        return (4, 0)
    for j, (before, kind, after) in enumerate(q.moves):
        if before >= q.states or kind >= q.kinds or after >= q.states:
            return (5, j)
    if q.s >= q.marks or q.t >= q.marks:
        return (6, 0)
    if len(area) < pairs:
        return (7, pairs)
    if call == "start":
        return None
    if rounds > pairs or area[:pairs] != words(q, rounds):
        return (8, 0)
    if call == "round":
        return None
    now = status(q, rounds)
    if now[0] == "Going":
        return (9, 0)
    if now[0] == "Found" and len(chain) < now[1]:
        return (10, now[1])
    if call == "next" and (now[0] == "None" or chain[:now[1]] not in chains(q, now[1])):
        return (11, 0)
    return None


def made(q, call, rounds, area, chain):
    """The answer of a call, and the area and the chain buffer after it."""
    refused = refusal(q, call, rounds, area, chain)
    if refused:
        return ("refused",) + refused, area, chain
    rest = area[q.marks * q.states:]
    if call == "start":
        return ("after", 0, status(q, 0)), words(q, 0) + rest, chain
    now = status(q, rounds)
    if call == "round":
        if now[0] != "Going":
            return ("after", rounds, now), area, chain
        return ("after", rounds + 1, status(q, rounds + 1)), words(q, rounds + 1) + rest, chain
    if now[0] == "None":
        return ("none",), area, chain
    listed = chains(q, now[1])
    at = 0 if call == "first" else listed.index(chain[:now[1]]) + 1
    if at == len(listed):
        return ("end",), area, chain
    return ("chain",), area, listed[at] + chain[now[1]:]


def some_question():
    v, k, states = random.randint(1, 5), random.randint(1, 3), random.randint(1, 3)
    ties = [(random.randrange(v), random.randrange(v), random.randrange(2 ** k)) for _ in range(random.randint(0, 8))]
    ties.sort(key=lambda tie: tie[1])
    moves = [(random.randrange(states), random.randrange(k), random.randrange(states)) for _ in range(random.randint(0, 8))]
    start, accept = random.choice([0, 1, 1, 1, 2 ** states - 1]), random.choice([0, 1, 1 << states - 1, 1 << states - 1, 2 ** states - 1])
    froms, tos, sets = ([tie[i] for tie in ties] for i in range(3))
    return Question(v, k, froms, tos, sets, states, start, accept, moves, random.randrange(v), random.randrange(v))


def put(column, value):
    """The column with the value at some place, and as it is where it is empty."""
    at = random.randrange(len(column) or 1)
    return column[:at] + [value] + column[at + 1:] if column else column


def faulty(q):
    """The question with one fault, where there is something to spoil."""
    return random.choice([
        q._replace(marks=random.choice([0, 1025])),
        q._replace(kinds=random.choice([0, 33])),
        q._replace(tos=q.tos + [0]),
        q._replace(sets=q.sets[1:]),
        q._replace(froms=put(q.froms, q.marks)),
        q._replace(tos=put(q.tos, q.marks)),
        q._replace(sets=put(q.sets, 2 ** q.kinds)),
        q._replace(tos=q.tos[::-1]),
        q._replace(states=random.choice([0, 33])),
        q._replace(start=q.start | 1 << q.states),
        q._replace(accept=q.accept | 1 << q.states),
        q._replace(moves=put(q.moves, (q.states, 0, 0))),
        q._replace(moves=put(q.moves, (0, q.kinds, 0))),
        q._replace(moves=put(q.moves, (0, 0, q.states))),
        q._replace(s=q.marks),
        q._replace(t=q.marks),
    ])


class Session:
    def __init__(self, q, area, chain):
        self.q, self.area, self.chain, self.lent, self.steps = q, area, chain, (area, chain), []

    def make(self, call, rounds=0):
        answer, self.area, self.chain = made(self.q, call, rounds, self.area, self.chain)
        self.steps.append((call, rounds, answer, self.area, self.chain))
        return answer


def whole(q):
    """Start, rounds to the finish, the first chain and the others, now and then with a larger count."""
    session = Session(q, [7] * max(0, min(q.marks * q.states, 20) + random.randint(-1, 2)), [9] * random.randint(0, 4))
    answer = session.make("start")
    if answer[0] == "refused":
        session.make(random.choice(["round", "first", "next"]), random.randint(0, 3))
        return session, 0
    while answer[2][0] == "Going":
        if random.random() < 0.1:
            session.make(random.choice(["first", "next"]), answer[1])
        answer = session.make("round", answer[1])
    rounds = answer[1] + (random.randint(1, 2) if random.random() < 0.2 else 0)
    answer = session.make("first", rounds)
    while answer[0] == "chain" and len(session.steps) < 12:
        answer = session.make("next", rounds)
    return session, rounds


def spoiled(q, area, rounds):
    """Next and a round on a finished area, with any chain and sometimes one word changed."""
    if random.random() < 0.5:
        at = random.randrange(len(area))
        area = area[:at] + [random.choice([0, 1, 2, UNREACHED])] + area[at + 1:]
    session = Session(q, area, [random.randint(0, len(q.froms)) for _ in range(random.randint(0, 4))])
    session.make("next", rounds)
    session.make("round", random.choice([rounds, rounds + 1, 0]))
    return session


def worth(q):
    """How likely a question is kept: most have no chain or a trivial one, and few lists are long."""
    found = status(q, q.marks * q.states)
    if found[0] == "None" or found[1] == 0:
        return 0.005
    if len(q.froms) ** found[1] > ROWS:
        return 0
    return 0.05 if found[1] == 1 or len(chains(q, found[1])) == 1 else 1


def sessions(count):
    made_up = []
    while len(made_up) < count:
        q = some_question()
        if random.random() < worth(q):
            for _ in range(random.choice([0] * 12 + [1, 2, 3])):
                q = faulty(q)
            session, rounds = whole(q)
            made_up.append(session)
            if rounds:
                made_up.append(spoiled(session.q, session.area, rounds))
    return made_up


def row(numbers):
    return " ∷ ".join([str(n) for n in numbers] + ["[]"])


def written(answer):
    text = [str(part) if not isinstance(part, tuple) else "(" + " ".join(map(str, part)) + ")" for part in answer]
    return "(" + " ".join(text) + ")"


def table(all_sessions):
    for session in all_sessions:
        q = session.q
        moves = row("move %d %d %d" % move for move in q.moves)
        yield "session (ask (record { marks = %d; kinds = %d; froms = %s; tos = %s; sets = %s })" % (q.marks, q.kinds, row(q.froms), row(q.tos), row(q.sets))
        yield "    (record { states = %d; start = %d; accept = %d; moves = %s }) %d %d) (%s) (%s) (" % (q.states, q.start, q.accept, moves, q.s, q.t, *map(row, session.lent))
        for call, rounds, answer, area, chain in session.steps:
            yield "    step %s %s (%s) (%s) ∷" % (call if call == "start" else "(%s %d)" % (call, rounds), written(answer), row(area), row(chain))
        yield "    []) ∷"
    yield "[]"


def main():
    random.seed(int(sys.argv[1]))
    all_sessions = sessions(int(sys.argv[2]))
    print("use Rattle.std.specs.Prelude.{List, [], ◌∷◌}")
    print("use Rattle.walk.specs.declared.Status.TheVariants.{Found, None, Going}")
    print("use Rattle.walk.specs.Sessions.{start, round, first, next, refused, chain, none, end, after, Session}")
    print("use Rattle.walk.specs.Cases.{step, session, move, ask}")
    print("\nunfoldable pub own : List Session\nown =")
    print("\n".join("    " + line for line in table(all_sessions)))
    heard = collections.Counter(" ".join(map(str, answer[:2])) if answer[0] == "refused" else answer[0] for s in all_sessions for _, _, answer, _, _ in s.steps)
    print(", ".join("%s: %d" % pair for pair in sorted(heard.items())), file=sys.stderr)


if __name__ == "__main__":
    main()
